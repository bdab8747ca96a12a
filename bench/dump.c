/*
 * `./card dump`: the serial ROM of a card that stands in a slot, read through the card's chip and written to a file.
 *
 *     dump [--pci ADDRESS] OUT [--force]
 *
 * The chip's register CSR9 has the four pins of the ROM's part: the program sets them one by one and samples what comes back.
 * Of the part's commands it sends READ alone, so the ROM is never changed. What it changes in the chip's configuration, to
 * wake it, it sets back. Document 002 names registers and bits. Exit status: 0 the ROM is written, 2 it is not.
 */
#define _DEFAULT_SOURCE

#include <dirent.h>
#include <endian.h>
#include <errno.h>
#include <fcntl.h>
#include <inttypes.h>
#include <limits.h>
#include <stdarg.h>
#include <stdbool.h>
#include <stdint.h>
#include <stdio.h>
#include <stdlib.h>
#include <string.h>
#include <strings.h>
#include <sys/mman.h>
#include <sys/stat.h>
#include <time.h>
#include <unistd.h>

/* A test has a folder of its own. */
#ifndef DEVICES
#define DEVICES "/sys/bus/pci/devices"
#endif

enum { WRITTEN = 0, FAILED = 2 };

/* ---- Complaints ---- */

static void say(const char *margin, const char *format, va_list values)
{
    fputs(margin, stderr);
    vfprintf(stderr, format, values);
    fputc('\n', stderr);
}

/* What is wrong; always false, so that a failure ends in it. */
static bool complain(const char *format, ...)
{
    va_list values;
    va_start(values, format);
    say("card: ", format, values);
    va_end(values);
    return false;
}

/* The second line of a complaint: what there is, or can be done. */
static void suggest(const char *format, ...)
{
    va_list values;
    va_start(values, format);
    say("      ", format, values);
    va_end(values);
}

/* What the system says of a file; always false. */
static bool complain_of(const char *path)
{
    fprintf(stderr, "%s: %s\n", path, strerror(errno));
    return false;
}

/* ---- The part ---- */

/* CSR9, bits 3:0 the part's pins, and those that let the chip drive and sample them (Table 8-71). */
enum {
    SELECT = 1 << 0,
    CLOCK = 1 << 1,
    DATA_IN = 1 << 2,
    DATA_OUT = 1 << 3,
    SERIAL_ROM = 1 << 11,
    READ_OPERATION = 1 << 14,
};

/* The start bit and READ (7.4.1); the next bits are the address, and a part has so many of them. */
enum { READ_COMMAND = 6, COMMAND_BITS = 3, WORD_BITS = 16, SMALL_PART = 6, LARGE_PART = 8, MOST_WORDS = 1 << LARGE_PART };

/* The register, as a chip or a test has it: `wait` lets the part take what was written. */
typedef struct {
    uint32_t (*read)(void *at);
    void (*write)(void *at, uint32_t value);
    void (*wait)(void *at);
    void *at;
} port;

static void set_pins(const port *csr9, uint32_t pins)
{
    csr9->write(csr9->at, SERIAL_ROM | READ_OPERATION | pins);
    csr9->wait(csr9->at);
}

/* Clocks a bit into the part, and answers the one that it gives. */
static unsigned clock_bit(const port *csr9, unsigned bit)
{
    uint32_t pins = bit ? SELECT | DATA_IN : SELECT;
    set_pins(csr9, pins);
    set_pins(csr9, pins | CLOCK);
    unsigned given = (csr9->read(csr9->at) & DATA_OUT) != 0;
    set_pins(csr9, pins);
    return given;
}

/* Clocks a number's lowest bits into the part, the highest of them first, and answers what it gives with the last. */
static unsigned clock_number(const port *csr9, unsigned number, unsigned bits)
{
    unsigned given = 1;
    while (bits-- > 0)
        given = clock_bit(csr9, number >> bits & 1);
    return given;
}

static void begin_command(const port *csr9)
{
    set_pins(csr9, 0);
    set_pins(csr9, SELECT);
    clock_number(csr9, READ_COMMAND, COMMAND_BITS);
}

static void end_command(const port *csr9)
{
    set_pins(csr9, 0);
}

/* Behind how many address bits the part gives a 0, which is behind its last; one more than any has, where it gives none. */
static unsigned count_address_bits(const port *csr9)
{
    unsigned bits = 0, given = 1;
    begin_command(csr9);
    while (given == 1 && bits <= LARGE_PART) {
        given = clock_bit(csr9, 0);
        bits++;
    }
    end_command(csr9);
    return bits;
}

/* Reads a word; whether the part has answered, with that 0 before it. */
static bool read_word(const port *csr9, unsigned address_bits, unsigned number, uint16_t *word)
{
    unsigned bits = 0;
    begin_command(csr9);
    bool is_answered = clock_number(csr9, number, address_bits) == 0;
    for (unsigned i = 0; i < WORD_BITS; i++)
        bits = bits << 1 | clock_bit(csr9, 0);
    end_command(csr9);
    *word = (uint16_t)bits;
    return is_answered;
}

/* How a reading of the part ends. */
typedef enum { READ, NEVER_LOW, NEVER_HIGH, OTHER_WIDTH, SILENT, UNSTEADY, ALL_ONES, ALL_ZEROS } outcome;

/* The part's words, read twice; `number` is the word that was not answered, or not alike. */
typedef struct {
    outcome outcome;
    unsigned address_bits;
    unsigned count;
    uint16_t words[MOST_WORDS];
    uint16_t again[MOST_WORDS];
    unsigned number;
} reading;

static outcome outcome_of_width(unsigned bits)
{
    if (bits == SMALL_PART || bits == LARGE_PART)
        return READ;
    if (bits > LARGE_PART)
        return NEVER_LOW;
    return bits == 1 ? NEVER_HIGH : OTHER_WIDTH;
}

static bool read_words(const port *csr9, reading *rom, uint16_t words[MOST_WORDS])
{
    for (rom->number = 0; rom->number < rom->count; rom->number++)
        if (!read_word(csr9, rom->address_bits, rom->number, &words[rom->number]))
            return false;
    return true;
}

static bool are_alike(reading *rom)
{
    for (rom->number = 0; rom->number < rom->count; rom->number++)
        if (rom->words[rom->number] != rom->again[rom->number])
            return false;
    return true;
}

static bool are_all(const reading *rom, uint16_t word)
{
    for (unsigned i = 0; i < rom->count; i++)
        if (rom->words[i] != word)
            return false;
    return true;
}

static outcome read_twice(const port *csr9, reading *rom)
{
    if (!read_words(csr9, rom, rom->words) || !read_words(csr9, rom, rom->again))
        return SILENT;
    if (!are_alike(rom))
        return UNSTEADY;
    if (are_all(rom, 0xffff))
        return ALL_ONES;
    return are_all(rom, 0) ? ALL_ZEROS : READ;
}

static reading read_part(const port *csr9)
{
    reading rom = {0};
    rom.address_bits = count_address_bits(csr9);
    rom.outcome = outcome_of_width(rom.address_bits);
    if (rom.outcome == READ) {
        rom.count = 1u << rom.address_bits;
        rom.outcome = read_twice(csr9, &rom);
    }
    return rom;
}

/* The words as they stand in an image, the low byte first; how many bytes that are. */
static size_t bytes_of(const reading *rom, uint8_t bytes[2 * MOST_WORDS])
{
    for (unsigned i = 0; i < rom->count; i++) {
        bytes[2 * i] = (uint8_t)rom->words[i];
        bytes[2 * i + 1] = (uint8_t)(rom->words[i] >> 8);
    }
    return 2 * (size_t)rom->count;
}

/* Whether the part was read; what is wrong is said of the card at an address. */
static bool was_read(const reading *rom, const char *address)
{
    switch (rom->outcome) {
    case READ:
        return true;
    case NEVER_LOW:
    case NEVER_HIGH:
        complain("the ROM of %s answers nothing: its data pin stays at %d", address, rom->outcome == NEVER_LOW);
        suggest("of several chips on a card one has the ROM; or the card may be loose");
        return false;
    case OTHER_WIDTH:
        complain("the ROM of %s answers behind %u address bits", address, rom->address_bits);
        suggest("a part has %d or %d of them", SMALL_PART, LARGE_PART);
        return false;
    case SILENT:
        complain("word %u of the ROM of %s is not answered", rom->number, address);
        suggest("the card may be loose in its slot");
        return false;
    case UNSTEADY:
        complain("word %u of the ROM of %s is read as 0x%04x and then as 0x%04x", rom->number, address,
                 (unsigned)rom->words[rom->number], (unsigned)rom->again[rom->number]);
        suggest("the card may be loose in its slot");
        return false;
    default:
        complain("every word of the ROM of %s is 0x%04x", address, (unsigned)rom->words[0]);
        suggest("the part is empty, or it answers nothing");
        return false;
    }
}

/* ---- Cards ---- */

enum { VENDOR = 0x1011, MOST_CARDS = 64 };

/* The chips by their device numbers. */
static const struct {
    unsigned long device;
    const char *name;
} CHIPS[] = {{0x0014, "21041"}, {0x0009, "21140"}, {0x0019, "21142 or 21143"}, {0x0039, "21145"}};

typedef struct {
    char address[32];
    const char *chip;
} card;

typedef struct {
    char text[PATH_MAX];
} path;

/* A file of a card's folder. */
static path path_of(const char *address, const char *name)
{
    path path;
    snprintf(path.text, sizeof path.text, "%s/%s/%s", DEVICES, address, name);
    return path;
}

/* The number that is all that a file of a card's folder holds, or 0. */
static unsigned long number_in(const char *address, const char *name)
{
    unsigned long number = 0;
    FILE *file = fopen(path_of(address, name).text, "r");
    if (file == NULL)
        return 0;
    if (fscanf(file, "%lx", &number) != 1)
        number = 0;
    fclose(file);
    return number;
}

/* The name of a device's chip; NULL where it is none of these. */
static const char *chip_of(unsigned long vendor, unsigned long device)
{
    for (size_t i = 0; i < sizeof CHIPS / sizeof CHIPS[0]; i++)
        if (vendor == VENDOR && device == CHIPS[i].device)
            return CHIPS[i].name;
    return NULL;
}

/* The cards in the order of their addresses; how many there are. */
static size_t find_cards(card cards[MOST_CARDS])
{
    struct dirent **devices;
    int found = scandir(DEVICES, &devices, NULL, alphasort);
    size_t count = 0;
    for (int i = 0; i < found; i++) {
        const char *address = devices[i]->d_name;
        const char *chip = chip_of(number_in(address, "vendor"), number_in(address, "device"));
        if (chip != NULL && count < MOST_CARDS && strlen(address) < sizeof cards->address) {
            strcpy(cards[count].address, address);
            cards[count++].chip = chip;
        }
        free(devices[i]);
    }
    if (found >= 0)
        free(devices);
    return count;
}

/* Whether a word names an address, with its domain or, where that is 0, without. */
static bool is_address(const char *word, const char *address)
{
    static const char domain[] = "0000:";
    bool has_domain_0 = strncmp(address, domain, strlen(domain)) == 0;
    return strcasecmp(word, address) == 0 || (has_domain_0 && strcasecmp(word, address + strlen(domain)) == 0);
}

static void suggest_cards(const card *cards, size_t count)
{
    for (size_t i = 0; i < count; i++)
        suggest("%s, a %s", cards[i].address, cards[i].chip);
}

/* The card that is meant: the one at an address, or the only one where none is given. NULL where that is none, which is said. */
static const card *choose_card(const card *cards, size_t count, const char *pci)
{
    if (count == 0) {
        complain("no card is found in this machine");
        suggest("it would be a 21041, 21140, 21142, 21143 or 21145 on the PCI bus");
        return NULL;
    }
    if (pci == NULL && count == 1)
        return cards;
    for (size_t i = 0; pci != NULL && i < count; i++)
        if (is_address(pci, cards[i].address))
            return &cards[i];
    if (pci != NULL)
        complain("no card is at this address: '%.60s'; there %s", pci, count == 1 ? "is" : "are");
    else
        complain("more than one card is found; --pci ADDRESS says which is meant");
    suggest_cards(cards, count);
    return NULL;
}

/* Whether no driver has the card; the one that has it is named. */
static bool is_free(const char *address)
{
    char driver[PATH_MAX];
    ssize_t length = readlink(path_of(address, "driver").text, driver, sizeof driver - 1);
    if (length < 0)
        return true;
    driver[length] = '\0';
    const char *slash = strrchr(driver, '/');
    const char *name = slash == NULL ? driver : slash + 1;
    complain("the driver '%s' has the card at %s; to take it away:", name, address);
    suggest("echo %s > /sys/bus/pci/drivers/%s/unbind", address, name);
    return false;
}

/* ---- The chip ---- */

/* Where CSR9 stands among the registers, which are quadwords apart (8.3). */
enum { CSR9 = 9 * 8 };

/* The configuration's command word, and CFDD, whose upper bits are sleep and snooze mode (8.2.2.2, 8.2.3.1). */
enum { COMMAND = 0x04, MEMORY_SPACE = 1 << 1, DRIVER_AREA = 0x40 };
#define ASLEEP (UINT32_C(3) << 30)

/* In nanoseconds: how long a chip takes to leave sleep mode (6.3.1), and what a part is given for each change of a pin. */
enum { WAKING = 10 * 1000 * 1000, SETTLING = 1000 };

/* Waits for so long at least, without giving the processor away: most waits are short. */
static void pause_for(long nanoseconds)
{
    struct timespec start, now;
    clock_gettime(CLOCK_MONOTONIC, &start);
    do
        clock_gettime(CLOCK_MONOTONIC, &now);
    while ((now.tv_sec - start.tv_sec) * 1000000000L + now.tv_nsec - start.tv_nsec < nanoseconds);
}

static uint32_t read_register(void *at)
{
    return le32toh(*(volatile uint32_t *)at);
}

static void write_register(void *at, uint32_t value)
{
    *(volatile uint32_t *)at = htole32(value);
}

/* What was written may stand in a bridge until something is read. */
static void wait_for_part(void *at)
{
    read_register(at);
    pause_for(SETTLING);
}

/* Where the registers begin in memory, or 0: the first number of the second line of a card's `resource`, with three in each. */
static uint64_t registers_start(const char *address)
{
    uint64_t start = 0;
    FILE *resource = fopen(path_of(address, "resource").text, "r");
    if (resource == NULL)
        return 0;
    if (fscanf(resource, "%*x %*x %*x %" SCNx64, &start) != 1)
        start = 0;
    fclose(resource);
    return start;
}

/* The page with the registers; MAP_FAILED where it cannot be had, which is said. */
static void *map_registers(const char *address, size_t page)
{
    const path path = path_of(address, "resource1");
    void *mapped = MAP_FAILED;
    int file = open(path.text, O_RDWR | O_SYNC | O_CLOEXEC);
    if (file >= 0)
        mapped = mmap(NULL, page, PROT_READ | PROT_WRITE, MAP_SHARED, file, 0);
    if (mapped == MAP_FAILED)
        complain_of(path.text);
    if (file >= 0)
        close(file);
    return mapped;
}

/* Reads the part of a chip that is awake. */
static bool read_chip(const char *address, reading *rom)
{
    size_t page = (size_t)sysconf(_SC_PAGESIZE);
    uint64_t start = registers_start(address);
    if (start == 0)
        return complain("the card at %s has been given no memory space", address);
    unsigned char *mapped = map_registers(address, page);
    if (mapped == MAP_FAILED)
        return false;
    void *csr9 = mapped + start % page + CSR9;
    const port port = {read_register, write_register, wait_for_part, csr9};
    *rom = read_part(&port);
    write_register(csr9, 0);
    munmap(mapped, page);
    return was_read(rom, address);
}

/* Asks the kernel to power a device and let it answer, or no longer to. */
static bool set_enabled(const char *address, bool enabled)
{
    const path path = path_of(address, "enable");
    int file = open(path.text, O_WRONLY | O_CLOEXEC);
    if (file < 0)
        return complain_of(path.text);
    bool done = write(file, enabled ? "1" : "0", 1) == 1 || complain_of(path.text);
    close(file);
    return done;
}

/* What is changed in a configuration to wake its chip, as it stands there, the low byte first. */
typedef struct {
    uint16_t command;
    uint32_t driver_area;
} configuration;

/* Too few bytes set no error of their own. */
static bool load(int file, configuration *found)
{
    errno = EIO;
    return pread(file, &found->command, sizeof found->command, COMMAND) == sizeof found->command
        && pread(file, &found->driver_area, sizeof found->driver_area, DRIVER_AREA) == sizeof found->driver_area;
}

static bool store(int file, configuration wanted)
{
    errno = EIO;
    return pwrite(file, &wanted.command, sizeof wanted.command, COMMAND) == sizeof wanted.command
        && pwrite(file, &wanted.driver_area, sizeof wanted.driver_area, DRIVER_AREA) == sizeof wanted.driver_area;
}

static configuration awake(configuration found)
{
    return (configuration){found.command | htole16(MEMORY_SPACE), found.driver_area & ~htole32(ASLEEP)};
}

/* Wakes a chip, reads its part, and sets its configuration back. */
static bool wake_and_read(const char *address, int file, reading *rom)
{
    configuration found;
    if (!load(file, &found))
        return complain_of(path_of(address, "config").text);
    if (!set_enabled(address, true))
        return false;
    bool is_awake = store(file, awake(found)) || complain_of(path_of(address, "config").text);
    if (is_awake)
        pause_for(WAKING);
    bool done = is_awake && read_chip(address, rom);
    done = set_enabled(address, false) && done;
    return (store(file, found) || complain_of(path_of(address, "config").text)) && done;
}

static bool read_card(const char *address, reading *rom)
{
    if (geteuid() != 0)
        return complain("root alone can reach the registers of the card at %s", address);
    if (!is_free(address))
        return false;
    const path path = path_of(address, "config");
    int file = open(path.text, O_RDWR | O_CLOEXEC);
    if (file < 0)
        return complain_of(path.text);
    bool done = wake_and_read(address, file, rom);
    close(file);
    return done;
}

/* ---- The file ---- */

/* Takes a name that no file has. */
static bool reserve(const char *name)
{
    int file = open(name, O_WRONLY | O_CREAT | O_EXCL | O_CLOEXEC, 0644);
    if (file < 0)
        return complain_of(name);
    close(file);
    return true;
}

/* Fills a temporary file that is open. */
static bool fill(int file, const uint8_t *bytes, size_t length, const char *name)
{
    fchmod(file, 0644);
    bool whole = write(file, bytes, length) == (ssize_t)length;
    bool kept = fsync(file) == 0;
    close(file);
    if (!kept)
        return complain("not all could be kept: '%.60s'", name);
    return whole || complain("not all could be written: '%.60s'", name);
}

/* Writes a file as the other commands do: a temporary one beside it, and then its name, over another only where it is forced. */
static bool save(const uint8_t *bytes, size_t length, const char *name, bool force)
{
    char path[PATH_MAX];
    if ((size_t)snprintf(path, sizeof path, "%s.XXXXXX", name) >= sizeof path)
        return complain("the path is too long: '%.60s'", name);
    int file = mkstemp(path);
    if (file < 0)
        return complain_of(name);
    bool done = fill(file, bytes, length, name) && (force || reserve(name));
    if (done && rename(path, name) < 0)
        done = complain_of(name);
    if (!done)
        unlink(path);
    return done;
}

/* ---- The words ---- */

typedef struct {
    const char *pci;
    const char *out;
    bool force;
} words;

static bool complain_of_word(const char *what, const char *word, const char *instead)
{
    complain("%s: '%.60s'", what, word);
    suggest("%s", instead);
    return false;
}

static const char HELP[] = "./card help says which words each takes";
static const char ONCE[] = "each is given at most once";

/* Takes one word, and the next one where it is an option's value; how many were taken, or 0 where it is wrong, which is said. */
static int take_word(words *taken, const char *word, const char *next)
{
    if (strcmp(word, "--pci") == 0) {
        if (taken->pci != NULL)
            return complain_of_word("the option is given twice", word, ONCE);
        if (next == NULL)
            return complain_of_word("no address behind the option", word, "--pci ADDRESS is as 0000:00:04.0, or 00:04.0");
        taken->pci = next;
        return 2;
    }
    if (strcmp(word, "--force") == 0) {
        if (taken->force)
            return complain_of_word("the option is given twice", word, ONCE);
        taken->force = true;
        return 1;
    }
    if (strncmp(word, "--", 2) == 0)
        return complain_of_word("the command takes no such option", word, "dump takes --pci ADDRESS and --force");
    if (taken->out != NULL)
        return complain_of_word("a word too many", word, HELP);
    taken->out = word;
    return 1;
}

static bool take_words(words *taken, char **argv)
{
    for (int i = 1, count; argv[i] != NULL; i += count) {
        count = take_word(taken, argv[i], argv[i + 1]);
        if (count == 0)
            return false;
    }
    return taken->out != NULL || complain_of_word("the command takes more words", "dump", HELP);
}

int main(int argc, char **argv)
{
    words asked = {0};
    card cards[MOST_CARDS];
    reading rom = {0};
    uint8_t bytes[2 * MOST_WORDS];
    if (argc < 1 || !take_words(&asked, argv))
        return FAILED;
    const card *card = choose_card(cards, find_cards(cards), asked.pci);
    if (card == NULL || !read_card(card->address, &rom))
        return FAILED;
    size_t length = bytes_of(&rom, bytes);
    if (!save(bytes, length, asked.out, asked.force))
        return FAILED;
    printf("%s, a %s: %u words, each read twice alike\n", card->address, card->chip, rom.count);
    printf("%zu bytes are written\n", length);
    return WRITTEN;
}
