/*
 * The shape of a driver's probe routine: read the serial ROM, list its media, and let the autosense walk choose one.
 *
 *     probe IMAGE CHIP CONTROLLER [magic] [first] LINKS..
 *
 * IMAGE is a file of 128 or 512 bytes, in place of the words that a driver clocks out of CSR9. Its length is the ROM's size, and
 * the word `magic` says that it has a Magic Packet block, the word `first` that a card of version 1 is of edition 1.00. Each
 * LINKS is a row of 0 and 1, one digit a block in the order in which the blocks stand, as the link tests of the media would
 * report. Exit status: 0 a medium is selected, 1 the image or a look is refused or nothing is selected, 2 bad usage or an
 * unreadable file.
 */
#include <srom.h>

#include <inttypes.h>
#include <stdio.h>
#include <stdlib.h>
#include <string.h>

enum { MOST_BLOCKS = 255 };

static void print_block(const uint8_t *image, srom_arguments arguments, uint16_t kind, uint16_t offset, size_t entry)
{
    srom_part block = srom_view(image, arguments.layout.size, arguments, entry);
    printf("  entry %zu: ", entry);
    if (kind == SROM_KIND_COMPACT)
        printf("compact");
    else if (kind == SROM_KIND_21041)
        printf("21041 block");
    else
        printf("type %u", (unsigned)kind);
    printf(" at byte %u:", (unsigned)offset);
    for (size_t i = 0; i < block.length; i++)
        printf(" %02x", image[block.start + i]);
    printf("\n");
}

/* Prints the media table; the refusal's number, or 0. */
static uint8_t list_media(const uint8_t *image, srom_arguments arguments)
{
    uint16_t kinds[MOST_BLOCKS], offsets[MOST_BLOCKS];
    srom_answer answer = srom_read(image, arguments.layout.size, arguments, kinds, MOST_BLOCKS, offsets, MOST_BLOCKS);
    if (answer.number != SROM_ACCEPTED) {
        printf("refused %u\n", (unsigned)answer.number);
        return answer.number;
    }
    printf("address %012" PRIx64 ", connection type 0x%04x\n", answer.address, (unsigned)answer.connection);
    for (size_t entry = 0; entry < answer.listed; entry++)
        print_block(image, arguments, kinds[entry], offsets[entry], entry);
    printf("  %u resets, %u power blocks, %u blocks of unknown types stepped over\n", (unsigned)answer.resets,
           (unsigned)answer.power, (unsigned)answer.skipped);
    return SROM_ACCEPTED;
}

/* Prints the Magic Packet block of an accepted image, which a driver gives the chip before the station sleeps. */
static void print_magic(const uint8_t *image, uint16_t size)
{
    srom_magic magic = srom_read_magic(image, size, size).magic;
    printf("wakes by address ");
    for (size_t i = 0; i < sizeof magic.address; i++)
        printf("%02x", magic.address[i]);
    printf(", password ");
    for (size_t i = 0; i < sizeof magic.password; i++)
        printf("%02x", magic.password[i]);
    printf(", command 0x%04x\n", (unsigned)magic.command);
}

/* A row of 0 and 1 as a report; how many bytes it has. */
static size_t report_of(const char *links, uint8_t report[MOST_BLOCKS])
{
    size_t count = 0;
    for (; links[count] != '\0' && count < MOST_BLOCKS; count++)
        report[count] = (uint8_t)(links[count] - '0');
    return count;
}

/* Why a look leaves a walk on its block; NULL where it chooses anew. */
static const char *why_it_stays(srom_walk walk, const uint8_t *report)
{
    if (!walk.settled || walk.selected == SROM_NONE)
        return NULL;
    if (report[walk.selected] == 1)
        return "whose link is up";
    if (walk.connection == SROM_AUTOSENSE_ONCE || walk.connection == SROM_EMPTY_CONNECTION)
        return "since the connection type senses once";
    if (walk.rows.active_invalid[walk.selected] == 1)
        return "since it has Active_Invalid";
    return NULL;
}

/* Whether a connection type is set to one medium, which looks select whatever links are up. */
static bool is_fixed(uint16_t connection)
{
    return connection != SROM_AUTOSENSE && connection != SROM_AUTOSENSE_NWAY && connection != SROM_AUTOSENSE_ONCE
        && connection != SROM_EMPTY_CONNECTION;
}

/*
 * What an accepted look did. Under an autosensed type any entry may be taken until the walk settles, then those without
 * Active_Invalid.
 */
static void print_step(srom_walk before, srom_walk after, const uint8_t *report)
{
    const char *stays = why_it_stays(before, report);
    if (is_fixed(before.connection))
        printf("block %u, the first in table order that has the fixed medium", (unsigned)after.selected);
    else if (stays != NULL)
        printf("stays on block %u, %s", (unsigned)after.selected, stays);
    else if (after.selected == SROM_NONE)
        printf("no medium, since none that may be taken is up and there is no default");
    else if (report[after.selected] == 1)
        printf("block %u, the first in table order that may be taken and is up", (unsigned)after.selected);
    else
        printf("block %u, the default, since none that may be taken is up", (unsigned)after.selected);
    printf("; %s\n", after.settled ? "settled" : "not settled");
}

/* One look with a row of 0 and 1. */
static srom_walked look(srom_walk walk, const char *links)
{
    uint8_t report[MOST_BLOCKS];
    size_t count = report_of(links, report);
    srom_walked seen = srom_look(walk, report, count);
    printf("links %s: ", links);
    if (seen.number == SROM_ACCEPTED)
        print_step(walk, seen.walk, report);
    else
        printf("refused %u\n", (unsigned)seen.number);
    return seen;
}

/* The file's length, which is the ROM's size; 0 where no ROM has that. */
static uint16_t read_image(const char *name, uint8_t image[SROM_LARGE_SIZE])
{
    FILE *file = fopen(name, "rb");
    if (file == NULL)
        return 0;
    size_t got = fread(image, 1, SROM_LARGE_SIZE, file);
    bool whole = (got == SROM_SMALL_SIZE || got == SROM_LARGE_SIZE) && fgetc(file) == EOF;
    fclose(file);
    return whole ? (uint16_t)got : 0;
}

/* Whether the next word is this one, which is then passed. */
static bool is_said(const char *word, int argc, char **argv, int *next)
{
    bool is_said = *next < argc && strcmp(argv[*next], word) == 0;
    *next += is_said;
    return is_said;
}

int main(int argc, char **argv)
{
    uint8_t image[SROM_LARGE_SIZE];
    if (argc < 4) {
        fprintf(stderr, "usage: %s IMAGE CHIP CONTROLLER [magic] [first] LINKS..\n", argv[0]);
        return 2;
    }
    uint16_t size = read_image(argv[1], image);
    if (size == 0) {
        fprintf(stderr, "%s: not a file of %d or %d bytes\n", argv[1], SROM_SMALL_SIZE, SROM_LARGE_SIZE);
        return 2;
    }
    int links = 4;
    srom_layout layout = {size, is_said("magic", argc, argv, &links)};
    bool first_edition = is_said("first", argc, argv, &links);
    srom_arguments arguments = {(uint16_t)atoi(argv[2]), (uint8_t)atoi(argv[3]), SROM_NEWEST_LEVEL, layout, first_edition};
    if (list_media(image, arguments) != SROM_ACCEPTED)
        return 1;
    if (layout.magic)
        print_magic(image, size);
    srom_walked walked = srom_load(srom_fresh(), image, size, arguments);
    for (int i = links; i < argc && walked.number == SROM_ACCEPTED; i++)
        walked = look(walked.walk, argv[i]);
    return walked.number == SROM_ACCEPTED && walked.walk.selected != SROM_NONE ? 0 : 1;
}
