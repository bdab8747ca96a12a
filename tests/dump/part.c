/*
 * A model of the part behind CSR9, a serial ROM of 1K or 4K bits, with bench/dump.c over it:
 *
 *     part BITS FAULT WORD OUT [--force] <IMAGE
 *     part awake COMMAND AREA
 *
 * BITS is how many address bits the part takes. FAULT is none; ones or zeros, a data pin that stays; unsteady, where WORD
 * reads otherwise each second time; or silent, where it is not answered the second time. Prints each value that is written to
 * CSR9, with a `w` behind it for a wait and an `r` where it is read, and saves the bytes to OUT as the program does. `awake`
 * prints what both registers are while it reads.
 */
#define main dump_main
#include "../../bench/dump.c"
#undef main

/* The pins in CSR9 (002, Table 8-71), and READ behind the start bit. */
enum { CS = 0x1, CK = 0x2, DI = 0x4, DO = 0x8, READ_OPCODE = 2 };

typedef struct {
    unsigned address_bits;
    uint16_t words[1 << 16];
    const char *fault;
    unsigned faulty_word;
    uint32_t csr9;
    /* Since it was selected: whether the start bit came, and the bits behind it. */
    bool started;
    unsigned taken;
    uint32_t bits;
    /* What a READ still has to give, from the highest bit on. */
    uint16_t giving;
    unsigned given;
    unsigned reads[1 << 16];
} part;

static bool has_fault(const part *part, const char *fault)
{
    return strcmp(part->fault, fault) == 0;
}

/* Its command and address are whole. READ gives a 0 and then the word; nothing else is answered. */
static void obey(part *part)
{
    unsigned address = part->bits & ((1u << part->address_bits) - 1);
    if (part->bits >> part->address_bits != READ_OPCODE)
        return;
    bool is_faulty = address == part->faulty_word && part->reads[address]++ % 2 == 1;
    part->giving = part->words[address];
    if (has_fault(part, "unsteady") && is_faulty)
        part->giving ^= 0x0100;
    part->given = has_fault(part, "silent") && is_faulty;
}

/* A rising clock. The data pin floats, at 1, until a READ is whole. */
static void rise(part *part, unsigned bit)
{
    if (!part->started) {
        part->started = bit;
        return;
    }
    part->taken++;
    if (part->taken <= 2 + part->address_bits) {
        part->bits = part->bits << 1 | bit;
        if (part->taken == 2 + part->address_bits)
            obey(part);
    } else {
        part->given = part->giving >> 15;
        part->giving = (uint16_t)(part->giving << 1);
    }
}

static void write_part(void *at, uint32_t value)
{
    part *part = at;
    bool rises = (value & CK) && !(part->csr9 & CK);
    part->csr9 = value;
    printf(" %x", (unsigned)value);
    if (!(value & CS)) {
        part->started = false;
        part->taken = part->bits = 0;
        part->given = 1;
    } else if (rises) {
        rise(part, (value & DI) != 0);
    }
}

static uint32_t read_from_part(void *at)
{
    const part *part = at;
    unsigned given = part->given;
    putchar('r');
    if (has_fault(part, "ones") || has_fault(part, "zeros"))
        given = has_fault(part, "ones");
    return (part->csr9 & ~(uint32_t)DO) | (given ? DO : 0);
}

static void wait_for_model(void *at)
{
    (void)at;
    putchar('w');
}

static int show_awake(const char *command, const char *area)
{
    configuration found = {htole16((uint16_t)strtoul(command, NULL, 16)), htole32((uint32_t)strtoul(area, NULL, 16))};
    printf("%04x %08x\n", (unsigned)le16toh(awake(found).command), (unsigned)le32toh(awake(found).driver_area));
    return 0;
}

int main(int argc, char **argv)
{
    static part part;
    uint8_t image[2 * MOST_WORDS] = {0}, bytes[2 * MOST_WORDS];
    if (argc == 4 && strcmp(argv[1], "awake") == 0)
        return show_awake(argv[2], argv[3]);
    if (argc < 5 || fread(image, 1, sizeof image, stdin) == 0)
        return 3;
    part.address_bits = (unsigned)atoi(argv[1]);
    part.fault = argv[2];
    part.faulty_word = (unsigned)atoi(argv[3]);
    /* Whoever was here before has left a command half sent. */
    part.csr9 = CS;
    part.started = true;
    part.taken = 4;
    for (size_t i = 0; i < MOST_WORDS; i++)
        part.words[i] = (uint16_t)(image[2 * i] | image[2 * i + 1] << 8);
    const port port = {read_from_part, write_part, wait_for_model, &part};
    reading rom = read_part(&port);
    putchar('\n');
    if (!was_read(&rom, "0000:00:04.0"))
        return FAILED;
    size_t length = bytes_of(&rom, bytes);
    return save(bytes, length, argv[4], argc > 5) ? WRITTEN : FAILED;
}
