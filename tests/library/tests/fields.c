/*
 * Every field of every struct that the archive answers with, for the image in a file, of any length: a line a call, with the
 * struct's name and a word a field. The words are the file, chip, controller, level, stated size, layout (1 with a Magic
 * Packet block, 0 without) and edition (1 for 1.00, 0 for 1.01).
 */
#include <srom.h>
#include <stdio.h>
#include <stdlib.h>
#include <string.h>

enum { ROOM = 2048, ROW = 256, TOO_SHORT = 60 };

static void show_checksum(srom_checksum checksum)
{
    printf("checksum %u %u\n", checksum.number, checksum.value);
}

static void show_bytes(const uint8_t *bytes, size_t count)
{
    printf(" ");
    for (size_t k = 0; k < count; k++)
        printf("%02x", bytes[k]);
}

static void show_row(const uint8_t *row)
{
    printf(" ");
    for (int k = 0; k < ROW; k++)
        printf("%u", row[k]);
}

static void show_walk(srom_walk walk)
{
    printf(" %u %u %u", walk.loaded, walk.connection, walk.blocks);
    show_row(walk.rows.listed);
    show_row(walk.rows.active_invalid);
    show_row(walk.rows.fixed);
    printf(" %u %u %u %u %u\n", walk.default_number, walk.settled, walk.selected, walk.looks, walk.switches);
}

static srom_walk show_walked(srom_walked walked)
{
    printf("walked %u", walked.number);
    show_walk(walked.walk);
    return walked.walk;
}

/* The CRCs of an image of so many bytes. */
static void show_checksums(const uint8_t *image, size_t length, srom_layout layout)
{
    show_checksum(srom_crc(image, length, layout));
    show_checksum(srom_id_crc(image, length, layout.size));
    show_checksum(srom_magic_crc(image, length, layout.size));
}

/* The Magic Packet block, and another one written to a copy of the image, with a byte behind it and without. */
static void show_magic(const uint8_t *image, size_t length, uint16_t size)
{
    srom_magic_answer answer = srom_read_magic(image, length, size);
    printf("magic %u", answer.number);
    show_bytes(answer.magic.password, sizeof answer.magic.password);
    show_bytes(answer.magic.address, sizeof answer.magic.address);
    printf(" %u\n", answer.magic.command);
    srom_magic magic = {{1, 2, 3, 4, 5, 6}, {0}, (uint16_t)(answer.magic.command + 7)};
    memcpy(magic.address, answer.magic.password, sizeof magic.address);
    for (size_t more = 0; more < 2; more++) {
        static uint8_t copy[ROOM];
        memcpy(copy, image, ROOM);
        printf("block %u", srom_write_magic(magic, copy, length + more, size));
        show_bytes(copy, length + more);
        printf("\n");
    }
}

static void show_made(srom_made made, const uint8_t *buffer)
{
    printf("made %u %zu", made.number, made.length);
    show_bytes(buffer, made.length);
    printf("\n");
}

/* The sheet in a form, its image, written over a copy of the one that it was made of, and the sheet in both forms again. */
static void show_sheet(const uint8_t *image, size_t length, srom_arguments arguments, bool wide)
{
    static uint8_t sheet[ROOM], other[ROOM], copy[ROOM];
    srom_layout layout = arguments.layout;
    bool first_edition = arguments.first_edition;
    srom_made made = srom_make_sheet(image, length, arguments.chip, wide, layout, first_edition, sheet, ROOM);
    show_made(made, sheet);
    memcpy(copy, image, ROOM);
    memset(copy + 30, 0xFF, 60);
    printf("written %u", srom_write(sheet, made.length, wide, layout, first_edition, copy, length));
    show_bytes(copy, length);
    printf("\n");
    for (size_t room = TOO_SHORT; room <= ROOM; room += ROOM - TOO_SHORT) {
        show_made(srom_widen(sheet, made.length, other, room), other);
        show_made(srom_narrow(sheet, made.length, other, room), other);
    }
}

int main(int count, char **words)
{
    static uint8_t image[ROOM], report[ROW];
    static uint16_t kinds[255], offsets[255];
    FILE *file = count == 8 ? fopen(words[1], "rb") : NULL;
    if (file == NULL)
        return 2;
    size_t length = fread(image, 1, ROOM - 1, file);
    fclose(file);
    srom_arguments arguments;
    arguments.chip = (uint16_t)atoi(words[2]);
    arguments.controller = (uint8_t)atoi(words[3]);
    arguments.level = (uint8_t)atoi(words[4]);
    arguments.layout.size = (uint16_t)atoi(words[5]);
    arguments.layout.magic = atoi(words[6]) == 1;
    arguments.first_edition = atoi(words[7]) == 1;

    show_checksums(image, length, arguments.layout);
    show_checksums(image, length + 1, arguments.layout);
    srom_answer answer = srom_read(image, length, arguments, kinds, 255, offsets, 255);
    printf("answer %u %u %u %llu %u %u %u %u %u %u\n", answer.number, answer.connection, answer.control,
           (unsigned long long)answer.address, answer.blocks, answer.listed, answer.resets, answer.skipped,
           answer.power, answer.default_number);
    srom_part part = srom_view(image, length, arguments, 0);
    printf("part %zu %zu\n", part.start, part.length);
    show_magic(image, length, arguments.layout.size);
    srom_walk walk = show_walked(srom_load(srom_fresh(), image, length, arguments));
    walk = show_walked(srom_look(walk, report, ROW));
    for (int k = 0; k < ROW; k++)
        report[k] = walk.looks == 1;
    walk = show_walked(srom_look(walk, report, ROW));
    show_walked(srom_clear(walk));
    show_sheet(image, length, arguments, false);
    show_sheet(image, length, arguments, true);
    return 0;
}
