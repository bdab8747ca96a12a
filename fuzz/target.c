/*
 * A fuzz target over every exported call. The first bytes choose the arguments, the rest is an image, a report and a sheet.
 * One flag mends the CRCs, so that the search gets behind them, one says that there is a Magic Packet block, one that the ROM
 * has the larger size, one that sheets are wide and one that the edition is 1.00; the image's length and its stated size may be
 * others. Every lent buffer stands between guard bytes. The archive is compiled without instrumentation, so what the calls
 * answer guides the search: each refusal number, each count, and both for version 1 in each edition.
 */
#include <srom.h>

#include <stdlib.h>
#include <string.h>

enum { GUARD = 32, GUARD_BYTE = 0xA5, CALLS = 8 };

/* How far before an image's end its Magic Packet block starts, that block's CRC stands, and the SROM CRC without it. */
enum { BLOCK_LENGTH = 32, BLOCK_CRC = 2, CRC = 2 };

/* The flags. */
enum { MENDS = 1, OTHER_LENGTH = 2, MAGIC = 4, LARGE = 8, OTHER_SIZE = 16, WIDE = 32, FIRST = 64 };

/* Where an image has its version, and the one that has editions. */
enum { VERSION = 18, FIRST_VERSION = 1 };

/* The bytes before the image: flags, chip, controller, level, elements of the arrays, another length or size (word). */
enum { HEAD = 7 };

/* A lent buffer of `length` bytes between guards. */
typedef struct lent {
    uint8_t *whole;
    uint8_t *bytes;
    size_t length;
} lent;

static lent lend(const uint8_t *bytes, size_t length)
{
    lent buffer = {malloc(length + 2 * GUARD), NULL, length};
    if (buffer.whole == NULL)
        abort();
    memset(buffer.whole, GUARD_BYTE, length + 2 * GUARD);
    buffer.bytes = buffer.whole + GUARD;
    if (bytes != NULL)
        memcpy(buffer.bytes, bytes, length);
    return buffer;
}

static void take_back(lent buffer)
{
    for (size_t i = 0; i < GUARD; i++)
        if (buffer.whole[i] != GUARD_BYTE || buffer.bytes[buffer.length + i] != GUARD_BYTE)
            abort();
    free(buffer.whole);
}

static void check(bool holds)
{
    if (!holds)
        abort();
}

/* A counter for each number that a call answers: to the search, reaching a new one is coverage. */
enum {
    READ,
    READ_LATER,
    READ_FIRST,
    LISTED,
    SKIPPED,
    RESETS,
    POWER,
    READ_MAGIC,
    LOAD,
    LOOK,
    SELECTED,
    SWITCHES,
    WRITE,
    WRITE_WIDE,
    MAKE,
    MAKE_WIDE,
    WIDEN,
    NARROW,
    KINDS_OF_NUMBERS
};

__attribute__((section("__libfuzzer_extra_counters"))) static uint8_t counters[KINDS_OF_NUMBERS][256];

static void reach(int kind, size_t number)
{
    counters[kind][number < 256 ? number : 255] = 1;
}

/* Whether an image has the stated size, which is a ROM's. */
static bool is_of_size(size_t length, uint16_t size)
{
    return length == size && (size == SROM_SMALL_SIZE || size == SROM_LARGE_SIZE);
}

static void mend(uint8_t *image, size_t length, srom_layout layout)
{
    if (!is_of_size(length, layout.size))
        return;
    image[16] = (uint8_t)srom_id_crc(image, length, layout.size).value;
    uint16_t crc = srom_crc(image, length, layout).value;
    size_t at = length - CRC - (layout.magic ? BLOCK_LENGTH : 0);
    image[at] = (uint8_t)crc;
    image[at + 1] = (uint8_t)(crc >> 8);
    if (layout.magic)
        image[length - BLOCK_CRC] = (uint8_t)srom_magic_crc(image, length, layout.size).value;
}

/* Refusal 1, which comes before all others, exactly where the image has not the stated size, or that is no ROM's. */
static void check_size(uint8_t number, size_t length, uint16_t size)
{
    check((number == SROM_BAD_IMAGE_LENGTH) == !is_of_size(length, size));
}

static void check_crcs(const uint8_t *image, size_t length, srom_layout layout)
{
    srom_checksum crcs[] = {srom_crc(image, length, layout), srom_id_crc(image, length, layout.size),
                            srom_magic_crc(image, length, layout.size)};
    for (size_t k = 0; k < sizeof crcs / sizeof *crcs; k++) {
        check_size(crcs[k].number, length, layout.size);
        check(crcs[k].number == SROM_ACCEPTED || (crcs[k].number == SROM_BAD_IMAGE_LENGTH && crcs[k].value == 0));
    }
}

/* Whether two answers are alike in every field. */
static bool answer_alike(const srom_answer *answer, const srom_answer *other)
{
    return answer->number == other->number && answer->connection == other->connection && answer->control == other->control
        && answer->address == other->address && answer->blocks == other->blocks && answer->listed == other->listed
        && answer->resets == other->resets && answer->skipped == other->skipped && answer->power == other->power
        && answer->default_number == other->default_number;
}

/* Whether an edition has the connection type and the other has not. */
static bool is_of_edition(uint16_t connection, bool first_edition)
{
    return first_edition ? connection == 0x0200 || connection == 0x0203 : connection == 0x0204 || connection == 0x0205;
}

/*
 * Version 1 alone goes by the edition, and answers alike in both but where the type is one edition's: that one reads it, and the
 * other refuses it with 11. It has two chips, and no extended block, so that all levels answer alike.
 */
static void check_editions(const uint8_t *image, size_t length, srom_arguments arguments)
{
    static uint16_t kinds[SROM_NONE], offsets[SROM_NONE];
    if (!is_of_size(length, arguments.layout.size))
        return;
    arguments.first_edition = false;
    srom_answer later = srom_read(image, length, arguments, kinds, SROM_NONE, offsets, SROM_NONE);
    arguments.first_edition = true;
    srom_answer first = srom_read(image, length, arguments, kinds, SROM_NONE, offsets, SROM_NONE);
    check(!is_of_edition(later.connection, true));
    if (image[VERSION] != FIRST_VERSION) {
        check(answer_alike(&later, &first) && first.number != SROM_FIRST_VERSION_CHIP);
        return;
    }
    reach(READ_LATER, later.number);
    reach(READ_FIRST, first.number);
    if (is_of_edition(later.connection, false))
        check(first.number == SROM_BAD_CONNECTION);
    else if (is_of_edition(first.connection, true))
        check(later.number == SROM_BAD_CONNECTION);
    else if (later.number == SROM_ACCEPTED || first.number == SROM_ACCEPTED)
        check(answer_alike(&later, &first));
    if (first.number == SROM_ACCEPTED) {
        check(arguments.chip == SROM_21041 || arguments.chip == SROM_21140);
        check(!is_of_edition(first.connection, false) && first.blocks == first.listed);
        arguments.level = (uint8_t)((arguments.level + 1) % (SROM_NEWEST_LEVEL + 1));
        srom_answer other = srom_read(image, length, arguments, kinds, SROM_NONE, offsets, SROM_NONE);
        check(answer_alike(&first, &other));
    }
}

static void read_and_view(const uint8_t *image, size_t length, srom_arguments arguments, size_t room)
{
    lent kinds = lend(NULL, room * 2), offsets = lend(NULL, room * 2), before = lend(NULL, room * 2);
    srom_answer answer =
        srom_read(image, length, arguments, (uint16_t *)kinds.bytes, room, (uint16_t *)offsets.bytes, room);
    reach(READ, answer.number);
    reach(LISTED, answer.listed);
    reach(SKIPPED, answer.skipped);
    reach(RESETS, answer.resets);
    reach(POWER, answer.power);
    check_size(answer.number, length, arguments.layout.size);
    if (answer.number != SROM_ACCEPTED) {
        check(memcmp(kinds.bytes, before.bytes, room * 2) == 0 && memcmp(offsets.bytes, before.bytes, room * 2) == 0);
        check(answer.blocks == 0 && answer.listed == 0 && answer.address == 0 && answer.default_number == 0);
        check(answer.resets == 0 && answer.skipped == 0 && answer.power == 0);
    } else {
        check(answer.listed + answer.resets + answer.power + answer.skipped == answer.blocks && answer.blocks <= room);
        check(answer.power == 0 || arguments.level == SROM_NEWEST_LEVEL);
        size_t after = (room - answer.listed) * 2;
        check(memcmp(kinds.bytes + answer.listed * 2, before.bytes, after) == 0);
        check(memcmp(offsets.bytes + answer.listed * 2, before.bytes, after) == 0);
    }
    for (size_t entry = 0; entry <= answer.listed; entry++) {
        srom_part part = srom_view(image, length, arguments, entry);
        check(part.start <= length && part.length <= length - part.start);
        if (answer.number == SROM_ACCEPTED)
            check((part.length > 0) == (entry < answer.listed));
    }
    take_back(kinds);
    take_back(offsets);
    take_back(before);
}

static bool say_the_same(const srom_magic *magic, const srom_magic *other)
{
    return memcmp(magic->password, other->password, sizeof magic->password) == 0
        && memcmp(magic->address, other->address, sizeof magic->address) == 0 && magic->command == other->command;
}

/* What is read of the block is written again over any block, and what is written is read. */
static void return_block(const uint8_t *image, size_t length, uint16_t size)
{
    static const srom_magic nothing;
    srom_magic_answer answer = srom_read_magic(image, length, size);
    reach(READ_MAGIC, answer.number);
    check_size(answer.number, length, size);
    if (answer.number != SROM_ACCEPTED)
        check(say_the_same(&answer.magic, &nothing));
    lent written = lend(image, length);
    size_t board = length < BLOCK_LENGTH ? 0 : length - BLOCK_LENGTH;
    memset(written.bytes + board, GUARD_BYTE, length - board);
    lent before = lend(written.bytes, length);
    uint8_t number = srom_write_magic(answer.magic, written.bytes, length, size);
    check_size(number, length, size);
    if (number != SROM_ACCEPTED)
        check(number == SROM_BAD_IMAGE_LENGTH && memcmp(written.bytes, before.bytes, length) == 0);
    else {
        srom_magic_answer again = srom_read_magic(written.bytes, length, size);
        check(again.number == SROM_ACCEPTED && say_the_same(&again.magic, &answer.magic));
        check(memcmp(written.bytes, image, answer.number == SROM_ACCEPTED ? length : board) == 0);
    }
    take_back(written);
    take_back(before);
}

/* Whether two walks are alike in every field; bytes between the fields may hold anything. */
static bool are_alike(const srom_walk *walk, const srom_walk *other)
{
    return walk->loaded == other->loaded && walk->connection == other->connection && walk->blocks == other->blocks
        && memcmp(&walk->rows, &other->rows, sizeof walk->rows) == 0 && walk->default_number == other->default_number
        && walk->settled == other->settled && walk->selected == other->selected && walk->looks == other->looks
        && walk->switches == other->switches;
}

/* Under an empty connection word a look is as under the type that senses once. */
static void check_empty(srom_walk walk, const uint8_t *report, size_t count, srom_walked walked)
{
    if (walk.connection != SROM_EMPTY_CONNECTION)
        return;
    walk.connection = SROM_AUTOSENSE_ONCE;
    srom_walked once = srom_look(walk, report, count);
    once.walk.connection = SROM_EMPTY_CONNECTION;
    check(once.number == walked.number && are_alike(&once.walk, &walked.walk));
}

/* Whether a connection type is set to one medium. */
static bool is_fixed(uint16_t connection)
{
    return connection != SROM_AUTOSENSE && connection != SROM_AUTOSENSE_NWAY && connection != SROM_AUTOSENSE_ONCE
        && connection != SROM_EMPTY_CONNECTION;
}

/* The last of the listed blocks that have the fixed medium. */
static uint8_t fixed_choice(const srom_walk *walk)
{
    uint8_t choice = SROM_NONE;
    for (size_t k = 0; k < sizeof walk->rows.fixed; k++)
        if (walk->rows.fixed[k] != 0) {
            check(walk->rows.fixed[k] == 1 && walk->rows.listed[k] == 1 && k < walk->blocks);
            choice = (uint8_t)k;
        }
    return choice;
}

/*
 * Under a fixed type a look is refused with 32 exactly where no block has the medium. An accepted one selects the last that has
 * it, as it does with the other links up, and only the first is a switch.
 */
static void check_fixed(srom_walk walk, const uint8_t *report, srom_walked walked)
{
    uint8_t choice = fixed_choice(&walk), others[SROM_NONE];
    if (!walk.loaded || !is_fixed(walk.connection)) {
        check(choice == SROM_NONE && walked.number != SROM_NO_FIXED_MEDIUM);
        return;
    }
    check((walked.number == SROM_NO_FIXED_MEDIUM) == (choice == SROM_NONE));
    if (walked.number != SROM_ACCEPTED)
        return;
    check(walked.walk.selected == choice && walked.walk.settled && walked.walk.switches == 1);
    for (size_t k = 0; k < walk.blocks; k++)
        others[k] = !report[k];
    srom_walked other = srom_look(walk, others, walk.blocks);
    check(other.number == SROM_ACCEPTED && are_alike(&other.walk, &walked.walk));
}

static void walk_over(const uint8_t *image, size_t length, srom_arguments arguments, const uint8_t *calls, size_t left)
{
    srom_walk walk = srom_fresh();
    for (int i = 0; i < CALLS && left > 0; i++) {
        uint8_t call = *calls++;
        left--;
        srom_walked walked;
        if (call % 8 == 0) {
            walked = srom_clear(walk);
            check(walked.number == SROM_ACCEPTED && !walked.walk.loaded);
        } else if (call % 8 == 1 || i == 0) {
            walked = srom_load(walk, image, length, arguments);
            reach(LOAD, walked.number);
            if (walked.number != SROM_WALK_LOADED)
                check_size(walked.number, length, arguments.layout.size);
        } else {
            size_t count = call < left ? call : left;
            lent report = lend(calls, count);
            walked = srom_look(walk, report.bytes, count);
            check_empty(walk, report.bytes, count, walked);
            check_fixed(walk, report.bytes, walked);
            take_back(report);
            reach(LOOK, walked.number);
            reach(SELECTED, walked.walk.selected);
            reach(SWITCHES, walked.walk.switches);
        }
        if (walked.number != SROM_ACCEPTED)
            check(are_alike(&walked.walk, &walk));
        check(walked.walk.switches <= walked.walk.looks);
        walk = walked.walk;
    }
}

/* N and T of a sheet's bytes: each a byte, or a word. */
typedef struct sizes {
    size_t count;
    size_t total;
} sizes;

static sizes sizes_of(const uint8_t *sheet, bool wide)
{
    sizes narrow = {sheet[0], sheet[1]};
    sizes words = {(size_t)(sheet[0] | sheet[1] << 8), (size_t)(sheet[2] | sheet[3] << 8)};
    return wide ? words : narrow;
}

/* Whether bytes have the length and the sum that a form asks for. */
static bool is_sheet(const uint8_t *sheet, size_t length, bool wide)
{
    size_t head = wide ? 36 : 34, sum = 0;
    if (length < head)
        return false;
    sizes said = sizes_of(sheet, wide);
    if (length != head + 3 * said.count + said.total)
        return false;
    for (size_t k = 0; k < said.count; k++)
        sum += sheet[head + 2 * said.count + k];
    return sum == said.total;
}

static srom_made convert(const uint8_t *sheet, size_t length, bool wide, lent buffer)
{
    if (wide)
        return srom_narrow(sheet, length, buffer.bytes, buffer.length);
    return srom_widen(sheet, length, buffer.bytes, buffer.length);
}

/* Whether a call that lays a sheet into a buffer left all behind it, or all of it on a refusal. */
static bool keeps_the_rest(srom_made made, lent buffer)
{
    lent before = lend(NULL, buffer.length);
    bool keeps = memcmp(buffer.bytes + made.length, before.bytes, buffer.length - made.length) == 0;
    take_back(before);
    return keeps && (made.number == SROM_ACCEPTED || made.length == 0);
}

/* A sheet, converted from a form: each refusal exactly where it has its cause, and back again. */
static void return_conversion(const uint8_t *sheet, size_t length, bool wide)
{
    lent lent_sheet = lend(sheet, length), buffer = lend(NULL, length + 2);
    srom_made made = convert(lent_sheet.bytes, length, wide, buffer);
    reach(wide ? NARROW : WIDEN, made.number);
    check(keeps_the_rest(made, buffer));
    check((made.number == SROM_BAD_SHEET) == !is_sheet(sheet, length, wide));
    if (made.number != SROM_BAD_SHEET) {
        sizes said = sizes_of(sheet, wide);
        bool is_too_large = said.count > 255 || said.total > 255;
        check(made.number == (is_too_large ? SROM_SHEET_TOO_LARGE : SROM_ACCEPTED));
    }
    if (made.number == SROM_ACCEPTED) {
        check(is_sheet(buffer.bytes, made.length, !wide));
        lent again = lend(NULL, length), shorter = lend(NULL, made.length - 1);
        srom_made returned = convert(buffer.bytes, made.length, !wide, again);
        check(returned.number == SROM_ACCEPTED && returned.length == length && memcmp(again.bytes, sheet, length) == 0);
        srom_made refused = convert(lent_sheet.bytes, length, wide, shorter);
        check(refused.number == SROM_ARRAY_TOO_SHORT && keeps_the_rest(refused, shorter));
        take_back(again);
        take_back(shorter);
    }
    take_back(buffer);
    take_back(lent_sheet);
}

/* A narrow sheet is written as it is, or refused, when it is widened; but for the larger size, which it is not written to. */
static void check_widened(const uint8_t *sheet, size_t length, srom_layout layout, bool first_edition, lent before,
                          uint8_t number, lent image)
{
    if (number == SROM_BAD_SHEET || layout.size == SROM_LARGE_SIZE)
        return;
    lent widened = lend(NULL, length + 2), again = lend(before.bytes, before.length);
    check(srom_widen(sheet, length, widened.bytes, length + 2).number == SROM_ACCEPTED);
    check(srom_write(widened.bytes, length + 2, true, layout, first_edition, again.bytes, again.length) == number);
    check(memcmp(again.bytes, image.bytes, image.length) == 0);
    take_back(widened);
    take_back(again);
}

/* Whether an image has the stated size, and the form serves it. */
static bool is_served(size_t length, uint16_t size, bool wide)
{
    return is_of_size(length, size) && (wide || size == SROM_SMALL_SIZE);
}

/* A sheet, written to an image with a block that is right or not, and made again. */
static void return_sheet(const uint8_t *sheet, size_t length, bool wide, srom_layout layout, bool first_edition, uint16_t size,
                         bool has_block)
{
    static const srom_magic nothing;
    lent image = lend(NULL, size), lent_sheet = lend(sheet, length);
    if (has_block)
        check(srom_write_magic(nothing, image.bytes, size, size) == SROM_ACCEPTED);
    lent before = lend(image.bytes, size);
    uint8_t number = srom_write(lent_sheet.bytes, length, wide, layout, first_edition, image.bytes, size);
    reach(wide ? WRITE_WIDE : WRITE, number);
    check((number == SROM_BAD_SHEET) == !is_sheet(sheet, length, wide));
    if (number != SROM_BAD_SHEET) {
        bool is_too_large = sizes_of(sheet, wide).count > 255;
        check((number == SROM_SHEET_TOO_LARGE) == is_too_large);
        check((number == SROM_BAD_IMAGE_LENGTH) == (!is_too_large && !is_served(size, layout.size, wide)));
    }
    if (!wide)
        check_widened(sheet, length, layout, first_edition, before, number, image);
    if (number != SROM_ACCEPTED)
        check(memcmp(image.bytes, before.bytes, size) == 0);
    else {
        lent again = lend(NULL, SROM_LONGEST_WIDE_SHEET);
        size_t at = wide ? 29 : 27;
        uint16_t chip = (uint16_t)(lent_sheet.bytes[at] | lent_sheet.bytes[at + 1] << 8);
        srom_made made = srom_make_sheet(image.bytes, size, chip, wide, layout, first_edition, again.bytes, again.length);
        check(made.number == SROM_ACCEPTED && made.length == length);
        check(memcmp(again.bytes, lent_sheet.bytes, length) == 0);
        if (layout.magic)
            check(memcmp(image.bytes + size - BLOCK_LENGTH, before.bytes + size - BLOCK_LENGTH, BLOCK_LENGTH) == 0);
        take_back(again);
    }
    take_back(image);
    take_back(before);
    take_back(lent_sheet);
}

/* The wide sheet of an image is its narrow one, widened; but for the larger size, of which there is no narrow one. */
static void check_made_wide(const uint8_t *image, size_t length, srom_arguments arguments, srom_made made, lent buffer)
{
    srom_layout layout = arguments.layout;
    if (layout.size == SROM_LARGE_SIZE)
        return;
    lent narrow = lend(NULL, SROM_LONGEST_SHEET), again = lend(NULL, buffer.length);
    srom_made expected = srom_make_sheet(image, length, arguments.chip, false, layout, arguments.first_edition, narrow.bytes,
                                         narrow.length);
    if (expected.number == SROM_ACCEPTED)
        expected = srom_widen(narrow.bytes, expected.length, again.bytes, again.length);
    check(made.number == expected.number && made.length == expected.length);
    check(memcmp(again.bytes, buffer.bytes, buffer.length) == 0);
    take_back(narrow);
    take_back(again);
}

static void return_image(const uint8_t *image, size_t length, srom_arguments arguments, bool wide, size_t room)
{
    srom_layout layout = arguments.layout;
    bool first_edition = arguments.first_edition;
    lent buffer = lend(NULL, room);
    srom_made made = srom_make_sheet(image, length, arguments.chip, wide, layout, first_edition, buffer.bytes, room);
    reach(wide ? MAKE_WIDE : MAKE, made.number);
    check((made.number == SROM_BAD_IMAGE_LENGTH) == !is_served(length, layout.size, wide));
    check(keeps_the_rest(made, buffer));
    if (wide)
        check_made_wide(image, length, arguments, made, buffer);
    if (made.number == SROM_ACCEPTED) {
        lent back = lend(NULL, length);
        size_t board = length - BLOCK_LENGTH;
        if (layout.magic)
            memcpy(back.bytes + board, image + board, BLOCK_LENGTH);
        check(srom_write(buffer.bytes, made.length, wide, layout, first_edition, back.bytes, length) == SROM_ACCEPTED);
        check(memcmp(back.bytes, image, length) == 0);
        take_back(back);
    }
    take_back(buffer);
}

int LLVMFuzzerTestOneInput(const uint8_t *data, size_t size)
{
    static const uint16_t chips[8] = {21041, 21140, 21142, 21143, 21145, 21143, 21140, 0};
    if (size < HEAD)
        return 0;
    uint8_t flags = data[0];
    bool wide = (flags & WIDE) != 0;
    uint16_t right = flags & LARGE ? SROM_LARGE_SIZE : SROM_SMALL_SIZE, other = (uint16_t)(data[5] | data[6] << 8);
    srom_layout layout = {flags & OTHER_SIZE ? other : right, (flags & MAGIC) != 0};
    bool first_edition = (flags & FIRST) != 0;
    srom_arguments arguments = {chips[data[1] % 8], data[2] % 40, data[3] % 10, layout, first_edition};
    size_t room = data[4], length = flags & OTHER_LENGTH ? other % 1024u : right;
    data += HEAD;
    size -= HEAD;
    if (size < length)
        return 0;
    lent image = lend(data, length);
    if (flags & MENDS)
        mend(image.bytes, length, layout);
    lent as_lent = lend(image.bytes, length);
    check_crcs(image.bytes, length, layout);
    read_and_view(image.bytes, length, arguments, room);
    check_editions(image.bytes, length, arguments);
    return_block(image.bytes, length, layout.size);
    walk_over(image.bytes, length, arguments, data + length, size - length);
    return_image(image.bytes, length, arguments, wide, room * 5);
    return_sheet(data, size, wide, layout, first_edition, right, flags & MENDS);
    return_conversion(data, size, wide);
    check(memcmp(image.bytes, as_lent.bytes, length) == 0);
    take_back(image);
    take_back(as_lent);
    return 0;
}
