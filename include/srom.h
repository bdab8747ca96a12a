/*
 * The 21X4 serial ROM of Ethernet cards: reading, writing and the autosense walk.
 *
 * Link libsrom.a, which `rt lib` in crates/srom writes to crates/srom/out. Every function below is proved to end and to answer
 * exactly what documents 01 and 02 define, for every input: any bytes, any length, any arguments. None keeps a pointer,
 * allocates, or reads or writes anything but what it is lent.
 *
 * An array is lent as a pointer and its length in elements. A length of 0 may come with any pointer that is not null.
 * Arrays that are lent to one call for writing do not overlap each other or what is read.
 *
 * A refusal is a number other than 0: the first of the causes below that is met, in the order that each call gives. On a
 * refusal every other field of the answer is 0 and what was lent is unchanged; a walk is handed back as it was.
 */
#ifndef SROM_H
#define SROM_H

#include <stdbool.h>
#include <stddef.h>
#include <stdint.h>

#ifdef __cplusplus
extern "C" {
#endif

/* ---- Numbers ---- */

enum {
    SROM_SMALL_SIZE = 128,          /* bytes of an image: of a ROM of 1K bits, or */
    SROM_LARGE_SIZE = 512,          /* of one of 4K bits */
    SROM_LONGEST_SHEET = 398,       /* bytes of the longest narrow sheet of an accepted image, and */
    SROM_LONGEST_WIDE_SHEET = 1272, /* of the longest wide one; of an image of 128 bytes that has 400 */
    SROM_NEWEST_LEVEL = 7,          /* a reader of level n knows the extended types below n */
    SROM_NONE = 255                 /* no default block, no selected block */
};

/* Why a call is refused. */
enum {
    SROM_ACCEPTED = 0,
    SROM_BAD_IMAGE_LENGTH = 1,     /* image not of the stated size, or a stated size neither 128 nor 512, or not 128 with a
                                      narrow sheet */
    SROM_BAD_VERSION = 2,          /* version neither 1, 3 nor 4 */
    SROM_BAD_SROM_CRC = 3,         /* SROM CRC differs */
    SROM_BAD_ID_CRC = 4,           /* ID CRC differs */
    SROM_BAD_COUNT = 5,            /* controller count not 1 to 32 (20 in 128 bytes with a Magic Packet block), or the reserved
                                      byte behind the controllers not 0 */
    SROM_NO_CONTROLLER = 6,        /* controller not below the count */
    SROM_NO_CHIP = 7,              /* none of the chips below */
    SROM_BAD_LEVEL = 8,            /* level over SROM_NEWEST_LEVEL */
    SROM_BAD_ADDRESS = 9,          /* base address and controller over 2^48 - 1 */
    SROM_LEAF_OUTSIDE = 10,        /* leaf header not between the controllers and the maker's bytes */
    SROM_BAD_CONNECTION = 11,      /* connection type that the chip does not take, or in version 1 the edition */
    SROM_ARRAY_TOO_SHORT = 12,     /* lent array shorter than the block count, or sheet buffer too short */
    SROM_BLOCK_OUTSIDE = 13,       /* block that does not end before the maker's bytes */
    SROM_BAD_BLOCK_TYPE = 14,      /* extended length 0, or a compact block or known type that the chip does not permit, or any
                                      extended block in version 1 */
    SROM_BAD_BLOCK_LENGTH = 15,    /* length wrong for the type, or a sequence's count (g or r) past the block's end */
    SROM_BAD_BLOCK_CODE = 16,      /* media code or reserved bits */
    SROM_BAD_ADVERTISEMENT = 17,   /* a PHY advertises what it is not capable of */
    SROM_CLASHING_BLOCKS = 18,     /* two resets, a reset and a PHY that resets, or two defaults */
    SROM_BAD_REPORT = 19,          /* report shorter than the block count, or one of those bytes above 1 */
    SROM_WALK_FRESH = 20,          /* look at a walk that is not loaded */
    SROM_WALK_LOADED = 21,         /* load of a walk that is loaded */
    SROM_TOO_MANY_LOOKS = 23,      /* 65,535 looks */
    SROM_BAD_SHEET = 24,           /* sheet length or sum of sizes, by the sheet's form */
    SROM_BAD_SHEET_ENTRY = 25,     /* kind, body or control byte that no image of the chip can hold */
    SROM_LEAF_TOO_LONG = 26,       /* leaf of a sheet that does not end before the maker's bytes */
    SROM_NOT_TIDY = 27,            /* more than one controller, leaf not at 30, or bytes behind the leaf not 0 */
    SROM_BAD_MAGIC_CRC = 29,       /* CRC of the Magic Packet block differs */
    SROM_BAD_MAGIC_RESERVED = 30,  /* reserved byte of the Magic Packet block not 0 */
    SROM_REPEATED_MODE = 31,       /* a bit of the mode byte set in two power blocks (type 6) */
    SROM_NO_FIXED_MEDIUM = 32,     /* look under a fixed connection type whose medium no entry has */
    SROM_SHEET_TOO_LARGE = 33,     /* over 255 blocks in a wide sheet or, when it is narrowed, over 255 body bytes */
    SROM_FIRST_VERSION_CHIP = 38   /* version 1 with a chip other than 21041 and 21140 */
};

/* Chips, by their decimal numbers. The 21140A counts as 21140. */
enum { SROM_21041 = 21041, SROM_21140 = 21140, SROM_21142 = 21142, SROM_21143 = 21143, SROM_21145 = 21145 };

/* Kinds of blocks: an extended block's type (0 to 255), or one of these. */
enum { SROM_KIND_COMPACT = 256, SROM_KIND_21041 = 257 };

/* Connection types that are autosensed; every other is fixed to a medium. */
enum {
    SROM_AUTOSENSE = 0x0800,       /* autosensed at every look */
    SROM_AUTOSENSE_NWAY = 0x0900,  /* autosensed at every look */
    SROM_AUTOSENSE_ONCE = 0x8800,  /* autosensed once: a settled walk stays on its block */
    SROM_EMPTY_CONNECTION = 0xFFFF /* the maker selected nothing: walked as SROM_AUTOSENSE_ONCE */
};

/* ---- Layout ---- */

/*
 * How many bytes an image should have, and whether a Magic Packet block, by which a card wakes its station, stands at its end.
 * Nothing in the image says either: the caller does. An image of another length is refused, and so is any other size than 128
 * and 512; the block is judged only where it is said to be there. Both move what stands at the end of the board's part:
 *
 *                          128 bytes    and the block    512 bytes    and the block
 *     leaves end before    124          92               508          476
 *     the maker's bytes    124, 125     92, 93           508, 509     476, 477
 *     SROM CRC             126, 127     94, 95           510, 511     478, 479
 *     which covers         0 to 125     0 to 93          0 to 509     0 to 477
 *     controllers          1 to 32      1 to 20          1 to 32      1 to 32
 *     the block            none         96 to 127        none         480 to 511
 */
typedef struct srom_layout {
    uint16_t size; /* bytes of the image: SROM_SMALL_SIZE or SROM_LARGE_SIZE */
    bool magic;    /* the block is there */
} srom_layout;

/* ---- Editions ---- */

/*
 * The first cards have version 1, and with it the chips 21041 and 21140 alone, and 21041 and compact blocks alone: no extended
 * block, whatever the reader's level. Edition 1.00 of the format had other codes for two connection types than 1.01 and all that
 * followed. Nothing in the image says which edition it is of: the caller does, by first_edition. Each edition reads its own
 * code, for the chips that have the type, and not the other's; all other types are those of both:
 *
 *     1.00      1.01      chips            a walk takes it as
 *     0x0200    0x0204    21041, 21140     0x0204
 *     0x0203    0x0205    21140            0x0205
 *
 * The code is kept as it was read, in an answer, in a walk and in a sheet. Versions 3 and 4 ignore the edition, and have the
 * codes of 1.01.
 */

/* ---- Checksums ---- */

typedef struct srom_checksum {
    uint8_t number;
    uint16_t value;
} srom_checksum;

/* The CRC that the board's last two bytes, which the table above has, should hold, low byte first. Refusal: 1. */
srom_checksum srom_crc(const uint8_t *image, size_t image_length, srom_layout layout);

/* The CRC that byte 16 of an image of this size should hold. Refusal: 1. */
srom_checksum srom_id_crc(const uint8_t *image, size_t image_length, uint16_t size);

/* The CRC that the Magic Packet block of an image of this size should hold, in byte 126 or 510. Refusal: 1. */
srom_checksum srom_magic_crc(const uint8_t *image, size_t image_length, uint16_t size);

/* ---- Reading ---- */

/*
 * Which controller of a card to read, from 0, for which chip, how many extended types the reader knows, the layout, and the
 * edition of an image of version 1.
 */
typedef struct srom_arguments {
    uint16_t chip;
    uint8_t controller;
    uint8_t level;
    srom_layout layout;
    bool first_edition; /* 1.00, and not 1.01; versions 3 and 4 ignore it */
} srom_arguments;

typedef struct srom_answer {
    uint8_t number;
    uint16_t connection;    /* connection type of the leaf, as it was read */
    uint8_t control;        /* general purpose control byte; 0 but for the 21140 */
    uint64_t address;       /* the controller's station address, the first byte in bits 47:40 */
    uint8_t blocks;         /* blocks of the leaf: listed + resets + skipped + power */
    uint8_t listed;         /* entries of the media table */
    uint8_t resets;         /* known type 5 blocks */
    uint8_t skipped;        /* blocks of types that the reader does not know */
    uint8_t power;          /* known type 6 blocks, by which the PHY is shut down; 0 below level 7 */
    uint8_t default_number; /* block number of the default medium, or SROM_NONE */
} srom_answer;

/*
 * The media table of a controller's leaf, in autosense order: kinds and byte offsets of the listed blocks, from the last block
 * to the first. Elements behind the listed ones are unchanged; on a refusal both arrays are. Arrays of 255 elements are long
 * enough for every image that is accepted, and of 91 for one of 128 bytes.
 * Refusals: 1 to 4, 29 and 30 where the layout has the Magic Packet block, 5 to 7, 38, 8 to 18, 31, in this order, the blocks
 * judged one after another (13 to 17 each), then 18 and 31 over all that the reader knows.
 */
srom_answer srom_read(const uint8_t *image, size_t image_length, srom_arguments arguments,
                      uint16_t *kinds, size_t kinds_length, uint16_t *offsets, size_t offsets_length);

/* A part of the image: its first byte is image[start]. */
typedef struct srom_part {
    size_t start;
    size_t length;
} srom_part;

/*
 * The block of an entry of the media table, counted from 0. Start and length are 0 where the image is refused (12 apart, since
 * no array is lent) or the table has no such entry.
 */
srom_part srom_view(const uint8_t *image, size_t image_length, srom_arguments arguments, size_t entry);

/* ---- The Magic Packet block ---- */

/*
 * The 21143 from revision 2.0 on and the 21145 have it, in the last 32 bytes of an image. Words stand low byte first:
 *
 *     of 128      of 512      holds
 *     96 to 101   480 to 485  SecureON password, its first byte first; the 21145 takes none, and has zeros here
 *     102 to 107  486 to 491  IEEE address that packets must have to wake the station, its first byte first
 *     108, 109    492, 493    command (word)
 *     110 to 125  494 to 509  reserved, 0
 *     126         510         the CRC of the block's words but the last, and then its last byte, by the rule of the ID CRC
 *     127         511         reserved, 0
 *
 * The command's bits: 0 MAGIC_DIS, do not wake; 1 Sec_ON_En, the packet must have the password; the media that are sensed
 * meanwhile, 3 BNC, 4 AUI or, on the 21145, HomeRun, 5 TP10, 6 MII, 7 SYM; 8 LOCK, the command register cannot be read or
 * written. The others are 0. Password, address and command are kept as they stand, and none of their bits is judged.
 */
typedef struct srom_magic {
    uint8_t password[6];
    uint8_t address[6];
    uint16_t command;
} srom_magic;

typedef struct srom_magic_answer {
    uint8_t number;
    srom_magic magic;
} srom_magic_answer;

/* What the block of an image of this size says, whatever stands before it. Refusals: 1, 29, 30. */
srom_magic_answer srom_read_magic(const uint8_t *image, size_t image_length, uint16_t size);

/*
 * Writes the block, its reserved bytes and its CRC included, to the last 32 bytes of an image of this size, and changes no
 * other byte. What was written is read back. Refusal: 1.
 */
uint8_t srom_write_magic(srom_magic magic, uint8_t *image, size_t image_length, uint16_t size);

/* ---- The autosense walk ---- */

/* A row of flags for each property, by block number, of which the highest is 254. */
typedef struct srom_rows {
    uint8_t listed[256];         /* 1 for an entry of the media table */
    uint8_t active_invalid[256]; /* 1 for an entry with Active_Invalid */
    uint8_t fixed[256];          /* 1 for an entry with the medium of a fixed connection type; all 0 under other types */
} srom_rows;

/* A walk's state, passed and returned by value. A load sets the first five fields, and a look changes the last four. */
typedef struct srom_walk {
    bool loaded;
    uint16_t connection;
    uint8_t blocks;
    srom_rows rows;
    uint8_t default_number; /* or SROM_NONE */
    bool settled;           /* whether a look since the load has selected an entry because its link was up, or because it has
                               the fixed medium */
    uint8_t selected;       /* block number that the last look selected, or SROM_NONE; SROM_NONE before the first look */
    uint16_t looks;         /* looks accepted since the load */
    uint16_t switches;      /* how many of them selected another block than was selected before, none counting as one */
} srom_walk;

typedef struct srom_walked {
    uint8_t number;
    srom_walk walk;
} srom_walked;

/* A fresh walk. */
srom_walk srom_fresh(void);

/* Loads the walk with an image. Refusals: 21, then those of srom_read without 12. */
srom_walked srom_load(srom_walk walk, const uint8_t *image, size_t image_length, srom_arguments arguments);

/*
 * Looks at the links, one byte a block, 1 up and 0 down; later bytes are ignored.
 * Where the connection type is autosensed:
 * 1. A settled walk with a block selected stays on it where the connection type is SROM_AUTOSENSE_ONCE or
 *    SROM_EMPTY_CONNECTION, or the block has Active_Invalid, or its link is up.
 * 2. Otherwise it selects the first entry in table order whose link is up (once settled, among those without Active_Invalid)
 *    and is settled from then on. With none up it selects the default, or none where there is no default, which neither
 *    settles nor unsettles it.
 * Where it is fixed:
 *    The walk selects the first entry in table order that has the medium, and is settled from then on; links, Active_Invalid
 *    and the default play no part. The codes of edition 1.00 are taken as those of 1.01, 0x0200 as 0x0204 and 0x0203 as 0x0205.
 *    A type whose low byte is below 9 means an entry with that media code, which no PHY has; any other a PHY with the
 *    capability bit that it names, 0x0009 bit 11, 0x020A bit 12, 0x000D bit 13, 0x020E bit 14 and 0x000F bit 15; 0x0010 and
 *    0x0211 name none. The report is judged as ever.
 * Then:
 * 3. Looks rise by 1, and switches too if the selection is another than before; from none to a block, or back, is a switch.
 * Refusals: 20, 32, 23, 19.
 */
srom_walked srom_look(srom_walk walk, const uint8_t *report, size_t report_length);

/* Makes the walk fresh. Always succeeds. */
srom_walked srom_clear(srom_walk walk);

/* ---- Sheets ---- */

/*
 * A sheet says what an image of one controller holds, without what can be worked out: CRCs, offsets, lengths of blocks. N is
 * the number of blocks, T the sum of the body sizes. A sheet has one of two forms, which the caller names; no bytes are a sheet
 * in both. A narrow one has N and T in a byte each and exactly 34 + 3 * N + T bytes, and is of an image of 128 bytes: with any
 * other stated size it is neither written nor made. A wide one has them in a word each, and all that follows two bytes later:
 * exactly 36 + 3 * N + T bytes; it is of an image of either size. Words stand low byte first:
 *
 *     narrow      wide        holds
 *     0           0, 1        N
 *     1           2, 3        T
 *     2 to 17     4 to 19     bytes 0 to 15 of the ID block
 *     18          20          byte 17 of the ID block (byte 16 is the ID CRC)
 *     19          21          version, 1, 3 or 4
 *     20 to 25    22 to 27    station address, most significant byte first
 *     26          28          device number
 *     27, 28      29, 30      chip (word), its decimal number
 *     29, 30      31, 32      connection type (word)
 *     31          33          general purpose control byte; 0 but for the 21140
 *     32, 33      34, 35      the maker's bytes, which the image has where the table of the layout says
 *     34          36          N kinds (words): an extended block's type, SROM_KIND_COMPACT or SROM_KIND_21041
 *     34 + 2 * N  36 + 2 * N  N body sizes (bytes)
 *     34 + 3 * N  36 + 3 * N  T bytes, the N bodies: an extended block without its length and its type, any other block whole
 *
 * Kinds, sizes and bodies stand in the order of block numbers. The blocks of an image stand from byte 33 on, and a block has 3
 * bytes of the sheet beside its body. So the longest sheets are of the 21041, whose blocks have 1 byte or 7: of 128 bytes with
 * 91 blocks of 1 byte, 34 + 3 * 91 + 91, which is SROM_LONGEST_SHEET, and 400 in the wide form; of 512 bytes with 255 blocks,
 * the most that a leaf counts, and 36 of them of 7 bytes, 36 + 3 * 255 + 471, which is SROM_LONGEST_WIDE_SHEET.
 */

typedef struct srom_made {
    uint8_t number;
    size_t length; /* of the sheet that was made, in bytes */
} srom_made;

/*
 * Writes the image of a sheet, wide or narrow: one controller, its leaf at byte 30, both CRCs, zeros elsewhere. With a Magic
 * Packet block that is all before the block; the block is kept as the image has it, and judged with the rest, so it must stand
 * there before the call (srom_write_magic). A sheet of version 1 is judged by the edition. The image is unchanged on a refusal.
 * Refusals: 24, 33 for over 255 blocks, 1, for a narrow sheet and any size but 128 too, 7, 25, 26, then those of srom_read
 * without 12 for controller 0 at the newest level in the layout and the edition.
 */
uint8_t srom_write(const uint8_t *sheet, size_t sheet_length, bool wide, srom_layout layout, bool first_edition,
                   uint8_t *image, size_t image_length);

/*
 * Makes the sheet of a tidy image, wide or narrow, blocks of unknown types included; a Magic Packet block is no part of it.
 * Bytes of the buffer behind the sheet are unchanged; on a refusal all of them are. Writing the sheet gives the image back,
 * with a Magic Packet block where the same block stands there already, and a sheet that was written comes back byte for byte.
 * A buffer of SROM_LONGEST_SHEET bytes is long enough for every narrow sheet, of SROM_LONGEST_WIDE_SHEET for every wide one.
 * Refusals: 1, for a narrow sheet and any size but 128 too, then the others of srom_read without 12 for controller 0 at the
 * newest level in the layout and the edition, then 27, then 12.
 */
srom_made srom_make_sheet(const uint8_t *image, size_t image_length, uint16_t chip, bool wide, srom_layout layout,
                          bool first_edition, uint8_t *buffer, size_t buffer_length);

/*
 * The wide sheet that says what a narrow one says. Nothing of it is judged but its length and sum, so no edition is named.
 * Bytes of the buffer behind the wide sheet are unchanged; on a refusal all of them are. Narrowing it gives the narrow sheet
 * back. To an image of 128 bytes both are written alike, on a refusal with the same number, and the wide sheet made of one is
 * the narrow one widened.
 * Refusals: 24, 12.
 */
srom_made srom_widen(const uint8_t *sheet, size_t sheet_length, uint8_t *buffer, size_t buffer_length);

/*
 * The narrow sheet that says what a wide one says, in the same way. Widening it gives the wide sheet back.
 * Refusals: 24, 33 for over 255 blocks or body bytes, 12.
 */
srom_made srom_narrow(const uint8_t *sheet, size_t sheet_length, uint8_t *buffer, size_t buffer_length);

#ifdef __cplusplus
}
#endif

#endif
