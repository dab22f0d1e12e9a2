/* Galtuyeg: Dreamcast system flash partitions, their game slots, and VMU memory cards, on images that the caller lends.
 *
 * Link crates/capi/out/libcapi.a, which `rt lib` in crates/capi makes (x86-64).
 *
 * Every call ends, tests its own input, and reads and writes only inside the buffers it is lent. It answers a number: 0 when it
 * is done, else the refusal's, and then no byte of any buffer has changed. docs/MANUAL.md says what to do about each number.
 *
 * What the caller answers for:
 * - A buffer is a pointer and the length behind it in bytes; so many bytes must be there, writable where the pointer is not to
 *   const. A pointer may be NULL where its length is 0, and only there.
 * - Buffers of one call must not overlap. Only those that it does not write may, as expected page and new page.
 * - Nobody else writes a lent buffer while a call runs, and nobody reads one that the call may write.
 * Nothing is kept between calls: there is no handle to open or close, and calls on buffers of their own may run at the same time.
 */
#ifndef GALTUYEG_H
#define GALTUYEG_H

#include <stddef.h>
#include <stdint.h>

#ifdef __cplusplus
extern "C" {
#endif

/* Raised by 1 whenever a function, a struct or a number of this interface is added or changed. */
#define GALTUYEG_VERSION 5

/* The linked library's GALTUYEG_VERSION. Where it differs from this header's the two don't fit, and nothing else may be called. */
uint32_t galtuyeg_version(void);

/* The numbers that calls answer. */
enum galtuyeg_code {
    GALTUYEG_DONE = 0,

    GALTUYEG_FLASH_WRONG_LENGTH = 1,
    GALTUYEG_FLASH_WRONG_MAGIC = 2,
    GALTUYEG_FLASH_WRONG_PARTITION_NUMBER = 3,
    GALTUYEG_FLASH_WRONG_VERSION = 4,
    GALTUYEG_FLASH_WRONG_SEQUENCE = 5,
    GALTUYEG_FLASH_WRONG_LOGICAL_NUMBER = 6,
    GALTUYEG_FLASH_NOTHING_THERE = 7,
    GALTUYEG_FLASH_WRONG_BUFFER_LENGTH = 8,
    GALTUYEG_FLASH_CHANGED = 9,

    GALTUYEG_CARD_WRONG_LENGTH = 20,
    GALTUYEG_CARD_WRONG_FORMAT = 21,
    GALTUYEG_CARD_WRONG_ROOT = 22,
    GALTUYEG_CARD_WRONG_SYSTEM_BLOCK = 23,
    GALTUYEG_CARD_WRONG_HIDDEN_BLOCK = 24,
    GALTUYEG_CARD_WRONG_USER_BLOCK = 25,
    GALTUYEG_CARD_WRONG_ENTRY = 26,
    GALTUYEG_CARD_WRONG_CHAIN = 27,
    GALTUYEG_CARD_SHARED_BLOCK = 28,
    GALTUYEG_CARD_SAME_NAME = 29,
    GALTUYEG_CARD_WRONG_GAME = 30,
    GALTUYEG_CARD_NO_FILE = 31,
    GALTUYEG_CARD_WRONG_INDEX = 32,
    GALTUYEG_CARD_WRONG_BUFFER_LENGTH = 33,
    GALTUYEG_CARD_NO_ROOM = 34,

    GALTUYEG_FLASH_NO_FREE_SLOT = 40,
    GALTUYEG_FLASH_WRONG_SLOT_HEADER = 41,
    GALTUYEG_FLASH_WRONG_SLOT = 42,
    GALTUYEG_FLASH_WRONG_DATA_BLOCK = 43
};

/* A number in words; never NULL. */
static inline const char *galtuyeg_code_text(uint64_t code)
{
    switch (code) {
    case GALTUYEG_DONE:
        return "done";
    case GALTUYEG_FLASH_WRONG_LENGTH:
        return "the image length is not one of the three, or for slots not 32,768";
    case GALTUYEG_FLASH_WRONG_MAGIC:
        return "the 16 header letters are wrong";
    case GALTUYEG_FLASH_WRONG_PARTITION_NUMBER:
        return "the header number differs from the one named, or for slots the one named is not 3";
    case GALTUYEG_FLASH_WRONG_VERSION:
        return "the version is above 1";
    case GALTUYEG_FLASH_WRONG_SEQUENCE:
        return "an allocated user block follows a free one";
    case GALTUYEG_FLASH_WRONG_LOGICAL_NUMBER:
        return "the logical number is above the top one";
    case GALTUYEG_FLASH_NOTHING_THERE:
        return "nothing is there";
    case GALTUYEG_FLASH_WRONG_BUFFER_LENGTH:
        return "a page or header block is not 60 bytes, the expected page neither 0 nor 60, or the product number not 10";
    case GALTUYEG_FLASH_CHANGED:
        return "the contents differ from the expected page, or only one of them is nothing";
    case GALTUYEG_CARD_WRONG_LENGTH:
        return "the card length is not 131,072";
    case GALTUYEG_CARD_WRONG_FORMAT:
        return "root bytes 0..15 are not all 55";
    case GALTUYEG_CARD_WRONG_ROOT:
        return "the root fields are wrong";
    case GALTUYEG_CARD_WRONG_SYSTEM_BLOCK:
        return "a table entry of blocks 241..255 is wrong";
    case GALTUYEG_CARD_WRONG_HIDDEN_BLOCK:
        return "a table entry of blocks 200..240 is neither FFFC nor FFFF";
    case GALTUYEG_CARD_WRONG_USER_BLOCK:
        return "a user block's table entry is not FFFC, FFFF, FFFA or 0..199";
    case GALTUYEG_CARD_WRONG_ENTRY:
        return "bad directory entry, or bad header offset of a new file";
    case GALTUYEG_CARD_WRONG_CHAIN:
        return "bad chain";
    case GALTUYEG_CARD_SHARED_BLOCK:
        return "a block is also in an earlier entry's file";
    case GALTUYEG_CARD_SAME_NAME:
        return "the name is that of an earlier used entry, or in use already";
    case GALTUYEG_CARD_WRONG_GAME:
        return "the game rule is broken";
    case GALTUYEG_CARD_NO_FILE:
        return "no file of that name, or no used entry from there on";
    case GALTUYEG_CARD_WRONG_INDEX:
        return "the block index is not below the file's size";
    case GALTUYEG_CARD_WRONG_BUFFER_LENGTH:
        return "the name is not 12 bytes, the time not 8, the block buffer not 512, or the data not 1 to 200 whole blocks";
    case GALTUYEG_CARD_NO_ROOM:
        return "fewer user blocks are free than the file has";
    case GALTUYEG_FLASH_NO_FREE_SLOT:
        return "all hundred slots are valid, and none has the product number";
    case GALTUYEG_FLASH_WRONG_SLOT_HEADER:
        return "the two header blocks would not make a slot valid";
    case GALTUYEG_FLASH_WRONG_SLOT:
        return "the slot is above 99 or not valid";
    case GALTUYEG_FLASH_WRONG_DATA_BLOCK:
        return "the data block is neither 0 nor 1";
    default:
        return "unknown number";
    }
}

/* ---- System flash partitions: images of 16,384, 32,768 or 65,536 bytes. `partition` is the number that the header must have.
 *
 * Numbers 0 to 9, tested in the order 1 to 5, 6, 8, then 7 or 9. */

#define GALTUYEG_PAGE_BYTES 60

/* After a refusal all values but `code` are 0. */
struct galtuyeg_report {
    uint64_t code;
    uint64_t version;
    uint64_t capacity; /* user blocks */
    uint64_t used;     /* allocated user blocks */
    uint64_t live;     /* logical numbers with contents */
};

struct galtuyeg_next_live {
    uint64_t code;
    uint64_t number;
};

/* Whether the image is a sound partition: 0 to 5. */
uint32_t galtuyeg_flash_check(const uint8_t *image, size_t image_len, uint8_t partition);

/* 0 to 5. */
struct galtuyeg_report galtuyeg_flash_report(const uint8_t *image, size_t image_len, uint8_t partition);

/* The lowest live number not below `from`, which may be any number: 0 to 5, 7. */
struct galtuyeg_next_live galtuyeg_flash_next_live(const uint8_t *image, size_t image_len, uint8_t partition, uint64_t from);

/* Fills `page`, which is 60 bytes long, with the contents of a number: 0 to 8. */
uint32_t galtuyeg_flash_read(const uint8_t *image, size_t image_len, uint8_t partition, uint64_t number, uint8_t *page,
                             size_t page_len);

/* Saves `page`, 60 bytes, as the contents of a number, if these are still what the writer last saw: `expected` is 60 bytes, or 0
 * for nothing there. A page that is there already changes no byte. 0 to 6, 8, 9. */
uint32_t galtuyeg_flash_save(uint8_t *image, size_t image_len, uint8_t partition, uint64_t number, const uint8_t *expected,
                             size_t expected_len, const uint8_t *page, size_t page_len);

/* Compacts the partition: one block for each live number is kept. 0 to 5. */
uint32_t galtuyeg_flash_erase(uint8_t *image, size_t image_len, uint8_t partition);

/* ---- Game slots: partition 3 alone, 32,768 bytes; any other length is 1, any other `partition` 3.
 *
 * Slot S, 0 to 99, is logical numbers 24 + 4 * S and the three behind it: two header blocks, then data blocks 0 and 1. It is
 * valid when both header blocks have contents and these, 120 bytes, are a right header: 01 FF first, and at 0x70 the flash
 * checksum of bytes 0x02 to 0x6F. The product number is the 10 bytes from 0x02.
 *
 * Numbers 1 to 5, 8, 41, 42, 43, then 7, 9 or 40, tested in this order. After a refusal `slot` is 0. */

#define GALTUYEG_SLOTS 100
#define GALTUYEG_PRODUCT_BYTES 10

struct galtuyeg_slot {
    uint64_t code;
    uint64_t slot;
};

/* The lowest valid slot with this product number, 10 bytes: 0 to 5, 8, 7. */
struct galtuyeg_slot galtuyeg_slot_find(const uint8_t *image, size_t image_len, uint8_t partition, const uint8_t *product,
                                        size_t product_len);

/* The lowest valid slot not below `from`, which may be any number: 0 to 5, 7. */
struct galtuyeg_slot galtuyeg_slot_list(const uint8_t *image, size_t image_len, uint8_t partition, uint64_t from);

/* Gives the slot that galtuyeg_slot_find gives for the product number of this header, two blocks of 60 bytes, and changes
 * nothing. Where there is none it saves the two at the lowest slot that is not valid, and gives that; one of the two that is
 * there already is not written again. 0 to 5, 8, 41, 40. */
struct galtuyeg_slot galtuyeg_slot_claim(uint8_t *image, size_t image_len, uint8_t partition, const uint8_t *first,
                                         size_t first_len, const uint8_t *second, size_t second_len);

/* Fills `page`, 60 bytes, with the contents of data block 0 or 1 of a valid slot: 0 to 5, 8, 42, 43, 7. */
uint32_t galtuyeg_slot_read(const uint8_t *image, size_t image_len, uint8_t partition, uint64_t slot, uint64_t block,
                            uint8_t *page, size_t page_len);

/* Saves `page`, 60 bytes, as the contents of data block 0 or 1 of a valid slot, if these are still what the writer last saw:
 * `expected` is 60 bytes, or 0 for nothing there. A page that is there already changes no byte. 0 to 5, 8, 42, 43, 9. */
uint32_t galtuyeg_slot_save(uint8_t *image, size_t image_len, uint8_t partition, uint64_t slot, uint64_t block,
                            const uint8_t *expected, size_t expected_len, const uint8_t *page, size_t page_len);

/* ---- Memory cards: images of 131,072 bytes.
 *
 * Numbers 0 and 20 to 34, 20 to 30 tested in this order. `place_kind` says what `place` is. After a refusal all values but
 * `code`, `place_kind` and `place` are 0. */

#define GALTUYEG_NAME_BYTES 12
#define GALTUYEG_TIME_BYTES 8
#define GALTUYEG_BLOCK_BYTES 512

enum galtuyeg_place_kind {
    GALTUYEG_WHOLE_CARD = 0, /* `place` is 0 */
    GALTUYEG_BLOCK = 1,
    GALTUYEG_DIRECTORY_ENTRY = 2
};

struct galtuyeg_card_checked {
    uint64_t code;
    uint64_t place_kind;
    uint64_t place;
    uint64_t orphans; /* user blocks in use, but in no file */
};

struct galtuyeg_card_entry {
    uint64_t code;
    uint64_t place_kind;
    uint64_t place;
    uint64_t entry;          /* 0 to 207 */
    uint64_t type;           /* 0x33 data, 0xCC game */
    uint64_t flag;           /* copy flag, any byte */
    uint64_t copy_protected; /* what it says: 1 protected (FF), 0 copyable (any other byte) */
    uint64_t first;          /* first block */
    uint64_t size;           /* in blocks */
    uint64_t offset;
    uint8_t name[GALTUYEG_NAME_BYTES]; /* not ended by a 0 */
    uint8_t time[GALTUYEG_TIME_BYTES];
};

struct galtuyeg_card_verdict {
    uint64_t code;
    uint64_t place_kind;
    uint64_t place;
};

/* Whether the card is sound: 0, 20 to 30. */
struct galtuyeg_card_checked galtuyeg_card_check(const uint8_t *card, size_t card_len);

/* The first used directory entry from entry `from` on, which may be any number: 0, 20 to 31. */
struct galtuyeg_card_entry galtuyeg_card_list(const uint8_t *card, size_t card_len, uint64_t from);

/* Fills `block`, 512 bytes, with block `index` of the file of this name, 12 bytes: 0, 20 to 30, then 33, 31, 32. */
struct galtuyeg_card_verdict galtuyeg_card_read(const uint8_t *card, size_t card_len, const uint8_t *name, size_t name_len,
                                                uint64_t index, uint8_t *block, size_t block_len);

/* Puts a data file onto the card: its name, 12 bytes that no file has; copy flag, any byte; time, 8 bytes; header offset in
 * blocks, below the size; data, 1 to 200 blocks of 512. It takes the highest free blocks, from the highest down, and the
 * lowest unused directory entry. 0, 20 to 30, then 33, 26, 29, 34: here 26 names the whole card, and 29 the entry that has the
 * name. */
struct galtuyeg_card_verdict galtuyeg_card_write(uint8_t *card, size_t card_len, const uint8_t *name, size_t name_len,
                                                 uint8_t flag, const uint8_t *time, size_t time_len, uint64_t offset,
                                                 const uint8_t *data, size_t data_len);

/* Takes the file of this name, 12 bytes, data or game, off the card: its blocks become free and keep their bytes, its directory
 * entry becomes zeros. 0, 20 to 30, then 33, 31. */
struct galtuyeg_card_verdict galtuyeg_card_delete(uint8_t *card, size_t card_len, const uint8_t *name, size_t name_len);

#ifdef __cplusplus
}
#endif

#endif
