/* Each call of include/galtuyeg.h from C, where it is done and where it is refused, then with its buffers as they were; NULL
 * for each buffer, of length 0; the version, and the numbers' texts.
 * Ends with a line that counts the facts tested, or with the first that fails and status 1. */
#include <stdio.h>
#include <stdlib.h>
#include <string.h>

#include "galtuyeg.h"

#define PARTITION_BYTES 32768
#define CARD_BYTES 131072
#define MOST_BLOCKS 200
#define HEADER_BYTES (2 * GALTUYEG_PAGE_BYTES)

static int tested = 0;

/* What is written: the first bytes of these. Both are longer than a write takes. */
static const uint8_t time_bytes[GALTUYEG_TIME_BYTES + 1] = {0x19, 0x99, 0x11, 0x15, 0x23, 0x59, 0x58, 0x00};
static uint8_t data[(MOST_BLOCKS + 1) * GALTUYEG_BLOCK_BYTES];

#define CHECK(fact) check((fact), #fact, __LINE__)

static void check(int holds, const char *fact, int line)
{
    tested++;
    if (!holds) {
        printf("interface.c:%d: not so: %s\n", line, fact);
        exit(1);
    }
}

static void put_word(uint8_t *at, unsigned value)
{
    at[0] = (uint8_t)(value % 256);
    at[1] = (uint8_t)(value / 256);
}

/* An empty partition 3 of version 1. */
static void format_partition(uint8_t *image)
{
    memset(image, 0xFF, PARTITION_BYTES);
    memcpy(image, "KATANA_FLASH____\x03\x01", 18);
}

static void put_link(uint8_t *card, unsigned block, unsigned link)
{
    put_word(card + 254 * 512 + 2 * block, link);
}

/* A card with no file. */
static void blank_card(uint8_t *card)
{
    uint8_t *root = card + 255 * 512;
    unsigned block;

    memset(card, 0, CARD_BYTES);
    for (block = 0; block < 241; block++)
        put_link(card, block, 0xFFFC);
    for (block = 242; block < 254; block++)
        put_link(card, block, block - 1);
    put_link(card, 241, 0xFFFA);
    put_link(card, 254, 0xFFFA);
    put_link(card, 255, 0xFFFA);
    memset(root, 0x55, 16);
    put_word(root + 0x46, 254);
    put_word(root + 0x48, 1);
    put_word(root + 0x4A, 253);
    put_word(root + 0x4C, 13);
    put_word(root + 0x50, 200);
}

/* A card with one data file of one block, `SAVE________` in block 199, and one orphan, block 0. */
static void format_card(uint8_t *card)
{
    uint8_t *entry = card + 253 * 512;

    blank_card(card);
    put_link(card, 199, 0xFFFA);
    put_link(card, 0, 0xFFFA);
    entry[0] = 0x33;
    entry[1] = 0xFF;
    put_word(entry + 2, 199);
    memcpy(entry + 4, "SAVE________", 12);
    memcpy(entry + 16, "\x19\x99\x11\x15\x23\x59\x58\x06", 8);
    put_word(entry + 0x18, 1);
    memset(card + 199 * 512, 0xA5, 512);
}

static void version_and_texts(void)
{
    const char *unknown = galtuyeg_code_text(UINT64_MAX);
    uint64_t code;

    CHECK(galtuyeg_version() == GALTUYEG_VERSION);
    CHECK(strcmp(unknown, "unknown number") == 0);
    for (code = 0; code < 100; code++) {
        int known = code <= GALTUYEG_FLASH_CHANGED
            || (code >= GALTUYEG_CARD_WRONG_LENGTH && code <= GALTUYEG_CARD_NO_ROOM)
            || (code >= GALTUYEG_FLASH_NO_FREE_SLOT && code <= GALTUYEG_FLASH_WRONG_DATA_BLOCK);
        CHECK((strcmp(galtuyeg_code_text(code), unknown) != 0) == known);
    }
    CHECK(strcmp(galtuyeg_code_text(5), "an allocated user block follows a free one") == 0);
    CHECK(strcmp(galtuyeg_code_text(28), "a block is also in an earlier entry's file") == 0);
    CHECK(strcmp(galtuyeg_code_text(34), "fewer user blocks are free than the file has") == 0);
    CHECK(strcmp(galtuyeg_code_text(42), "the slot is above 99 or not valid") == 0);
}

static void flash_calls(uint8_t *image, uint8_t *before)
{
    uint8_t first[GALTUYEG_PAGE_BYTES], second[GALTUYEG_PAGE_BYTES], page[GALTUYEG_PAGE_BYTES];
    struct galtuyeg_report report;
    struct galtuyeg_next_live next;

    memset(first, 1, sizeof first);
    memset(second, 2, sizeof second);
    format_partition(image);
    CHECK(galtuyeg_flash_check(image, PARTITION_BYTES, 3) == 0);
    CHECK(galtuyeg_flash_check(image, PARTITION_BYTES, 2) == 3);
    CHECK(galtuyeg_flash_check(NULL, 0, 3) == 1);
    CHECK(galtuyeg_flash_save(image, PARTITION_BYTES, 3, 24, NULL, 0, first, sizeof first) == 0);
    memcpy(before, image, PARTITION_BYTES);
    CHECK(galtuyeg_flash_save(image, PARTITION_BYTES, 3, 24, NULL, 0, second, sizeof second) == 9);
    CHECK(galtuyeg_flash_save(image, PARTITION_BYTES, 3, 510, NULL, 0, NULL, 0) == 6);
    CHECK(galtuyeg_flash_save(NULL, 0, 3, 24, NULL, 0, second, sizeof second) == 1);
    CHECK(galtuyeg_flash_erase(image, PARTITION_BYTES, 2) == 3);
    CHECK(memcmp(image, before, PARTITION_BYTES) == 0 && second[0] == 2 && second[59] == 2);
    CHECK(galtuyeg_flash_save(image, PARTITION_BYTES, 3, 24, first, sizeof first, second, sizeof second) == 0);

    report = galtuyeg_flash_report(image, PARTITION_BYTES, 3);
    CHECK(report.code == 0 && report.version == 1 && report.capacity == 510 && report.used == 2 && report.live == 1);
    report = galtuyeg_flash_report(NULL, 0, 3);
    CHECK(report.code == 1 && report.version == 0 && report.capacity == 0 && report.used == 0 && report.live == 0);

    next = galtuyeg_flash_next_live(image, PARTITION_BYTES, 3, 0);
    CHECK(next.code == 0 && next.number == 24);
    next = galtuyeg_flash_next_live(image, PARTITION_BYTES, 3, UINT64_MAX);
    CHECK(next.code == 7 && next.number == 0);
    CHECK(galtuyeg_flash_next_live(NULL, 0, 3, 0).code == 1);

    memset(page, 9, sizeof page);
    memcpy(before, page, sizeof page);
    CHECK(galtuyeg_flash_read(image, PARTITION_BYTES, 3, 23, page, sizeof page) == 7);
    CHECK(galtuyeg_flash_read(NULL, 0, 3, 24, page, sizeof page) == 1);
    CHECK(memcmp(page, before, sizeof page) == 0);
    CHECK(galtuyeg_flash_read(image, PARTITION_BYTES, 3, 24, page, sizeof page) == 0);
    CHECK(memcmp(page, second, sizeof page) == 0);
    CHECK(galtuyeg_flash_read(image, PARTITION_BYTES, 3, 24, NULL, 0) == 8);

    CHECK(galtuyeg_flash_erase(image, PARTITION_BYTES, 3) == 0);
    CHECK(galtuyeg_flash_report(image, PARTITION_BYTES, 3).used == 1);
    CHECK(galtuyeg_flash_erase(NULL, 0, 3) == 1);
}

/* A page that is there already, handed in twice by one pointer, and the refusals of such a save; then pages that look like
 * nothing where nothing is. */
static void idle_saves(uint8_t *image, uint8_t *before)
{
    static const uint8_t zeros[GALTUYEG_PAGE_BYTES];
    uint8_t page[GALTUYEG_PAGE_BYTES], other[GALTUYEG_PAGE_BYTES];

    memset(page, 1, sizeof page);
    memset(other, 0xFF, sizeof other);
    format_partition(image);
    CHECK(galtuyeg_flash_save(image, PARTITION_BYTES, 3, 24, NULL, 0, page, sizeof page) == 0);
    memcpy(before, image, PARTITION_BYTES);
    CHECK(galtuyeg_flash_save(image, PARTITION_BYTES, 3, 24, page, sizeof page, page, sizeof page) == 0);
    CHECK(galtuyeg_flash_save(image, PARTITION_BYTES, 3, 24, other, sizeof other, page, sizeof page) == 9);
    CHECK(galtuyeg_flash_save(image, PARTITION_BYTES, 3, 24, NULL, 0, page, sizeof page) == 9);
    CHECK(galtuyeg_flash_save(image, PARTITION_BYTES, 3, 25, page, sizeof page, page, sizeof page) == 9);
    CHECK(galtuyeg_flash_save(image, PARTITION_BYTES, 3, 24, page, 59, page, 59) == 8);
    CHECK(galtuyeg_flash_save(image, PARTITION_BYTES, 3, 510, page, sizeof page, page, sizeof page) == 6);
    CHECK(galtuyeg_flash_save(image, PARTITION_BYTES, 2, 24, page, sizeof page, page, sizeof page) == 3);
    CHECK(memcmp(image, before, PARTITION_BYTES) == 0);

    CHECK(galtuyeg_flash_save(image, PARTITION_BYTES, 3, 25, NULL, 0, zeros, sizeof zeros) == 0);
    CHECK(galtuyeg_flash_save(image, PARTITION_BYTES, 3, 26, NULL, 0, other, sizeof other) == 0);
    CHECK(galtuyeg_flash_report(image, PARTITION_BYTES, 3).live == 3);
}

/* The flash checksum, as the published routine works it. */
static unsigned flash_checksum(const uint8_t *bytes, size_t length)
{
    unsigned sum = 0xFFFF;
    size_t i;
    int bit;

    for (i = 0; i < length; i++) {
        sum ^= (unsigned)bytes[i] << 8;
        for (bit = 0; bit < 8; bit++)
            sum = sum & 0x8000 ? sum << 1 ^ 4129 : sum << 1;
    }
    return ~sum & 0xFFFF;
}

/* A right header of a slot whose product number ends in `last`. */
static void make_header(uint8_t *header, unsigned last)
{
    memset(header, 0xFF, HEADER_BYTES);
    memcpy(header, "\x01\xFFT-40502D0", 11);
    header[11] = (uint8_t)last;
    memset(header + 12, 0x20, 100);
    put_word(header + 0x70, flash_checksum(header + 2, 110));
}

static struct galtuyeg_slot claim(uint8_t *image, const uint8_t *header)
{
    return galtuyeg_slot_claim(image, PARTITION_BYTES, 3, header, 60, header + 60, 60);
}

static int at_slot(struct galtuyeg_slot answer, uint64_t slot)
{
    return answer.code == 0 && answer.slot == slot;
}

static int no_slot(struct galtuyeg_slot answer, uint64_t code)
{
    return answer.code == code && answer.slot == 0;
}

/* All hundred slots, the one that is refused, and a slot made free by a wrong header block. */
static void slot_claims(uint8_t *image, uint8_t *before)
{
    uint8_t header[HEADER_BYTES], page[GALTUYEG_PAGE_BYTES];
    unsigned i;

    format_partition(image);
    make_header(header, 0);
    CHECK(no_slot(galtuyeg_slot_find(image, PARTITION_BYTES, 3, header + 2, 10), 7));
    CHECK(no_slot(galtuyeg_slot_list(image, PARTITION_BYTES, 3, 0), 7));
    for (i = 0; i < GALTUYEG_SLOTS; i++) {
        make_header(header, i);
        CHECK(at_slot(claim(image, header), i));
        CHECK(at_slot(galtuyeg_slot_find(image, PARTITION_BYTES, 3, header + 2, 10), i));
        CHECK(at_slot(galtuyeg_slot_list(image, PARTITION_BYTES, 3, i), i));
    }
    CHECK(galtuyeg_flash_report(image, PARTITION_BYTES, 3).used == 200);
    CHECK(galtuyeg_flash_read(image, PARTITION_BYTES, 3, 421, page, sizeof page) == 0);
    CHECK(memcmp(page, header + 60, 60) == 0);
    CHECK(no_slot(galtuyeg_slot_list(image, PARTITION_BYTES, 3, UINT64_MAX), 7));

    memcpy(before, image, PARTITION_BYTES);
    CHECK(at_slot(claim(image, header), 99));
    make_header(header, 100);
    CHECK(no_slot(claim(image, header), 40));
    header[0x70] ^= 1;
    CHECK(no_slot(claim(image, header), 41));
    CHECK(memcmp(image, before, PARTITION_BYTES) == 0);
    CHECK(galtuyeg_flash_save(image, PARTITION_BYTES, 3, 421, page, sizeof page, header + 60, 60) == 0);
    header[0x70] ^= 1;
    CHECK(at_slot(claim(image, header), 99));

    /* the first block is there already, so the claim that mends the second uses one block */
    CHECK(galtuyeg_flash_save(image, PARTITION_BYTES, 3, 421, header + 60, 60, page, sizeof page) == 0);
    CHECK(galtuyeg_flash_report(image, PARTITION_BYTES, 3).used == 204);
    CHECK(at_slot(claim(image, header), 99));
    CHECK(galtuyeg_flash_report(image, PARTITION_BYTES, 3).used == 205);
}

/* The data blocks of slot 1, which are numbers 30 and 31. */
static void slot_pages(uint8_t *image)
{
    uint8_t header[HEADER_BYTES], page[GALTUYEG_PAGE_BYTES], new_page[GALTUYEG_PAGE_BYTES], before[GALTUYEG_PAGE_BYTES];
    uint64_t block;

    format_partition(image);
    make_header(header, 7);
    CHECK(at_slot(claim(image, header), 0));
    make_header(header, 8);
    CHECK(at_slot(claim(image, header), 1));
    for (block = 0; block < 2; block++) {
        memset(page, 9, sizeof page);
        memcpy(before, page, sizeof page);
        memset(new_page, (int)block, sizeof new_page);
        CHECK(galtuyeg_slot_read(image, PARTITION_BYTES, 3, 1, block, page, sizeof page) == 7);
        CHECK(memcmp(page, before, sizeof page) == 0);
        CHECK(galtuyeg_slot_save(image, PARTITION_BYTES, 3, 1, block, page, 60, new_page, 60) == 9);
        CHECK(galtuyeg_slot_save(image, PARTITION_BYTES, 3, 1, block, NULL, 0, page, 60) == 0);
        CHECK(galtuyeg_slot_save(image, PARTITION_BYTES, 3, 1, block, NULL, 0, page, 60) == 9);
        CHECK(galtuyeg_slot_save(image, PARTITION_BYTES, 3, 1, block, page, 60, new_page, 60) == 0);
        CHECK(galtuyeg_slot_read(image, PARTITION_BYTES, 3, 1, block, page, sizeof page) == 0);
        CHECK(memcmp(page, new_page, sizeof page) == 0);
        CHECK(galtuyeg_flash_read(image, PARTITION_BYTES, 3, 30 + block, page, sizeof page) == 0);
        CHECK(memcmp(page, new_page, sizeof page) == 0);
        CHECK(galtuyeg_slot_save(image, PARTITION_BYTES, 3, 1, block, page, 60, new_page, 60) == 0);
        CHECK(galtuyeg_flash_report(image, PARTITION_BYTES, 3).used == 6 + 2 * block);
    }
}

/* After slot_pages: numbers, lengths and NULL, in their order. */
static void slot_refusals(uint8_t *image, uint8_t *before)
{
    static const uint64_t high[] = {2, 100, (uint64_t)1 << 32, UINT64_MAX};
    uint8_t header[HEADER_BYTES], page[GALTUYEG_PAGE_BYTES];
    size_t i;

    make_header(header, 9);
    memset(page, 9, sizeof page);
    memcpy(before, image, PARTITION_BYTES);
    for (i = 0; i < sizeof high / sizeof *high; i++) {
        CHECK(galtuyeg_slot_read(image, PARTITION_BYTES, 3, high[i], high[i], page, sizeof page) == 42);
        CHECK(galtuyeg_slot_save(image, PARTITION_BYTES, 3, high[i], high[i], page, 60, page, 60) == 42);
        CHECK(galtuyeg_slot_read(image, PARTITION_BYTES, 3, 1, high[i], page, sizeof page) == 43);
        CHECK(galtuyeg_slot_save(image, PARTITION_BYTES, 3, 1, high[i], page, 60, page, 60) == 43);
    }
    CHECK(galtuyeg_slot_read(image, PARTITION_BYTES, 3, 100, 2, NULL, 0) == 8);
    CHECK(galtuyeg_slot_save(image, PARTITION_BYTES, 3, 100, 2, NULL, 0, NULL, 0) == 8);
    CHECK(galtuyeg_slot_save(image, PARTITION_BYTES, 3, 100, 2, page, 59, page, 60) == 8);
    CHECK(no_slot(galtuyeg_slot_find(image, PARTITION_BYTES, 3, NULL, 0), 8));
    CHECK(no_slot(galtuyeg_slot_find(image, PARTITION_BYTES, 3, header, 11), 8));
    CHECK(no_slot(galtuyeg_slot_claim(image, PARTITION_BYTES, 3, NULL, 0, header, 60), 8));
    CHECK(no_slot(galtuyeg_slot_claim(image, PARTITION_BYTES, 3, header, 60, NULL, 0), 8));
    CHECK(no_slot(galtuyeg_slot_claim(image, PARTITION_BYTES, 3, header, 60, header, 60), 41));

    CHECK(no_slot(galtuyeg_slot_find(NULL, 0, 3, NULL, 0), 1));
    CHECK(no_slot(galtuyeg_slot_list(image, 16384, 3, 0), 1));
    CHECK(no_slot(galtuyeg_slot_list(NULL, 0, 3, 0), 1));
    CHECK(no_slot(galtuyeg_slot_claim(NULL, 0, 3, NULL, 0, NULL, 0), 1));
    CHECK(galtuyeg_slot_read(NULL, 0, 3, 0, 0, NULL, 0) == 1);
    CHECK(galtuyeg_slot_save(NULL, 0, 3, 0, 0, NULL, 0, NULL, 0) == 1);
    CHECK(memcmp(image, before, PARTITION_BYTES) == 0 && page[0] == 9 && page[59] == 9);
}

/* After slot_refusals: a partition that is not 3, whichever number is named. */
static void slot_partitions(uint8_t *image, uint8_t *before)
{
    uint8_t header[HEADER_BYTES];

    make_header(header, 7);
    CHECK(no_slot(galtuyeg_slot_find(image, PARTITION_BYTES, 2, header + 2, 10), 3));
    image[16] = 2;
    memcpy(before, image, PARTITION_BYTES);
    CHECK(galtuyeg_flash_check(image, PARTITION_BYTES, 2) == 0);
    CHECK(no_slot(galtuyeg_slot_find(image, PARTITION_BYTES, 2, header + 2, 10), 3));
    CHECK(no_slot(galtuyeg_slot_list(image, PARTITION_BYTES, 2, 0), 3));
    CHECK(no_slot(galtuyeg_slot_claim(image, PARTITION_BYTES, 2, header, 60, header + 60, 60), 3));
    CHECK(no_slot(claim(image, header), 3));
    CHECK(galtuyeg_slot_read(image, PARTITION_BYTES, 2, 0, 0, header, 60) == 3);
    CHECK(galtuyeg_slot_save(image, PARTITION_BYTES, 2, 0, 0, NULL, 0, header, 60) == 3);
    CHECK(memcmp(image, before, PARTITION_BYTES) == 0);
}

static void card_calls(uint8_t *card)
{
    uint8_t block[GALTUYEG_BLOCK_BYTES];
    const uint8_t *name = (const uint8_t *)"SAVE________";
    struct galtuyeg_card_checked checked;
    struct galtuyeg_card_entry entry;
    struct galtuyeg_card_verdict read;

    format_card(card);
    checked = galtuyeg_card_check(card, CARD_BYTES);
    CHECK(checked.code == 0 && checked.place_kind == GALTUYEG_WHOLE_CARD && checked.place == 0 && checked.orphans == 1);
    CHECK(galtuyeg_card_check(NULL, 0).code == 20);

    entry = galtuyeg_card_list(card, CARD_BYTES, 0);
    CHECK(entry.code == 0 && entry.entry == 0 && entry.type == 0x33 && entry.flag == 0xFF && entry.copy_protected == 1);
    CHECK(entry.first == 199 && entry.size == 1 && entry.offset == 0);
    CHECK(memcmp(entry.name, name, sizeof entry.name) == 0);
    CHECK(entry.time[0] == 0x19 && entry.time[7] == 0x06);
    entry = galtuyeg_card_list(card, CARD_BYTES, UINT64_MAX);
    CHECK(galtuyeg_card_list(NULL, 0, 0).code == 20);
    CHECK(entry.code == 31 && entry.entry == 0 && entry.type == 0 && entry.flag == 0 && entry.copy_protected == 0);
    CHECK(entry.name[0] == 0 && entry.time[7] == 0);

    memset(block, 0, sizeof block);
    CHECK(galtuyeg_card_read(card, CARD_BYTES, (const uint8_t *)"SAVE_______?", 12, 0, block, sizeof block).code == 31);
    CHECK(block[0] == 0 && block[511] == 0);
    read = galtuyeg_card_read(card, CARD_BYTES, name, 12, 0, block, sizeof block);
    CHECK(read.code == 0 && block[0] == 0xA5 && block[511] == 0xA5);
    CHECK(galtuyeg_card_read(card, CARD_BYTES, name, 12, 1, block, sizeof block).code == 32);
    CHECK(galtuyeg_card_read(card, CARD_BYTES, NULL, 0, 0, NULL, 0).code == 33);

    put_link(card, 7, 255);
    checked = galtuyeg_card_check(card, CARD_BYTES);
    CHECK(checked.code == 25 && checked.place_kind == GALTUYEG_BLOCK && checked.place == 7 && checked.orphans == 0);
    put_link(card, 7, 0xFFFC);
    card[253 * 512 + 0x18] = 2;
    read = galtuyeg_card_read(card, CARD_BYTES, name, 12, 0, block, sizeof block);
    CHECK(read.code == 27 && read.place_kind == GALTUYEG_DIRECTORY_ENTRY && read.place == 0);
    CHECK(block[0] == 0xA5 && block[511] == 0xA5);
}

/* What a write is given; time and data are the first bytes of `time_bytes` and `data`. */
struct new_file {
    const char *name;
    size_t name_len;
    uint8_t flag;
    size_t time_len;
    uint64_t offset;
    size_t data_len;
};

static struct galtuyeg_card_verdict write_file(uint8_t *card, struct new_file file)
{
    return galtuyeg_card_write(card, CARD_BYTES, (const uint8_t *)file.name, file.name_len, file.flag, time_bytes, file.time_len,
                               file.offset, data, file.data_len);
}

static struct galtuyeg_card_verdict delete_file(uint8_t *card, const char *name, size_t name_len)
{
    return galtuyeg_card_delete(card, CARD_BYTES, (const uint8_t *)name, name_len);
}

static int at_card(struct galtuyeg_card_verdict verdict, uint64_t code)
{
    return verdict.code == code && verdict.place_kind == GALTUYEG_WHOLE_CARD && verdict.place == 0;
}

static int at_entry(struct galtuyeg_card_verdict verdict, uint64_t code, uint64_t entry)
{
    return verdict.code == code && verdict.place_kind == GALTUYEG_DIRECTORY_ENTRY && verdict.place == entry;
}

/* Block 198 is damaged and 196 an orphan, so three blocks go into 199, 197 and 195. Entry 0 is unused, with rubbish in it. */
static void card_write(uint8_t *card, uint8_t *expected)
{
    static const unsigned blocks[] = {199, 197, 195};
    uint8_t block[GALTUYEG_BLOCK_BYTES];
    struct galtuyeg_card_entry entry;
    unsigned i;

    blank_card(card);
    put_link(card, 198, 0xFFFF);
    put_link(card, 196, 0xFFFA);
    memset(card + 253 * 512 + 1, 0xEE, 31);
    memcpy(expected, card, CARD_BYTES);
    for (i = 0; i < 3; i++) {
        put_link(expected, blocks[i], i < 2 ? blocks[i + 1] : 0xFFFA);
        memcpy(expected + blocks[i] * 512, data + i * 512, 512);
    }
    memcpy(expected + 253 * 512,
           "\x33\xFF\xC7\x00THREE_BLOCKS\x19\x99\x11\x15\x23\x59\x58\x00\x03\x00\x02\x00\x00\x00\x00\x00", 32);
    CHECK(at_card(write_file(card, (struct new_file){"THREE_BLOCKS", 12, 0xFF, 8, 2, 3 * 512}), 0));
    CHECK(memcmp(card, expected, CARD_BYTES) == 0);

    CHECK(galtuyeg_card_check(card, CARD_BYTES).orphans == 1);
    entry = galtuyeg_card_list(card, CARD_BYTES, 0);
    CHECK(entry.code == 0 && entry.entry == 0 && entry.type == 0x33 && entry.flag == 0xFF && entry.first == 199);
    CHECK(entry.size == 3 && entry.offset == 2 && memcmp(entry.time, time_bytes, 8) == 0);
    for (i = 0; i < 3; i++) {
        CHECK(galtuyeg_card_read(card, CARD_BYTES, entry.name, 12, i, block, sizeof block).code == 0);
        CHECK(memcmp(block, data + i * 512, 512) == 0);
    }
}

/* Any flag is written as it comes, and listed with what it says. */
static void card_flags(uint8_t *card)
{
    struct galtuyeg_card_entry entry;
    unsigned flag;

    for (flag = 0; flag < 256; flag++) {
        blank_card(card);
        CHECK(at_card(write_file(card, (struct new_file){"ONE_BLOCK___", 12, (uint8_t)flag, 8, 0, 512}), 0));
        entry = galtuyeg_card_list(card, CARD_BYTES, 0);
        CHECK(entry.code == 0 && entry.flag == flag && entry.copy_protected == (flag == 0xFF) && card[253 * 512 + 1] == flag);
    }
}

/* After card_write. */
static void card_write_refused(uint8_t *card, uint8_t *before)
{
    CHECK(at_card(write_file(card, (struct new_file){"ONE_BLOCK___", 12, 0x00, 8, 0, 512}), 0));
    memcpy(before, card, CARD_BYTES);

    CHECK(at_entry(write_file(card, (struct new_file){"THREE_BLOCKS", 12, 0x00, 8, 0, 512}), 29, 0));
    CHECK(at_entry(write_file(card, (struct new_file){"ONE_BLOCK___", 12, 0x00, 8, 0, 200 * 512}), 29, 1));

    CHECK(at_card(write_file(card, (struct new_file){"ONE_BLOCK___", 12, 0x01, 8, 1, 512}), 26));
    CHECK(at_card(write_file(card, (struct new_file){"NEW_FILE____", 12, 0x00, 8, 3, 3 * 512}), 26));
    CHECK(at_card(write_file(card, (struct new_file){"NEW_FILE____", 12, 0x00, 8, 65536, 3 * 512}), 26));
    CHECK(at_card(write_file(card, (struct new_file){"NEW_FILE____", 12, 0x00, 8, (uint64_t)1 << 32, 3 * 512}), 26));
    CHECK(at_card(write_file(card, (struct new_file){"NEW_FILE____", 12, 0x00, 8, UINT64_MAX, 3 * 512}), 26));

    CHECK(at_card(write_file(card, (struct new_file){"NEW_FILE____", 11, 0x01, 8, 0, 512}), 33));
    CHECK(at_card(write_file(card, (struct new_file){"NEW_FILE____", 13, 0x00, 8, 0, 512}), 33));
    CHECK(at_card(write_file(card, (struct new_file){"NEW_FILE____", 12, 0x00, 7, 0, 512}), 33));
    CHECK(at_card(write_file(card, (struct new_file){"NEW_FILE____", 12, 0x00, 9, 0, 512}), 33));
    CHECK(at_card(write_file(card, (struct new_file){"NEW_FILE____", 12, 0x00, 8, 0, 0}), 33));
    CHECK(at_card(write_file(card, (struct new_file){"NEW_FILE____", 12, 0x00, 8, 0, 511}), 33));
    CHECK(at_card(write_file(card, (struct new_file){"NEW_FILE____", 12, 0x00, 8, 0, 513}), 33));
    CHECK(at_card(write_file(card, (struct new_file){"NEW_FILE____", 12, 0x00, 8, 0, 201 * 512}), 33));

    /* Of 200 user blocks four are in files, one is damaged, one an orphan. */
    CHECK(at_card(write_file(card, (struct new_file){"NEW_FILE____", 12, 0x00, 8, 0, 195 * 512}), 34));
    CHECK(memcmp(card, before, CARD_BYTES) == 0);
    CHECK(at_card(write_file(card, (struct new_file){"NEW_FILE____", 12, 0x00, 8, 193, 194 * 512}), 0));
    CHECK(at_card(write_file(card, (struct new_file){"ONE_MORE____", 12, 0x00, 8, 0, 512}), 34));
}

/* Every buffer NULL, a card that is not sound, and name, time and data that overlap. */
static void card_write_pointers(uint8_t *card, uint8_t *before)
{
    const uint8_t *name = (const uint8_t *)"NEW_FILE____";
    struct galtuyeg_card_verdict verdict;

    format_card(card);
    memcpy(before, card, CARD_BYTES);
    CHECK(at_card(galtuyeg_card_write(NULL, 0, name, 12, 0, time_bytes, 8, 0, data, 512), 20));
    CHECK(at_card(galtuyeg_card_write(card, CARD_BYTES, NULL, 0, 0, time_bytes, 8, 0, data, 512), 33));
    CHECK(at_card(galtuyeg_card_write(card, CARD_BYTES, name, 12, 0, NULL, 0, 0, data, 512), 33));
    CHECK(at_card(galtuyeg_card_write(card, CARD_BYTES, name, 12, 0, time_bytes, 8, 0, NULL, 0), 33));
    CHECK(at_card(galtuyeg_card_delete(NULL, 0, name, 12), 20));
    CHECK(at_card(galtuyeg_card_delete(card, CARD_BYTES, NULL, 0), 33));
    CHECK(memcmp(card, before, CARD_BYTES) == 0);

    put_link(card, 7, 255);
    memcpy(before, card, CARD_BYTES);
    verdict = galtuyeg_card_write(card, CARD_BYTES, name, 12, 0, time_bytes, 8, 0, data, 512);
    CHECK(verdict.code == 25 && verdict.place_kind == GALTUYEG_BLOCK && verdict.place == 7);
    verdict = galtuyeg_card_delete(card, CARD_BYTES, (const uint8_t *)"SAVE________", 12);
    CHECK(verdict.code == 25 && verdict.place_kind == GALTUYEG_BLOCK && verdict.place == 7);
    CHECK(memcmp(card, before, CARD_BYTES) == 0);
    put_link(card, 7, 0xFFFC);

    CHECK(at_card(galtuyeg_card_write(card, CARD_BYTES, data, 12, 0, data + 4, 8, 0, data, 512), 0));
    CHECK(memcmp(card + 253 * 512 + 32 + 4, data, 12) == 0 && memcmp(card + 253 * 512 + 32 + 16, data + 4, 8) == 0);
    CHECK(memcmp(card + 198 * 512, data, 512) == 0);
}

static void card_delete(uint8_t *card, uint8_t *expected)
{
    blank_card(card);
    CHECK(write_file(card, (struct new_file){"FIRST_FILE__", 12, 0x00, 8, 0, 2 * 512}).code == 0);
    CHECK(write_file(card, (struct new_file){"SECOND_FILE_", 12, 0x00, 8, 0, 3 * 512}).code == 0);
    memcpy(expected, card, CARD_BYTES);
    CHECK(at_card(delete_file(card, "FIRST_FILE__", 11), 33));
    CHECK(at_card(delete_file(card, "FIRST_FILE__", 13), 33));
    CHECK(at_card(delete_file(card, "FIRST_FILE_?", 12), 31));
    CHECK(memcmp(card, expected, CARD_BYTES) == 0);

    put_link(expected, 199, 0xFFFC);
    put_link(expected, 198, 0xFFFC);
    memset(expected + 253 * 512, 0, 32);
    CHECK(at_card(delete_file(card, "FIRST_FILE__", 12), 0));
    CHECK(memcmp(card, expected, CARD_BYTES) == 0);
    CHECK(at_card(delete_file(card, "FIRST_FILE__", 12), 31));
    CHECK(memcmp(card, expected, CARD_BYTES) == 0);

    /* The highest free block and the lowest unused entry are those of the file that is gone. */
    CHECK(write_file(card, (struct new_file){"THIRD_FILE__", 12, 0x00, 8, 0, 512}).code == 0);
    CHECK(galtuyeg_card_list(card, CARD_BYTES, 0).first == 199);
    CHECK(memcmp(galtuyeg_card_list(card, CARD_BYTES, 0).name, "THIRD_FILE__", 12) == 0);
    CHECK(memcmp(galtuyeg_card_list(card, CARD_BYTES, 1).name, "SECOND_FILE_", 12) == 0);
}

/* A file of every user block; then 200 files of one block, which leave no room, but unused entries. */
static void full_card(uint8_t *card)
{
    char name[] = "NUMBERED___?";
    unsigned i;

    blank_card(card);
    CHECK(at_card(write_file(card, (struct new_file){"EVERY_BLOCK_", 12, 0x00, 8, 199, 200 * 512}), 0));
    CHECK(memcmp(card, data + 199 * 512, 512) == 0);
    CHECK(at_card(delete_file(card, "EVERY_BLOCK_", 12), 0));

    for (i = 0; i < MOST_BLOCKS; i++) {
        name[11] = (char)i;
        CHECK(at_card(write_file(card, (struct new_file){name, 12, 0x00, 8, 0, 512}), 0));
    }
    CHECK(galtuyeg_card_list(card, CARD_BYTES, 199).first == 0);
    CHECK(galtuyeg_card_list(card, CARD_BYTES, 200).code == 31);
    CHECK(at_card(write_file(card, (struct new_file){"ONE_MORE____", 12, 0x00, 8, 0, 512}), 34));
}

/* What a delete leaves is wiped as the manual says: by a file of zeros that takes every free block. */
static void card_wipe(uint8_t *card)
{
    static const uint8_t zeros[MOST_BLOCKS * GALTUYEG_BLOCK_BYTES];
    const uint8_t *spare = (const uint8_t *)"SPARE_NAME__";

    blank_card(card);
    CHECK(write_file(card, (struct new_file){"FIRST_FILE__", 12, 0x00, 8, 0, 2 * 512}).code == 0);
    CHECK(write_file(card, (struct new_file){"SECOND_FILE_", 12, 0x00, 8, 0, 3 * 512}).code == 0);
    CHECK(delete_file(card, "FIRST_FILE__", 12).code == 0);
    CHECK(galtuyeg_card_write(card, CARD_BYTES, spare, 12, 0x00, time_bytes, 8, 0, zeros, 197 * 512).code == 0);
    CHECK(delete_file(card, "SPARE_NAME__", 12).code == 0);
    CHECK(memcmp(card + 198 * 512, zeros, 2 * 512) == 0 && memcmp(card + 197 * 512, data, 512) == 0);
}

static void game_delete(uint8_t *card, uint8_t *expected)
{
    format_card(card);
    memcpy(expected, card, CARD_BYTES);
    put_link(expected, 0, 0xFFFC);
    memcpy(card + 253 * 512 + 32, "\xCC\xFF\x00\x00MINIGAME.VMS\x19\x99\x11\x15\x23\x59\x58\x00\x01\x00\x01\x00", 28);
    CHECK(at_card(delete_file(card, "MINIGAME.VMS", 12), 0));
    CHECK(memcmp(card, expected, CARD_BYTES) == 0);
}

static void card_changes(uint8_t *card, uint8_t *before)
{
    size_t i;

    /* No two blocks alike, and no byte 0. */
    for (i = 0; i < sizeof data; i++)
        data[i] = (uint8_t)(i % 251 + 1);
    card_flags(card);
    card_write(card, before);
    card_write_refused(card, before);
    card_write_pointers(card, before);
    card_delete(card, before);
    full_card(card);
    card_wipe(card);
    game_delete(card, before);
}

int main(void)
{
    uint8_t *image = malloc(PARTITION_BYTES);
    uint8_t *before = malloc(CARD_BYTES);
    uint8_t *card = malloc(CARD_BYTES);

    if (image == NULL || before == NULL || card == NULL)
        return 2;
    version_and_texts();
    flash_calls(image, before);
    idle_saves(image, before);
    slot_claims(image, before);
    slot_pages(image);
    slot_refusals(image, before);
    slot_partitions(image, before);
    card_calls(card);
    card_changes(card, before);
    free(image);
    free(before);
    free(card);
    printf("interface: %d facts as expected\n", tested);
    return 0;
}
