/* Tests of gazhdor_from_messages on huge blocks: huge_blocks far, chain or data. `far` has blocks of the greatest length, items at their last
 * places, and places over 2^32 and 2^33. `chain` has 16,777,215 files, which a chain may have, and one more. `data` has 2^32 - 1 bytes in a file,
 * which it may have, and one more. What has to come is worked out from the protocol. The blocks themselves take little memory: pages that are
 * only read are zeros, and those of a small file in memory stand at many places. With SAY in the environment it prints how much it had at most. */
#define _GNU_SOURCE
#include "want.h"

#include <sys/mman.h>
#include <sys/resource.h>
#include <unistd.h>

/* ---- pages, and blocks in them */

/* Zeros that can be read. */
static uint8_t *zeros(uint64_t length)
{
    uint8_t *at = mmap(NULL, length, PROT_READ, MAP_PRIVATE | MAP_ANONYMOUS | MAP_NORESERVE, -1, 0);
    WANT(at != MAP_FAILED);
    return at;
}

/* From now on these bytes can be written, and those beside them on their pages. */
static uint8_t *to_write(uint8_t *at, size_t length)
{
    size_t over = (uintptr_t)at % (size_t)sysconf(_SC_PAGESIZE);
    WANT(mprotect(at - over, length + over, PROT_READ | PROT_WRITE) == 0);
    return at;
}

/* The bytes again and again, so many times. Their length is a multiple of a page. */
static void repeat(uint8_t *at, const uint8_t *bytes, size_t length, uint64_t times)
{
    int file = memfd_create("blocks", MFD_CLOEXEC);
    WANT(file >= 0 && write(file, bytes, length) == (ssize_t)length);
    for (; times > 0; times--, at += length)
        WANT(mmap(at, length, PROT_READ, MAP_SHARED | MAP_FIXED, file, 0) == at);
    close(file);
}

static void put_number(uint8_t *at, int width, uint64_t value)
{
    for (; width > 0; width--, value >>= 8)
        *at++ = (uint8_t)value;
}

/* Each puts a block of that length among zeros, and returns where the next one begins. */
static uint8_t *put_block(uint8_t *at, uint8_t kind, uint64_t length)
{
    put_number(at, 4, length);
    at[GAZHDOR_AT_KIND] = kind;
    return at + length;
}

/* A header of 12 bytes, without a checksum. */
static uint8_t *put_header(uint8_t *at, size_t length)
{
    at[GAZHDOR_AT_HEADER_SIZE] = 12;
    at[GAZHDOR_AT_HEADER_PROTOCOL] = 32;
    return put_block(at, GAZHDOR_FILE_HEADER, length);
}

static uint8_t *put_message(uint8_t *at, uint8_t local, uint64_t length)
{
    at[GAZHDOR_AT_MESSAGE_LOCAL] = local;
    at[GAZHDOR_AT_MESSAGE_OFFSET] = GAZHDOR_NO_OFFSET;
    return put_block(at, GAZHDOR_MESSAGE, length);
}

enum { HEADER = 32, DEFINITION = 48, ENTRY = 32, END = 24, NUMBER = 0xFF00 };

/* A definition of the message 0xFF00, without a name; its entries come after it. */
static uint8_t *put_definition(uint8_t *at, uint8_t local, size_t fields, size_t developer)
{
    at[GAZHDOR_AT_DEFINITION_LOCAL] = local;
    put_number(at + GAZHDOR_AT_DEFINITION_MESSAGE, 2, NUMBER);
    put_number(at + GAZHDOR_AT_DEFINITION_FIELDS, 2, fields);
    put_number(at + GAZHDOR_AT_DEFINITION_DEVELOPERS, 2, developer);
    at[GAZHDOR_AT_DEFINITION_BITS] = developer != 0;
    put_block(at, GAZHDOR_DEFINITION, DEFINITION + (fields + developer) * ENTRY);
    return at + DEFINITION;
}

static uint8_t *put_entry(uint8_t *at, size_t number, int developer, uint8_t code, int width, int count, uint64_t begins)
{
    const uint8_t front[] = { ENTRY, 0, 0, 0, (uint8_t)number, (uint8_t)developer, 0, code, 0, (uint8_t)width, (uint8_t)count };
    memcpy(at, front, sizeof front);
    put_number(at + GAZHDOR_AT_ENTRY_ITEMS, 4, begins);
    return at + ENTRY;
}

static void is_refused(const uint8_t *blocks, uint64_t length, uint32_t reason, uint64_t row, uint64_t place)
{
    gazhdor_text file = GAZHDOR_NO_TEXT;
    gazhdor_answer a = gazhdor_from_messages(blocks, length, &file);
    WANT(a.status == GAZHDOR_BLOCK && a.reason == reason && a.row == row && a.place == place && file.length == 0);
}

/* ---- far places */

/* A file of two messages of this length, whose field has `count` numbers of four bytes from `begins` on; then a block of no kind. */
enum { FAR_FRONT = HEADER + DEFINITION + ENTRY };
static const uint64_t greatest = 0xFFFFFFF8;

static void put_far(uint8_t *blocks, int count, uint64_t begins)
{
    uint8_t *at = put_definition(put_header(blocks, HEADER), 0, 1, 0);
    at = put_entry(at, 5, 0, GAZHDOR_TYPE_UINT32, 4, count, begins);
    at = put_message(at, 0, greatest);
    at = put_message(to_write(at, HEADER), 0, greatest);
    put_block(to_write(at, END), 9, END);
}

static void far_places(void)
{
    uint64_t length = FAR_FRONT + 2 * greatest + END;
    static const uint8_t wanted[] = { 0x40, 0, 0, 0, 0xFF, 1, 5, 4, 0x86, 0, 1, 2, 3, 4, 0, 5, 6, 7, 8 };
    uint8_t *blocks = zeros(length), *first = to_write(blocks, FAR_FRONT + END) + FAR_FRONT, *second = first + greatest;
    gazhdor_text file = GAZHDOR_NO_TEXT;
    put_far(blocks, 1, greatest - 4);
    memcpy(to_write(second - 4, 4), wanted + 10, 4);
    memcpy(to_write(second + greatest - 4, 4), wanted + 15, 4);
    is_refused(blocks, length, GAZHDOR_BLOCK_KIND, 4, FAR_FRONT + 2 * greatest);
    is_refused(blocks, length - END, GAZHDOR_BLOCK_CUT, 4, FAR_FRONT + 2 * greatest);
    is_refused(blocks, length - END - 1, GAZHDOR_BLOCK_CUT, 3, FAR_FRONT + greatest);
    second[greatest + GAZHDOR_AT_KIND] = GAZHDOR_FILE_END;
    WANT(gazhdor_from_messages(blocks, length, &file).status == GAZHDOR_GOOD && file.length == 12 + sizeof wanted + 2);
    WANT(memcmp(file.bytes + 12, wanted, sizeof wanted) == 0 && gazhdor_check(file.bytes, file.length).status == GAZHDOR_GOOD);
    gazhdor_free(file);
    for (uint64_t begins = greatest - 3; begins <= 0xFFFFFFFF; begins++) {
        put_far(blocks, 1, begins);
        is_refused(blocks, length, GAZHDOR_BLOCK_ITEMS, 2, FAR_FRONT);
    }
    put_far(blocks, 63, 0xFFFFFFFF);
    is_refused(blocks, length, GAZHDOR_BLOCK_ITEMS, 2, FAR_FRONT);
    munmap(blocks, length);
}

/* ---- the longest chain */

enum { FILES = 16777215, EMPTY_FILE = 64, FILES_AT_ONCE = 16384 };

static void longest_chain(void)
{
    static const uint8_t empty[] = { 12, 32, 0, 0, 0, 0, 0, 0, '.', 'F', 'I', 'T', 0x65, 0x42 };
    static uint8_t some[FILES_AT_ONCE * EMPTY_FILE];
    uint64_t length = ((uint64_t)FILES + 1) * EMPTY_FILE;
    uint8_t *blocks = zeros(length), *at = some;
    while (at < some + sizeof some)
        at = put_block(put_header(at, EMPTY_FILE - END), GAZHDOR_FILE_END, END);
    repeat(blocks, some, sizeof some, length / sizeof some);
    gazhdor_text file = GAZHDOR_NO_TEXT;
    WANT(gazhdor_from_messages(blocks, length - EMPTY_FILE, &file).status == GAZHDOR_GOOD);
    WANT(file.length == (size_t)FILES * sizeof empty);
    for (size_t i = 0; i < FILES; i++)
        WANT(memcmp(file.bytes + i * sizeof empty, empty, sizeof empty) == 0);
    gazhdor_answer checked = gazhdor_check(file.bytes, file.length);
    WANT(checked.status == GAZHDOR_GOOD && checked.files == FILES);
    gazhdor_free(file);
    is_refused(blocks, length, GAZHDOR_BLOCK_KIND, 2 * (uint64_t)FILES, (uint64_t)FILES * EMPTY_FILE);
    munmap(blocks, length);
}

/* ---- the most data: messages of 255 fields and 255 developer fields of 255 bytes, and then of nothing but their header byte */

enum { FIELDS = 255, DEFINED = 6 + 3 * FIELDS + 1 + 3 * FIELDS, TOLD = 1 + 2 * FIELDS * 255, SHORT_DEFINED = 6 };
enum { FRONT = 65536, MESSAGE = 131072, AT_ONCE = 16, ITEMS = 40, SHORT = 24 };
static const uint64_t most = 0xFFFFFFFF;
static uint8_t some_messages[AT_ONCE * MESSAGE];

/* The header, and the definition of the long messages: as long as FRONT, since a header's block may be longer than is read of it. */
static void put_front(uint8_t *blocks)
{
    uint8_t *at = put_header(blocks, FRONT - DEFINITION - 2 * FIELDS * ENTRY);
    at = put_definition(at, 0, FIELDS, FIELDS);
    for (size_t i = 0; i < 2 * FIELDS; i++)
        at = put_entry(at, i % FIELDS, i >= FIELDS, GAZHDOR_TYPE_BYTE, 1, 255, ITEMS + i * 255);
    WANT(at == blocks + FRONT);
}

/* Long messages, with any items. */
static void make_messages(void)
{
    uint32_t seed = 1;
    for (size_t i = 0; i < AT_ONCE; i++) {
        uint8_t *at = some_messages + i * MESSAGE;
        put_message(at, 0, MESSAGE);
        for (size_t k = ITEMS; k < ITEMS + TOLD - 1; k++) {
            seed = seed * 1664525 + 1013904223;
            at[k] = (uint8_t)(seed >> 24);
        }
    }
}

/* Whether the data of the file is that of so many long messages and so many short ones. */
static int is_data(const uint8_t *data, uint64_t messages, uint64_t shorts)
{
    static const uint8_t front[] = { 0x60, 0, 0, 0, 0xFF, FIELDS }, second[] = { 0x41, 0, 0, 0, 0xFF, 0 };
    int is = memcmp(data, front, sizeof front) == 0 && data[sizeof front + 3 * FIELDS] == FIELDS;
    for (size_t i = 0; i < 2 * FIELDS; i++) {
        const uint8_t entry[] = { (uint8_t)(i % FIELDS), 255, i < FIELDS ? GAZHDOR_TYPE_BYTE : 0 };
        is = is && memcmp(data + sizeof front + 3 * i + (i >= FIELDS), entry, 3) == 0;
    }
    data += DEFINED;
    for (uint64_t i = 0; i < messages; i++, data += TOLD)
        is = is && data[0] == 0 && memcmp(data + 1, some_messages + i % AT_ONCE * MESSAGE + ITEMS, TOLD - 1) == 0;
    is = is && memcmp(data, second, sizeof second) == 0;
    for (uint64_t i = 0; i < shorts; i++)
        is = is && data[sizeof second + i] == 1;
    return is;
}

static void most_data(void)
{
    uint64_t messages = (most - DEFINED - SHORT_DEFINED) / TOLD, shorts = (most - DEFINED - SHORT_DEFINED) % TOLD;
    uint64_t whole = messages / AT_ONCE, tail = FRONT + messages * MESSAGE, length = tail + DEFINITION + (shorts + 1) * SHORT + END;
    uint8_t *blocks = zeros(length), *end;
    put_front(to_write(blocks, FRONT));
    make_messages();
    repeat(blocks + FRONT, some_messages, sizeof some_messages, whole);
    repeat(blocks + FRONT + whole * sizeof some_messages, some_messages, messages % AT_ONCE * MESSAGE, 1);
    end = put_definition(to_write(blocks + tail, length - tail), 1, 0, 0);
    for (uint64_t i = 0; i < shorts; i++)
        end = put_message(end, 1, SHORT);
    put_block(end, GAZHDOR_FILE_END, END);
    gazhdor_text file = GAZHDOR_NO_TEXT, none = GAZHDOR_NO_TEXT;
    WANT(gazhdor_from_messages(blocks, length - SHORT, &file).status == GAZHDOR_GOOD && file.length == 12 + most + 2);
    WANT(memcmp(file.bytes, "\x0C\x20\0\0\xFF\xFF\xFF\xFF.FIT", 12) == 0 && is_data(file.bytes + 12, messages, shorts));
    gazhdor_answer checked = gazhdor_check(file.bytes, file.length);
    WANT(checked.status == GAZHDOR_GOOD && checked.files == 1);
    gazhdor_free(file);
    put_block(put_message(end, 1, SHORT), GAZHDOR_FILE_END, END);
    WANT(gazhdor_from_messages(blocks, length, &none).status == GAZHDOR_UNWRITABLE && none.length == 0);
    munmap(blocks, length);
}

int main(int argc, char **argv)
{
    static const struct { const char *name; void (*test)(void); } all[] = { { "far", far_places }, { "chain", longest_chain }, { "data", most_data } };
    size_t i = 0;
    WANT(argc == 2);
    while (i < 3 && strcmp(all[i].name, argv[1]) != 0)
        i++;
    WANT(i < 3);
    all[i].test();
    if (getenv("SAY") != NULL) {
        struct rusage used;
        getrusage(RUSAGE_SELF, &used);
        printf("%s: at most %ld MB, with those pages of the blocks that were read\n", argv[1], used.ru_maxrss / 1024);
    }
    return 0;
}
