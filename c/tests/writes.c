/* Tests of what gazhdor_write.h and gazhdor_set.h make for gazhdor_from_messages: files whose bytes stand here, from the protocol; each
 * answer; memory of each size, and memory that is refused at each time. rewrites.c has copies and random calls, and steps.c
 * the numbers. */
#include "want.h"

#define PUT(what) WANT((what) == GAZHDOR_PUT)

/* ---- files that are known */

/* Whether the blocks are those of a file with these bytes, as hexadecimal digits; lets them go. */
static int is_file(gazhdor_blocks *to, const char *hex)
{
    uint8_t wanted[512];
    size_t length = 0;
    for (char *end; *hex != 0; hex = end + (*end == ' '))
        wanted[length++] = (uint8_t)strtoul(hex, &end, 16);
    gazhdor_text file = GAZHDOR_NO_TEXT;
    gazhdor_answer answer = gazhdor_from_messages(to->bytes, to->length, &file);
    int is = to->fault == GAZHDOR_PUT && answer.status == GAZHDOR_GOOD && answer.reason == 0 && answer.place == 0 && answer.row == 0
        && answer.files == 0 && file.length == length && memcmp(file.bytes, wanted, length) == 0;
    gazhdor_free(file);
    free(to->bytes);
    return is;
}

/* Both architectures, and a compressed header. */
static void two_orders(void)
{
    gazhdor_field little[] = { gazhdor_new_field(253, GAZHDOR_TYPE_UINT32, 1), gazhdor_new_field(3, GAZHDOR_TYPE_UINT8, 1) };
    gazhdor_field big[] = { gazhdor_scaled(gazhdor_new_field(2, GAZHDOR_TYPE_UINT16, 1), 5, 500), gazhdor_new_field(8, GAZHDOR_TYPE_BYTE, 3) };
    gazhdor_blocks to = gazhdor_write(NULL, 0, gazhdor_by_realloc, NULL);
    PUT(gazhdor_put_header(&to, 0));
    PUT(gazhdor_put_definition(&to, 0, GAZHDOR_MESSAGE_RECORD, little, 2));
    PUT(gazhdor_put_message(&to, 0));
    PUT(gazhdor_set_value(&to, little[0], 0, 1000000031));
    PUT(gazhdor_set_value(&to, little[1], 0, 120));
    size_t place = to.length;
    PUT(gazhdor_put_definition(&to, 1, GAZHDOR_MESSAGE_RECORD, big, 2));
    to.bytes[place + GAZHDOR_AT_DEFINITION_ARCHITECTURE] = GAZHDOR_BIG_ENDIAN;
    PUT(gazhdor_put_message(&to, 1));
    PUT(gazhdor_set_value(&to, big[0], 0, 0));
    PUT(gazhdor_set_items(&to, big[1], (const uint8_t *)"\x64\x00\x10", 3));
    PUT(gazhdor_set_offset(&to, 2));
    PUT(gazhdor_put_end(&to));
    WANT(is_file(&to, "0E 20 00 00 24 00 00 00 2E 46 49 54 9F 6E 40 00 00 14 00 02 FD 04 86 03 01 02 00 1F CA 9A 3B 78 "
                      "41 00 01 00 14 02 02 02 84 08 03 0D A2 09 C4 64 00 10 F0 3B"));
}

/* A developer field before and after its description. */
static void developer_field(void)
{
    gazhdor_field described[] = { gazhdor_new_field(0, GAZHDOR_TYPE_UINT8, 1), gazhdor_new_field(1, GAZHDOR_TYPE_UINT8, 1),
        gazhdor_new_field(2, GAZHDOR_TYPE_UINT8, 1), gazhdor_new_field(3, GAZHDOR_TYPE_STRING, 3) };
    gazhdor_field before = gazhdor_new_developer(0, 5, GAZHDOR_TYPE_BYTE, 2), after = gazhdor_new_developer(0, 5, GAZHDOR_TYPE_UINT16, 1);
    gazhdor_blocks to = gazhdor_write(NULL, 0, gazhdor_by_realloc, NULL);
    PUT(gazhdor_put_header(&to, 0));
    PUT(gazhdor_put_definition(&to, 0, GAZHDOR_MESSAGE_FIELD_DESCRIPTION, described, 4));
    PUT(gazhdor_put_definition(&to, 1, GAZHDOR_MESSAGE_RECORD, &before, 1));
    PUT(gazhdor_put_message(&to, 1));
    PUT(gazhdor_set_number(&to, before, 0, 0x34));
    PUT(gazhdor_set_number(&to, before, 1, 0x12));
    PUT(gazhdor_put_message(&to, 0));
    PUT(gazhdor_set_value(&to, described[0], 0, 0));
    PUT(gazhdor_set_value(&to, described[1], 0, 5));
    PUT(gazhdor_set_number(&to, described[2], 0, GAZHDOR_TYPE_UINT16));
    PUT(gazhdor_set_text(&to, described[3], "mo"));
    PUT(gazhdor_put_message(&to, 1));
    PUT(gazhdor_set_items(&to, before, (const uint8_t *)"\x34\x12", 2));
    PUT(gazhdor_put_definition(&to, 1, GAZHDOR_MESSAGE_RECORD, &after, 1));
    PUT(gazhdor_put_message(&to, 1));
    PUT(gazhdor_set_value(&to, after, 0, 0x1234));
    PUT(gazhdor_put_end(&to));
    WANT(is_file(&to, "0E 20 00 00 36 00 00 00 2E 46 49 54 1F BB 40 00 00 CE 00 04 00 01 02 01 01 02 02 01 02 03 03 07 "
                      "61 00 00 14 00 00 01 05 02 00 01 34 12 00 00 05 84 6D 6F 00 01 34 12 61 00 00 14 00 00 01 05 02 00 01 34 12 4A 8B"));
}

/* What has no value has the item that says so, of each base type. Their codes, widths and items are those of the protocol. */
static void no_values(void)
{
    static const uint8_t codes[] = { 0, 1, 2, 7, 10, 13, 0x83, 0x84, 0x85, 0x86, 0x88, 0x89, 0x8B, 0x8C, 0x8E, 0x8F, 0x90 };
    gazhdor_field fields[17];
    gazhdor_blocks to = gazhdor_write(NULL, 0, gazhdor_by_realloc, NULL);
    for (uint32_t i = 0; i < 17; i++)
        fields[i] = gazhdor_new_field(i, codes[i], 1);
    PUT(gazhdor_put_header(&to, 0x0102));
    PUT(gazhdor_put_definition(&to, 15, 0xABCD, fields, 17));
    PUT(gazhdor_put_message(&to, 15));
    gazhdor_text file = GAZHDOR_NO_TEXT;
    PUT(gazhdor_put_end(&to));
    WANT(gazhdor_from_messages(to.bytes, to.length, &file).status == GAZHDOR_GOOD && file.length == 14 + 57 + 1 + 60 + 2);
    static const char data[] = "\x4F\x00\x00\xCD\xAB\x11" "\0\1\0\1\1\1\2\1\2\3\1\7\4\1\x0A\5\1\x0D\6\2\x83\7\2\x84"
        "\x08\4\x85\x09\4\x86\x0A\4\x88\x0B\x08\x89\x0C\2\x8B\x0D\4\x8C\x0E\x08\x8E\x0F\x08\x8F\x10\x08\x90" "\x0F"
        "\xFF\x7F\xFF\0\0\xFF" "\xFF\x7F\xFF\xFF" "\xFF\xFF\xFF\x7F\xFF\xFF\xFF\xFF\xFF\xFF\xFF\xFF" "\xFF\xFF\xFF\xFF\xFF\xFF\xFF\xFF"
        "\0\0\0\0\0\0" "\xFF\xFF\xFF\xFF\xFF\xFF\xFF\x7F" "\xFF\xFF\xFF\xFF\xFF\xFF\xFF\xFF" "\0\0\0\0\0\0\0\0";
    WANT(sizeof data == 57 + 1 + 60 + 1 && memcmp(file.bytes + 14, data, sizeof data - 1) == 0);
    WANT(file.bytes[2] == 2 && file.bytes[3] == 1);
    gazhdor_free(file);
    free(to.bytes);
}

/* ---- answers */

/* Whether a call answers this, and leaves the blocks as they are. */
#define ANSWERS(to, wanted, call)                                                   \
    do {                                                                            \
        size_t before = (to)->length;                                               \
        uint8_t *copy = malloc(before + 1);                                         \
        WANT(copy != NULL);                                                         \
        for (size_t i = 0; i < before; i++)                                         \
            copy[i] = (to)->bytes[i];                                               \
        WANT((call) == (wanted));                                                   \
        WANT((to)->length == before);                                               \
        for (size_t i = 0; i < before; i++)                                         \
            WANT(copy[i] == (to)->bytes[i]);                                        \
        free(copy);                                                                 \
    } while (0)

/* Blocks at a wrong place, or with numbers that have none. */
static void places(gazhdor_blocks *to, gazhdor_field *fields)
{
    gazhdor_block none = { NULL, 0, 0, 0, 0, 0 };
    ANSWERS(to, GAZHDOR_PUT_ORDER, gazhdor_put_end(to));
    ANSWERS(to, GAZHDOR_PUT_ORDER, gazhdor_put_message(to, 0));
    ANSWERS(to, GAZHDOR_PUT_ORDER, gazhdor_put_definition(to, 0, 20, fields, 2));
    ANSWERS(to, GAZHDOR_PUT_RANGE, gazhdor_put_header(to, 0x10000));
    WANT(to->fault == GAZHDOR_PUT_ORDER);
    PUT(gazhdor_put_header(to, 0xFFFF));
    ANSWERS(to, GAZHDOR_PUT_ORDER, gazhdor_put_header(to, 0));
    ANSWERS(to, GAZHDOR_PUT_LOCAL, gazhdor_put_message(to, 0));
    ANSWERS(to, GAZHDOR_PUT_LOCAL, gazhdor_put_message(to, 16));
    ANSWERS(to, GAZHDOR_PUT_LOCAL, gazhdor_put_message(to, UINT32_MAX));
    ANSWERS(to, GAZHDOR_PUT_LOCAL, gazhdor_put_definition(to, 16, 20, fields, 2));
    ANSWERS(to, GAZHDOR_PUT_RANGE, gazhdor_put_definition(to, 0, 0x10000, fields, 2));
    ANSWERS(to, GAZHDOR_PUT_LENGTH, gazhdor_put_copy(to, none));
    ANSWERS(to, GAZHDOR_PUT_LENGTH, gazhdor_put_copy(to, gazhdor_block_at(to, 0)));
    ANSWERS(to, GAZHDOR_PUT_ORDER, gazhdor_set_offset(to, 0));
}

/* Fields that no definition may have. */
static void field_counts(gazhdor_blocks *to)
{
    gazhdor_field many[512];
    for (size_t i = 0; i < 512; i++)
        many[i] = i < 256 ? gazhdor_new_field(7, GAZHDOR_TYPE_UINT8, 1) : gazhdor_new_developer(1, 7, GAZHDOR_TYPE_BYTE, 1);
    ANSWERS(to, GAZHDOR_PUT_COUNT, gazhdor_put_definition(to, 0, 20, many, 256));
    ANSWERS(to, GAZHDOR_PUT_COUNT, gazhdor_put_definition(to, 0, 20, many + 256, 256));
    ANSWERS(to, GAZHDOR_PUT_COUNT, gazhdor_put_definition(to, 0, 20, many + 1, 511));
    ANSWERS(to, GAZHDOR_PUT_COUNT, gazhdor_put_definition(to, 0, 20, many, SIZE_MAX));
    PUT(gazhdor_put_definition(to, 0, 20, many + 1, 510));
    PUT(gazhdor_put_message(to, 0));
    many[3] = many[300];
    ANSWERS(to, GAZHDOR_PUT_COUNT, gazhdor_put_definition(to, 0, 20, many, 10));
    many[3] = gazhdor_new_field(7, 3, 1);
    ANSWERS(to, GAZHDOR_PUT_FIELD, gazhdor_put_definition(to, 0, 20, many, 10));
    many[3] = gazhdor_new_field(7, GAZHDOR_TYPE_UINT16, 127);
    PUT(gazhdor_put_definition(to, 0, 20, many, 10));
    many[3].count = 128;
    ANSWERS(to, GAZHDOR_PUT_FIELD, gazhdor_put_definition(to, 0, 20, many, 10));
    many[3].count = 1;
    many[3].width = 4;
    ANSWERS(to, GAZHDOR_PUT_FIELD, gazhdor_put_definition(to, 0, 20, many, 10));
    PUT(gazhdor_put_definition(to, 1, 0, many, 0));
}

static void descriptions(gazhdor_blocks *to)
{
    char name[256];
    memset(name, 'n', 255);
    name[255] = 0;
    gazhdor_field own = gazhdor_new_developer(1, 7, GAZHDOR_TYPE_BYTE, 1);
    ANSWERS(to, GAZHDOR_PUT_FIELD, gazhdor_put_description(to, 0, gazhdor_new_field(1, GAZHDOR_TYPE_BYTE, 1), "name", "unit"));
    ANSWERS(to, GAZHDOR_PUT_FIELD, gazhdor_put_description(to, 0, gazhdor_new_developer(1, 7, GAZHDOR_TYPE_BYTE, 256), "name", "unit"));
    ANSWERS(to, GAZHDOR_PUT_FIELD, gazhdor_put_description(to, 0, own, name, "unit"));
    ANSWERS(to, GAZHDOR_PUT_FIELD, gazhdor_put_description(to, 0, own, "", name));
    PUT(gazhdor_put_description(to, 0, own, name + 1, NULL));
    WANT(!gazhdor_new_field(256, GAZHDOR_TYPE_BYTE, 1).there && !gazhdor_new_field(1, GAZHDOR_TYPE_UINT32, 64).there);
    WANT(gazhdor_new_field(255, GAZHDOR_TYPE_UINT32, 63).there && gazhdor_new_field(0, GAZHDOR_TYPE_BYTE, 255).there);
    WANT(!gazhdor_new_field(1, 0x87, 1).there && !gazhdor_new_field(1, 4, 1).there && !gazhdor_new_field(1, 0x102, 1).there);
    WANT(!gazhdor_new_field(1, GAZHDOR_TYPE_BYTE, SIZE_MAX).there && !gazhdor_new_field(1, 0x91, 1).there);
    WANT(!gazhdor_new_developer(256, 1, GAZHDOR_TYPE_BYTE, 1).there && !gazhdor_new_developer(1, 256, GAZHDOR_TYPE_BYTE, 1).there);
}

/* Values that a field can't have. */
static void values(gazhdor_blocks *to)
{
    gazhdor_field f[] = { gazhdor_new_field(3, GAZHDOR_TYPE_UINT8, 2), gazhdor_new_field(4, GAZHDOR_TYPE_STRING, 4),
        gazhdor_new_field(5, GAZHDOR_TYPE_BYTE, 3), gazhdor_new_field(6, GAZHDOR_TYPE_SINT16, 1), gazhdor_new_field(7, GAZHDOR_TYPE_STRING, 0) };
    gazhdor_field other = gazhdor_new_field(3, GAZHDOR_TYPE_UINT8, 1);
    PUT(gazhdor_put_definition(to, 5, 20, &other, 1));
    PUT(gazhdor_put_definition(to, 4, 20, f, 5));
    ANSWERS(to, GAZHDOR_PUT_FIELD, gazhdor_set_value(to, f[0], 0, 1));
    PUT(gazhdor_put_message(to, 4));
    ANSWERS(to, GAZHDOR_PUT_FIELD, gazhdor_set_value(to, other, 0, 1));
    ANSWERS(to, GAZHDOR_PUT_FIELD, gazhdor_set_value(to, f[0], 2, 1));
    ANSWERS(to, GAZHDOR_PUT_FIELD, gazhdor_set_number(to, f[0], SIZE_MAX, 1));
    ANSWERS(to, GAZHDOR_PUT_FIELD, gazhdor_set_text(to, other, "a"));
    ANSWERS(to, GAZHDOR_PUT_FIELD, gazhdor_set_items(to, other, (const uint8_t *)"a", 1));
    ANSWERS(to, GAZHDOR_PUT_FIELD, gazhdor_set_invalid(to, other));
    ANSWERS(to, GAZHDOR_PUT_KIND, gazhdor_set_value(to, f[1], 0, 1));
    ANSWERS(to, GAZHDOR_PUT_KIND, gazhdor_set_value(to, f[2], 0, 1));
    ANSWERS(to, GAZHDOR_PUT_KIND, gazhdor_set_text(to, f[0], "a"));
    WANT(gazhdor_set_value(to, f[0], 0, NAN) == GAZHDOR_PUT && !gazhdor_raw(f[0], gazhdor_block_at(to, to->message), 0, NULL));
    ANSWERS(to, GAZHDOR_PUT_RANGE, gazhdor_set_value(to, gazhdor_scaled(f[0], 0, 0), 0, 1));
    ANSWERS(to, GAZHDOR_PUT_RANGE, gazhdor_set_number(to, f[0], 0, 256));
    ANSWERS(to, GAZHDOR_PUT_RANGE, gazhdor_set_number(to, f[3], 0, 0x8000));
    ANSWERS(to, GAZHDOR_PUT_RANGE, gazhdor_set_number(to, f[3], 0, (uint64_t)-0x8001));
    PUT(gazhdor_set_number(to, f[3], 0, (uint64_t)-0x8000));
    PUT(gazhdor_set_number(to, f[3], 0, 0x7FFF));
    ANSWERS(to, GAZHDOR_PUT_LENGTH, gazhdor_set_text(to, f[1], "abcd"));
    PUT(gazhdor_set_text(to, f[1], "abc"));
    PUT(gazhdor_set_text(to, f[1], "d"));
    WANT(memcmp(gazhdor_items(f[1], gazhdor_block_at(to, to->message)).bytes, "d\0\0", 4) == 0);
    ANSWERS(to, GAZHDOR_PUT_LENGTH, gazhdor_set_text(to, f[4], ""));
    ANSWERS(to, GAZHDOR_PUT_LENGTH, gazhdor_set_items(to, f[2], (const uint8_t *)"abcd", 4));
    ANSWERS(to, GAZHDOR_PUT_LENGTH, gazhdor_set_items(to, f[2], (const uint8_t *)"ab", 2));
    ANSWERS(to, GAZHDOR_PUT_LENGTH, gazhdor_set_items(to, f[2], (const uint8_t *)"ab", (size_t)-1));
    PUT(gazhdor_set_items(to, f[4], NULL, 0));
    ANSWERS(to, GAZHDOR_PUT_RANGE, gazhdor_set_offset(to, 32));
    ANSWERS(to, GAZHDOR_PUT_LOCAL, gazhdor_set_offset(to, 31));
    for (other = f[0], other.width = 9; other.width != 0; other.width++)
        ANSWERS(to, GAZHDOR_PUT_FIELD, gazhdor_set_invalid(to, other));
}

static void answers(void)
{
    gazhdor_field fields[] = { gazhdor_new_field(253, GAZHDOR_TYPE_UINT32, 1), gazhdor_new_field(3, GAZHDOR_TYPE_UINT8, 1) };
    gazhdor_blocks to = gazhdor_write(NULL, 0, gazhdor_by_realloc, NULL);
    gazhdor_text file = GAZHDOR_NO_TEXT;
    places(&to, fields);
    field_counts(&to);
    descriptions(&to);
    values(&to);
    WANT(gazhdor_from_messages(to.bytes, to.length, &file).status == GAZHDOR_BLOCK);
    PUT(gazhdor_put_end(&to));
    WANT(to.fault == GAZHDOR_PUT_ORDER && gazhdor_from_messages(to.bytes, to.length, &file).status == GAZHDOR_GOOD);
    WANT(gazhdor_check(file.bytes, file.length).status == GAZHDOR_GOOD);
    gazhdor_free(file);
    free(to.bytes);
}

/* ---- blocks that can't stand where they are */

/* A change of one byte of the blocks below, and which block is refused, for which reason; 0 for none. */
static const struct {
    uint8_t block, at, byte, row, reason;
} changes[] = {
    { 0, 0, 16, 0, GAZHDOR_BLOCK_CUT }, { 0, 0, 36, 0, GAZHDOR_BLOCK_CUT }, { 3, 0, 80, 3, GAZHDOR_BLOCK_CUT },
    { 0, 4, 3, 0, GAZHDOR_BLOCK_KIND }, { 1, 4, 1, 1, GAZHDOR_BLOCK_KIND }, { 1, 4, 5, 1, GAZHDOR_BLOCK_KIND }, { 1, 4, 4, 2, GAZHDOR_BLOCK_KIND },
    { 0, 5, 13, 0, GAZHDOR_BLOCK_HEADER }, { 0, 5, 12, 0, GAZHDOR_BLOCK_HEADER }, { 0, 5, 15, 0, GAZHDOR_BLOCK_HEADER },
    { 0, 6, 0x30, 0, GAZHDOR_BLOCK_HEADER }, { 0, 7, 3, 0, GAZHDOR_BLOCK_HEADER }, { 0, 7, 0, 0, GAZHDOR_BLOCK_HEADER },
    { 0, 26, 1, 0, GAZHDOR_BLOCK_HEADER }, { 0, 31, 1, 0, GAZHDOR_BLOCK_HEADER }, { 0, 7, 1, 0, 0 }, { 0, 6, 0x2F, 0, 0 }, { 0, 25, 1, 0, 0 },
    { 1, 5, 16, 1, GAZHDOR_BLOCK_LOCAL }, { 2, 6, 16, 2, GAZHDOR_BLOCK_LOCAL }, { 1, 6, 2, 1, GAZHDOR_BLOCK_ARCHITECTURE }, { 1, 6, 1, 0, 0 },
    { 1, 34, 2, 1, GAZHDOR_BLOCK_ENTRIES }, { 1, 35, 1, 1, GAZHDOR_BLOCK_ENTRIES }, { 1, 36, 1, 1, GAZHDOR_BLOCK_ENTRIES },
    { 1, 48, 40, 1, GAZHDOR_BLOCK_ENTRIES }, { 1, 48, 56, 1, GAZHDOR_BLOCK_ENTRIES }, { 1, 53, 1, 1, GAZHDOR_BLOCK_ENTRIES },
    { 1, 38, 1, 0, 0 }, { 1, 38, 2, 0, 0 }, { 1, 56, 9, 0, 0 },
    { 1, 57, 1, 0, 0 }, { 1, 57, 4, 1, GAZHDOR_BLOCK_SIZE }, { 1, 58, 128, 1, GAZHDOR_BLOCK_SIZE }, { 1, 55, 2, 1, GAZHDOR_BLOCK_SIZE }, { 1, 55, 0x83, 0, 0 },
    { 2, 7, 32, 2, GAZHDOR_BLOCK_OFFSET }, { 2, 7, 254, 2, GAZHDOR_BLOCK_OFFSET }, { 2, 7, 31, 0, 0 },
    { 2, 6, 1, 2, GAZHDOR_BLOCK_UNDEFINED }, { 1, 60, 47, 2, GAZHDOR_BLOCK_ITEMS }, { 1, 58, 5, 2, GAZHDOR_BLOCK_ITEMS },
    { 1, 62, 1, 2, GAZHDOR_BLOCK_ITEMS }, { 1, 60, 46, 0, 0 }, { 1, 58, 4, 0, 0 },
};

/* A header, a definition with one field of two bytes, a message, the end. */
static void refused_blocks(void)
{
    gazhdor_field field = gazhdor_new_field(2, GAZHDOR_TYPE_UINT16, 1);
    gazhdor_blocks to = gazhdor_write(NULL, 0, gazhdor_by_realloc, NULL);
    static const size_t begins[] = { 0, 32, 128, 176 };
    PUT(gazhdor_put_header(&to, 0));
    PUT(gazhdor_put_definition(&to, 0, 20, &field, 1));
    PUT(gazhdor_put_message(&to, 0));
    PUT(gazhdor_put_end(&to));
    WANT(to.length == 200);
    for (size_t i = 0; i < sizeof changes / sizeof changes[0]; i++) {
        uint8_t *byte = to.bytes + begins[changes[i].block] + changes[i].at, old = *byte;
        gazhdor_text file = GAZHDOR_NO_TEXT;
        *byte = changes[i].byte;
        gazhdor_answer a = gazhdor_from_messages(to.bytes, to.length, &file);
        int is_wanted = changes[i].reason == 0 ? a.status == GAZHDOR_GOOD && gazhdor_check(file.bytes, file.length).status == GAZHDOR_GOOD
            : a.status == GAZHDOR_BLOCK && a.reason == changes[i].reason && a.row == changes[i].row && a.place == begins[changes[i].row];
        if (!is_wanted)
            fprintf(stderr, "change %zu: status %u, reason %u, row %u\n", i, (unsigned)a.status, (unsigned)a.reason, (unsigned)a.row);
        WANT(is_wanted);
        gazhdor_free(file);
        *byte = old;
    }
    free(to.bytes);
}

/* The true checksum of the header of a file of this profile version without data is 0, which zeros in its place can't say. */
static void unwritable(void)
{
    gazhdor_blocks to = gazhdor_write(NULL, 0, gazhdor_by_realloc, NULL);
    gazhdor_text file = GAZHDOR_NO_TEXT;
    PUT(gazhdor_put_header(&to, 46477));
    PUT(gazhdor_put_end(&to));
    to.bytes[GAZHDOR_AT_HEADER_SUM] = GAZHDOR_ZERO_SUM;
    gazhdor_answer a = gazhdor_from_messages(to.bytes, to.length, &file);
    WANT(a.status == GAZHDOR_UNWRITABLE && a.reason == 0 && a.place == 0 && a.row == 0 && file.length == 0);
    free(to.bytes);
}

/* ---- memory that is full, or refused */

/* A file with a block of each kind; stops nowhere. How many calls have put a block. */
static int small_file(gazhdor_blocks *to)
{
    gazhdor_field own = gazhdor_new_developer(0, 1, GAZHDOR_TYPE_UINT16, 1);
    gazhdor_field fields[] = { gazhdor_new_field(253, GAZHDOR_TYPE_UINT32, 1), gazhdor_new_field(3, GAZHDOR_TYPE_UINT8, 1), own };
    int put = gazhdor_put_header(to, 0) == GAZHDOR_PUT;
    size_t begin = to->length;
    int is_described = gazhdor_put_description(to, 0, own, "Form power", "watts") == GAZHDOR_PUT;
    WANT(is_described == (to->length != begin));
    put += is_described;
    put += gazhdor_put_definition(to, 1, GAZHDOR_MESSAGE_RECORD, fields, 3) == GAZHDOR_PUT;
    WANT(is_described || gazhdor_put_message(to, 0) != GAZHDOR_PUT);
    for (int i = 0; i < 3; i++) {
        size_t before = to->length;
        int is_put = gazhdor_put_message(to, 1) == GAZHDOR_PUT;
        WANT(is_put == (to->length != before) && (gazhdor_set_value(to, fields[1], 0, 100 + i) == GAZHDOR_PUT) == is_put);
        put += is_put;
    }
    return put + (gazhdor_put_end(to) == GAZHDOR_PUT);
}

/* Whether these are whole blocks, and as far as the first that is missing those of `whole`. */
static int are_blocks(const gazhdor_blocks *to, const gazhdor_blocks *whole)
{
    gazhdor_text made = { to->bytes, to->length }, all = { whole->bytes, whole->length };
    gazhdor_reader at = gazhdor_read(made), wanted = gazhdor_read(all);
    int is_missing = 0;
    while (gazhdor_next(&at) && gazhdor_next(&wanted)) {
        is_missing |= at.block.length != wanted.block.length || memcmp(at.block.bytes, wanted.block.bytes, at.block.length) != 0;
        WANT(!is_missing || to->fault == GAZHDOR_PUT_FULL);
    }
    return at.left.length == 0;
}

static uint8_t *grow_a_while(void *own, uint8_t *bytes, size_t capacity)
{
    int *left = own;
    return (*left)-- > 0 ? realloc(bytes, capacity) : NULL;
}

static void rooms(void)
{
    gazhdor_blocks whole = gazhdor_write(NULL, 0, gazhdor_by_realloc, NULL);
    WANT(small_file(&whole) == 7 && whole.fault == GAZHDOR_PUT);
    for (size_t capacity = 0; capacity <= whole.length; capacity++) {
        uint8_t *bytes = malloc(capacity == 0 ? 1 : capacity);
        WANT(bytes != NULL);
        gazhdor_blocks to = gazhdor_write(bytes, capacity, NULL, NULL);
        int put = small_file(&to);
        WANT(to.length <= capacity && to.capacity == capacity && to.bytes == bytes && are_blocks(&to, &whole));
        WANT((capacity == whole.length) == (put == 7) && (put == 7) == (to.fault == GAZHDOR_PUT));
        free(bytes);
    }
    for (int times = 0; times < 8; times++) {
        int left = times;
        gazhdor_blocks to = gazhdor_write(NULL, 1000, grow_a_while, &left);
        int put = small_file(&to);
        WANT(are_blocks(&to, &whole) && (put == 7) == (to.fault == GAZHDOR_PUT) && (times > 0 || to.length == 0));
        free(to.bytes);
    }
    free(whole.bytes);
    /* A length that has no place among all numbers isn't asked for. */
    int left = 9;
    uint8_t byte;
    gazhdor_blocks to = gazhdor_write(&byte, SIZE_MAX - 8, grow_a_while, &left);
    to.length = SIZE_MAX - 8;
    WANT(gazhdor_put_header(&to, 0) == GAZHDOR_PUT_FULL && to.length == SIZE_MAX - 8 && to.bytes == &byte && left == 9);
}

int main(void)
{
    two_orders();
    developer_field();
    no_values();
    answers();
    refused_blocks();
    unwritable();
    rooms();
    return 0;
}
