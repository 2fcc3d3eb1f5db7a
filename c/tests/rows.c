/* Writes what the program writes, but from the blocks of gazhdor_messages, by the functions of gazhdor.h alone: rows csv FILE, the rows of
 * `fit to-csv`; rows table FILE, those of `fit table` without the positions. Each number that gazhdor_value gives is compared with its
 * decimal text, and where it differs, nothing more is written. */
#include "gazhdor.h"

#include <stdio.h>
#include <stdlib.h>
#include <time.h>

/* ---- cells */

static void put_cell(const char *text, size_t length)
{
    int quoted = 0;
    for (size_t i = 0; i < length; i++)
        quoted |= text[i] == ',' || text[i] == '"' || text[i] == '\n' || text[i] == '\r';
    if (quoted)
        putchar('"');
    for (size_t i = 0; i < length; i++) {
        if (text[i] == '"')
            putchar('"');
        putchar(text[i]);
    }
    if (quoted)
        putchar('"');
    putchar(',');
}

static void put_hex(const uint8_t *bytes, size_t length)
{
    for (size_t i = 0; i < length; i++)
        printf(i == 0 ? "0x%02X" : "%02X", bytes[i]);
}

static void put_time(uint32_t seconds)
{
    time_t unix_time = (time_t)seconds + GAZHDOR_EPOCH;
    char text[32];
    if (seconds < GAZHDOR_SYSTEM_TIME)
        printf("system+%u", seconds);
    else if (seconds != GAZHDOR_NO_TIME && strftime(text, sizeof text, "%Y-%m-%dT%H:%M:%SZ", gmtime(&unix_time)) != 0)
        printf("%s", text);
}

/* ---- values */

/* The decimal text of item / scale - offset, which is exact; and gazhdor_value gives the number that is nearest to it. */
static void put_number(gazhdor_field field, gazhdor_block message, size_t k)
{
    uint64_t raw;
    char text[320];
    if (!gazhdor_raw(field, message, k, &raw))
        return;
    __int128 number = field.kind == GAZHDOR_SIGNED ? (__int128)(int64_t)raw : (__int128)raw;
    uint64_t power = 1;
    for (int i = 0; i < field.decimals; i++)
        power *= 10;
    number = (number - (__int128)field.offset * field.scale) * power / field.scale;
    unsigned __int128 size = number < 0 ? -(unsigned __int128)number : (unsigned __int128)number;
    int length = snprintf(text, sizeof text, "%s%llu", number < 0 ? "-" : "", (unsigned long long)(size / power));
    if (field.decimals != 0)
        snprintf(text + length, sizeof text - (size_t)length, ".%0*llu", field.decimals, (unsigned long long)(size % power));
    fputs(text, stdout);
    if (strtod(text, NULL) != gazhdor_value(field, message, k)) {
        printf(" isn't %.17g\n", gazhdor_value(field, message, k));
        exit(1);
    }
}

/* Whether bytes are UTF-8: of a text without zeros. */
static int is_utf8(const uint8_t *s, size_t length)
{
    for (size_t i = 0; i < length;) {
        uint32_t first = s[i++], more = first < 0x80 ? 0 : first < 0xC2 ? 4 : first < 0xE0 ? 1 : first < 0xF0 ? 2 : first < 0xF5 ? 3 : 4;
        uint32_t code = more == 0 ? first : first & (0x3Fu >> more);
        if (more == 4)
            return 0;
        for (uint32_t k = 0; k < more; k++, i++) {
            if (i == length || (s[i] & 0xC0) != 0x80)
                return 0;
            code = code << 6 | (s[i] & 0x3F);
        }
        if ((more == 2 && code < 0x800) || (more == 3 && (code < 0x10000 || code > 0x10FFFF)) || (code >= 0xD800 && code < 0xE000))
            return 0;
    }
    return 1;
}

static void put_string(gazhdor_field field, gazhdor_block message)
{
    gazhdor_text all = gazhdor_items(field, message), text = gazhdor_string(field, message);
    int closed = 1;
    for (size_t i = text.length; i < all.length; i++)
        closed &= all.bytes[i] == 0;
    if (closed && is_utf8(text.bytes, text.length) && (text.length < 2 || memcmp(text.bytes, "0x", 2) != 0)) {
        put_cell((const char *)text.bytes, text.length);
    } else {
        put_hex(all.bytes, all.length);
        putchar(',');
    }
}

/* The bits of a float; gazhdor_value gives the number that has them. Of those that are no number it gives none. */
static void put_float(gazhdor_field field, gazhdor_block message, size_t k)
{
    uint64_t raw, bits;
    uint32_t few;
    double wide = gazhdor_value(field, message, k);
    float narrow = (float)wide;
    gazhdor_raw(field, message, k, &raw);
    memcpy(&bits, &wide, 8);
    memcpy(&few, &narrow, 4);
    bits = field.width == 8 ? bits : few;
    printf("0x%0*llX%s", 2 * field.width, (unsigned long long)raw, bits == raw || isnan(wide) ? "" : " has another value");
}

static void put_value(gazhdor_field field, gazhdor_block message)
{
    if (field.kind == GAZHDOR_STRING) {
        put_string(field, message);
        return;
    }
    gazhdor_text items = gazhdor_items(field, message);
    if (field.kind == GAZHDOR_BYTES)
        put_hex(items.bytes, items.length);
    for (size_t k = 0; k < field.count && field.kind != GAZHDOR_BYTES; k++) {
        if (k != 0)
            putchar('|');
        if (field.kind == GAZHDOR_FLOAT)
            put_float(field, message, k);
        else
            put_number(field, message, k);
    }
    putchar(',');
}

/* ---- the rows of CSV */

static void put_header(gazhdor_block block)
{
    static const char *const sums[] = { "none", "zero", "sum" };
    unsigned size = block.bytes[GAZHDOR_AT_HEADER_SIZE];
    printf("file,%u,%u,%u,%s,", size, block.bytes[GAZHDOR_AT_HEADER_PROTOCOL], (unsigned)gazhdor_load(block, GAZHDOR_AT_HEADER_PROFILE, 8),
        sums[block.bytes[GAZHDOR_AT_HEADER_SUM]]);
    put_hex(block.bytes + 32, size > 14 ? size - 14 : 0);
    puts(",");
}

static void put_definition(gazhdor_block block)
{
    unsigned own = (unsigned)gazhdor_load(block, GAZHDOR_AT_DEFINITION_DEVELOPERS, 2);
    printf("def,%u,%u,%s,%u,%u,", block.bytes[GAZHDOR_AT_DEFINITION_LOCAL], block.bytes[GAZHDOR_AT_DEFINITION_RESERVED],
        block.bytes[GAZHDOR_AT_DEFINITION_ARCHITECTURE] == GAZHDOR_BIG_ENDIAN ? "big" : "little",
        (unsigned)gazhdor_load(block, GAZHDOR_AT_DEFINITION_MESSAGE, 2), (unsigned)gazhdor_load(block, GAZHDOR_AT_DEFINITION_FIELDS, 2));
    if (gazhdor_load(block, GAZHDOR_AT_DEFINITION_BITS, 2) & GAZHDOR_SAYS_DEVELOPERS)
        printf("%u", own);
    puts("");
    for (gazhdor_field f = gazhdor_first_field(block); f.there; f = gazhdor_next_field(block, f))
        printf("%s,%u,%u,%u,,,\n", f.developer ? "ddef" : "fdef", f.number, f.width * f.count, f.developer ? f.index : f.base_type);
}

static void put_message(gazhdor_reader at)
{
    char name[64];
    const char *known = gazhdor_message_name(at.definition);
    printf("data,%u,", at.block.bytes[GAZHDOR_AT_MESSAGE_LOCAL]);
    if (at.block.bytes[GAZHDOR_AT_MESSAGE_OFFSET] != GAZHDOR_NO_OFFSET)
        printf("%u", at.block.bytes[GAZHDOR_AT_MESSAGE_OFFSET]);
    snprintf(name, sizeof name, "message_%u", (unsigned)at.message);
    printf(",%s,", *known ? known : name);
    put_time(gazhdor_header_time(at.block));
    puts(",,");
    for (gazhdor_field f = gazhdor_first_field(at.definition); f.there; f = gazhdor_next_field(at.definition, f)) {
        snprintf(name, sizeof name, f.developer ? "dev_%u_%u" : "field_%u", f.developer ? f.index : f.number, f.number);
        known = *f.name ? f.name : name;
        printf(f.developer ? "dev," : "field,");
        put_cell(known, strlen(known));
        put_value(f, at.block);
        put_cell(f.unit, strlen(f.unit));
        puts(",,");
    }
}

static void put_csv(gazhdor_text blocks)
{
    puts("row,a,b,c,d,e,f");
    for (gazhdor_reader at = gazhdor_read(blocks); gazhdor_next(&at);) {
        switch (at.block.kind) {
        case GAZHDOR_FILE_HEADER: put_header(at.block); break;
        case GAZHDOR_DEFINITION: put_definition(at.block); break;
        case GAZHDOR_MESSAGE: put_message(at); break;
        default: puts("end,,,,,,");
        }
    }
}

/* ---- the table */

/* The first of two fields that has a value; else what the message tells otherwise, with so many decimals. */
static void put_column(gazhdor_reader at, uint32_t first, uint32_t second, double told, int decimals)
{
    gazhdor_field a = gazhdor_numbered(at.definition, first), b = gazhdor_numbered(at.definition, second);
    putchar(',');
    if (!isnan(gazhdor_value(a, at.block, 0)))
        put_number(a, at.block, 0);
    else if (!isnan(gazhdor_value(b, at.block, 0)))
        put_number(b, at.block, 0);
    else if (!isnan(told))
        printf("%.*f", decimals, told);
}

static void put_table(gazhdor_text blocks)
{
    puts("file,timestamp,altitude,distance,speed,heart_rate,cadence,power,temperature");
    for (gazhdor_reader at = gazhdor_read(blocks); gazhdor_next(&at);) {
        if (at.message != 20)
            continue;
        printf("%u,", at.block.file);
        put_time(gazhdor_time(at.block));
        put_column(at, 78, 2, NAN, 0);
        put_column(at, 5, 5, gazhdor_amount(at.block, GAZHDOR_DISTANCE), 4);
        put_column(at, 73, 6, gazhdor_amount(at.block, GAZHDOR_SPEED), 2);
        for (uint32_t number = 3; number < 5; number++)
            put_column(at, number, number, NAN, 0);
        put_column(at, 7, 7, NAN, 0);
        put_column(at, 13, 13, NAN, 0);
        puts("");
    }
}

int main(int argc, char **argv)
{
    FILE *file = argc == 3 ? fopen(argv[2], "rb") : NULL;
    uint8_t *bytes = malloc(1 << 22);
    if (file == NULL || bytes == NULL)
        return 2;
    size_t length = fread(bytes, 1, 1 << 22, file);
    fclose(file);
    gazhdor_text blocks = GAZHDOR_NO_TEXT;
    gazhdor_messages(bytes, length, &blocks);
    if (strcmp(argv[1], "csv") == 0)
        put_csv(blocks);
    else
        put_table(blocks);
    gazhdor_free(blocks);
    free(bytes);
    return 0;
}
