/* Makes a recording to measure with. usage: recording KIND SIZE FILE; SIZE is in bytes, or with k or m after
   it. Each run makes the same bytes: a header of 14 bytes, records up to the size or a little less, and the
   right sums. bench/README.md names the kinds. */
#include <stdint.h>
#include <stdio.h>
#include <stdlib.h>
#include <string.h>

/* ---- the bytes so far */

static uint8_t *bytes;
static size_t count, capacity;

static void put(unsigned value, unsigned width)
{
    if (count + 4 > capacity) {
        capacity = capacity ? 2 * capacity : 1 << 20;
        bytes = realloc(bytes, capacity);
        if (!bytes) {
            fprintf(stderr, "out of memory\n");
            exit(3);
        }
    }
    for (unsigned k = 0; k < width; k++)
        bytes[count++] = (uint8_t)(value >> 8 * k);
}

static void put_text(const char *text, unsigned width)
{
    size_t length = strlen(text);
    for (unsigned k = 0; k < width; k++)
        put(k < length ? (uint8_t)text[k] : 0, 1);
}

static uint16_t sum_of(size_t n)
{
    uint16_t sum = 0;
    for (size_t k = 0; k < n; k++) {
        sum ^= bytes[k];
        for (int bit = 0; bit < 8; bit++)
            sum = (uint16_t)(sum & 1 ? sum >> 1 ^ 0xA001 : sum >> 1);
    }
    return sum;
}

/* a number below the limit; the same ones in each run */
static unsigned any(unsigned limit)
{
    static uint32_t seed = 12345;
    seed = seed * 1664525u + 1013904223u;
    return (seed >> 8) % limit;
}

/* ---- definitions */

enum {
    FILE_ID = 0,
    SESSION = 18,
    LAP = 19,
    RECORD = 20,
    EVENT = 21,
    DEVICE = 23,
    ACTIVITY = 34,
    DESCRIPTION = 206,
    DEVELOPER = 207
};
enum {
    ENUM = 0x00,
    SINT8 = 0x01,
    UINT8 = 0x02,
    STRING = 0x07,
    BYTE = 0x0D,
    UINT16 = 0x84,
    SINT32 = 0x85,
    UINT32 = 0x86,
    FLOAT32 = 0x88,
    UINT32Z = 0x8C
};

/* number, size and base type of a field, or number, size and index of a developer field */
struct entry { uint8_t first, size, last; };

static const struct entry file_id[] = {
    {0, 1, ENUM}, {1, 2, UINT16}, {2, 2, UINT16}, {3, 4, UINT32Z}, {4, 4, UINT32}};
static const struct entry device[] = {{253, 4, UINT32}, {0, 1, UINT8},  {1, 1, UINT8}, {2, 2, UINT16},
                                      {3, 4, UINT32Z},  {4, 2, UINT16}, {5, 2, UINT16}};
static const struct entry event[] = {
    {253, 4, UINT32}, {0, 1, ENUM}, {1, 1, ENUM}, {3, 4, UINT32}, {4, 1, UINT8}};
static const struct entry lap[] = {{253, 4, UINT32}, {2, 4, UINT32}, {3, 4, SINT32}, {4, 4, SINT32},
                                   {7, 4, UINT32},   {8, 4, UINT32}, {9, 4, UINT32}, {13, 2, UINT16},
                                   {15, 1, UINT8},   {16, 1, UINT8}, {0, 1, ENUM},   {1, 1, ENUM},
                                   {24, 1, ENUM}};
static const struct entry session[] = {{253, 4, UINT32}, {2, 4, UINT32}, {7, 4, UINT32},
                                       {8, 4, UINT32},   {9, 4, UINT32}, {14, 2, UINT16},
                                       {5, 1, ENUM},     {6, 1, ENUM},   {26, 2, UINT16}};
static const struct entry activity[] = {{253, 4, UINT32}, {0, 4, UINT32}, {1, 2, UINT16},
                                        {2, 1, ENUM},     {3, 1, ENUM},   {4, 1, ENUM}};
static const struct entry developer[] = {{1, 16, BYTE}, {3, 1, UINT8}, {4, 4, UINT32}};
static const struct entry description[] = {
    {0, 1, UINT8}, {1, 1, UINT8}, {2, 1, UINT8}, {3, 16, STRING}, {8, 8, STRING}};
static const struct entry record[] = {{253, 4, UINT32}, {0, 4, SINT32}, {1, 4, SINT32}, {2, 2, UINT16},
                                      {3, 1, UINT8},    {4, 1, UINT8},  {5, 4, UINT32}, {6, 2, UINT16},
                                      {7, 2, UINT16},   {13, 1, SINT8}};
static const struct entry own[] = {{0, 2, 0}, {1, 4, 0}, {2, 1, 0}};
static const struct entry course[] = {{4, 1, ENUM}, {5, 16, STRING}};
static const struct entry sport[] = {{0, 1, ENUM}, {1, 1, ENUM}, {3, 24, STRING}};
#define LENGTH(list) (unsigned)(sizeof(list) / sizeof(list[0]))

static void put_entries(const struct entry *list, unsigned length)
{
    put(length, 1);
    for (unsigned k = 0; k < length; k++) {
        put(list[k].first, 1);
        put(list[k].size, 1);
        put(list[k].last, 1);
    }
}

static void define(unsigned local, unsigned global, const struct entry *list, unsigned length)
{
    put(0x40 | local, 1);
    put(0, 2);
    put(global, 2);
    put_entries(list, length);
}

/* ---- messages */

enum { AT_FILE, AT_DEVICE, AT_RECORD, AT_PLAIN_RECORD, AT_EVENT, AT_LAP, AT_LAST };

static uint32_t now = 1000000000, begin = 1000000000, lap_begin = 1000000000, distance, laps;
static int32_t latitude = 566000000, longitude = 101000000;

static void put_event(unsigned kind)
{
    put(AT_EVENT, 1);
    put(now, 4);
    put(0, 1);
    put(kind, 1);
    put(0, 4);
    put(0, 1);
}

static void put_lap(void)
{
    put(AT_LAP, 1);
    put(now, 4);
    put(lap_begin, 4);
    put((uint32_t)latitude, 4);
    put((uint32_t)longitude, 4);
    put((now - lap_begin) * 1000, 4);
    put((now - lap_begin) * 1000, 4);
    put(distance % 1000000, 4);
    put(5000, 2);
    put(140, 1);
    put(170, 1);
    put(9, 1);
    put(1, 1);
    put(0, 1);
    lap_begin = now;
    laps++;
}

/* the fields of a record message after its timestamp */
static void put_point(unsigned k)
{
    unsigned speed = 2500 + any(5000);
    latitude += (int32_t)any(120) - 40;
    longitude += (int32_t)any(160) - 60;
    distance += speed / 10;
    put((uint32_t)latitude, 4);
    put((uint32_t)longitude, 4);
    put(2500 + any(1500), 2);
    put(100 + any(80), 1);
    put(k % 97 == 0 ? 0xFF : 60 + any(40), 1);
    put(distance, 4);
    put(speed, 2);
    put(k % 61 == 0 ? 0xFFFF : 80 + any(300), 2);
    put(any(40) - 10, 1);
}

static void put_own_fields(void)
{
    union {
        float value;
        uint32_t bits;
    } strain = {.value = (float)any(10000) / 16};
    put(any(2000), 2);
    put(strain.bits, 4);
    put(any(100), 1);
}

/* ---- the kinds */

static void define_record(int with_own)
{
    if (with_own) {
        put(0x60 | AT_RECORD, 1);
        put(0, 2);
        put(RECORD, 2);
        put_entries(record, LENGTH(record));
        put_entries(own, LENGTH(own));
    } else {
        define(AT_RECORD, RECORD, record, LENGTH(record));
    }
}

static void describe(unsigned number, unsigned code, const char *name, const char *unit)
{
    put(AT_LAST, 1);
    put(0, 1);
    put(number, 1);
    put(code, 1);
    put_text(name, 16);
    put_text(unit, 8);
}

static void put_descriptions(void)
{
    define(AT_LAST, DEVELOPER, developer, LENGTH(developer));
    put(AT_LAST, 1);
    put_text("bench of gazhdor", 16);
    put(0, 1);
    put(1, 4);
    define(AT_LAST, DESCRIPTION, description, LENGTH(description));
    describe(0, UINT16, "Form power", "watts");
    describe(1, FLOAT32, "Strain", "N/m");
    describe(2, UINT8, "Balance, left", "%");
}

/* A message of a ride. With `compressed` its time is in its header, but for each sixteenth, which has a
   timestamp. */
static void put_record(unsigned k, int with_own, int compressed)
{
    if (compressed && k % 16 != 0) {
        put(0x80 | AT_RECORD << 5 | (now & 31), 1);
    } else {
        put(compressed ? AT_PLAIN_RECORD : AT_RECORD, 1);
        put(now, 4);
    }
    put_point(k);
    if (with_own)
        put_own_fields();
    now++;
}

static void make_ride(size_t size, int with_own, int compressed, int turns)
{
    if (with_own)
        put_descriptions();
    if (compressed) {
        define(AT_RECORD, RECORD, record + 1, LENGTH(record) - 1);
        define(AT_PLAIN_RECORD, RECORD, record, LENGTH(record));
    } else {
        define_record(with_own);
    }
    define(AT_LAP, LAP, lap, LENGTH(lap));
    for (unsigned k = 0; count + 400 < size; k++) {
        if (turns && k > 0)
            define_record(with_own);
        put_record(k, with_own, compressed);
        if (k % 600 == 599)
            put_lap();
        if (k % 997 == 996)
            put_event(4);
    }
}

static void make_definitions(size_t size)
{
    for (unsigned k = 0; count + 400 < size; k++)
        define(k % 16, k % 2 ? LAP : RECORD, k % 2 ? lap : record, k % 2 ? LENGTH(lap) : LENGTH(record));
    define(AT_EVENT, EVENT, event, LENGTH(event));
}

static void make_strings(size_t size)
{
    static const char *const names[] = {"Lake loop", "Kaltern am See", "Up, and down", "The \"wall\"",
                                        "Côte d'Azur"};
    define(AT_RECORD, 31, course, LENGTH(course));
    define(AT_PLAIN_RECORD, 12, sport, LENGTH(sport));
    while (count + 400 < size) {
        put(AT_RECORD, 1);
        put(any(5), 1);
        put_text(names[any(LENGTH(names))], 16);
        put(AT_PLAIN_RECORD, 1);
        put(any(5), 1);
        put(any(5), 1);
        put_text(names[any(LENGTH(names))], 24);
    }
}

#include "interleaved.h"

/* ---- the file */

static void put_first_messages(void)
{
    define(AT_FILE, FILE_ID, file_id, LENGTH(file_id));
    put(AT_FILE, 1);
    put(4, 1);
    put(1, 2);
    put(2697, 2);
    put(3900000001u, 4);
    put(now, 4);
    define(AT_DEVICE, DEVICE, device, LENGTH(device));
    put(AT_DEVICE, 1);
    put(now, 4);
    put(0, 1);
    put(1, 1);
    put(1, 2);
    put(3900000001u, 4);
    put(2697, 2);
    put(1250, 2);
    define(AT_EVENT, EVENT, event, LENGTH(event));
    put_event(0);
}

static void put_last_messages(void)
{
    put_event(4);
    define(AT_LAST, SESSION, session, LENGTH(session));
    put(AT_LAST, 1);
    put(now, 4);
    put(begin, 4);
    put((now - begin) * 1000, 4);
    put((now - begin) * 1000, 4);
    put(distance, 4);
    put(5000, 2);
    put(2, 1);
    put(0, 1);
    put(laps, 2);
    define(AT_LAST, ACTIVITY, activity, LENGTH(activity));
    put(AT_LAST, 1);
    put(now, 4);
    put((now - begin) * 1000, 4);
    put(1, 2);
    put(0, 1);
    put(26, 1);
    put(1, 1);
}

static int make(const char *kind, size_t size)
{
    put(14, 1);
    put(0x20, 1);
    put(2132, 2);
    put(0, 4);
    put_text(".FIT", 4);
    put(0, 2);
    put_first_messages();
    if (!strcmp(kind, "plain"))
        make_ride(size, 0, 0, 0);
    else if (!strcmp(kind, "developer"))
        make_ride(size, 1, 0, 0);
    else if (!strcmp(kind, "compressed"))
        make_ride(size, 0, 1, 0);
    else if (!strcmp(kind, "turns"))
        make_ride(size, 0, 0, 1);
    else if (!strcmp(kind, "definitions"))
        make_definitions(size);
    else if (!strcmp(kind, "strings"))
        make_strings(size);
    else if (!strcmp(kind, "interleaved"))
        make_interleaved(size, 0);
    else if (!strcmp(kind, "small"))
        make_interleaved(size, 1);
    else
        return 0;
    put_last_messages();
    uint32_t data = (uint32_t)(count - 14);
    for (unsigned k = 0; k < 4; k++)
        bytes[4 + k] = (uint8_t)(data >> 8 * k);
    uint16_t own_sum = sum_of(12);
    bytes[12] = (uint8_t)own_sum;
    bytes[13] = (uint8_t)(own_sum >> 8);
    put(sum_of(count), 2);
    return 1;
}

int main(int argc, char **argv)
{
    char *unit = "";
    double size = argc == 4 ? strtod(argv[2], &unit) : 0;
    size *= !strcmp(unit, "m") ? 1048576 : !strcmp(unit, "k") ? 1024 : *unit ? 0 : 1;
    if (size < 2048 || size > 4294000000.0) {
        fprintf(stderr, "usage: recording KIND SIZE FILE, with a SIZE from 2k to 4000m\n");
        return 2;
    }
    if (!make(argv[1], (size_t)size)) {
        fprintf(stderr, "no kind: %s\n", argv[1]);
        return 2;
    }
    FILE *file = fopen(argv[3], "wb");
    if (!file || fwrite(bytes, 1, count, file) != count || fclose(file)) {
        perror(argv[3]);
        return 4;
    }
    return 0;
}
