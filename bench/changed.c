/* Writes a short chain of files that is good, or was changed a little: each seed makes another one. usage:
   changed SEED >FILE Its definitions have small sizes and its data sections few bytes, so that many of them
   can't be filled, or only in one way. */
#include <stdint.h>
#include <stdio.h>
#include <stdlib.h>
#include <string.h>

enum { MOST = 1 << 16 };

static uint8_t bytes[MOST + 1024];
static size_t count;
static uint64_t state;

/* a number below the limit */
static unsigned any(unsigned limit)
{
    state += 0x9E3779B97F4A7C15u;
    uint64_t z = (state ^ state >> 30) * 0xBF58476D1CE4E5B9u;
    z = (z ^ z >> 27) * 0x94D049BB133111EBu;
    return (unsigned)((z ^ z >> 31) % limit);
}

/* true in that many of a hundred cases */
static int in_hundred(unsigned cases) { return any(100) < cases; }

/* a byte, often one that means something */
static unsigned any_byte(void)
{
    static const uint8_t known[] = {0, 1, 2, 3, 5, 7, 12, 14, 0x20, 0x2C, 0x40, 0x41, 0x60, 0x80, 0xFD, 0xFF};
    return in_hundred(60) ? known[any(sizeof known)] : any(256);
}

static void put(unsigned value)
{
    if (count < MOST)
        bytes[count++] = (uint8_t)value;
}

static uint16_t sum_of(const uint8_t *p, size_t n)
{
    uint16_t sum = 0;
    while (n--) {
        sum ^= *p++;
        for (int bit = 0; bit < 8; bit++)
            sum = (uint16_t)(sum & 1 ? sum >> 1 ^ 0xA001 : sum >> 1);
    }
    return sum;
}

/* ---- records */

static int size_of[16];   /* of the messages of a local message type; below 0 where it isn't defined */
static int describes[16]; /* its messages are field descriptions */

static unsigned any_size(int small) { return small ? any(5) * any(2) : in_hundred(80) ? any(9) : any(256); }

static unsigned any_code(void)
{
    static const uint8_t codes[] = {0,    1,    2,    7,    7,    0x0A, 0x0D, 0x83, 0x84, 0x85,
                                    0x86, 0x88, 0x89, 0x8B, 0x8C, 0x8E, 0x8F, 0x90, 4,    0x1F};
    return codes[any(sizeof codes)];
}

static void put_entry(unsigned first, unsigned size, unsigned last, unsigned local)
{
    put(first);
    put(size);
    put(last);
    size_of[local] += (int)size;
}

static void put_fields(unsigned local, unsigned global, int small)
{
    static const uint8_t numbers[] = {253, 254, 0, 1, 2, 3, 5, 6, 7, 8, 13, 73, 78};
    unsigned fields = any(small ? 4 : 9);
    if (global == 206) {
        put(5);
        for (unsigned k = 0; k < 3; k++)
            put_entry(k, 1, 2, local);
        put_entry(3, any(12), 7, local);
        put_entry(8, any(6), 7, local);
        return;
    }
    put(fields);
    for (unsigned k = 0; k < fields; k++) {
        int time = in_hundred(15);
        unsigned number = time ? 253 : numbers[any(sizeof numbers)];
        unsigned size = time ? 4 : number == 8 && in_hundred(60) ? 3 : any_size(small);
        put_entry(number, size, time ? 0x86 : any_code(), local);
    }
}

static void put_definition(int small)
{
    static const uint8_t globals[] = {0, 12, 18, 19, 20, 20, 20, 21, 23, 31, 34, 49, 78, 206, 206, 207};
    unsigned local = any(in_hundred(50) ? 16 : 4), developer = in_hundred(45), big = any(2);
    unsigned global = in_hundred(90) ? globals[any(sizeof globals)] : any(65536);
    size_of[local] = 0;
    describes[local] = global == 206;
    put(0x40 | developer << 5 | local);
    put(in_hundred(90) ? 0 : any(256));
    put(big);
    put(big ? global >> 8 : global);
    put(big ? global : global >> 8);
    put_fields(local, global, small);
    if (developer) {
        unsigned fields = any(4);
        put(fields);
        for (unsigned k = 0; k < fields; k++)
            put_entry(any(3), any_size(small), any(2), local);
    }
}

/* index, number and code, and then letters */
static unsigned any_description_byte(int place)
{
    if (place < 2)
        return any(3);
    if (place == 2)
        return any_code();
    return in_hundred(80) ? 'a' + any(26) : any_byte();
}

static void put_message(unsigned local)
{
    put(local < 4 && in_hundred(40) ? 0x80 | local << 5 | any(32) : local);
    for (int k = 0; k < size_of[local]; k++)
        put(describes[local] ? any_description_byte(k) : any_byte());
}

static void put_records(int small)
{
    for (unsigned k = any(small ? 7 : 60); k > 0; k--) {
        unsigned local = any(in_hundred(50) ? 16 : 4);
        if (size_of[local] < 0)
            put_definition(small);
        else
            put_message(local);
    }
}

/* a definition message, and a few bytes that its messages often can't fill */
static void put_close_end(void)
{
    put_definition(1);
    for (unsigned k = any(6); k > 0; k--)
        put(any_byte());
}

/* ---- files */

static void put_file(int small)
{
    static const uint8_t sizes[] = {12, 14, 14, 14, 14, 14, 15, 20, 255};
    size_t start = count;
    unsigned size = in_hundred(97) ? sizes[any(sizeof sizes)] : any(256), length = size < 12 ? 12 : size;
    put(size);
    put(in_hundred(97) ? 0x20 : any(256));
    for (unsigned k = 2; k < length; k++)
        put(k < 8 || k >= 14 ? any_byte() : k < 12 ? (uint8_t) ".FIT"[k - 8] : 0);
    for (unsigned local = 0; local < 16; local++)
        size_of[local] = -1;
    if (in_hundred(25))
        put_close_end();
    else
        put_records(small);
    size_t data = count - start - length;
    if (in_hundred(40)) { /* some bytes fewer or more */
        size_t other = data + any(16);
        data = other > 8 ? other - 8 : 0;
        while (count - start - length < data)
            put(any_byte());
        count = start + length + data;
    }
    uint8_t *header = bytes + start;
    for (unsigned k = 0; k < 4; k++)
        header[4 + k] = (uint8_t)(data >> 8 * k);
    if (size >= 14 && in_hundred(60)) {
        uint16_t own = sum_of(header, 12);
        header[12] = (uint8_t)own;
        header[13] = (uint8_t)(own >> 8);
    }
    uint16_t sum = sum_of(header, count - start);
    put(sum);
    put(sum >> 8);
}

/* changes a byte, takes some out, puts some in, or cuts the end off */
static void change(void)
{
    if (count == 0)
        return;
    size_t at = any((unsigned)count), some = 1 + any(3);
    switch (any(6)) {
    case 0: bytes[at] = (uint8_t)any_byte(); break;
    case 1: bytes[at] ^= (uint8_t)(1 << any(8)); break;
    case 2: bytes[any(count < 16 ? (unsigned)count : 16)] = (uint8_t)any_byte(); break;
    case 3:
        some = some < count - at ? some : count - at;
        memmove(bytes + at, bytes + at + some, count - at - some);
        count -= some;
        break;
    case 4:
        memmove(bytes + at + some, bytes + at, count - at);
        for (size_t k = 0; k < some; k++)
            bytes[at + k] = (uint8_t)any_byte();
        count += some;
        break;
    default: count = at;
    }
}

int main(int argc, char **argv)
{
    if (argc != 2) {
        fprintf(stderr, "usage: changed SEED >FILE\n");
        return 2;
    }
    state = strtoull(argv[1], NULL, 10);
    for (unsigned files = in_hundred(60) ? 1 : 2 + any(2); files > 0; files--)
        put_file(in_hundred(75));
    if (in_hundred(40))
        for (unsigned changes = 1 + any(3); changes > 0; changes--)
            change();
    return fwrite(bytes, 1, count, stdout) == count && fflush(stdout) == 0 ? 0 : 4;
}
