/* What `fit check` does, written by hand in C, to measure it against: the same lines, the same status, and
   the same byte refused for the same reason. usage: check_c [FILE]; without FILE it reads standard input. */
#include <fcntl.h>
#include <stdint.h>
#include <stdio.h>
#include <stdlib.h>
#include <string.h>
#include <unistd.h>

enum { GOOD = 0, REFUSED = 1, FAILED = 4 };
enum { FILES = 16777215, BUFFER = 65536 };

/* ---- the input: what has been read and not been let go stands in `buffer` from `summed` on */

static int input;
static uint8_t buffer[BUFFER];
static size_t summed, at, end; /* up to here in the sum, up to here judged, up to here read */
static uint64_t let_go;        /* how many bytes stood before those in the buffer */
static uint16_t sum;           /* of the bytes of this file up to `summed` */

static uint16_t tables[8][256];

static void make_tables(void)
{
    for (int i = 0; i < 256; i++) {
        uint16_t c = (uint16_t)i;
        for (int k = 0; k < 8; k++) {
            for (int bit = 0; bit < 8; bit++)
                c = (uint16_t)(c & 1 ? c >> 1 ^ 0xA001 : c >> 1);
            tables[k][i] = c;
        }
    }
}

/* the sum `c` with n more bytes in it, eight at a time */
static uint16_t add(uint16_t c, const uint8_t *p, size_t n)
{
    for (; n >= 8; n -= 8, p += 8)
        c = tables[7][p[0] ^ (c & 255)] ^ tables[6][p[1] ^ c >> 8] ^ tables[5][p[2]] ^ tables[4][p[3]]
            ^ tables[3][p[4]] ^ tables[2][p[5]] ^ tables[1][p[6]] ^ tables[0][p[7]];
    while (n--)
        c = (uint16_t)(c >> 8 ^ tables[0][(c ^ *p++) & 255]);
    return c;
}

static void add_judged(void)
{
    sum = add(sum, buffer + summed, at - summed);
    summed = at;
}

static uint64_t place(void) { return let_go + at; }

static void refuse(uint64_t byte, const char *reason)
{
    printf("refused at byte %llu: %s\n", (unsigned long long)byte, reason);
    exit(REFUSED);
}

static void truncated(void)
{
    printf("truncated at byte %llu\n", (unsigned long long)(let_go + end));
    exit(REFUSED);
}

/* Reads until there are n bytes from `at` on, or the input ends. Returns how many there are then. */
static size_t fill(size_t n)
{
    add_judged();
    memmove(buffer, buffer + at, end - at);
    let_go += at;
    end -= at;
    summed = at = 0;
    while (end < n) {
        ssize_t got = read(input, buffer + end, BUFFER - end);
        if (got < 0) {
            fflush(stdout);
            fprintf(stderr, "read fault at byte %llu\n", (unsigned long long)(let_go + end));
            exit(FAILED);
        }
        if (got == 0)
            break;
        end += (size_t)got;
    }
    return end;
}

/* how many of n bytes there are from `at` on: all, or fewer where the input ends */
static size_t have(size_t n)
{
    size_t there = end - at;
    if (there < n)
        there = fill(n);
    return there < n ? there : n;
}

/* goes past n bytes that may be any */
static void pass(size_t n)
{
    while (n > end - at) {
        n -= end - at;
        at = end;
        if (fill(1) == 0)
            truncated();
    }
    at += n;
}

/* ---- rooms: whether records can fill what is left of the data section */

static uint32_t length_of[16]; /* of a data message with its record header; 0 where none is defined */

/* bit n: data messages of n bytes are defined, for n up to 5, of other local message types than this one */
static unsigned lengths_without(unsigned local)
{
    unsigned lengths = 0;
    for (unsigned other = 0; other < 16; other++)
        if (other != local && length_of[other] <= 5)
            lengths |= 1u << length_of[other];
    return lengths & ~1u;
}

/* Six bytes hold a definition message without fields, whose data messages have one byte. Fewer hold data
   messages alone. */
static int fills(unsigned lengths, uint32_t room)
{
    if (room > 5)
        return 1;
    unsigned sums = 1; /* bit n: messages of these lengths fill n bytes */
    for (uint32_t n = 1; n <= room; n++)
        for (uint32_t length = 1; length <= n; length++)
            if (lengths >> length & sums >> (n - length) & 1)
                sums |= 1u << n;
    return sums >> room & 1;
}

/* the same where this local message type will have messages of one byte more than `least`, or of any number
   above that */
static int fills_from(unsigned local, uint32_t least, uint32_t room)
{
    return least < room || fills(lengths_without(local), room);
}

/* The same after a definition message whose sizes so far are `size`. With `open` a further size is to come. */
static int fills_after(unsigned local, uint32_t size, int open, uint32_t room)
{
    if (room > 5)
        return 1;
    if (open)
        return fills_from(local, size, room);
    return fills(lengths_without(local) | (size < 5 ? 2u << size : 0), room);
}

/* The same where the number of developer fields is to come too: there will be none, or one of a size that
   suits the room. */
static int fills_after_some(unsigned local, uint32_t size, int open, uint32_t room)
{
    return fills_after(local, size, open, room) || (room >= 3 && fills_from(local, size, room - 3));
}

/* ---- headers */

/* a byte of the header, the ones before it judged; `own` is the sum of the first twelve */
static const char *wrong_header(const uint8_t *h, unsigned k, uint16_t own)
{
    uint32_t size = 0;
    switch (k) {
    case 0: return h[0] < 12 || h[0] == 13 ? "HeaderSize" : NULL;
    case 1: return h[1] >> 4 > 2 ? "Protocol" : NULL;
    case 7:
        size = h[4] | h[5] << 8 | h[6] << 16 | (uint32_t)h[7] << 24;
        return size >= 1 && size <= 5 ? "NoFit" : NULL;
    case 8:
    case 9:
    case 10:
    case 11: return h[k] != ".FIT"[k - 8] ? "Signature" : NULL;
    case 12: return h[12] != 0 && h[12] != (own & 255) ? "HeaderSum" : NULL;
    case 13: return (h[12] | h[13] << 8) != own && (h[12] | h[13]) != 0 ? "HeaderSum" : NULL;
    default: return NULL;
    }
}

/* a file's header; returns the size of its data section */
static uint32_t header(void)
{
    uint16_t own = 0;
    unsigned size = 1;
    for (unsigned k = 0; k < size; k++) {
        if (have(k + 1) <= k)
            truncated();
        const uint8_t *h = buffer + at;
        if (k == 12)
            own = add(0, h, 12);
        const char *reason = wrong_header(h, k, own);
        if (reason)
            refuse(place() + k, reason);
        size = h[0];
    }
    const uint8_t *h = buffer + at;
    at += size;
    return h[4] | h[5] << 8 | h[6] << 16 | (uint32_t)h[7] << 24;
}

/* ---- records */

/* Entries of three bytes, in each of which the second is a size. `to_fill` is the room after them. Returns
   the sum of the sizes with those before. Where `some` is set, the number of developer fields is to come
   after them. */
static uint32_t entries(unsigned local, unsigned count, uint32_t size, uint32_t to_fill, int some)
{
    size_t there = have(3 * count);
    const uint8_t *p = buffer + at;
    if (to_fill > 5 && there == 3 * count) {
        for (unsigned k = 0; k < count; k++)
            size += p[3 * k + 1];
        at += there;
        return size;
    }
    for (unsigned k = 0; 3 * k + 1 < there; k++) {
        int open = k + 1 < count;
        size += p[3 * k + 1];
        if (!(some ? fills_after_some : fills_after)(local, size, open, to_fill))
            refuse(place() + 3 * k + 1, "NoFit");
    }
    if (there < 3 * count)
        truncated();
    at += there;
    return size;
}

/* a definition message after its record header; returns how much room is left */
static uint32_t definition(uint8_t head, uint32_t room)
{
    unsigned local = head & 15, some = head >> 5 & 1;
    if (room < 5 + some)
        refuse(place() - 1, "Overrun");
    size_t there = have(5);
    const uint8_t *p = buffer + at;
    if (there > 1 && p[1] > 1)
        refuse(place() + 1, "Architecture");
    if (there < 5)
        truncated();
    unsigned count = p[4];
    if (room < 5 + 3 * count + some)
        refuse(place() + 4, "Overrun");
    room -= 5 + 3 * count + some;
    at += 5;
    uint32_t size = entries(local, count, 0, room, (int)some);
    if (some) {
        if (have(1) < 1)
            truncated();
        count = buffer[at];
        if (room < 3 * count)
            refuse(place(), "Overrun");
        room -= 3 * count;
        if (!fills_after(local, size, count > 0, room))
            refuse(place(), "NoFit");
        at++;
        size = entries(local, count, size, room, 0);
    }
    length_of[local] = 1 + size;
    return room;
}

/* a data message; returns how much room is left */
static uint32_t message(uint8_t head, uint32_t room)
{
    uint32_t length = length_of[head & 0x80 ? head >> 5 & 3 : head & 15];
    if (length == 0)
        refuse(place(), "UndefinedLocal");
    if (length > room)
        refuse(place(), "Overrun");
    if (!fills(lengths_without(16), room - length))
        refuse(place(), "NoFit");
    pass(length);
    return room - length;
}

/* Goes past data messages that stand whole in the buffer and leave six bytes of room or more. Returns how
   many. */
static uint64_t messages(uint32_t *room)
{
    uint64_t count = 0;
    const uint8_t *p = buffer + at, *start = p;
    if (*room < 6)
        return 0;
    size_t most = end - at < *room - 6 ? end - at : *room - 6;
    while (most > 0) {
        uint8_t head = *p;
        if (head >= 16 && head < 128)
            break;
        uint32_t length = length_of[head < 16 ? head : head >> 5 & 3];
        if (length == 0 || length > most)
            break;
        p += length;
        most -= length;
        count++;
    }
    at += (size_t)(p - start);
    *room -= (uint32_t)(p - start);
    return count;
}

/* the records of a data section; returns how many */
static uint64_t records(uint32_t room)
{
    uint64_t count = 0;
    memset(length_of, 0, sizeof length_of);
    for (;;) {
        count += messages(&room);
        if (room == 0)
            return count;
        if (have(1) < 1)
            truncated();
        uint8_t head = buffer[at];
        if (head < 128 && (head & 16 || (head & 0x60) == 0x20))
            refuse(place(), "ReservedBit");
        if (head < 128 && head & 0x40) {
            at++;
            room = definition(head, room - 1);
        } else {
            room = message(head, room);
        }
        count++;
    }
}

static void closing_sum(void)
{
    add_judged();
    uint8_t want[2] = {(uint8_t)sum, (uint8_t)(sum >> 8)};
    for (unsigned k = 0; k < 2; k++) {
        if (have(k + 1) <= k)
            truncated();
        if (buffer[at + k] != want[k])
            refuse(place() + k, "FileSum");
    }
    at += 2;
}

int main(int argc, char **argv)
{
    if (argc > 1 && (input = open(argv[1], O_RDONLY)) < 0) {
        fprintf(stderr, "cannot open %s\n", argv[1]);
        return FAILED;
    }
    make_tables();
    for (uint32_t file = 1; file == 1 || have(1) > 0; file++) {
        if (file > FILES)
            refuse(place(), "TooManyFiles");
        summed = at;
        sum = 0;
        uint32_t size = header();
        uint64_t count = records(size);
        closing_sum();
        printf("file %u: %u data bytes, %llu records\n", file, size, (unsigned long long)count);
    }
    puts("ok");
    return GOOD;
}
