/* What the tests of the library for C share: what is wanted, the protocol's checksum, comparing, a file's bytes; and with COUNTED, memory
 * that is counted and refused, for which a program is linked with --wrap=malloc, realloc and free. */
#ifndef WANT_H
#define WANT_H

#include "gazhdor.h"

#include <stdio.h>
#include <stdlib.h>
#include <string.h>

/* Ends the test where it isn't so, and says of what. */
#define WANT_OF(what, ...)                                                             \
    do {                                                                               \
        if (!(what)) {                                                                 \
            fprintf(stderr, "%s:%d: not so: %s; ", __FILE__, __LINE__, #what);         \
            fprintf(stderr, __VA_ARGS__);                                              \
            exit(1);                                                                   \
        }                                                                              \
    } while (0)
#define WANT(what) WANT_OF(what, "%s\n", __func__)

/* ---- memory */

#ifdef COUNTED
#include <malloc.h>

/* How many blocks there are, how many bytes they have, and the most that these were; how often memory was asked for, which time it is to be
 * refused, 0 for none, and whether it is refused each time. */
static __thread struct {
    long blocks;
    size_t held, most;
    long growths, refused;
    int refuses;
} memory;

void *__real_malloc(size_t size);
void *__real_realloc(void *block, size_t size);
void __real_free(void *block);

static inline int is_refused(void)
{
    memory.growths++;
    return memory.refuses || memory.growths == memory.refused;
}

static inline void count_block(void *block)
{
    memory.held += malloc_usable_size(block);
    memory.most = memory.held > memory.most ? memory.held : memory.most;
}

void *__wrap_malloc(size_t size)
{
    void *block = is_refused() ? NULL : __real_malloc(size);
    memory.blocks += block != NULL;
    count_block(block);
    return block;
}

/* Both blocks are there while the bytes are copied. */
void *__wrap_realloc(void *old, size_t size)
{
    size_t before = malloc_usable_size(old);
    void *block = is_refused() ? NULL : __real_realloc(old, size);
    memory.blocks += old == NULL && block != NULL;
    count_block(block);
    memory.held -= block == NULL ? 0 : before;
    return block;
}

void __wrap_free(void *block)
{
    memory.blocks -= block != NULL;
    memory.held -= malloc_usable_size(block);
    __real_free(block);
}
#endif

/* ---- the protocol */

/* The checksum of some bytes, bit by bit. */
static inline uint16_t checksum(const uint8_t *bytes, size_t length)
{
    uint32_t sum = 0;
    for (size_t i = 0; i < length; i++) {
        sum ^= bytes[i];
        for (int bit = 0; bit < 8; bit++)
            sum = sum >> 1 ^ (sum & 1 ? 0xA001 : 0);
    }
    return (uint16_t)sum;
}

/* Lays the checksum of the bytes before it down; returns the length with it. */
static inline size_t with_checksum(uint8_t *bytes, size_t length)
{
    uint16_t sum = checksum(bytes, length);
    bytes[length] = (uint8_t)sum;
    bytes[length + 1] = (uint8_t)(sum >> 8);
    return length + 2;
}

/* ---- comparing */

static inline int same_text(gazhdor_text a, gazhdor_text b)
{
    return a.length == b.length && memcmp(a.bytes, b.bytes, a.length) == 0;
}

static inline int same_answer(gazhdor_answer a, gazhdor_answer b)
{
    return a.status == b.status && a.reason == b.reason && a.place == b.place && a.row == b.row && a.column == b.column && a.files == b.files;
}

static inline int is(gazhdor_answer a, uint32_t status, uint32_t reason, uint64_t place, uint64_t row, uint64_t column, uint64_t files)
{
    gazhdor_answer wanted = { status, reason, place, row, column, files };
    return same_answer(a, wanted);
}

/* ---- files */

/* The bytes of a file, which has at most so many, in memory of malloc. */
static inline gazhdor_text file_of(const char *path, size_t most)
{
    FILE *file = fopen(path, "rb");
    WANT_OF(file != NULL, "%s\n", path);
    uint8_t *bytes = (uint8_t *)malloc(most);
    WANT(bytes != NULL);
    gazhdor_text whole = { bytes, fread(bytes, 1, most, file) };
    WANT_OF(whole.length < most && !ferror(file), "%s\n", path);
    fclose(file);
    return whole;
}

static inline void free_file(gazhdor_text file)
{
    free((void *)(uintptr_t)file.bytes);
}

#endif
