/* What the WebAssembly module as C takes of the machine: a memory of its own, whose numbers are in little endian on each processor. C99, for
 * any compiler.
 *
 * Where a place is isn't looked at, as in the library for other machines: of the code is proved that it stays within its memory. With
 * GAZHDOR_CHECKED each place is compared with the size of the memory, and the process ends where one is outside. With GAZHDOR_ANY_ORDER
 * numbers are made of their bytes one by one, which needs nothing of the compiler.
 *
 * Not proved. */
#ifndef GAZHDOR_MODULE_H
#define GAZHDOR_MODULE_H
#include <stdint.h>
#include <stdlib.h>
#include <string.h>

typedef int8_t s8;
typedef int16_t s16;
typedef int32_t s32;
typedef int64_t s64;
typedef uint16_t u16;
typedef uint32_t u32;
typedef uint64_t u64;

typedef struct memory {
    unsigned char *base;
    u64 g0;    /* the end of the module's stack */
    u32 pages; /* of 65536 bytes: as many as the module knows of */
    u32 held;  /* as many as there are */
} memory;

static u32 memory_grow(memory *m, u32 pages);

#define U64(value) UINT64_C(value)
#define PAGES m->pages
#define GROW(pages) memory_grow(m, pages)
#define TRAP abort()

#ifdef GAZHDOR_CHECKED
static inline unsigned char *module_at(const memory *m, u64 place, u64 bytes)
{
    u64 size = (u64)m->pages << 16;
    if (bytes > size || place > size - bytes)
        abort();
    return m->base + (size_t)place;
}
#define AT(place, bytes) module_at(m, place, bytes)
#else
#define AT(place, bytes) (m->base + (size_t)(place))
#endif

/* ---- Numbers in memory */

#if defined __BYTE_ORDER__ && __BYTE_ORDER__ == __ORDER_LITTLE_ENDIAN__ || defined _WIN32
#define ORDERED(bits, value) (value)
#elif defined __GNUC__ || defined __clang__
#define ORDERED(bits, value) __builtin_bswap##bits(value)
#endif

#if defined ORDERED && !defined GAZHDOR_ANY_ORDER
#define NUMBER(bits) \
    static inline u##bits get##bits(const unsigned char *p) { u##bits v; memcpy(&v, p, bits / 8); return ORDERED(bits, v); } \
    static inline void put##bits(unsigned char *p, u##bits v) { v = ORDERED(bits, v); memcpy(p, &v, bits / 8); }
NUMBER(16)
NUMBER(32)
NUMBER(64)
#else
static inline u32 get16(const unsigned char *p) { return (u32)p[0] | (u32)p[1] << 8; }
static inline u32 get32(const unsigned char *p) { return get16(p) | get16(p + 2) << 16; }
static inline u64 get64(const unsigned char *p) { return (u64)get32(p) | (u64)get32(p + 4) << 32; }
static inline void put16(unsigned char *p, u32 v) { p[0] = (unsigned char)v; p[1] = (unsigned char)(v >> 8); }
static inline void put32(unsigned char *p, u32 v) { put16(p, v); put16(p + 2, v >> 16); }
static inline void put64(unsigned char *p, u64 v) { put32(p, (u32)v); put32(p + 4, (u32)(v >> 32)); }
#endif

#define L8(place) ((u32)*AT(place, 1))
#define L8X(place) ((u64)*AT(place, 1))
#define L8S(place) ((u32)(s32)(s8)*AT(place, 1))
#define L8SX(place) ((u64)(s64)(s8)*AT(place, 1))
#define L16(place) ((u32)get16(AT(place, 2)))
#define L16X(place) ((u64)get16(AT(place, 2)))
#define L16S(place) ((u32)(s32)(s16)get16(AT(place, 2)))
#define L16SX(place) ((u64)(s64)(s16)get16(AT(place, 2)))
#define L32(place) get32(AT(place, 4))
#define L32X(place) ((u64)get32(AT(place, 4)))
#define L32SX(place) ((u64)(s64)(s32)get32(AT(place, 4)))
#define L64(place) get64(AT(place, 8))
#define S8(place, value) (*AT(place, 1) = (unsigned char)(value))
#define S16(place, value) put16(AT(place, 2), (u16)(value))
#define S32(place, value) put32(AT(place, 4), (u32)(value))
#define S64(place, value) put64(AT(place, 8), value)
#define COPY(to, from, bytes) memmove(AT(to, bytes), AT(from, bytes), (size_t)(bytes))
#define FILL(to, value, bytes) memset(AT(to, bytes), (int)(value), (size_t)(bytes))

/* Whether any of so many bytes, of which there are a multiple of eight, differ. */
static inline u32 module_differ(const unsigned char *p, const unsigned char *q, size_t bytes)
{
    u64 differ = 0, one, other;
    for (size_t k = 0; k < bytes; k += 8) {
        memcpy(&one, p + k, 8);
        memcpy(&other, q + k, 8);
        differ |= one ^ other;
    }
    return differ != 0;
}
#define DIFFER(place, other, bytes) module_differ(AT(place, bytes), AT(other, bytes), bytes)

/* ---- Bits of numbers */

static inline u32 ROTL32(u32 v, u32 by) { return v << (by & 31) | v >> (-by & 31); }
static inline u32 ROTR32(u32 v, u32 by) { return v >> (by & 31) | v << (-by & 31); }
static inline u64 ROTL64(u64 v, u64 by) { return v << (by & 63) | v >> (-by & 63); }
static inline u64 ROTR64(u64 v, u64 by) { return v >> (by & 63) | v << (-by & 63); }
#if (defined __GNUC__ || defined __clang__) && !defined GAZHDOR_ANY_ORDER
static inline u64 CLZ64(u64 v) { return v ? (u64)__builtin_clzll(v) : 64; }
static inline u64 CTZ64(u64 v) { return v ? (u64)__builtin_ctzll(v) : 64; }
static inline u32 CLZ32(u32 v) { return v ? (u32)__builtin_clz(v) : 32; }
static inline u32 CTZ32(u32 v) { return v ? (u32)__builtin_ctz(v) : 32; }
#else
static inline u64 CLZ64(u64 v) { u64 n = 64; while (v) { v >>= 1; n--; } return n; }
static inline u64 CTZ64(u64 v) { u64 n = 0; if (!v) return 64; while (!(v & 1)) { v >>= 1; n++; } return n; }
static inline u32 CLZ32(u32 v) { return (u32)CLZ64(v) - 32; }
static inline u32 CTZ32(u32 v) { return v ? (u32)CTZ64(v) : 32; }
#endif

#endif
