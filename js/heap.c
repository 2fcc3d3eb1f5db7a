/* The heap of the WebAssembly module, which has no C library: the three calls by which the proved code takes and gives back memory, and
 * gazhdor_alloc and gazhdor_free for the host, which hands bytes in and takes texts out. Compiled for wasm64 by the kit's own clang.
 *
 * Blocks stand one after another from the end of the data on, up to `top`. Each knows the one before it, so free neighbours are joined at
 * once; the last one is never free. Free blocks are kept in lists by their size, and a block is taken from the first list that has none
 * too small: each call takes the same few steps, however many blocks there are and in whatever order they come and go. The last block
 * grows and shrinks in place, so a text that doubles as it is written isn't copied. Memory that the host refuses is an answer, as of
 * malloc: no block.
 *
 * Not proved. It keeps what the kit asks of malloc, realloc and free: blocks of one heap, aligned to 16. */
typedef __SIZE_TYPE__ size;
typedef unsigned char byte;

typedef struct block {
    struct block *before; /* the block that ends where this one begins, or none */
    size whole;           /* its bytes, with these two words: a multiple of 16, and one more while it is free */
    /* Here the bytes of the caller begin. While it is free: */
    struct block *next, *previous; /* in its list */
} block;

#define HEAD 16u
#define LEAST 32u
#define PAGE 65536u
#define MOST ((size)1 << 32) /* so much has a memory with 32-bit addresses, to which the module is lowered */
/* Lists 0 to 63 have one size each; each power of two from 1024 on has 16 lists. */
#define LISTS (64 + 16 * (33 - 10))

extern byte __heap_base;
static block *lists[LISTS];
static unsigned long long filled[(LISTS + 63) / 64]; /* a bit for each list that has a block */
static block *last;        /* the last block, or none */
static byte *top, *mapped; /* the end of all blocks, and of the memory */

static int is_free(const block *at) { return (int)(at->whole & 1); }
static size whole_of(const block *at) { return at->whole & ~(size)1; }
static block *after(block *at) { return (block *)((byte *)at + whole_of(at)); }

static int list_of(size whole)
{
    if (whole < 1024)
        return (int)(whole / 16);
    int log = 63 - __builtin_clzll(whole);
    return 64 + 16 * (log - 10) + (int)(whole >> (log - 4) & 15);
}

static void put(block *at)
{
    int list = list_of(at->whole);
    at->whole |= 1;
    at->previous = 0;
    at->next = lists[list];
    if (at->next != 0)
        at->next->previous = at;
    lists[list] = at;
    filled[list / 64] |= 1ull << list % 64;
}

static void pull(block *at)
{
    at->whole &= ~(size)1;
    int list = list_of(at->whole);
    if (at->next != 0)
        at->next->previous = at->previous;
    if (at->previous != 0)
        at->previous->next = at->next;
    else if ((lists[list] = at->next) == 0)
        filled[list / 64] &= ~(1ull << list % 64);
}

/* A free block of at least this size, out of its list; none where no list is sure to have one. */
static block *found(size whole)
{
    size least = whole < 1024 ? whole : whole + ((size)1 << (63 - __builtin_clzll(whole) - 4)) - 1;
    int list = list_of(least);
    for (int word = list / 64; word < (LISTS + 63) / 64; word++) {
        unsigned long long there = filled[word];
        if (word == list / 64)
            there &= ~0ull << list % 64;
        if (there != 0) {
            block *at = lists[64 * word + __builtin_ctzll(there)];
            pull(at);
            return at;
        }
    }
    return 0;
}

/* Whether the memory reaches up to here, once more is asked for where it doesn't. That is seen by its size: what memory.grow answers for a
 * refusal is another number where the module was lowered to 32 bits. */
static int reaches(byte *end)
{
    if (end <= mapped)
        return 1;
    size pages = ((size)(end - mapped) + PAGE - 1) / PAGE, before = __builtin_wasm_memory_size(0);
    __builtin_wasm_memory_grow(0, pages + before / 4); /* a quarter more, so that growing often costs little */
    if (__builtin_wasm_memory_size(0) == before)
        __builtin_wasm_memory_grow(0, pages);
    mapped = (byte *)(__builtin_wasm_memory_size(0) * PAGE);
    return end <= mapped;
}

/* The whole size of a block of so many bytes; 0 where no memory has such a block. So a number of pages never wraps. */
static size sized(size bytes)
{
    if (bytes > MOST)
        return 0;
    size whole = (bytes + HEAD + 15) & ~(size)15;
    return whole < LEAST ? LEAST : whole;
}

/* Gives a block back: it is joined with its free neighbours, and where it is the last one the heap ends before it. */
static void give(block *at)
{
    block *next = at == last ? 0 : after(at);
    if (at->before != 0 && is_free(at->before)) {
        block *joined = at->before;
        pull(joined);
        joined->whole += at->whole;
        at = joined;
    }
    if (next == 0) {
        top = (byte *)at;
        last = at->before;
        return;
    }
    if (is_free(next)) {
        pull(next);
        at->whole += next->whole;
        next = after(at);
    }
    next->before = at;
    put(at);
}

/* Leaves a block so much of its size, and gives the rest back where that is a block. */
static void cut(block *at, size whole)
{
    if (at->whole - whole < LEAST)
        return;
    block *rest = (block *)((byte *)at + whole);
    rest->before = at;
    rest->whole = at->whole - whole;
    if (at == last)
        last = rest;
    at->whole = whole;
    give(rest);
}

static void *take(size bytes)
{
    size whole = sized(bytes);
    if (whole == 0)
        return 0;
    if (top == 0) {
        top = (byte *)(((size)&__heap_base + 15) & ~(size)15);
        mapped = (byte *)(__builtin_wasm_memory_size(0) * PAGE);
    }
    block *at = found(whole);
    if (at != 0) {
        cut(at, whole);
    } else {
        if (!reaches(top + whole))
            return 0;
        at = (block *)top;
        at->before = last;
        at->whole = whole;
        last = at;
        top += whole;
    }
    return (byte *)at + HEAD;
}

/* Makes a block larger where it stands, where it can. */
static int grown(block *at, size whole)
{
    if (at == last) {
        if (!reaches((byte *)at + whole))
            return 0;
        top = (byte *)at + whole;
        at->whole = whole;
        return 1;
    }
    block *next = after(at);
    if (!is_free(next) || at->whole + whole_of(next) < whole)
        return 0;
    pull(next);
    at->whole += next->whole;
    after(at)->before = at;
    cut(at, whole);
    return 1;
}

static void *take_again(void *was, size kept, size bytes)
{
    block *at = (block *)((byte *)was - HEAD);
    size whole = sized(bytes);
    if (whole == 0)
        return 0;
    if (whole <= at->whole) {
        cut(at, whole);
        return was;
    }
    if (grown(at, whole))
        return was;
    void *now = take(bytes);
    if (now != 0) {
        __builtin_memcpy(now, was, kept < bytes ? kept : bytes);
        give(at);
    }
    return now;
}

/* As the kit's own three are over malloc, realloc and free. Where there is no block, `p` is an address all the same. */
typedef struct tried {
    _Bool ok;
    void *p;
} tried;
static byte nothing;

static tried tried_of(void *p)
{
    tried answer = { p != 0, p != 0 ? p : &nothing };
    return answer;
}

tried rattle_alloc(size bytes, size align)
{
    return tried_of(take(bytes != 0 ? bytes : align));
}

tried rattle_realloc(void *p, size kept, size bytes, size align)
{
    return tried_of(take_again(p, kept, bytes != 0 ? bytes : align));
}

void rattle_dealloc(void *p)
{
    give((block *)((byte *)p - HEAD));
}

/* For the host. */
__attribute__((export_name("gazhdor_alloc"))) void *gazhdor_alloc(size bytes)
{
    return take(bytes);
}

__attribute__((export_name("gazhdor_free"))) void gazhdor_free(void *p)
{
    if (p != 0)
        give((block *)((byte *)p - HEAD));
}

/* The version of the sources, a text that ends with a zero. */
__attribute__((export_name("gazhdor_version"))) const char *gazhdor_version(void)
{
    return GAZHDOR_VERSION;
}
