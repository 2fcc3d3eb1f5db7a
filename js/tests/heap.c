/* Tests of js/heap.c and js/wide.c, which the WebAssembly module has in place of malloc and of the compiler's arithmetic of 128 bits:
 *
 *     cc -std=gnu11 -O2 -no-pie js/tests/heap.c -Wl,--defsym=__heap_base=0x10000010 -o heap && ./heap
 *
 * The memory of the module is an area of this program at a fixed place, whose pages are counted here, and refused where a test says so. */
#define GAZHDOR_VERSION "0"
#define __builtin_wasm_memory_size(memory) fake_pages
#define __builtin_wasm_memory_grow(memory, more) grow(more)
static unsigned long fake_pages, fake_most;
static unsigned long grow(unsigned long more)
{
    /* As the engine does where the module was lowered: the number wraps, and what is answered for a refusal is no use. */
    more = (unsigned)more;
    if (fake_pages + more > fake_most)
        return 0xFFFFFFFF;
    fake_pages += more;
    return fake_pages - more;
}
#define export_name(name) unused
#include "../heap.c"
#undef export_name

#define __multi3 own_multi3
#define __udivti3 own_udivti3
#define __umodti3 own_umodti3
#define __divti3 own_divti3
#define __modti3 own_modti3
#define __ashlti3 own_ashlti3
#define __lshrti3 own_lshrti3
#define __ashrti3 own_ashrti3
#define whole wide
#include "../wide.c"
#undef whole

#include <stdio.h>
#include <stdlib.h>
#include <string.h>
#include <sys/mman.h>
#include <time.h>

#define BASE 0x10000000ul
#define MANY 4096

static unsigned long long state = 20261129;
static unsigned long long some(void)
{
    state ^= state << 13;
    state ^= state >> 7;
    return state ^= state << 17;
}

static void must(int holds, const char *what)
{
    if (!holds) {
        printf("heap.c: %s\n", what);
        exit(1);
    }
}

/* The heap begins anew, with a memory of at most so many bytes more. */
static void begin(size room)
{
    memset(lists, 0, sizeof lists);
    memset(filled, 0, sizeof filled);
    last = 0;
    top = mapped = 0;
    fake_pages = BASE / PAGE + 1;
    fake_most = (BASE + room) / PAGE;
}

/* Each block knows the one before it, no two free ones are neighbours, the last isn't free, and each free one is in its list. */
static void see_blocks(void)
{
    size listed = 0, unused = 0;
    block *before = 0;
    for (block *at = (block *)(((size)&__heap_base + 15) & ~(size)15); (byte *)at < top; at = after(at)) {
        must(at->before == before && whole_of(at) % 16 == 0 && whole_of(at) >= LEAST, "a block is wrong");
        must(!(before != 0 && is_free(before) && is_free(at)), "two free blocks are neighbours");
        unused += is_free(at);
        before = at;
    }
    must(before == last && (last == 0 || !is_free(last)), "the last block is wrong");
    for (int list = 0; list < LISTS; list++) {
        must((lists[list] != 0) == (filled[list / 64] >> list % 64 & 1), "the bit of a list is wrong");
        for (block *at = lists[list]; at != 0; at = at->next, listed++)
            must(is_free(at) && list_of(whole_of(at)) == list, "a list has a wrong block");
    }
    must(listed == unused, "a free block is in no list");
}

typedef struct held {
    byte *bytes;
    size length;
    byte filled_with;
} held;

static void see_bytes(const held *of, size length)
{
    for (size k = 0; k < length; k++)
        must(of->bytes[k] == of->filled_with, "the bytes of a block have changed");
}

static void fill(held *of, byte *bytes, size length)
{
    must((size)bytes % 16 == 0, "a block isn't aligned");
    of->bytes = bytes;
    of->length = length;
    of->filled_with = (byte)some();
    memset(bytes, of->filled_with, length);
}

static size some_length(void)
{
    return some() % 16 == 0 ? some() % 200000 : some() % (1ul << some() % 11);
}

/* Random calls; what a block has is compared when it is taken again and given back. Returns how many calls were refused. */
static int try_calls(int calls)
{
    static held all[MANY];
    int refused = 0;
    memset(all, 0, sizeof all);
    for (int k = 0; k < calls; k++) {
        held *of = &all[some() % MANY];
        size length = some_length();
        if (of->bytes == 0) {
            tried got = rattle_alloc(length, 8);
            must(got.p != 0, "there is no address");
            if (got.ok)
                fill(of, got.p, length);
            refused += !got.ok;
        } else if (some() % 2) {
            see_bytes(of, of->length);
            rattle_dealloc(of->bytes);
            of->bytes = 0;
        } else {
            tried got = rattle_realloc(of->bytes, of->length, length, 8);
            held was = { got.ok ? got.p : of->bytes, of->length, of->filled_with };
            see_bytes(&was, got.ok && length < of->length ? length : of->length);
            if (got.ok)
                fill(of, got.p, length);
            refused += !got.ok;
        }
        if (k % 512 == 0)
            see_blocks();
    }
    for (int k = 0; k < MANY; k++)
        if (all[k].bytes != 0) {
            see_bytes(&all[k], all[k].length);
            gazhdor_free(all[k].bytes);
        }
    see_blocks();
    must(last == 0, "a block is left over");
    return refused;
}

/* A text that doubles at the end stays where it is; sizes that no memory has are refused, and nothing is grown for them. */
static void try_sizes(void)
{
    begin(256ul << 20);
    byte *first = gazhdor_alloc(0), *text = gazhdor_alloc(64);
    must(first != 0 && first != text, "no bytes are no block");
    for (size length = 64; length < (64ul << 20); length *= 2)
        must(rattle_realloc(text, length, 2 * length, 1).p == text, "the last block was moved");
    size before = fake_pages;
    for (int bits = 29; bits < 64; bits++) {
        size length = (size)1 << bits;
        must(gazhdor_alloc(length) == 0 && gazhdor_alloc(2 * length - 1) == 0, "a block that no memory has");
        must(!rattle_realloc(text, 1, length, 1).ok && !rattle_alloc(length - 1, 1).ok, "a block that no memory has");
    }
    must(fake_pages == before, "memory was taken for what was refused");
    gazhdor_free(first);
    gazhdor_free(text);
    gazhdor_free(0);
    see_blocks();
}

/* 200,000 blocks, freed in a random order, take no longer for each than a few do. */
static void try_order(void)
{
    enum { COUNT = 200000 };
    static byte *all[COUNT];
    begin(256ul << 20);
    for (int k = 0; k < COUNT; k++)
        all[k] = gazhdor_alloc(some() % 64);
    for (int k = COUNT - 1; k > 0; k--) {
        int other = (int)(some() % (unsigned)(k + 1));
        byte *kept = all[k];
        all[k] = all[other];
        all[other] = kept;
    }
    clock_t began = clock();
    for (int k = 0; k < COUNT; k++)
        gazhdor_free(all[k]);
    must(clock() - began < CLOCKS_PER_SEC, "blocks are freed slowly");
    must(last == 0, "a block is left over");
}

/* A number with as many bits as may be, so that each way through a division is taken. */
static unsigned __int128 some_wide(void)
{
    unsigned __int128 number = (unsigned __int128)some() << 64 | some();
    return number >> some() % 128;
}

static void try_wide(int count)
{
    for (int k = 0; k < count; k++) {
        unsigned __int128 a = some_wide(), b = some_wide();
        __int128 x = (__int128)(some() % 2 ? -a : a), y = (__int128)(some() % 2 ? -b : b);
        must((unsigned __int128)own_multi3(x, y) == (unsigned __int128)x * (unsigned __int128)y, "a product is wrong");
        int by = (int)(some() % 128);
        must((unsigned __int128)own_ashlti3(x, by) == (unsigned __int128)x << by, "a shift to the left is wrong");
        must(own_lshrti3(a, by) == a >> by && own_ashrti3(x, by) == x >> by, "a shift to the right is wrong");
        if (b == 0)
            continue;
        must(own_udivti3(a, b) == a / b && own_umodti3(a, b) == a % b, "a quotient is wrong");
        if (y != -1) /* by -1 the least number has no quotient */
            must(own_divti3(x, y) == x / y && own_modti3(x, y) == x % y, "a quotient with signs is wrong");
    }
}

int main(void)
{
    void *area = mmap((void *)BASE, 512ul << 20, PROT_READ | PROT_WRITE, MAP_PRIVATE | MAP_ANONYMOUS | MAP_NORESERVE | MAP_FIXED, -1, 0);
    must(area == (void *)BASE, "there is no area");
    for (int k = 0; k < 10; k++) {
        begin(256ul << 20);
        must(try_calls(20000) == 0, "a call was refused");
    }
    for (int k = 0; k < 10; k++) {
        begin((1 + some() % 8) << 20);
        must(try_calls(40000) > 0, "no call was refused");
    }
    try_sizes();
    try_order();
    try_wide(300000);
    return 0;
}
