/* Whether module.h sees each bit in which bytes differ, of those that it is asked of and of no other. */
#include "module.h"

#include <stdio.h>

static u32 memory_grow(memory *m, u32 pages)
{
    return m->pages + pages;
}

int main(void)
{
    static unsigned char bytes[65536];
    memory memory = { bytes, 0, 1, 1 }, *m = &memory;
    for (u32 length = 8; length <= 64; length += 8)
        for (u32 other = 100; other < 108; other++) {
            if (GROW(0) != 1 || DIFFER((u64)3, (u64)other, length))
                return 1;
            for (u32 bit = 0; bit < 8 * (length + 2); bit++) {
                u32 place = other - 1 + bit / 8, asked = place >= other && place < other + length;
                bytes[place] ^= (unsigned char)(1u << bit % 8);
                if (DIFFER((u64)3, (u64)other, length) != asked || DIFFER((u64)other, (u64)3, length) != asked) {
                    printf("%u bytes, bit %u\n", (unsigned)length, (unsigned)bit);
                    return 1;
                }
                bytes[place] ^= (unsigned char)(1u << bit % 8);
            }
        }
    return 0;
}
