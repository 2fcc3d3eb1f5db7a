/* What stands between the library and the C library for tests: it counts blocks of memory, and refuses one growth. Linked with the library
 * and --wrap=malloc, realloc and free. */
#include <stddef.h>

static long held, growths, refused;

void *__real_malloc(size_t size);
void *__real_realloc(void *block, size_t size);
void __real_free(void *block);

/* Has the growth of that number from here on refused; 0 for none. Returns how many growths there were since the last call. */
long refuse_growth(long number)
{
    long before = growths;
    growths = 0;
    refused = number;
    return before;
}

/* How many blocks are held. */
long blocks_held(void)
{
    return held;
}

void *__wrap_malloc(size_t size)
{
    void *block = ++growths == refused ? NULL : __real_malloc(size);
    held += block != NULL;
    return block;
}

void *__wrap_realloc(void *old, size_t size)
{
    void *block = ++growths == refused ? NULL : __real_realloc(old, size);
    held += old == NULL && block != NULL;
    return block;
}

void __wrap_free(void *block)
{
    held -= block != NULL;
    __real_free(block);
}
