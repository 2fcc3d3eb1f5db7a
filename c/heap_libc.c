/* The three calls by which the proved code takes memory and gives it back, over those of the C library. The Rattle kit has them as an object
 * for x86-64 alone; these are for other processors. Where there is no block, `p` is an address all the same.
 *
 * Not proved. */
#include <stdbool.h>
#include <stdlib.h>

typedef struct tried {
    bool ok;
    void *p;
} tried;

tried rattle_alloc(size_t bytes, size_t align);
tried rattle_realloc(void *p, size_t kept, size_t bytes, size_t align);
void rattle_dealloc(void *p);

static char nothing;

static tried tried_of(void *p)
{
    tried found = { p != NULL, p != NULL ? p : &nothing };
    return found;
}

/* No type of the proved code needs more than the 16 bytes of alignment that malloc gives. */
tried rattle_alloc(size_t bytes, size_t align)
{
    return tried_of(malloc(bytes != 0 ? bytes : align));
}

tried rattle_realloc(void *p, size_t kept, size_t bytes, size_t align)
{
    (void)kept;
    return tried_of(realloc(p, bytes != 0 ? bytes : align));
}

void rattle_dealloc(void *p)
{
    free(p);
}
