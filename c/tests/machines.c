/* Tests of c/heap_libc.c and c/os_libc.c, which stand in for the Rattle kit's on other processors than x86-64: machines ab '' c. They are built
 * with it, by the compiler of the machine here under its checks, and by that for aarch64. */
#include "want.h"

#include <errno.h>
#include <stdbool.h>
#include <stddef.h>
#include <stdint.h>

typedef struct tried {
    bool ok;
    void *p;
} tried;

tried rattle_alloc(size_t bytes, size_t align);
tried rattle_realloc(void *p, size_t kept, size_t bytes, size_t align);
void rattle_dealloc(void *p);
size_t rattle_arg_count(void);
ptrdiff_t rattle_arg(size_t i, unsigned char *buffer, size_t room);
int rattle_errno(void);
void rattle_set_errno(int error);

/* Word i with each room up to one more than it needs: it comes whole, or the buffer is full of its first bytes. */
static void word(size_t i, const char *text)
{
    size_t length = strlen(text);
    for (size_t room = 0; room <= length + 1; room++) {
        unsigned char *buffer = malloc(room + 1);
        WANT(buffer != NULL);
        memset(buffer, '#', room + 1);
        ptrdiff_t said = rattle_arg(i, buffer, room);
        WANT(said == (room < length ? -2 : (ptrdiff_t)length));
        WANT(memcmp(buffer, text, room < length ? room : length) == 0);
        WANT(buffer[room] == '#' && (room <= length || buffer[length] == '#'));
        free(buffer);
    }
}

static void words(int count, char **texts)
{
    unsigned char none = '#';
    WANT(rattle_arg_count() == (size_t)count);
    for (int i = 0; i < count; i++)
        word((size_t)i, texts[i]);
    WANT(rattle_arg((size_t)count, &none, 1) == -1 && none == '#');
    WANT(rattle_arg(SIZE_MAX, &none, 1) == -1 && none == '#');
}

/* Blocks of each small size and of none grow and shrink and keep their first bytes; a size that nobody has is refused, and the block stays. */
static void heap(void)
{
    for (size_t bytes = 0; bytes <= 300; bytes++) {
        tried got = rattle_alloc(bytes, 16);
        WANT(got.ok && got.p != NULL && (uintptr_t)got.p % 16 == 0);
        memset(got.p, (int)bytes, bytes);
        tried more = rattle_realloc(got.p, bytes, 3 * bytes + 1, 16);
        WANT(more.ok && (uintptr_t)more.p % 16 == 0);
        tried refused = rattle_realloc(more.p, bytes, SIZE_MAX / 2, 16);
        WANT(!refused.ok && refused.p != NULL);
        for (size_t i = 0; i < bytes; i++)
            WANT(((unsigned char *)more.p)[i] == (unsigned char)bytes);
        tried none = rattle_realloc(more.p, 0, 0, 16);
        WANT(none.ok && none.p != NULL);
        rattle_dealloc(none.p);
    }
    tried refused = rattle_alloc(SIZE_MAX / 2, 1);
    WANT(!refused.ok && refused.p != NULL);
}

int main(int count, char **texts)
{
    words(count, texts);
    heap();
    rattle_set_errno(EPIPE);
    WANT(rattle_errno() == EPIPE && errno == EPIPE);
    errno = ENOSPC;
    WANT(rattle_errno() == ENOSPC);
    return 0;
}
