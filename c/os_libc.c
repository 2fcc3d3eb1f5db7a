/* What the program fit calls of the system beside the C library's own functions: its words, and errno. The Rattle kit has these as objects
 * for x86-64 alone; these are for other processors.
 *
 * Not proved. */
#include <errno.h>
#include <stddef.h>

size_t rattle_arg_count(void);
ptrdiff_t rattle_arg(size_t i, unsigned char *buffer, size_t room);
int rattle_errno(void);
void rattle_set_errno(int error);

static size_t count;
static char **words;

/* glibc hands these to what starts before main. */
__attribute__((constructor)) static void keep(int argc, char **argv)
{
    count = argc > 0 ? (size_t)argc : 0;
    words = argv;
}

size_t rattle_arg_count(void)
{
    return count;
}

/* Puts word i at the start of the buffer and returns its length; -1 where there is none, -2 where it doesn't fit, and then the buffer is
 * full. */
ptrdiff_t rattle_arg(size_t i, unsigned char *buffer, size_t room)
{
    size_t length = 0;
    if (i >= count || words[i] == NULL)
        return -1;
    for (; words[i][length] != 0; length++) {
        if (length == room)
            return -2;
        buffer[length] = (unsigned char)words[i][length];
    }
    return (ptrdiff_t)length;
}

int rattle_errno(void)
{
    return errno;
}

void rattle_set_errno(int error)
{
    errno = error;
}
