/* Says of a file whether it is a FIT file, and writes the first lines of its table: demo FILE */
#include "gazhdor.h"

#include <stdio.h>
#include <stdlib.h>

/* The bytes of a file; NULL where it can't be read. */
static uint8_t *load(const char *path, size_t *length)
{
    FILE *file = fopen(path, "rb");
    uint8_t *bytes = NULL;
    *length = 0;
    if (file == NULL)
        return NULL;
    for (size_t room = 65536;; room *= 2) {
        uint8_t *more = (uint8_t *)realloc(bytes, room);
        if (more == NULL)
            break;
        bytes = more;
        *length += fread(bytes + *length, 1, room - *length, file);
        if (*length < room) {
            if (ferror(file))
                break;
            fclose(file);
            return bytes;
        }
    }
    free(bytes);
    fclose(file);
    return NULL;
}

int main(int argc, char **argv)
{
    if (argc != 2) {
        fprintf(stderr, "usage: demo FILE\n");
        return 2;
    }
    size_t length;
    uint8_t *bytes = load(argv[1], &length);
    if (bytes == NULL) {
        fprintf(stderr, "cannot read %s\n", argv[1]);
        return 4;
    }

    gazhdor_answer found = gazhdor_check(bytes, length);
    switch (found.status) {
    case GAZHDOR_GOOD: printf("good, %llu file(s)\n", (unsigned long long)found.files); break;
    case GAZHDOR_REFUSED: printf("refused at byte %llu: %s\n", (unsigned long long)found.place, gazhdor_reason_name(found.reason)); break;
    case GAZHDOR_TRUNCATED: printf("truncated at byte %llu\n", (unsigned long long)found.place); break;
    default: printf("%s\n", gazhdor_status_name(found.status));
    }

    /* Also of a file that is refused there is a table, of what comes before. */
    gazhdor_text table = GAZHDOR_NO_TEXT;
    gazhdor_table(bytes, length, &table);
    size_t end = 0;
    for (int lines = 0; end < table.length && lines < 3; end++)
        lines += table.bytes[end] == '\n';
    fwrite(table.bytes, 1, end, stdout);
    gazhdor_free(table);

    free(bytes);
    return found.status == GAZHDOR_GOOD ? 0 : 1;
}
