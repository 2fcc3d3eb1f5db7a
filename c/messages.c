/* Writes the heart rate and a developer field of each record message, and how far each session went: messages FILE NAME
 *
 * NAME is that of the developer field, or of any other. */
#include "gazhdor.h"

#include <stdio.h>
#include <stdlib.h>

/* The bytes of a file; NULL where it can't be read. */
static uint8_t *load(const char *path, size_t *length)
{
    FILE *file = fopen(path, "rb");
    uint8_t *bytes = NULL;
    *length = 0;
    if (file == NULL)
        return NULL;
    for (size_t room = 65536;; room *= 2) {
        uint8_t *more = (uint8_t *)realloc(bytes, room);
        if (more == NULL)
            break;
        bytes = more;
        *length += fread(bytes + *length, 1, room - *length, file);
        if (*length < room) {
            if (ferror(file))
                break;
            fclose(file);
            return bytes;
        }
    }
    free(bytes);
    fclose(file);
    return NULL;
}

/* The first item of a field, with its unit; "-" where it has no value. */
static void print_value(gazhdor_field field, gazhdor_block message)
{
    double value = gazhdor_value(field, message, 0);
    if (isnan(value))
        printf("  -");
    else if (field.kind == GAZHDOR_FLOAT)
        printf("  %g %s", value, field.unit);
    else
        printf("  %.*f %s", field.decimals, value, field.unit);
}

static void print_messages(gazhdor_text blocks, const char *name)
{
    gazhdor_reader at = gazhdor_read(blocks);
    while (gazhdor_next(&at)) {
        if (at.message == GAZHDOR_MESSAGE_RECORD) {
            printf("%lu", (unsigned long)gazhdor_time(at.block));
            print_value(gazhdor_named(at.definition, "heart_rate"), at.block);
            print_value(gazhdor_named(at.definition, name), at.block);
            printf("\n");
        } else if (at.message == GAZHDOR_MESSAGE_SESSION) {
            printf("session");
            print_value(gazhdor_named(at.definition, "total_distance"), at.block);
            printf("\n");
        }
    }
}

int main(int argc, char **argv)
{
    if (argc != 3) {
        fprintf(stderr, "usage: messages FILE NAME\n");
        return 2;
    }
    size_t length;
    uint8_t *bytes = load(argv[1], &length);
    if (bytes == NULL) {
        fprintf(stderr, "cannot read %s\n", argv[1]);
        return 4;
    }

    /* Also of a file that is refused there are messages, those of what comes before. */
    gazhdor_text blocks = GAZHDOR_NO_TEXT;
    gazhdor_answer found = gazhdor_messages(bytes, length, &blocks);
    print_messages(blocks, argv[2]);
    if (found.status != GAZHDOR_GOOD)
        fprintf(stderr, "%s\n", gazhdor_status_name(found.status));
    gazhdor_free(blocks);
    free(bytes);
    return found.status == GAZHDOR_GOOD ? 0 : 1;
}
