/* The command line of fit.c: what its words ask for, and the words as UTF-8.
 *
 * Not proved. */
#ifndef GAZHDOR_WORDS_H
#define GAZHDOR_WORDS_H
#include "gazhdor.h"

#include <stdlib.h>
#include <string.h>
#ifdef _WIN32
#include <wchar.h>
typedef wchar_t letter;
#else
typedef char letter;
#endif

/* ---- What they ask for */

typedef struct line {
    const letter *command, *path;
    int help, refused;
} line;

static int same(const letter *word, const char *text)
{
    while (*text != 0 && *word == (letter)*text)
        word++, text++;
    return *text == 0 && *word == 0;
}

/* A command, at most one FILE, and -h or --help before another fault; after -- no word is an option. */
static line line_of(int count, letter **words)
{
    line line = { NULL, NULL, 0, 0 };
    int plain = 0;
    for (int k = 1; k < count && !line.help && !line.refused; k++) {
        if (!plain && same(words[k], "--"))
            plain = 1;
        else if (!plain && (same(words[k], "--help") || (words[k][0] == '-' && words[k][1] == 'h')))
            line.help = 1;
        else if ((!plain && words[k][0] == '-' && words[k][1] != 0) || line.path != NULL)
            line.refused = 1;
        else if (line.command == NULL)
            line.command = words[k];
        else
            line.path = words[k];
    }
    return line;
}

/* The kind of stream of a command, GAZHDOR_STREAM_MESSAGES for check; FROM_CSV for that, and -1 for another word. */
enum { FROM_CSV = 100 };
static const struct {
    const char *word;
    int kind;
} commands[] = { { "check", GAZHDOR_STREAM_MESSAGES }, { "show", GAZHDOR_STREAM_SHOW }, { "to-csv", GAZHDOR_STREAM_TO_CSV },
    { "from-csv", FROM_CSV }, { "table", GAZHDOR_STREAM_TABLE } };

static int kind_of(const letter *command)
{
    if (command == NULL)
        return -1;
    for (size_t k = 0; k < sizeof commands / sizeof *commands; k++)
        if (same(command, commands[k].word))
            return commands[k].kind;
    return -1;
}

/* ---- Words in UTF-8 */

/* How many bytes the next character of UTF-8 has; 0 where there is none. */
static int character(const unsigned char *at)
{
    int more = at[0] < 0x80 ? 0 : at[0] >= 0xC2 && at[0] < 0xE0 ? 1 : at[0] >= 0xE0 && at[0] < 0xF0 ? 2 : at[0] >= 0xF0 && at[0] < 0xF5 ? 3 : -1;
    for (int k = 1; k <= more; k++)
        if ((at[k] & 0xC0) != 0x80)
            return 0;
    if ((at[0] == 0xE0 && at[1] < 0xA0) || (at[0] == 0xED && at[1] > 0x9F) || (at[0] == 0xF0 && at[1] < 0x90) || (at[0] == 0xF4 && at[1] > 0x8F))
        return 0;
    return more + 1;
}

#ifdef _WIN32
/* A word of UTF-16 as UTF-8, by malloc; a half of a pair becomes what is no UTF-8. */
static char *utf8(const wchar_t *word)
{
    unsigned char *text = malloc(3 * wcslen(word) + 1), *to = text;
    for (; text != NULL && *word != 0; word++) {
        unsigned long c = (unsigned long)*word;
        if (c >= 0xD800 && c < 0xDC00 && word[1] >= 0xDC00 && word[1] < 0xE000)
            c = 0x10000 + ((c - 0xD800) << 10) + ((unsigned long)*++word - 0xDC00);
        if (c < 0x80) {
            *to++ = (unsigned char)c;
            continue;
        }
        int more = c < 0x800 ? 1 : c < 0x10000 ? 2 : 3;
        static const unsigned char first[] = { 0, 0xC0, 0xE0, 0xF0 };
        *to++ = (unsigned char)(first[more] | c >> 6 * more);
        while (more-- > 0)
            *to++ = (unsigned char)(0x80 | (c >> 6 * more & 0x3F));
    }
    if (text != NULL)
        *to = 0;
    return (char *)text;
}
#else
static char *utf8(const char *word)
{
    char *text = malloc(strlen(word) + 1);
    return text == NULL ? NULL : strcpy(text, word);
}
#endif

static int is_utf8(const char *text)
{
    const unsigned char *at = (const unsigned char *)text;
    while (*at != 0) {
        int bytes = character(at);
        if (bytes == 0)
            return 0;
        at += bytes;
    }
    return 1;
}

#endif
