/* What c/ and release/any take of string.h, for a compiler without Apple's headers. */
#ifndef GAZHDOR_STRING_H
#define GAZHDOR_STRING_H
#include <stddef.h>
void *memcpy(void *to, const void *from, size_t bytes);
void *memmove(void *to, const void *from, size_t bytes);
void *memset(void *to, int value, size_t bytes);
void *memchr(const void *bytes, int value, size_t length);
int memcmp(const void *first, const void *second, size_t bytes);
size_t strlen(const char *text);
int strcmp(const char *first, const char *second);
#endif
