/* What c/ and release/any take of stdlib.h, for a compiler without Apple's headers. */
#ifndef GAZHDOR_STDLIB_H
#define GAZHDOR_STDLIB_H
#include <stddef.h>
void *malloc(size_t bytes);
void *calloc(size_t count, size_t bytes);
void *realloc(void *block, size_t bytes);
void free(void *block);
void abort(void) __attribute__((noreturn));
#endif
