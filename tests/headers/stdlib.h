#ifndef STDLIB_H
#define STDLIB_H
#include <stddef.h>
void *malloc(size_t size);
void free(void *place);
_Noreturn void exit(int status);
unsigned long strtoul(const char *text, char **end, int base);
void qsort(void *items, size_t count, size_t size, int (*order)(const void *, const void *));
#endif
