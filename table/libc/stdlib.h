/* What pmb_table.c needs of stdlib.h, where the toolchain has no C library's headers (table/build). */
#ifndef PMB_TABLE_STDLIB_H
#define PMB_TABLE_STDLIB_H
#include <stddef.h>
extern void *malloc(size_t size);
extern void *realloc(void *block, size_t size);
extern void free(void *block);
extern double strtod(const char *text, char **end);
#endif
