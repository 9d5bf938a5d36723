/* What pmb_table.c needs of string.h, where the toolchain has no C library's headers (table/build). */
#ifndef PMB_TABLE_STRING_H
#define PMB_TABLE_STRING_H
#include <stddef.h>
extern void *memcpy(void *to, const void *from, size_t size);
extern void *memset(void *at, int byte, size_t size);
extern int memcmp(const void *one, const void *other, size_t size);
extern size_t strlen(const char *text);
#endif
