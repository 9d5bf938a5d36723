/* What pmb_table.c needs of stddef.h, where the toolchain has no C library's headers (table/build). */
#ifndef PMB_TABLE_STDDEF_H
#define PMB_TABLE_STDDEF_H
typedef __SIZE_TYPE__ size_t;
#define NULL ((void *)0)
#define offsetof(type, member) __builtin_offsetof(type, member)
#endif
