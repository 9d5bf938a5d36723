/* What .ci/calls.c and .ci/firmware.c ask of a C library, where there is none: on the boards of
 * .ci/firmware. .ci/board.c has the functions. There are no threads: what
 * one would do is done once, before any. */
#ifndef BOARD_H
#define BOARD_H

#include <stddef.h>

typedef int FILE;
typedef int pthread_t;

#define stdout ((FILE *)0)
#define stderr ((FILE *)0)

void *memcpy(void *to, const void *from, size_t count);
void *memmove(void *to, const void *from, size_t count);
void *memset(void *to, int byte, size_t count);
int memcmp(const void *one, const void *other, size_t count);
size_t strlen(const char *text);
int strcmp(const char *one, const char *other);
int sprintf(char *to, const char *form, ...);
int fprintf(FILE *file, const char *form, ...);
int printf(const char *form, ...);

static inline int pthread_create(pthread_t *thread, const void *none, void *(*run)(void *),
                                 int *told)
{
    (void)none;
    (void)run;
    *thread = *told = 0;
    return 0;
}

static inline int pthread_join(pthread_t thread, void **told)
{
    (void)told;
    return thread;
}

#endif
