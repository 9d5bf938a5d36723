/* The allocations of the library, which .ci/wholes.c, .ci/handles.c and .ci/bus.c count and refuse: with
 * REFUSES defined and the linker's --wrap of malloc, realloc and free. C99 and C++. */
/* Counted where `counting` is set: how many there were, and how many blocks are not freed. That with
 * the number `refused` is refused, and all later ones too where `later` is set. */
static int counting, later;
static long allocations, live, refused;

#ifdef REFUSES
#ifdef __cplusplus
extern "C" {
#endif
void *__real_malloc(size_t size);
void *__real_realloc(void *old, size_t size);
void __real_free(void *old);
void *__wrap_malloc(size_t size);
void *__wrap_realloc(void *old, size_t size);
void __wrap_free(void *old);
#ifdef __cplusplus
}
#endif

/* How many bytes they asked for. */
static size_t asked_for;

static int refuses(size_t size)
{
    allocations++;
    asked_for += size;
    return allocations == refused || (later && refused != 0 && allocations > refused);
}

void *__wrap_malloc(size_t size)
{
    void *block;
    if (!counting) return __real_malloc(size);
    block = refuses(size) ? NULL : __real_malloc(size);
    live += block != NULL;
    return block;
}

void *__wrap_realloc(void *old, size_t size)
{
    void *block;
    if (!counting) return __real_realloc(old, size);
    block = refuses(size) ? NULL : __real_realloc(old, size);
    live += block != NULL && old == NULL;
    return block;
}

void __wrap_free(void *old)
{
    if (counting) live -= old != NULL;
    __real_free(old);
}
#endif
