// Stands in for the toolchain's heap.c, of which it has code for x86-64 alone (liblibc_c.a): what
// allocates in the proved code calls these, and they call malloc, realloc and free. It goes into
// libpmb.a, libpmb.so and pmb for aarch64.

typedef __SIZE_TYPE__ size_t;

extern void *malloc(size_t size);
extern void *realloc(void *block, size_t size);
extern void free(void *block);

// Whether there is memory, and where: at a byte that is never read or written where there is none.
struct tried {
    _Bool ok;
    void *block;
};

static unsigned char nothing;

static struct tried tried(void *block)
{
    return (struct tried){block != 0, block != 0 ? block : &nothing};
}

// A block of no bytes is one of its alignment, which is 16 at most: malloc returns null for none.
struct tried rattle_alloc(size_t size, size_t alignment)
{
    return tried(malloc(size != 0 ? size : alignment));
}

struct tried rattle_realloc(void *block, size_t kept, size_t size, size_t alignment)
{
    (void)kept;
    return tried(realloc(block, size != 0 ? size : alignment));
}

void rattle_dealloc(void *block)
{
    free(block);
}
