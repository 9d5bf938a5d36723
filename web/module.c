// Stands beside the program's object in the link of web/pmb.wasm (release/web): what the program takes
// from the C library and from the toolchain's libraries on Linux, for a page. All that reaches outside
// are the two imports, `read` and `write`: there is no file, no clock, no terminal and no variable.

typedef unsigned long size;
typedef unsigned __int128 wide;

// ---- the page

#define IMPORT(name) __attribute__((import_module("pmb"), import_name(name)))
#define EXPORT(name) __attribute__((export_name(name), used))

// Puts at most so many bytes of the input at a place, and returns how many: 0 at the end, or less than 0
// where reading failed.
IMPORT("read") int page_read(unsigned place, unsigned most);
// Takes bytes for standard output (1) or standard error (2), and returns how many, or less than 0.
IMPORT("write") int page_write(int file, unsigned place, unsigned count);

static int number_of_error;

int rattle_errno(void)
{
    return number_of_error;
}

void rattle_set_errno(int number)
{
    number_of_error = number;
}

int *__errno_location(void)
{
    return &number_of_error;
}

static long failed(int number)
{
    number_of_error = number;
    return -1;
}

enum { ENOENT = 2, EBADF = 9, EINVAL = 22, ESPIPE = 29, EIO = 5, LARGEST = 1 << 30 };

long read(int file, void *bytes, size most)
{
    if (file != 0)
        return failed(EBADF);
    int count = page_read((unsigned)(size)bytes, most < LARGEST ? (unsigned)most : LARGEST);
    return count < 0 ? failed(EIO) : count;
}

long write(int file, const void *bytes, size count)
{
    if (file != 1 && file != 2)
        return failed(EBADF);
    int written = page_write(file, (unsigned)(size)bytes, count < LARGEST ? (unsigned)count : LARGEST);
    return written < 0 ? failed(EIO) : written;
}

long __write(int file, const void *bytes, size count)
{
    return write(file, bytes, count);
}

// There are no files: nothing of any name is there.
int open(const char *path, int flags, ...)
{
    (void)path, (void)flags;
    return (int)failed(ENOENT);
}

int statx(int folder, const char *path, int flags, unsigned asked, void *found)
{
    (void)folder, (void)path, (void)flags, (void)asked, (void)found;
    return (int)failed(ENOENT);
}

int rattle_open_dir_at(int folder, const char *name)
{
    (void)folder, (void)name;
    return (int)failed(ENOENT);
}

long readlink(const char *path, char *text, size room)
{
    (void)path, (void)text, (void)room;
    return failed(ENOENT);
}

long getdents64(int folder, void *entries, size room)
{
    (void)folder, (void)entries, (void)room;
    return failed(EBADF);
}

int close(int file)
{
    (void)file;
    return (int)failed(EBADF);
}

// (as of a pipe)
long lseek(int file, long place, int from)
{
    (void)file, (void)place, (void)from;
    return failed(ESPIPE);
}

int isatty(int file)
{
    (void)file;
    failed(25);
    return 0;
}

// There is no clock.
int clock_gettime(int clock, void *time)
{
    (void)clock, (void)time;
    return (int)failed(EINVAL);
}

// ---- the words of the command line, and the start

extern int program(void) __asm__("main");

static const char *words_text;
static size words_length;

void *malloc(size count);

// Room for the words of the command line, each with a 0 at its end.
EXPORT("words") unsigned room_for_words(unsigned length)
{
    return (unsigned)(size)malloc(length + 1);
}

// Runs the program with the words that stand in that room, at `place`, and returns its status.
EXPORT("start") int start(unsigned place, unsigned length)
{
    words_text = (const char *)(size)place;
    words_length = length;
    return program();
}

long rattle_arg_count(void)
{
    long count = 0;
    for (size at = 0; at < words_length; at++)
        count += words_text[at] == 0;
    return count;
}

// Copies a word; returns its length, -1 where there is none, -2 where it needs more room.
long rattle_arg(size number, char *word, size room)
{
    size at = 0;
    for (; number > 0 && at < words_length; at++)
        number -= words_text[at] == 0;
    if (at >= words_length)
        return -1;
    size length = 0;
    for (; words_text[at + length] != 0; length++) {
        if (length == room)
            return -2;
        word[length] = words_text[at + length];
    }
    return (long)length;
}

long rattle_env(const char *name, char *value, size room)
{
    (void)name, (void)value, (void)room;
    return -1;
}

long rattle_env_at(size number, char *value, size room)
{
    (void)number, (void)value, (void)room;
    return -1;
}

void *__sysv_signal(int number, void *call)
{
    (void)number, (void)call;
    return 0;
}

// The program asks whether its processor has what it was compiled for. That was another one, so here
// all is there.
const void *__x86_get_cpuid_feature_leaf(unsigned list)
{
    static const unsigned all[8] = {~0u, ~0u, ~0u, ~0u, ~0u, ~0u, ~0u, ~0u};
    (void)list;
    return all;
}

int __xpg_strerror_r(int number, char *text, size room)
{
    (void)number;
    if (room > 0)
        text[0] = 0;
    return 0;
}

// ---- memory

void *memcpy(void *to, const void *from, size count)
{
    return __builtin_memcpy(to, from, count);
}

void *memmove(void *to, const void *from, size count)
{
    return __builtin_memmove(to, from, count);
}

void *memset(void *to, int byte, size count)
{
    return __builtin_memset(to, byte, count);
}

int memcmp(const void *one, const void *two, size count)
{
    const unsigned char *a = one, *b = two;
    for (size i = 0; i < count; i++)
        if (a[i] != b[i])
            return a[i] < b[i] ? -1 : 1;
    return 0;
}

int bcmp(const void *one, const void *two, size count)
{
    return memcmp(one, two, count);
}

// The heap: pieces of a few sizes, four between each two powers of two. A piece that was given back is
// kept for the next one of its size. In front of each stands 16 bytes' room for its size's number.
enum { PAGE = 65536, HEAD = 16, SIZES = 4 * 40 };

extern unsigned char __heap_base;
static size heap_next, heap_end;
static void *kept[SIZES];

// The bytes of a piece of a size, and the least size whose pieces have so many.
static size bytes_of(unsigned number)
{
    return (size)(4 + number % 4) << (3 + number / 4);
}

static unsigned size_for(size count)
{
    unsigned number = 0;
    if (count > 32) {
        unsigned power = 63 - (unsigned)__builtin_clzl(count - 1);
        number = 4 * (power - 5) + (unsigned)(((count - 1) >> (power - 2)) - 4);
        while (bytes_of(number) < count)
            number++;
    }
    return number;
}

static int grow(size needed)
{
    if (heap_next == 0) {
        heap_next = ((size)&__heap_base + 15) & ~(size)15;
        heap_end = __builtin_wasm_memory_size(0) * PAGE;
    }
    if (needed <= heap_end - heap_next)
        return 1;
    size pages = (needed - (heap_end - heap_next) + PAGE - 1) / PAGE;
    size before = __builtin_wasm_memory_grow(0, pages);
    // (failing, it is -1 of 64 bits, or of 32 once the module is one for 32 bits)
    if (before == ~(size)0 || before == 0xffffffffu)
        return 0;
    heap_end = (before + pages) * PAGE;
    return 1;
}

void *malloc(size count)
{
    if (count > (size)1 << 40)
        return 0;
    unsigned number = size_for(count);
    if (number >= SIZES)
        return 0;
    if (kept[number]) {
        void *piece = kept[number];
        kept[number] = *(void **)piece;
        return piece;
    }
    size needed = (HEAD + bytes_of(number) + 15) & ~(size)15;
    if (!grow(needed))
        return 0;
    unsigned char *piece = (unsigned char *)heap_next + HEAD;
    heap_next += needed;
    *(unsigned *)(piece - HEAD) = number;
    return piece;
}

void free(void *piece)
{
    if (!piece)
        return;
    unsigned number = *(unsigned *)((unsigned char *)piece - HEAD);
    *(void **)piece = kept[number];
    kept[number] = piece;
}

void *realloc(void *piece, size count)
{
    if (!piece)
        return malloc(count);
    size has = bytes_of(*(unsigned *)((unsigned char *)piece - HEAD));
    if (count <= has)
        return piece;
    void *other = malloc(count);
    if (other) {
        memcpy(other, piece, has);
        free(piece);
    }
    return other;
}

// As the toolchain's own: whether there was memory, and where.
struct place {
    size given;
    void *piece;
};

static unsigned char nothing[16];

struct place rattle_alloc(size count, size align)
{
    void *piece = malloc(count ? count : align);
    return (struct place){piece != 0, piece ? piece : nothing};
}

struct place rattle_realloc(void *piece, size before, size count, size align)
{
    (void)before;
    void *other = realloc(piece, count ? count : align);
    return (struct place){other != 0, other ? other : nothing};
}

void rattle_dealloc(void *piece)
{
    free(piece);
}

// ---- numbers of 128 bits

// The product of two, from products of 32 bits.
wide __multi3(wide one, wide two)
{
    size a = (size)one, b = (size)two;
    size a0 = a & 0xffffffff, a1 = a >> 32, b0 = b & 0xffffffff, b1 = b >> 32;
    size low = a0 * b0, m1 = a1 * b0, m2 = a0 * b1;
    size middle = (low >> 32) + (m1 & 0xffffffff) + (m2 & 0xffffffff);
    size high = a1 * b1 + (m1 >> 32) + (m2 >> 32) + (middle >> 32);
    high += (size)(one >> 64) * b + a * (size)(two >> 64);
    return (wide)high << 64 | (low & 0xffffffff) | middle << 32;
}

// A number of its two halves, and back; shifts by a number of bits that is known are no calls.
static wide of(size high, size low)
{
    return (wide)high << 64 | low;
}

wide __ashlti3(wide number, int bits)
{
    size high = (size)(number >> 64), low = (size)number;
    if (bits & 64)
        return of(low << (bits & 63), 0);
    return bits ? of(high << bits | low >> (64 - bits), low << bits) : number;
}

wide __lshrti3(wide number, int bits)
{
    size high = (size)(number >> 64), low = (size)number;
    if (bits & 64)
        return of(0, high >> (bits & 63));
    return bits ? of(high >> bits, low >> bits | high << (64 - bits)) : number;
}

wide __ashrti3(wide number, int bits)
{
    long high = (long)(size)(number >> 64);
    size low = (size)number;
    if (bits & 64)
        return of((size)(high >> 63), (size)(high >> (bits & 63)));
    return bits ? of((size)(high >> bits), low >> bits | (size)high << (64 - bits)) : number;
}
