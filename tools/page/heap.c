/* What a program of the kit wants of C, for a page: a heap over its module's memory, copies of bytes, wide numbers.
   What it reads, writes and is called with, the host gives. */
typedef unsigned long size_t;
typedef unsigned char byte;

struct tried {
    _Bool ok;
    byte *p;
};

/* A block has its class in the 16 bytes before it. Those that were freed hang on the list of their class. */
struct block {
    size_t class;
    struct block *next;
};

enum { PAGE = 65536, CLASSES = 64 };

extern byte __heap_base;
static byte *top, *end;
static struct block *freed[CLASSES];
static byte none[16] __attribute__((aligned(16)));

/* The least class whose blocks have so many bytes: 16 for class 0, and for each next one twice as many. */
static size_t class_of(size_t n)
{
    size_t class = 0;
    for (size_t room = 16; room < n; room *= 2)
        class++;
    return class;
}

static byte *take(size_t bytes)
{
    if (!top)
        top = (byte *)(((size_t)&__heap_base + 15) & -16UL), end = (byte *)(__builtin_wasm_memory_size(0) * PAGE);
    if ((size_t)(end - top) < bytes) {
        size_t pages = (bytes - (end - top) + PAGE - 1) / PAGE;
        if (__builtin_wasm_memory_grow(0, pages) == -1UL)
            return 0;
        end += pages * PAGE;
    }
    byte *at = top;
    top += bytes;
    return at;
}

void *malloc(size_t n)
{
    if (n >> 40)
        return 0;
    size_t class = class_of(n);
    struct block *block = freed[class];
    if (block)
        freed[class] = block->next;
    else if (!(block = (struct block *)take(sizeof *block + (16UL << class))))
        return 0;
    block->class = class;
    return block + 1;
}

void free(void *p)
{
    if (!p)
        return;
    struct block *block = (struct block *)p - 1;
    block->next = freed[block->class];
    freed[block->class] = block;
}

void *realloc(void *p, size_t n)
{
    if (!p)
        return malloc(n);
    struct block *block = (struct block *)p - 1;
    size_t room = 16UL << block->class;
    if (n <= room && (room == 16 || n > room / 4))
        return p;
    void *q = malloc(n);
    if (!q)
        return 0;
    __builtin_memcpy(q, p, room < n ? room : n);
    free(p);
    return q;
}

static struct tried tried(void *p)
{
    return (struct tried){p != 0, p ? p : none};
}

struct tried rattle_alloc(size_t n, size_t align)
{
    return tried(malloc(n));
}

struct tried rattle_realloc(byte *p, size_t kept, size_t n, size_t align)
{
    return tried(realloc(p, n));
}

void rattle_dealloc(byte *p)
{
    free(p);
}

void *memcpy(void *to, const void *from, size_t n)
{
    byte *t = to;
    const byte *f = from;
    while (n--)
        *t++ = *f++;
    return to;
}

void *memmove(void *to, const void *from, size_t n)
{
    byte *t = to;
    const byte *f = from;
    if (t < f)
        return memcpy(to, from, n);
    while (n--)
        t[n] = f[n];
    return to;
}

void *memset(void *to, int value, size_t n)
{
    byte *t = to;
    while (n--)
        *t++ = value;
    return to;
}

int memcmp(const void *a, const void *b, size_t n)
{
    const byte *x = a, *y = b;
    for (; n--; x++, y++)
        if (*x != *y)
            return *x - *y;
    return 0;
}

int bcmp(const void *a, const void *b, size_t n)
{
    return memcmp(a, b, n);
}

size_t strlen(const char *s)
{
    size_t n = 0;
    while (s[n])
        n++;
    return n;
}

/* Products and shifts of 128 bits, which the processor lacks. */
typedef unsigned __int128 wide;
union parts {
    wide whole;
    struct {
        size_t low, high;
    };
};

static wide product(size_t a, size_t b)
{
    size_t mask = 0xffffffffUL, al = a & mask, ah = a >> 32, bl = b & mask, bh = b >> 32;
    size_t ll = al * bl, lh = al * bh, hl = ah * bl, hh = ah * bh;
    size_t middle = (ll >> 32) + (lh & mask) + (hl & mask);
    union parts p;
    p.low = (middle << 32) | (ll & mask);
    p.high = hh + (lh >> 32) + (hl >> 32) + (middle >> 32);
    return p.whole;
}

wide __multi3(wide a, wide b)
{
    union parts x = {a}, y = {b}, p = {product(x.low, y.low)};
    p.high += x.low * y.high + x.high * y.low;
    return p.whole;
}

wide __ashlti3(wide a, int by)
{
    union parts x = {a}, p = {0};
    if (by & 64)
        p.high = x.low << (by & 63);
    else if (by)
        p.low = x.low << by, p.high = (x.high << by) | (x.low >> (64 - by));
    else
        return a;
    return p.whole;
}

wide __lshrti3(wide a, int by)
{
    union parts x = {a}, p = {0};
    if (by & 64)
        p.low = x.high >> (by & 63);
    else if (by)
        p.high = x.high >> by, p.low = (x.low >> by) | (x.high << (64 - by));
    else
        return a;
    return p.whole;
}

/* A proved program first asks whether its processor is an x86-64 one of the second level, and ends where it isn't.
   Here nothing of that is wanted, so the answer is yes: each bit of each leaf is set. */
const size_t *__x86_get_cpuid_feature_leaf(unsigned leaf)
{
    static const size_t all[4] = {-1UL, -1UL, -1UL, -1UL};
    return all;
}
