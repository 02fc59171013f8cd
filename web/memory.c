/* Memory for the program as a WebAssembly module: malloc, realloc and free over the module's one memory, what the kit's
   allocator calls by them, and one product that the processor lacks. Nothing is taken from the host but room to grow.

   Blocks stand behind one another up to `top`, each behind a header with its size and that of the block before it. A block
   that is given back is joined with its neighbours, and so never stands beside another that is free, nor beside the top.
   Free ones are kept in lists by size, two for each power of two; what a block has too much is cut off. */

typedef unsigned long size_t;
typedef unsigned __int128 wide;

enum { HEAD = 16, LEAST = 32, LISTS = 96, LOOKED_AT = 16, PAGE = 65536 };

/* Every size is a multiple of 16, so that the lowest bit can say whether the block is in use. */
struct block {
    size_t before;              /* the size of the block before it, 0 for the first */
    size_t size;                /* its own, the header counted, and 1 more where it is in use */
    struct block *next, *last;  /* in a list, where it is free */
};

static struct block *lists[LISTS];
static size_t start, top, last_size;    /* where blocks begin and end, and the size of the last one */

#ifdef __wasm__
extern unsigned char __heap_base;

static size_t heap_start(void) { return (size_t)&__heap_base; }
static size_t heap_end(void) { return __builtin_wasm_memory_size(0) * PAGE; }

/* By a fourth at once, and 4 MB at least: a browser may move the whole memory each time that it grows. */
static int grow_to(size_t end)
{
    size_t have = heap_end(), pages = (end - have + PAGE - 1) / PAGE, step = have / PAGE / 4;
    if (step < 64) step = 64;
    if (pages < step && __builtin_wasm_memory_grow(0, step) != (size_t)-1) return 1;
    return __builtin_wasm_memory_grow(0, pages) != (size_t)-1;
}
#else
extern size_t heap_start(void), heap_end(void);     /* a test has its own */
extern int grow_to(size_t end);
#endif

static size_t size_of(const struct block *b) { return b->size & ~1ul; }
static int is_used(const struct block *b) { return b->size & 1; }
static struct block *at(size_t place) { return (struct block *)place; }
static struct block *behind(struct block *b) { return at((size_t)b + size_of(b)); }
static int is_last(struct block *b) { return (size_t)behind(b) == top; }

/* The list of a size: those from 2^n on, and those from 3 * 2^(n-1) on. */
static int list_of(size_t size)
{
    int power = 63 - __builtin_clzl(size);
    return 2 * power + (int)(size >> (power - 1) & 1);
}

static void add(struct block *b)
{
    struct block **list = &lists[list_of(size_of(b))];
    b->last = 0;
    b->next = *list;
    if (*list) (*list)->last = b;
    *list = b;
}

static void drop(struct block *b)
{
    if (b->last) b->last->next = b->next;
    else lists[list_of(size_of(b))] = b->next;
    if (b->next) b->next->last = b->last;
}

/* Sets the size of a block, which the one behind it is told, or the top. */
static void set_size(struct block *b, size_t size, int used)
{
    b->size = size | (size_t)used;
    if (is_last(b)) last_size = size;
    else behind(b)->before = size;
}

/* What is needed for so many bytes, or 0 where nobody can have as many. */
static size_t needed(size_t n)
{
    if (n >= 1ul << 40) return 0;
    size_t size = (n + HEAD + 15) & ~15ul;
    return size < LEAST ? LEAST : size;
}

static void release(struct block *b);

/* Cuts off what a block in use has behind so many bytes. */
static void cut(struct block *b, size_t size)
{
    size_t rest = size_of(b) - size;
    if (rest < LEAST) return;
    set_size(b, size, 1);
    struct block *more = behind(b);
    more->before = size;
    set_size(more, rest, 1);
    release(more);
}

/* A free block of this size or more: the first that fits of the list that may have some, or any of a list above it. */
static struct block *find(size_t size)
{
    int list = list_of(size), looked = 0;
    for (struct block *b = lists[list]; b && looked < LOOKED_AT; b = b->next, looked++)
        if (size_of(b) >= size) return b;
    for (list++; list < LISTS; list++)
        if (lists[list]) return lists[list];
    return 0;
}

static int has_room(size_t end) { return end <= heap_end() || grow_to(end); }

/* A new block at the top. */
static struct block *extend(size_t size)
{
    if (!top) start = top = (heap_start() + 15) & ~15ul;
    if (!has_room(top + size)) return 0;
    struct block *b = at(top);
    b->before = last_size;
    top += size;
    set_size(b, size, 1);
    return b;
}

void *malloc(size_t n)
{
    size_t size = needed(n);
    if (!size) return 0;
    struct block *b = find(size);
    if (!b) b = extend(size);
    else {
        drop(b);
        set_size(b, size_of(b), 1);
        cut(b, size);
    }
    return b ? (char *)b + HEAD : 0;
}

/* Gives a block back, joined with those beside it that are free; what is last goes back to the top. */
static void release(struct block *b)
{
    if (!is_last(b) && !is_used(behind(b))) {
        struct block *more = behind(b);
        drop(more);
        set_size(b, size_of(b) + size_of(more), 1);
    }
    if (b->before && !is_used(at((size_t)b - b->before))) {
        struct block *less = at((size_t)b - b->before);
        drop(less);
        set_size(less, size_of(less) + size_of(b), 1);
        b = less;
    }
    if (is_last(b)) {
        last_size = b->before;
        top = (size_t)b;
    } else {
        set_size(b, size_of(b), 0);
        add(b);
    }
}

void free(void *p)
{
    if (p) release(at((size_t)p - HEAD));
}

/* Makes a block longer where it stands, into a free one behind it or into the top. */
static int widen(struct block *b, size_t size)
{
    if (is_last(b)) {
        if (!has_room((size_t)b + size)) return 0;
        top = (size_t)b + size;
        set_size(b, size, 1);
        return 1;
    }
    struct block *more = behind(b);
    if (is_used(more) || size_of(b) + size_of(more) < size) return 0;
    drop(more);
    set_size(b, size_of(b) + size_of(more), 1);
    cut(b, size);
    return 1;
}

void *realloc(void *p, size_t n)
{
    size_t size = needed(n);
    if (!p) return malloc(n);
    if (!size) return 0;
    struct block *b = at((size_t)p - HEAD);
    if (size_of(b) >= size || widen(b, size)) return p;
    void *q = malloc(n);
    if (q) {
        __builtin_memcpy(q, p, size_of(b) - HEAD);
        free(p);
    }
    return q;
}

/* What the kit's allocator calls. Where there is no memory, the answer has a byte that nobody owns. */
struct tried { _Bool ok; void *p; };
static char none;
static struct tried tried(void *p) { return (struct tried){p != 0, p ? p : &none}; }
struct tried rattle_alloc(size_t n, size_t align) { (void)align; return tried(malloc(n)); }
struct tried rattle_realloc(void *p, size_t kept, size_t n, size_t align)
{
    (void)kept; (void)align;
    return tried(realloc(p, n));
}
void rattle_dealloc(void *p) { free(p); }

/* The product of two numbers of 128 bits, of which the compiler makes a call: by halves of the lower words. */
wide __multi3(wide a, wide b)
{
    size_t half = 0xffffffff, a_low = (size_t)a, b_low = (size_t)b;
    size_t first = (a_low & half) * (b_low & half);
    size_t second = (a_low >> 32) * (b_low & half) + (first >> 32);
    size_t third = (a_low & half) * (b_low >> 32) + (second & half);
    size_t high = (a_low >> 32) * (b_low >> 32) + (second >> 32) + (third >> 32);
    high += a_low * (size_t)(b >> 64) + (size_t)(a >> 64) * b_low;
    return (wide)high << 64 | (third << 32 | (first & half));
}
