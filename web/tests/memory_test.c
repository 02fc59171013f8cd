/* Random requests of web/memory.c against a model: every block that is out holds what was put into it, blocks lie at
   multiples of 16, the headers fit together, and a request is refused only where there is no room for it. The same file
   runs natively, and as WebAssembly where the module's memory has a limit.

       cc -O2 -Wall -Wextra -Werror -Wno-builtin-declaration-mismatch web/tests/memory_test.c -o memory_test && ./memory_test */

#define malloc memory_malloc
#define realloc memory_realloc
#define free memory_free
#include "../memory.c"
#undef malloc
#undef realloc
#undef free

enum { KEPT = 400, ROOM = 32 << 20 };

struct out { unsigned char *bytes; size_t count; unsigned char sign; };

static struct out outs[KEPT];
static size_t state;

#ifdef __wasm__
static size_t limit(void) { return ROOM; }      /* what --max-memory says */
#else
static unsigned char heap[ROOM] __attribute__((aligned(16)));
static size_t taken;

size_t heap_start(void) { return (size_t)heap; }
size_t heap_end(void) { return (size_t)heap + taken; }
static size_t limit(void) { return (size_t)heap + ROOM; }

int grow_to(size_t end)
{
    if (end > limit()) return 0;
    taken = end - (size_t)heap;
    return 1;
}
#endif

#define CHECK(holds) do { if (!(holds)) return __LINE__; } while (0)

static size_t next(void)
{
    state ^= state << 13;
    state ^= state >> 7;
    return state ^= state << 17;
}

/* Mostly small sizes, some of them long. */
static size_t any_size(void) { return next() % (next() % 8 ? 300 : next() % 16 ? 20000 : 12 << 20); }

static int holds(const struct out *o)
{
    for (size_t i = 0; i < o->count; i++)
        if (o->bytes[i] != (unsigned char)(o->sign + i)) return 0;
    return 1;
}

static void fill(struct out *o, size_t from)
{
    for (size_t i = from; i < o->count; i++) o->bytes[i] = (unsigned char)(o->sign + i);
}

/* No free block, and not what is left above the top, has room for so many bytes. */
static int has_none(size_t n)
{
    size_t size = needed(n);
    for (size_t place = start; place < top; place += size_of(at(place)))
        if (!is_used(at(place)) && size_of(at(place)) >= size) return 0;
    return top + size > limit();
}

/* The headers fit together; free blocks are apart, and each of them stands in its list. */
static int check_heap(void)
{
    size_t before = 0, place = start, free_blocks = 0, listed = 0;
    int was_free = 0;
    for (; place < top; place += before) {
        struct block *b = at(place);
        CHECK(b->before == before && size_of(b) >= LEAST && size_of(b) % 16 == 0);
        CHECK(is_used(b) || !was_free);
        was_free = !is_used(b);
        free_blocks += (size_t)was_free;
        before = size_of(b);
    }
    CHECK(place == top && !was_free && before == last_size);
    for (int list = 0; list < LISTS; list++)
        for (struct block *b = lists[list]; b; b = b->next, listed++) {
            CHECK(!is_used(b) && list_of(size_of(b)) == list);
            CHECK(b->next == 0 || b->next->last == b);
        }
    CHECK(listed == free_blocks);
    return 0;
}

static int take(struct out *o)
{
    size_t count = any_size();
    unsigned char *bytes = memory_malloc(count);
    CHECK(bytes || has_none(count));
    if (!bytes) return 0;
    CHECK((size_t)bytes % 16 == 0);
    *o = (struct out){bytes, count, (unsigned char)next()};
    fill(o, 0);
    return 0;
}

static int change(struct out *o)
{
    size_t count = any_size(), kept = count < o->count ? count : o->count;
    unsigned char *bytes = memory_realloc(o->bytes, count);
    CHECK(bytes || has_none(count));
    if (!bytes) {
        CHECK(holds(o));
        return 0;
    }
    *o = (struct out){bytes, kept, o->sign};
    CHECK((size_t)bytes % 16 == 0 && holds(o));
    o->count = count;
    fill(o, kept);
    return 0;
}

static int give_back(struct out *o)
{
    CHECK(holds(o));
    memory_free(o->bytes);
    o->bytes = 0;
    return 0;
}

/* A product of numbers of 128 bits, by doubling and adding. */
static int check_product(size_t low, size_t high, wide b)
{
    wide a = (wide)high << 64 | low, left = b, sum = 0;
    for (int bit = 0; bit < 128; bit++, left += left)
        if ((bit < 64 ? low >> bit : high >> (bit - 64)) & 1) sum += left;
    CHECK(__multi3(a, b) == sum);
    return 0;
}

/* So many random requests; 0, or the line of the check that failed. */
int test(size_t seed, size_t rounds)
{
    int line = 0;
    state = seed * 2 + 1;
    for (size_t round = 0; round < rounds && !line; round++) {
        struct out *o = &outs[next() % KEPT];
        line = !o->bytes ? take(o) : next() % 3 ? give_back(o) : change(o);
        if (!line && round % 64 == 0) line = check_heap();
        if (!line) line = check_product(next(), next(), (wide)next() << 64 | next());
    }
    for (int i = 0; i < KEPT && !line; i++)
        if (outs[i].bytes) line = give_back(&outs[i]);
    if (!line) line = check_heap();
    CHECK(line || (top == start && last_size == 0));
    CHECK(line || (memory_malloc(1ul << 40) == 0 && memory_malloc(-1ul) == 0 && memory_realloc(0, -1ul) == 0));
    return line;
}

#ifndef __wasm__
#include <stdio.h>

int main(void)
{
    for (size_t seed = 0; seed < 8; seed++) {
        int line = test(seed, 20000);
        if (line) {
            printf("web/memory.c: seed %lu fails line %d of its test\n", seed, line);
            return 1;
        }
    }
    return 0;
}
#endif
