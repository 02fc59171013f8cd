/* What the program's module asks for besides the C library, on Linux, where the kit's own objects aren't linked: the words of
   the command line, memory, the last error, and which instructions the processor has.

   The linker is told --wrap=main, so that the words are kept before the program begins. */

#include <errno.h>
#include <signal.h>
#include <stdint.h>
#include <stdlib.h>
#include <unistd.h>

enum { NO_WORD = -1, NO_ROOM = -2 };

static int count;
static char **words;

int __real_main(void);

int __wrap_main(int given, char **list)
{
    count = given;
    words = list;
    return __real_main();
}

/* Puts a word into a buffer, and gives its length. */
int64_t rattle_arg(uint64_t index, uint8_t *to, uint64_t room)
{
    if (index >= (uint64_t)count) return NO_WORD;
    uint64_t length = 0;
    for (const char *at = words[index]; *at != 0; at++, length++) {
        if (length == room) return NO_ROOM;
        to[length] = (uint8_t)*at;
    }
    return (int64_t)length;
}

int rattle_errno(void) { return errno; }

void rattle_set_errno(int number) { errno = number; }

/* Whether there was memory, and where; an address that isn't null where there was none. A block of no bytes has `least`. */
struct block { uint64_t is_there; void *at; };

static struct block block_of(void *at)
{
    static char none;
    return (struct block){at != NULL, at != NULL ? at : &none};
}

struct block rattle_alloc(uint64_t size, uint64_t least) { return block_of(malloc(size != 0 ? size : least)); }

struct block rattle_realloc(void *old, uint64_t old_size, uint64_t size, uint64_t least)
{
    (void)old_size;
    return block_of(realloc(old, size != 0 ? size : least));
}

void rattle_dealloc(void *at) { free(at); }

/* Names that GNU's C library has for what others call otherwise. */
typedef void (*handler)(int);

handler __sysv_signal(int number, handler handle) { return signal(number, handle); }

ssize_t __write(int file, const void *from, size_t length) { return write(file, from, length); }

/* Which instructions the processor has. */
#ifdef __x86_64__
#include "processor.h"

const uint32_t *__x86_get_cpuid_feature_leaf(unsigned leaf) { return feature_leaf(leaf); }
#else
const uint32_t *__x86_get_cpuid_feature_leaf(unsigned leaf)
{
    static const uint32_t ALL[8] = {~0u, ~0u, ~0u, ~0u, ~0u, ~0u, ~0u, ~0u};
    (void)leaf;
    return ALL;
}
#endif
