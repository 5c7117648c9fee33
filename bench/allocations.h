/* Counts the allocations of the program, whose calls the linker hands over here (--wrap). A driver includes it once. */
#include <stddef.h>
#include <stdint.h>
#include "timing.h"

static uint64_t allocations;

/* What is timed by itself begins and ends where so many bytes are taken: when the last two such calls came. */
enum { MARK = 54321 };
static double marks[2];
static int marked;

void *__real_malloc(size_t size);
void *__real_calloc(size_t count, size_t size);
void *__real_realloc(void *old, size_t size);

void *__wrap_malloc(size_t size)
{
    allocations++;
    if (size != MARK) return __real_malloc(size);
    /* The first mark is told as late as can be, and the second as early. */
    double before = now();
    void *made = __real_malloc(size);
    marks[marked % 2] = marked % 2 ? before : now();
    marked++;
    return made;
}

void *__wrap_calloc(size_t count, size_t size)
{
    allocations++;
    return __real_calloc(count, size);
}

void *__wrap_realloc(void *old, size_t size)
{
    allocations++;
    return __real_realloc(old, size);
}

/* Does the work for one round and for 1001, and ends the program where the 1000 rounds more allocate. */
#define NO_ALLOCATION(what, entries, work)                                                                       \
    do {                                                                                                         \
        uint32_t rounds = 1;                                                                                     \
        uint64_t before = allocations;                                                                           \
        uint64_t done = (work);                                                                                  \
        uint64_t once = allocations - before;                                                                    \
        rounds = 1001, before = allocations;                                                                     \
        done += (work);                                                                                          \
        uint64_t more = allocations - before - once;                                                             \
        if (more || !done) {                                                                                     \
            printf("%s, %d entries: %llu allocations in 1000 rounds\n", what, entries, (unsigned long long)more); \
            exit(1);                                                                                             \
        }                                                                                                        \
    } while (0)
