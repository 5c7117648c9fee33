/* How the drivers take times: of some turns the least or the middle, since the machine is shared. */
#ifndef TIMING_H
#define TIMING_H
#include <stdlib.h>
#include <time.h>

/* How many turns there are, unless the driver says so before. */
#ifndef TURNS
#define TURNS 25
#endif
#define IN_TURNS for (int turn = 0; turn < TURNS; turn++)

/* What a clock tells, in nanoseconds. */
static inline double clock_ns(clockid_t clock)
{
    struct timespec told;
    clock_gettime(clock, &told);
    return told.tv_sec * 1e9 + told.tv_nsec;
}

/* The time, in nanoseconds from a moment on that doesn't change. */
static inline double now(void)
{
    return clock_ns(CLOCK_MONOTONIC);
}

/* How long processors worked for this process, its threads together, in nanoseconds. */
static inline double processor_time(void)
{
    return clock_ns(CLOCK_PROCESS_CPUTIME_ID);
}

/* Does the work once, and takes its nanoseconds a round where they are the least so far. */
#define LEAST(least, rounds, work)                \
    do {                                          \
        double start = now();                     \
        work;                                     \
        double took = (now() - start) / (rounds); \
        if (took < least) least = took;           \
    } while (0)

/* What some work took: milliseconds until its end, and of processors; and the most memory, in MB, if it was a program's. */
struct took { double wall, processor, peak; };

/* Of some turns the times until the end, and those of processors. */
struct turns { double wall[TURNS], processor[TURNS]; int count; };

static inline void add_turn(struct turns *turns, struct took took)
{
    turns->wall[turns->count] = took.wall, turns->processor[turns->count++] = took.processor;
}

/* Does the work once, and adds what it took in this process. */
#define ADD_TURN(turns, work)                                                                       \
    do {                                                                                            \
        double start = now(), begun = processor_time();                                             \
        work;                                                                                       \
        add_turn(turns, (struct took){(now() - start) / 1e6, (processor_time() - begun) / 1e6, 0}); \
    } while (0)

static inline int by_size(const void *a, const void *b)
{
    double x = *(const double *)a, y = *(const double *)b;
    return (x > y) - (x < y);
}

/* Sorts the times of turns, of which the least and the middle are told then. */
static inline void sort(struct turns *turns)
{
    qsort(turns->wall, turns->count, sizeof *turns->wall, by_size);
    qsort(turns->processor, turns->count, sizeof *turns->processor, by_size);
}

static inline double least(const struct turns *turns) { return turns->wall[0]; }
static inline double middle(const struct turns *turns) { return turns->wall[turns->count / 2]; }
static inline double least_processor(const struct turns *turns) { return turns->processor[0]; }

#endif
