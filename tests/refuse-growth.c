/*
 * Refuses one growth of memory, or one thread. Preloaded into a program of tests by tests/refused-growths, or into the
 * program itself by tests/try-cases, it counts the calls that take memory and those that start a thread, and lets the one
 * fail whose number is in the environment as REFUSED_GROWTH or REFUSED_THREAD (none, if it is 0). How many growths there
 * were, the bytes that the largest asked for, and how many threads are written at the end to the file GROWTHS_FILE, if that
 * is set.
 */
#define _GNU_SOURCE
#include <dlfcn.h>
#include <errno.h>
#include <pthread.h>
#include <stdatomic.h>
#include <stddef.h>
#include <stdio.h>
#include <stdlib.h>
#include <sys/syscall.h>
#include <unistd.h>

void *__libc_malloc(size_t size);
void *__libc_realloc(void *old, size_t size);
void *__libc_memalign(size_t alignment, size_t size);

static atomic_long growths;
static atomic_size_t largest;
static atomic_long threads;
static long refused_growth;
static long refused_thread;
static atomic_bool armed;

static long number_of(const char *name)
{
    const char *number = getenv(name);
    return number ? atol(number) : 0;
}

__attribute__((constructor)) static void begin(void)
{
    refused_growth = number_of("REFUSED_GROWTH");
    refused_thread = number_of("REFUSED_THREAD");
    growths = 0;
    largest = 0;
    threads = 0;
    armed = 1;
}

__attribute__((destructor)) static void end(void)
{
    const char *path = getenv("GROWTHS_FILE");
    armed = 0;
    FILE *file = path ? fopen(path, "w") : NULL;
    if (file) {
        fprintf(file, "%ld %zu %ld\n", (long)growths, (size_t)largest, (long)threads);
        fclose(file);
    }
}

/* A program with threads ends so. */
void _exit(int status)
{
    end();
    for (;;)
        syscall(SYS_exit_group, status);
}

static int is_refused(size_t size)
{
    if (!armed)
        return 0;
    size_t before = largest;
    while (before < size && !atomic_compare_exchange_weak(&largest, &before, size))
        ;
    if (++growths != refused_growth)
        return 0;
    errno = ENOMEM;
    return 1;
}

void *malloc(size_t size)
{
    return is_refused(size) ? NULL : __libc_malloc(size);
}

void *realloc(void *old, size_t size)
{
    return is_refused(size) ? NULL : __libc_realloc(old, size);
}

void *aligned_alloc(size_t alignment, size_t size)
{
    return is_refused(size) ? NULL : __libc_memalign(alignment, size);
}

int pthread_create(pthread_t *thread, const pthread_attr_t *attributes, void *(*run)(void *), void *given)
{
    static int (*create)(pthread_t *, const pthread_attr_t *, void *(*)(void *), void *);
    if (!create)
        create = dlsym(RTLD_NEXT, "pthread_create");
    if (++threads == refused_thread)
        return EAGAIN;
    return create(thread, attributes, run, given);
}
