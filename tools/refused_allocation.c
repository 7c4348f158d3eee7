// Refuses some of the allocations of a program: loaded before the C library, it counts the calls of malloc and realloc
// and answers none from the REFUSE_FIRST-th to the REFUSE_LAST-th. With COUNT_ALLOCATIONS it says at the end how many
// there were, and how many of them came while a line of standard output had begun and not ended.
#define _GNU_SOURCE
#include <dlfcn.h>
#include <stdio.h>
#include <stdlib.h>
#include <unistd.h>

static long calls, first, last, calls_amid;
static int is_amid;
static void *(*next_malloc)(size_t);
static void *(*next_realloc)(void *, size_t);
static ssize_t (*next_write)(int, const void *, size_t);

static long number(const char *name)
{
    const char *text = getenv(name);
    return text ? atol(text) : 0;
}

__attribute__((constructor)) static void begin(void)
{
    next_malloc = (void *(*)(size_t))dlsym(RTLD_NEXT, "malloc");
    next_realloc = (void *(*)(void *, size_t))dlsym(RTLD_NEXT, "realloc");
    next_write = (ssize_t(*)(int, const void *, size_t))dlsym(RTLD_NEXT, "write");
    first = number("REFUSE_FIRST");
    last = number("REFUSE_LAST");
    calls = 0;
}

__attribute__((destructor)) static void end(void)
{
    if (getenv("COUNT_ALLOCATIONS"))
        dprintf(2, "allocations %ld\namid lines %ld\n", calls, calls_amid);
}

static int is_refused(void)
{
    calls++;
    calls_amid += is_amid;
    return first <= calls && calls <= last;
}

void *malloc(size_t size)
{
    if (!next_malloc)
        next_malloc = (void *(*)(size_t))dlsym(RTLD_NEXT, "malloc");
    return is_refused() ? NULL : next_malloc(size);
}

void *realloc(void *block, size_t size)
{
    if (!next_realloc)
        next_realloc = (void *(*)(void *, size_t))dlsym(RTLD_NEXT, "realloc");
    return is_refused() ? NULL : next_realloc(block, size);
}

ssize_t write(int file, const void *at, size_t size)
{
    if (!next_write)
        next_write = (ssize_t(*)(int, const void *, size_t))dlsym(RTLD_NEXT, "write");
    ssize_t count = next_write(file, at, size);
    if (file == 1 && count > 0)
        is_amid = ((const char *)at)[count - 1] != '\n';
    return count;
}
