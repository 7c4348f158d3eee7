// Makes standard input and output of a program come in chunks and fail: loaded before the C library, it lets each read give
// at most READ_AT_MOST bytes and each write take at most WRITE_AT_MOST, and answers an error to the FAIL_READ-th read and
// to the FAIL_WRITE-th write alone. With TELL_CALLS it says on standard error what each call answered: 'read 8', 'write -1'.
#define _GNU_SOURCE
#include <dlfcn.h>
#include <errno.h>
#include <stdio.h>
#include <stdlib.h>
#include <unistd.h>

static long reads, writes;
static ssize_t (*next_read)(int, void *, size_t);
static ssize_t (*next_write)(int, const void *, size_t);

static long number(const char *name)
{
    const char *text = getenv(name);
    return text ? atol(text) : 0;
}

static size_t least(size_t size, long most)
{
    return most > 0 && (size_t)most < size ? (size_t)most : size;
}

// What a call answers, once it is said. An answer below 0 comes with this error.
static ssize_t told(const char *call, ssize_t count, int error)
{
    if (getenv("TELL_CALLS"))
        dprintf(2, "%s %zd\n", call, count);
    if (count < 0)
        errno = error;
    return count;
}

ssize_t read(int file, void *at, size_t size)
{
    if (!next_read)
        next_read = (ssize_t(*)(int, void *, size_t))dlsym(RTLD_NEXT, "read");
    if (file != 0)
        return next_read(file, at, size);
    if (++reads == number("FAIL_READ"))
        return told("read", -1, EIO);
    ssize_t count = next_read(file, at, least(size, number("READ_AT_MOST")));
    return told("read", count, errno);
}

ssize_t write(int file, const void *at, size_t size)
{
    if (!next_write)
        next_write = (ssize_t(*)(int, const void *, size_t))dlsym(RTLD_NEXT, "write");
    if (file != 1)
        return next_write(file, at, size);
    if (++writes == number("FAIL_WRITE"))
        return told("write", -1, EIO);
    ssize_t count = next_write(file, at, least(size, number("WRITE_AT_MOST")));
    return told("write", count, errno);
}
