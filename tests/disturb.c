/* Loaded in front of the C library, disturbs the call whose count from 1 stands in a variable: the allocation of REFUSE is refused,
   the read of FAIL_READ and the write of FAIL_WRITE fail, those of SHORT_READ and SHORT_WRITE move one byte. Reads of standard input
   and writes of standard output are counted. At the end of a run NOTE is a file that gets the three counts. */
#define _GNU_SOURCE
#include <dlfcn.h>
#include <errno.h>
#include <stdio.h>
#include <stdlib.h>
#include <sys/types.h>

static long allocations, reads, writes;

static int is_named(const char *variable, long count)
{
    const char *named = getenv(variable);
    return named && atol(named) == count;
}

void *malloc(size_t size)
{
    static void *(*next)(size_t);
    if (!next)
        next = dlsym(RTLD_NEXT, "malloc");
    return is_named("REFUSE", ++allocations) ? NULL : next(size);
}

void *realloc(void *block, size_t size)
{
    static void *(*next)(void *, size_t);
    if (!next)
        next = dlsym(RTLD_NEXT, "realloc");
    return is_named("REFUSE", ++allocations) ? NULL : next(block, size);
}

ssize_t read(int file, void *bytes, size_t size)
{
    static ssize_t (*next)(int, void *, size_t);
    if (!next)
        next = dlsym(RTLD_NEXT, "read");
    if (file == 0) {
        reads++;
        if (is_named("FAIL_READ", reads)) {
            errno = EIO;
            return -1;
        }
        if (is_named("SHORT_READ", reads) && size > 1)
            size = 1;
    }
    return next(file, bytes, size);
}

ssize_t write(int file, const void *bytes, size_t size)
{
    static ssize_t (*next)(int, const void *, size_t);
    if (!next)
        next = dlsym(RTLD_NEXT, "write");
    if (file == 1) {
        writes++;
        if (is_named("FAIL_WRITE", writes)) {
            errno = EIO;
            return -1;
        }
        if (is_named("SHORT_WRITE", writes) && size > 1)
            size = 1;
    }
    return next(file, bytes, size);
}

ssize_t __write(int file, const void *bytes, size_t size)
{
    return write(file, bytes, size);
}

__attribute__((destructor)) static void note(void)
{
    const char *path = getenv("NOTE");
    FILE *file = path ? fopen(path, "w") : NULL;
    if (file) {
        fprintf(file, "%ld %ld %ld\n", allocations, reads, writes);
        fclose(file);
    }
}
