/* Refuses one request for memory, for refused_memory.py: that of the number in REFUSED, counted from 1. At the end of
 * the program it writes the number of requests to the file named in REQUESTS. */
#define _GNU_SOURCE
#include <dlfcn.h>
#include <errno.h>
#include <stdio.h>
#include <stdlib.h>

static unsigned long requests, refused;

__attribute__((constructor)) static void begin(void)
{
    const char *number = getenv("REFUSED");
    requests = 0;
    refused = number ? strtoul(number, NULL, 10) : 0;
}

__attribute__((destructor)) static void end(void)
{
    const char *path = getenv("REQUESTS");
    FILE *file;
    unsigned long found = requests;

    refused = 0;
    if (path && (file = fopen(path, "w"))) {
        fprintf(file, "%lu\n", found);
        fclose(file);
    }
}

static int is_refused(void)
{
    return ++requests == refused;
}

#define NEXT(name) ((__typeof__(&name))dlsym(RTLD_NEXT, #name))

void *malloc(size_t size)
{
    static void *(*next)(size_t);
    if (!next)
        next = NEXT(malloc);
    return is_refused() ? NULL : next(size);
}

void *realloc(void *old, size_t size)
{
    static void *(*next)(void *, size_t);
    if (!next)
        next = NEXT(realloc);
    return is_refused() ? NULL : next(old, size);
}

void *aligned_alloc(size_t alignment, size_t size)
{
    static void *(*next)(size_t, size_t);
    if (!next)
        next = NEXT(aligned_alloc);
    return is_refused() ? NULL : next(alignment, size);
}

int posix_memalign(void **to, size_t alignment, size_t size)
{
    static int (*next)(void **, size_t, size_t);
    if (!next)
        next = NEXT(posix_memalign);
    return is_refused() ? ENOMEM : next(to, alignment, size);
}
