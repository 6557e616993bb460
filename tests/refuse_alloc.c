/* Preloaded into the built program by the test: refuses the allocation whose number, counted from 1, is in
   the variable REFUSED_ALLOCATION, those of more bytes than LARGEST_ALLOCATION, and those by which more bytes
   than MOST_ALLOCATED would be held at once, as a system without memory would, and says so on standard error. */
#define _GNU_SOURCE
#include <dlfcn.h>
#include <errno.h>
#include <malloc.h>
#include <stdlib.h>
#include <unistd.h>

/* Memory that the C library allocates by other calls is given back by `free` too, so this may be below zero. */
static long held;

static int is_over(const char *name, long size)
{
    const char *most = getenv(name);
    return most != NULL && size > atol(most);
}

/* Whether an allocation of this size is refused, in the place of one of that size. */
static int is_refused(size_t size, long replaced)
{
    static long count;
    const char *refused = getenv("REFUSED_ALLOCATION");
    count++;
    if ((refused == NULL || count != atol(refused)) && !is_over("LARGEST_ALLOCATION", size)
        && !is_over("MOST_ALLOCATED", held - replaced + (long)size))
        return 0;
    static const char told[] = "an allocation was refused\n";
    if (write(STDERR_FILENO, told, sizeof told - 1) < 0)
        _exit(3);
    errno = ENOMEM;
    return 1;
}

void *malloc(size_t size)
{
    static void *(*next)(size_t);
    if (next == NULL)
        next = (void *(*)(size_t))dlsym(RTLD_NEXT, "malloc");
    void *block = is_refused(size, 0) ? NULL : next(size);
    held += malloc_usable_size(block);
    return block;
}

void *realloc(void *block, size_t size)
{
    static void *(*next)(void *, size_t);
    if (next == NULL)
        next = (void *(*)(void *, size_t))dlsym(RTLD_NEXT, "realloc");
    long replaced = malloc_usable_size(block);
    void *moved = is_refused(size, replaced) ? NULL : next(block, size);
    if (moved != NULL)
        held += (long)malloc_usable_size(moved) - replaced;
    return moved;
}

void free(void *block)
{
    static void (*next)(void *);
    if (next == NULL)
        next = (void (*)(void *))dlsym(RTLD_NEXT, "free");
    held -= malloc_usable_size(block);
    next(block);
}
