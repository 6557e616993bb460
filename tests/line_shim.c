/* Preloaded into the line computer by its tests: kills it before one of the calls that change its store's files.

   LINE_SHIM is the number of that call, counted from 1, among those of write, pwrite, fsync, fdatasync, ftruncate and
   unlink on files whose name has `orders.db` in it. The processes that it starts don't load this. */
#define _GNU_SOURCE
#include <dlfcn.h>
#include <limits.h>
#include <signal.h>
#include <stdio.h>
#include <stdlib.h>
#include <string.h>
#include <unistd.h>

static long left;

__attribute__((constructor)) static void begin(void)
{
    const char *number = getenv("LINE_SHIM");
    left = number == NULL ? 0 : atol(number);
    unsetenv("LD_PRELOAD");
}

static void count(const char *name)
{
    if (strstr(name, "orders.db") != NULL && --left == 0)
        kill(getpid(), SIGKILL);
}

static void count_file(int file)
{
    char link[40], name[PATH_MAX];
    snprintf(link, sizeof link, "/proc/self/fd/%d", file);
    ssize_t length = readlink(link, name, sizeof name - 1);
    name[length < 0 ? 0 : length] = 0;
    count(name);
}

#define COUNTED(type, name, parameters, arguments)                      \
    type name parameters                                                \
    {                                                                   \
        static type (*real) parameters;                                 \
        if (real == NULL)                                               \
            real = (type (*) parameters)dlsym(RTLD_NEXT, #name);        \
        count_file(file);                                               \
        return real arguments;                                          \
    }

COUNTED(ssize_t, write, (int file, const void *from, size_t length), (file, from, length))
COUNTED(ssize_t, pwrite, (int file, const void *from, size_t length, off_t at), (file, from, length, at))
COUNTED(ssize_t, pwrite64, (int file, const void *from, size_t length, off64_t at), (file, from, length, at))
COUNTED(int, fsync, (int file), (file))
COUNTED(int, fdatasync, (int file), (file))
COUNTED(int, ftruncate, (int file, off_t length), (file, length))
COUNTED(int, ftruncate64, (int file, off64_t length), (file, length))

int unlink(const char *path)
{
    static int (*real)(const char *);
    if (real == NULL)
        real = (int (*)(const char *))dlsym(RTLD_NEXT, "unlink");
    count(path);
    return real(path);
}
