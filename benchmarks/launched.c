/* Run a command and print what it took, for the benchmarks.

       launched OUTPUT COMMAND WORDS..    its output goes to a file, what it tells on standard error nowhere; prints
                                          nanoseconds, processor microseconds (its own and the kernel's for it), its
                                          peak memory in KiB, and its status, that of a signal below zero

   The kernel counts a command's memory from its fork on, when it still is a copy of who forks. So this is small. */
#include <fcntl.h>
#include <stdio.h>
#include <sys/resource.h>
#include <sys/wait.h>
#include <time.h>
#include <unistd.h>

static long microseconds(struct timeval time)
{
    return time.tv_sec * 1000000 + time.tv_usec;
}

static int redirect(const char *path, int flags, int to)
{
    int from = open(path, flags, 0666);
    return from >= 0 && dup2(from, to) == to;
}

int main(int count, char **words)
{
    struct timespec start, end;
    struct rusage took;
    int status;
    if (count < 3)
        return 2;
    clock_gettime(CLOCK_MONOTONIC, &start);
    pid_t child = fork();
    if (child == 0) {
        if (redirect("/dev/null", O_RDONLY, 0) && redirect(words[1], O_WRONLY | O_CREAT | O_TRUNC, 1)
            && redirect("/dev/null", O_WRONLY, 2))
            execvp(words[2], words + 2);
        _exit(126);
    }
    if (child < 0 || wait4(child, &status, 0, &took) != child)
        return 2;
    clock_gettime(CLOCK_MONOTONIC, &end);
    printf("%ld %ld %ld %d\n", (end.tv_sec - start.tv_sec) * 1000000000L + end.tv_nsec - start.tv_nsec,
           microseconds(took.ru_utime) + microseconds(took.ru_stime), took.ru_maxrss,
           WIFEXITED(status) ? WEXITSTATUS(status) : -WTERMSIG(status));
    return 0;
}
