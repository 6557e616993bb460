/* A link that answers at once, for benchmarks/drive.py and benchmarks/line_computer.py.

       null_link COMMAND WORDS..    starts the command and answers its frames, as blank units at all addresses would;
                                    then prints what it took: frames, nanoseconds, processor microseconds of the
                                    command, its peak memory in KiB, its status
       null_link --ask COUNT        is a command that does nothing but send COUNT frames and read their answers

   The second under the first measures the pipes alone. */
#include <stdio.h>
#include <stdlib.h>
#include <string.h>
#include <sys/resource.h>
#include <sys/wait.h>
#include <time.h>
#include <unistd.h>

enum { UNITS = 64, LOCATIONS = 256, LINE = 5 };

static unsigned char banks[UNITS][LOCATIONS];
static int location, bank, enabled = -1;

/* The location of a read or a write, which moves on by one. */
static int moved_on(void)
{
    return location < LOCATIONS - 1 ? location++ : location;
}

/* The answer to a frame, or -1. */
static int answer_to(int word)
{
    int first = word >> 8, second = word & 0xFF, unit = first >> 1;
    if (first == 0xA3)
        location = second;
    else if (first == 0xC3)
        bank = second;
    else if (first == 0xC7 && enabled >= 0)
        return banks[enabled][moved_on()] = second;
    else if (second == 0x81)
        enabled = unit;
    else if (second == 0x98)
        return location;
    else if (second == 0x9C)
        return bank;
    else if (second == 0xC5)
        return banks[unit % UNITS][moved_on()];
    return -1;
}

static int ask(long count)
{
    char line[16];
    for (long at = 0; at < count; at++) {
        if (write(1, "C301\n", LINE) != LINE || read(0, line, sizeof line) <= 0)
            return 1;
    }
    return 0;
}

static long answer_all(int from, int to)
{
    static const char digits[] = "0123456789ABCDEF";
    char line[16];
    long frames = 0;
    ssize_t length;
    while ((length = read(from, line, sizeof line - 1)) == LINE) {
        line[LINE] = 0;
        int answer = answer_to(strtol(line, NULL, 16));
        char told[3] = {'-', '-', '\n'};
        if (answer >= 0)
            told[0] = digits[answer >> 4], told[1] = digits[answer & 15];
        frames++;
        if (write(to, told, sizeof told) != sizeof told)
            break;
    }
    return frames;
}

static long microseconds(struct timeval time)
{
    return time.tv_sec * 1000000 + time.tv_usec;
}

static int serve(char **words)
{
    int down[2], up[2], status;
    struct timespec start, end;
    struct rusage took;
    if (pipe(down) != 0 || pipe(up) != 0)
        return 2;
    clock_gettime(CLOCK_MONOTONIC, &start);
    pid_t child = fork();
    if (child == 0) {
        dup2(down[0], 0);
        dup2(up[1], 1);
        close(down[0]), close(down[1]), close(up[0]), close(up[1]);
        execv(words[0], words);
        _exit(126);
    }
    close(down[0]);
    close(up[1]);
    long frames = answer_all(up[0], down[1]);
    close(down[1]);
    if (child < 0 || wait4(child, &status, 0, &took) != child)
        return 2;
    clock_gettime(CLOCK_MONOTONIC, &end);
    printf("%ld %ld %ld %ld %d\n", frames,
           (end.tv_sec - start.tv_sec) * 1000000000L + end.tv_nsec - start.tv_nsec,
           microseconds(took.ru_utime) + microseconds(took.ru_stime), took.ru_maxrss,
           WIFEXITED(status) ? WEXITSTATUS(status) : -WTERMSIG(status));
    return 0;
}

int main(int count, char **words)
{
    if (count == 3 && strcmp(words[1], "--ask") == 0)
        return ask(atol(words[2]));
    for (int unit = 0; unit < UNITS; unit++) {
        memset(banks[unit], 0xFF, LOCATIONS);
        banks[unit][0x00] = 0x77, banks[unit][0x11] = 0x00, banks[unit][0x12] = 0x03;
    }
    return count > 1 ? serve(words + 1) : 2;
}
