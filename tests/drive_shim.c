/* Preloaded into `dali_bench drive` by its test: logs the calls on its files and pipes in their order, and spoils one.

   DRIVE_SHIM_ORDERS, DRIVE_SHIM_JOURNAL and DRIVE_SHIM_OLDER are paths as the command line has them. A call's target is
   `orders`, `journal`, `older`, `new` (the path of the journal with `.new` after it), `folder` (any that is opened),
   `in`, `out`, `err` or `other`. Once `new` has been renamed to `journal`, its file is `journal`, and the one that was
   that is `old`.
   A call's kind is `open`, `read`, `write`, `sync`, `cut`, `mode`, `lock`, `seek`, `stat`, `close`, or `rename`, whose
   target is the path before it. Where DRIVE_SHIM_LOG names a file, each call adds a line

       KIND TARGET RESULT DETAIL

   with the returned number or minus the error's, and of a write the bytes that were written, of an open its flags, of
   a lock its operation, of a cut the length, of a mode its bits, of a rename the target that the path after it has.
   DRIVE_SHIM_ACT is `KIND TARGET NUMBER EFFECT VALUE`. It spoils the call of this number, counted from 1, among those
   of the kind and the target; `any` stands for each kind or target, and the number 0 for each call.

       fail       fails with the error VALUE
       short      handles one byte
       torn       handles VALUE bytes, and then kills the program by SIGKILL
       kill       kills it in place of the call
       killed     kills it after the call
       pause      stops it by SIGSTOP before the call, which is made once it goes on by SIGCONT
       paused     stops it so after the call
       skip       does nothing, and succeeds */
#define _GNU_SOURCE
#include <errno.h>
#include <fcntl.h>
#include <limits.h>
#include <signal.h>
#include <stdarg.h>
#include <stdio.h>
#include <stdlib.h>
#include <string.h>
#include <sys/file.h>
#include <sys/stat.h>
#include <sys/syscall.h>
#include <unistd.h>

enum { MOST_FILES = 256, MOST_LOGGED = 300 };

static const char *target_of[MOST_FILES] = {"in", "out", "err"};

struct act {
    char kind[16], target[16], effect[16];
    long number, value;
};

/* The effect of the act on the call at hand if it fits, and else the empty text. */
static const char *effect_on(const char *kind, const char *target, long *value)
{
    static struct act act;
    static long count;
    static int is_read;
    if (!is_read) {
        const char *text = getenv("DRIVE_SHIM_ACT");
        is_read = 1;
        if (text != NULL && sscanf(text, "%15s %15s %ld %15s %ld", act.kind, act.target, &act.number, act.effect,
                                   &act.value) < 4)
            _exit(99);
    }
    int fits_kind = strcmp(act.kind, kind) == 0 || strcmp(act.kind, "any") == 0;
    int fits_target = strcmp(act.target, target) == 0 || strcmp(act.target, "any") == 0;
    *value = act.value;
    return fits_kind && fits_target && (++count == act.number || act.number == 0) ? act.effect : "";
}

static void signal_self(int number)
{
    syscall(SYS_kill, getpid(), number);
}

static void note(const char *kind, const char *target, long result, const char *detail)
{
    const char *path = getenv("DRIVE_SHIM_LOG");
    char line[2 * MOST_LOGGED + 100];
    int length = snprintf(line, sizeof line, "%s %s %ld %s\n", kind, target, result, detail);
    int log = syscall(SYS_openat, AT_FDCWD, path, O_WRONLY | O_APPEND | O_CREAT | O_CLOEXEC, 0666);
    if (log < 0 || syscall(SYS_write, log, line, length) != length)
        _exit(98);
    syscall(SYS_close, log);
}

static const char *digits_of(const unsigned char *bytes, long length)
{
    static char digits[2 * MOST_LOGGED + 1];
    digits[0] = 0;
    for (long at = 0; at < length && at < MOST_LOGGED; at++)
        sprintf(digits + 2 * at, "%02X", bytes[at]);
    return digits;
}

static const char *named(int file)
{
    return file >= 0 && file < MOST_FILES && target_of[file] != NULL ? target_of[file] : "other";
}

/* Whether a path is this one, as it is written or as its links lead. */
static int is_at(const char *path, const char *other)
{
    char real[PATH_MAX];
    return strcmp(path, other) == 0 || (realpath(other, real) != NULL && strcmp(path, real) == 0);
}

/* Whether a path is that of the journal with `.new` after it. */
static int is_new(const char *path, const char *journal)
{
    char before[PATH_MAX] = "";
    size_t length = strlen(path);
    if (length < 4 || length >= sizeof before || strcmp(path + length - 4, ".new") != 0)
        return 0;
    memcpy(before, path, length - 4);
    return is_at(before, journal);
}

static const char *target_at(const char *path)
{
    const char *orders = getenv("DRIVE_SHIM_ORDERS"), *journal = getenv("DRIVE_SHIM_JOURNAL");
    const char *older = getenv("DRIVE_SHIM_OLDER");
    struct stat stands;
    if (older != NULL && strcmp(path, older) == 0)
        return "older";
    if (orders != NULL && strcmp(path, orders) == 0)
        return "orders";
    if (journal != NULL && is_at(path, journal))
        return "journal";
    if (journal != NULL && is_new(path, journal))
        return "new";
    return stat(path, &stands) == 0 && S_ISDIR(stands.st_mode) ? "folder" : "other";
}

/* Give the open files their new targets once the journal's name means another file. */
static void name_anew(void)
{
    for (int file = 0; file < MOST_FILES; file++) {
        if (strcmp(named(file), "journal") == 0)
            target_of[file] = "old";
        else if (strcmp(named(file), "new") == 0)
            target_of[file] = "journal";
    }
}

/* The detail that the log has of a call besides its result. */
static const char *detail_of(long call, const long *with, long result)
{
    static char digits[30];
    digits[0] = 0;
    if (call == SYS_write)
        return digits_of((const unsigned char *)with[1], result);
    if (call == SYS_renameat)
        return target_at((const char *)with[3]);
    if (call == SYS_openat)
        sprintf(digits, "%lX", with[2]);
    else if (call == SYS_ftruncate || call == SYS_flock || call == SYS_fcntl || call == SYS_fchmod)
        sprintf(digits, "%lX", with[1]);
    return digits;
}

/* Makes the call of this number with these arguments, of which there are five, or what the act makes of it. The third
   argument of reads and writes is how many bytes they handle. */
static long made(const char *kind, const char *target, long call, long *with)
{
    long value, result;
    const char *effect = effect_on(kind, target, &value);
    if (strcmp(effect, "kill") == 0 || strcmp(effect, "pause") == 0)
        signal_self(strcmp(effect, "kill") == 0 ? SIGKILL : SIGSTOP);
    if (strcmp(effect, "short") == 0 || strcmp(effect, "torn") == 0)
        with[2] = *effect == 's' ? with[2] > 0 : value < with[2] ? value : with[2];
    if (strcmp(effect, "fail") == 0)
        errno = value, result = -1;
    else if (strcmp(effect, "skip") == 0)
        result = 0;
    else
        result = syscall(call, with[0], with[1], with[2], with[3], with[4]);
    int error = errno;
    if (getenv("DRIVE_SHIM_LOG") != NULL)
        note(kind, target, result < 0 ? -error : result, detail_of(call, with, result));
    if (strcmp(effect, "killed") == 0 || strcmp(effect, "torn") == 0)
        signal_self(SIGKILL);
    if (strcmp(effect, "paused") == 0)
        signal_self(SIGSTOP);
    errno = error;
    return result;
}

#define MADE(kind, target, call, ...) made(kind, target, call, (long[5]){__VA_ARGS__})

static int opened(int folder, const char *path, int flags, int mode)
{
    const char *target = target_at(path);
    int file = MADE("open", target, SYS_openat, folder, (long)path, flags, mode);
    if (file >= 0 && file < MOST_FILES)
        target_of[file] = target;
    return file;
}

#define MODE(flags, mode)                              \
    int mode = 0;                                      \
    if ((flags) & (O_CREAT | O_TMPFILE)) {             \
        va_list rest;                                  \
        va_start(rest, flags);                         \
        mode = va_arg(rest, int);                      \
        va_end(rest);                                  \
    }

int open(const char *path, int flags, ...)
{
    MODE(flags, mode)
    return opened(AT_FDCWD, path, flags, mode);
}

int open64(const char *path, int flags, ...)
{
    MODE(flags, mode)
    return opened(AT_FDCWD, path, flags, mode);
}

int openat(int folder, const char *path, int flags, ...)
{
    MODE(flags, mode)
    return opened(folder, path, flags, mode);
}

int openat64(int folder, const char *path, int flags, ...)
{
    MODE(flags, mode)
    return opened(folder, path, flags, mode);
}

ssize_t read(int file, void *bytes, size_t length)
{
    return MADE("read", named(file), SYS_read, file, (long)bytes, length);
}

ssize_t write(int file, const void *bytes, size_t length)
{
    return MADE("write", named(file), SYS_write, file, (long)bytes, length);
}

ssize_t __write(int file, const void *bytes, size_t length)
{
    return write(file, bytes, length);
}

int fsync(int file)
{
    return MADE("sync", named(file), SYS_fsync, file);
}

int fdatasync(int file)
{
    return MADE("sync", named(file), SYS_fdatasync, file);
}

int ftruncate(int file, off_t length)
{
    return MADE("cut", named(file), SYS_ftruncate, file, length);
}

int ftruncate64(int file, off64_t length)
{
    return MADE("cut", named(file), SYS_ftruncate, file, length);
}

int fchmod(int file, mode_t mode)
{
    return MADE("mode", named(file), SYS_fchmod, file, mode);
}

static int renamed(int from_folder, const char *from, int to_folder, const char *to)
{
    int is_journal_anew = strcmp(target_at(from), "new") == 0 && strcmp(target_at(to), "journal") == 0;
    int result = MADE("rename", target_at(from), SYS_renameat, from_folder, (long)from, to_folder, (long)to);
    if (result == 0 && is_journal_anew)
        name_anew();
    return result;
}

int rename(const char *from, const char *to)
{
    return renamed(AT_FDCWD, from, AT_FDCWD, to);
}

int renameat(int from_folder, const char *from, int to_folder, const char *to)
{
    return renamed(from_folder, from, to_folder, to);
}

int renameat2(int from_folder, const char *from, int to_folder, const char *to, unsigned flags)
{
    if (flags != 0)
        return syscall(SYS_renameat2, from_folder, from, to_folder, to, flags);
    return renamed(from_folder, from, to_folder, to);
}

int statx(int folder, const char *restrict path, int flags, unsigned mask, struct statx *restrict found)
{
    const char *target = flags & AT_EMPTY_PATH && *path == 0 ? named(folder) : target_at(path);
    return MADE("stat", target, SYS_statx, folder, (long)path, flags, mask, (long)found);
}

int flock(int file, int operation)
{
    return MADE("lock", named(file), SYS_flock, file, operation);
}

static int controlled(int file, int command, long argument)
{
    int is_lock = command == F_SETLK || command == F_SETLKW || command == F_OFD_SETLK || command == F_OFD_SETLKW;
    if (is_lock)
        return MADE("lock", named(file), SYS_fcntl, file, command, argument);
    return syscall(SYS_fcntl, file, command, argument);
}

int fcntl(int file, int command, ...)
{
    va_list rest;
    va_start(rest, command);
    long argument = va_arg(rest, long);
    va_end(rest);
    return controlled(file, command, argument);
}

int fcntl64(int file, int command, ...)
{
    va_list rest;
    va_start(rest, command);
    long argument = va_arg(rest, long);
    va_end(rest);
    return controlled(file, command, argument);
}

off_t lseek(int file, off_t place, int whence)
{
    return MADE("seek", named(file), SYS_lseek, file, place, whence);
}

off64_t lseek64(int file, off64_t place, int whence)
{
    return MADE("seek", named(file), SYS_lseek, file, place, whence);
}

int close(int file)
{
    const char *target = named(file);
    if (file > STDERR_FILENO && file < MOST_FILES)
        target_of[file] = NULL;
    return MADE("close", target, SYS_close, file);
}
