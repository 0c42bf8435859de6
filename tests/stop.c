/*
 * Stops a program at one of its operations on files, as a crash would: rust/tests/program.rs compiles it to a shared object
 * and has it preloaded.
 *
 *     cc -shared -fPIC tests/stop.c -o stop.so
 *     LD_PRELOAD=./stop.so STOP_AT=5 STOP_TAKES=50 streamvault raise ...
 *
 * Files that are made, writes at a place, syncs and removals are counted from 1. At the one that STOP_AT names the program is
 * killed before it is done; of a write so many hundredths of its bytes are done as STOP_TAKES says.
 */
#define _GNU_SOURCE
#include <fcntl.h>
#include <signal.h>
#include <stdarg.h>
#include <stdlib.h>
#include <sys/syscall.h>
#include <sys/types.h>
#include <unistd.h>

/* The number that a variable of the environment says, 0 without one. */
static long said(const char *name)
{
    const char *text = getenv(name);
    return text == NULL ? 0 : atol(text);
}

/* Whether the next operation is the one to stop at. */
static int is_last(void)
{
    static long done;
    return ++done == said("STOP_AT");
}

static void stop(void)
{
    kill(getpid(), SIGKILL);
}

int open64(const char *path, int flags, ...)
{
    va_list more;
    va_start(more, flags);
    mode_t mode = flags & O_CREAT ? va_arg(more, mode_t) : 0;
    va_end(more);
    if (flags & O_CREAT && is_last())
        stop();
    return (int)syscall(SYS_openat, AT_FDCWD, path, flags, mode);
}

ssize_t pwrite64(int file, const void *bytes, size_t len, off64_t place)
{
    int last = is_last();
    if (last)
        len = len * (size_t)said("STOP_TAKES") / 100;
    ssize_t written = syscall(SYS_pwrite64, file, bytes, len, place);
    if (last)
        stop();
    return written;
}

int fsync(int file)
{
    if (is_last())
        stop();
    return (int)syscall(SYS_fsync, file);
}

int fdatasync(int file)
{
    if (is_last())
        stop();
    return (int)syscall(SYS_fdatasync, file);
}

int unlink(const char *path)
{
    if (is_last())
        stop();
    return (int)syscall(SYS_unlink, path);
}
