// A library to be preloaded: it logs what is locked, written, stored, cut and moved, in order, and has one sync or cut fail.
//
// The file BSI_LOG gets a line for each: the word, how many bytes or which lock, and the path, of a move both.
// BSI_FAIL_SYNC and BSI_FAIL_CUT say which sync and which cut fails, from 1.

#define _GNU_SOURCE
#include <dlfcn.h>
#include <errno.h>
#include <fcntl.h>
#include <limits.h>
#include <stdint.h>
#include <stdio.h>
#include <stdlib.h>
#include <unistd.h>

static int told = -1;
static long failing_sync, failing_cut, syncs, cuts;
static ssize_t (*next_write)(int, const void *, size_t);
static int (*next_fsync)(int), (*next_fdatasync)(int), (*next_flock)(int, int);
static int (*next_ftruncate)(int, off_t), (*next_rename)(const char *, const char *);

static long number_of(const char *name)
{
    const char *number = getenv(name);
    return number ? atol(number) : 0;
}

__attribute__((constructor)) static void begin(void)
{
    const char *path = getenv("BSI_LOG");
    next_write = (ssize_t (*)(int, const void *, size_t))dlsym(RTLD_NEXT, "write");
    next_fsync = (int (*)(int))dlsym(RTLD_NEXT, "fsync");
    next_fdatasync = (int (*)(int))dlsym(RTLD_NEXT, "fdatasync");
    next_ftruncate = (int (*)(int, off_t))dlsym(RTLD_NEXT, "ftruncate");
    next_rename = (int (*)(const char *, const char *))dlsym(RTLD_NEXT, "rename");
    next_flock = (int (*)(int, int))dlsym(RTLD_NEXT, "flock");
    failing_sync = number_of("BSI_FAIL_SYNC");
    failing_cut = number_of("BSI_FAIL_CUT");
    told = path ? open(path, O_WRONLY | O_APPEND | O_CLOEXEC) : -1;
}

static void tell(const char *word, long long bytes, const char *path, const char *to)
{
    char line[2 * PATH_MAX + 64];
    int length = snprintf(line, sizeof line, "%s\t%lld\t%s\t%s\n", word, bytes, path, to);
    if (told >= 0 && next_write(told, line, (size_t)length) != length)
        abort();
}

static void tell_file(const char *word, long long bytes, int file)
{
    char name[64], path[PATH_MAX];
    snprintf(name, sizeof name, "/proc/self/fd/%d", file);
    ssize_t length = readlink(name, path, sizeof path - 1);
    path[length < 0 ? 0 : length] = 0;
    tell(word, bytes, path, "");
}

static int sync_by(int (*next)(int), int file)
{
    if (++syncs == failing_sync) {
        errno = EIO;
        return -1;
    }
    int status = next(file);
    if (status == 0)
        tell_file("sync", 0, file);
    return status;
}

ssize_t write(int file, const void *from, size_t size)
{
    ssize_t taken = next_write(file, from, size);
    if (taken > 0)
        tell_file("write", taken, file);
    return taken;
}

int fsync(int file)
{
    return sync_by(next_fsync, file);
}

int fdatasync(int file)
{
    return sync_by(next_fdatasync, file);
}

int ftruncate(int file, off_t size)
{
    if (++cuts == failing_cut) {
        errno = EIO;
        return -1;
    }
    int status = next_ftruncate(file, size);
    if (status == 0)
        tell_file("cut", (long long)size, file);
    return status;
}

int flock(int file, int how)
{
    int status = next_flock(file, how);
    if (status == 0)
        tell_file("lock", how, file);
    return status;
}

int rename(const char *from, const char *to)
{
    int status = next_rename(from, to);
    if (status == 0)
        tell("move", 0, from, to);
    return status;
}
