// A library to be preloaded: one read of a regular file fails, or gives one byte.
//
// BSI_FAIL_READ or BSI_SHORT_READ say which read this is, from 1. How many there were stands in the file BSI_READ_COUNT.

#define _GNU_SOURCE
#include <dlfcn.h>
#include <errno.h>
#include <fcntl.h>
#include <stdint.h>
#include <stdlib.h>
#include <sys/mman.h>
#include <sys/stat.h>
#include <unistd.h>

static uint64_t *reads;
static uint64_t failing, shortened;
static ssize_t (*next_read)(int, void *, size_t);

static uint64_t number_of(const char *name)
{
    const char *text = getenv(name);
    return text ? strtoull(text, NULL, 10) : 0;
}

__attribute__((constructor)) static void begin(void)
{
    const char *path = getenv("BSI_READ_COUNT");
    int file = path ? open(path, O_RDWR) : -1;
    next_read = (ssize_t (*)(int, void *, size_t))dlsym(RTLD_NEXT, "read");
    failing = number_of("BSI_FAIL_READ");
    shortened = number_of("BSI_SHORT_READ");
    reads = file < 0 ? NULL : mmap(NULL, sizeof *reads, PROT_READ | PROT_WRITE, MAP_SHARED, file, 0);
}

ssize_t read(int file, void *to, size_t size)
{
    struct stat about;
    if (reads && fstat(file, &about) == 0 && S_ISREG(about.st_mode)) {
        uint64_t number = __atomic_add_fetch(reads, 1, __ATOMIC_SEQ_CST);
        if (number == failing) {
            errno = EIO;
            return -1;
        }
        if (number == shortened && size > 1)
            size = 1;
    }
    return next_read(file, to, size);
}
