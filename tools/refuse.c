/* A library to be preloaded: it runs a program again and again, and in each run refuses another growth.
 *
 * A growth is a call of malloc, calloc, realloc, aligned_alloc or posix_memalign, counted from 1 once this library
 * has been made ready, which is before the program's main. The environment says what is refused:
 *     BSI_REFUSE_AT="N END"    growth N alone, in the next run growth N + 1, and so on up to END, that not included
 *     BSI_REFUSE_FROM="N END"  growth N and each later one, in the next run growth N + 1 and each later one, ..
 * The runs end early after one that asked for fewer growths. Each is a fork of the process in which this library is made
 * ready, reads what stands on standard input from its start, and has SECONDS. Standard output has of each run four
 * numbers of 8 bytes: how it ended, as waitpid has it, how many growths it asked for, and the lengths of what it wrote
 * on standard output and on standard error, which follow. Without either variable nothing is refused.
 */
#define _GNU_SOURCE
#include <dlfcn.h>
#include <errno.h>
#include <stdatomic.h>
#include <stddef.h>
#include <stdint.h>
#include <stdlib.h>
#include <sys/mman.h>
#include <sys/wait.h>
#include <unistd.h>

enum { SECONDS = 60, FAILED = 125 };

static _Atomic uint64_t *count;
static uint64_t only, first;

/* Ends this process unless the call before it went well. */
static void expect(int well) {
    if (!well) _exit(FAILED);
}

static void write_all(int to, const char *bytes, size_t size) {
    for (ssize_t wrote; size; bytes += wrote, size -= wrote) expect((wrote = write(to, bytes, size)) > 0);
}

static void copy_all(int from, int to) {
    static char bytes[1 << 16];
    for (ssize_t size; (size = read(from, bytes, sizeof bytes));) {
        expect(size > 0);
        write_all(to, bytes, size);
    }
}

/* Writes how a run ended, and what it wrote on the files. */
static void write_run(int status, const int files[3]) {
    uint64_t numbers[] = {status, *count, lseek(files[1], 0, SEEK_END), lseek(files[2], 0, SEEK_END)};
    write_all(1, (const char *)numbers, sizeof numbers);
    for (int at = 1; at < 3; at++) {
        expect(!lseek(files[at], 0, SEEK_SET));
        copy_all(files[at], 1);
        expect(!lseek(files[at], 0, SEEK_SET) && !ftruncate(files[at], 0));
    }
}

/* Begins a run, whose main is called next: it reads and writes the files. */
static void begin_run(const int files[3]) {
    for (int at = 0; at < 3; at++) {
        expect(dup2(files[at], at) == at);
        close(files[at]);
    }
    alarm(SECONDS);
}

__attribute__((constructor)) static void run_each(void) {
    const char *alone = getenv("BSI_REFUSE_AT"), *from = getenv("BSI_REFUSE_FROM");
    if (!alone && !from) return;
    char *next;
    uint64_t number = strtoull(alone ? alone : from, &next, 10), end = strtoull(next, NULL, 10);
    count = mmap(NULL, sizeof *count, PROT_READ | PROT_WRITE, MAP_SHARED | MAP_ANONYMOUS, -1, 0);
    expect(count != MAP_FAILED);
    int files[3];
    for (int at = 0; at < 3; at++) expect((files[at] = memfd_create("run", 0)) > 2);
    copy_all(0, files[0]);
    for (*count = number; number < end && number <= *count + 1; number++) {
        expect(!lseek(files[0], 0, SEEK_SET));
        only = alone ? number : 0;
        first = alone ? 0 : number;
        *count = 0;
        pid_t run = fork();
        if (!run) return begin_run(files);
        int status;
        expect(run > 0 && waitpid(run, &status, 0) == run);
        write_run(status, files);
    }
    _exit(0);
}

/* Counts one growth, and returns whether it is refused. */
static int is_refused(void) {
    if (!count) return 0;
    uint64_t number = atomic_fetch_add(count, 1) + 1;
    int refuses = number == only || (first && number >= first);
    if (refuses) errno = ENOMEM;
    return refuses;
}

/* The call of that name: refused, or the C library's own, which is looked up at the first call. */
#define GROWTH(type, name, parameters, refused, ...)                       \
    type name parameters {                                                 \
        static __typeof__(&name) real;                                     \
        if (!real) real = (__typeof__(&name))dlsym(RTLD_NEXT, #name);      \
        return is_refused() ? refused : real(__VA_ARGS__);                 \
    }

GROWTH(void *, malloc, (size_t size), NULL, size)
GROWTH(void *, calloc, (size_t items, size_t size), NULL, items, size)
GROWTH(void *, realloc, (void *block, size_t size), NULL, block, size)
GROWTH(void *, aligned_alloc, (size_t alignment, size_t size), NULL, alignment, size)
GROWTH(int, posix_memalign, (void **block, size_t alignment, size_t size), ENOMEM, block, alignment, size)
