/* Makes allocations and calls on devices fail in a program into which it is preloaded, and counts them. It is compiled
   by tools/refusals and tools/devices.

   What fails stands in the environment. With REFUSE_FROM and REFUSE_TO the allocations of these numbers, counted from 1,
   and with REFUSE_OVER each of more bytes than that; a thread counts as an allocation. With FAIL_FROM and FAIL_TO the
   calls on devices of these numbers, with the error FAIL_WITH, or for 0 the program is killed there; with FAIL_NOTHING
   only writes are counted, and those of these numbers take nothing and report no error; with FAIL_SHORT each read and write
   is of so many bytes at most.
   FAULTS_FD is the number of an open file for what is counted, also if the program ends by a signal. What comes
   before the program is loaded whole isn't counted and doesn't fail. */
#define _GNU_SOURCE
#include <dlfcn.h>
#include <errno.h>
#include <fcntl.h>
#include <pthread.h>
#include <signal.h>
#include <stdarg.h>
#include <stddef.h>
#include <stdint.h>
#include <stdlib.h>
#include <string.h>
#include <sys/mman.h>
#include <sys/stat.h>
#include <sys/syscall.h>
#include <unistd.h>

extern void *__libc_malloc(size_t);
extern void *__libc_calloc(size_t, size_t);
extern void *__libc_realloc(void *, size_t);
extern void *__libc_memalign(size_t, size_t);

typedef int creating(pthread_t *, const pthread_attr_t *, void *(*)(void *), void *);

/* `first` is the first call that failed: by its letter, or for a write its stream or 3; `opened` is how many files were to be
   opened for reading, up to that call, and `path` the beginning of the last one's path. */
struct counts {
    uint64_t allocations, refused, calls, failed, first, opened;
    char path[256];
};

static struct counts *counts;
static uint64_t refuse_from, refuse_to, refuse_over, fail_from, fail_to, fail_with, fail_nothing, fail_short;
static creating *create;

static uint64_t number(const char *name) {
    const char *text = getenv(name);
    return text ? strtoull(text, NULL, 10) : UINT64_MAX;
}

__attribute__((constructor)) static void begin(void) {
    void *shared;

    create = (creating *)dlsym(RTLD_NEXT, "pthread_create");
    refuse_from = number("REFUSE_FROM"), refuse_to = number("REFUSE_TO"), refuse_over = number("REFUSE_OVER");
    fail_from = number("FAIL_FROM"), fail_to = number("FAIL_TO"), fail_with = number("FAIL_WITH");
    fail_nothing = number("FAIL_NOTHING"), fail_short = number("FAIL_SHORT");
    shared = (void *)syscall(SYS_mmap, NULL, sizeof *counts, PROT_READ | PROT_WRITE, MAP_SHARED,
                             (int)number("FAULTS_FD"), 0L);
    if (shared == MAP_FAILED)
        _exit(125);
    counts = shared;
}

/* Counts an allocation, and says whether it is refused. */
static int is_refused(size_t bytes) {
    uint64_t at;

    if (!counts)
        return 0;
    at = __atomic_add_fetch(&counts->allocations, 1, __ATOMIC_SEQ_CST);
    if ((at < refuse_from || at > refuse_to) && bytes <= refuse_over)
        return 0;
    __atomic_add_fetch(&counts->refused, 1, __ATOMIC_SEQ_CST);
    errno = ENOMEM;
    return 1;
}

void *malloc(size_t bytes) {
    return is_refused(bytes) ? NULL : __libc_malloc(bytes);
}

void *calloc(size_t items, size_t bytes) {
    return is_refused(items * bytes) ? NULL : __libc_calloc(items, bytes);
}

void *realloc(void *old, size_t bytes) {
    return is_refused(bytes) ? NULL : __libc_realloc(old, bytes);
}

void *aligned_alloc(size_t alignment, size_t bytes) {
    return is_refused(bytes) ? NULL : __libc_memalign(alignment, bytes);
}

int posix_memalign(void **place, size_t alignment, size_t bytes) {
    void *made = is_refused(bytes) ? NULL : __libc_memalign(alignment, bytes);

    if (!made)
        return ENOMEM;
    *place = made;
    return 0;
}

void *mmap(void *place, size_t bytes, int allows, int how, int file, off_t at) {
    if ((how & MAP_ANONYMOUS) && is_refused(bytes))
        return MAP_FAILED;
    return (void *)syscall(SYS_mmap, place, bytes, allows, how, file, at);
}

int pthread_create(pthread_t *thread, const pthread_attr_t *how, void *(*run)(void *), void *with) {
    return is_refused(0) ? EAGAIN : create(thread, how, run, with);
}

/* Counts a call on a device, and says whether it fails. A write has the number of its stream or 3, another call a letter. */
static int fails(uint64_t call) {
    uint64_t at, none = 0;

    if (!counts || (fail_nothing != UINT64_MAX && call > 3))
        return 0;
    at = __atomic_add_fetch(&counts->calls, 1, __ATOMIC_SEQ_CST);
    if (at < fail_from || at > fail_to)
        return 0;
    __atomic_add_fetch(&counts->failed, 1, __ATOMIC_SEQ_CST);
    __atomic_compare_exchange_n(&counts->first, &none, call, 0, __ATOMIC_SEQ_CST, __ATOMIC_SEQ_CST);
    if (fail_nothing != UINT64_MAX)
        return 1;
    if (!fail_with)
        raise(SIGKILL);
    errno = (int)fail_with;
    return 1;
}

/* Counts an open, and says whether it fails. */
static int open_fails(const char *path, int how) {
    if (how & O_CREAT)
        return fails('n');
    if (counts && !__atomic_load_n(&counts->failed, __ATOMIC_SEQ_CST)) {
        __atomic_add_fetch(&counts->opened, 1, __ATOMIC_SEQ_CST);
        strncpy(counts->path, path, sizeof counts->path - 1);
    }
    return fails('o');
}

static size_t shortened(size_t bytes) {
    return bytes > fail_short ? fail_short : bytes;
}

ssize_t read(int file, void *to, size_t bytes) {
    return fails('r') ? -1 : syscall(SYS_read, file, to, shortened(bytes));
}

ssize_t write(int file, const void *from, size_t bytes) {
    if (fails(file > 2 ? 3 : (uint64_t)file))
        return fail_nothing == UINT64_MAX ? -1 : 0;
    return syscall(SYS_write, file, from, shortened(bytes));
}

ssize_t __write(int file, const void *from, size_t bytes) {
    return write(file, from, bytes);
}

int openat(int folder, const char *path, int how, ...) {
    va_list rest;
    int allows;

    va_start(rest, how);
    allows = how & (O_CREAT | O_TMPFILE) ? va_arg(rest, int) : 0;
    va_end(rest);
    return open_fails(path, how) ? -1 : (int)syscall(SYS_openat, folder, path, how, allows);
}

int open(const char *path, int how, ...) {
    va_list rest;
    int allows;

    va_start(rest, how);
    allows = how & (O_CREAT | O_TMPFILE) ? va_arg(rest, int) : 0;
    va_end(rest);
    return open_fails(path, how) ? -1 : (int)syscall(SYS_openat, AT_FDCWD, path, how, allows);
}

int mkdir(const char *path, mode_t allows) {
    return fails('m') ? -1 : (int)syscall(SYS_mkdir, path, allows);
}

ssize_t getdents64(int folder, void *to, size_t bytes) {
    return fails('l') ? -1 : syscall(SYS_getdents64, folder, to, bytes);
}

int statx(int folder, const char *restrict path, int how, unsigned what, struct statx *restrict to) {
    return fails('s') ? -1 : (int)syscall(SYS_statx, folder, path, how, what, to);
}

int close(int file) {
    int closed = (int)syscall(SYS_close, file);

    return fails('c') ? -1 : closed;
}
