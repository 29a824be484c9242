/* Laid before the C library by scripts/hostile and scripts/refused. By its environment it refuses one allocation (REFUSE), or
   one of the first thread (REFUSE_FIRST) or of the others (REFUSE_BESIDE), fails one opening of a file (FAIL_OPEN), one read
   (FAIL_READ), one write (FAIL_WRITE) or the start of one thread (FAIL_START), each by its number from 1, and no other. An
   opening fails by the error whose number is FAIL_ERROR, or by EIO where none is given. Where READ_FROM is given, only reads
   of that descriptor count. Where COUNT is given, the numbers of allocations, reads, writes, starts, allocations of the first
   thread and of the others, and openings are written to the file of that name at the end, and then the numbers of those
   allocations with which the first thread started others: its last before each start, and each within it. */
#define _GNU_SOURCE
#include <dlfcn.h>
#include <errno.h>
#include <fcntl.h>
#include <pthread.h>
#include <stdarg.h>
#include <stdio.h>
#include <stdlib.h>
#include <sys/syscall.h>
#include <sys/types.h>
#include <sys/uio.h>
#include <unistd.h>

static long number_of(const char *name) {
    const char *text = getenv(name);
    return text ? atol(text) : -1;
}

/* Whether this call is the one whose number stands in the environment; `asked` counts the calls, of all threads. */
static int is_one(const char *name, long *wanted, long *asked) {
    if (*wanted == 0)
        *wanted = number_of(name);
    return __atomic_add_fetch(asked, 1, __ATOMIC_SEQ_CST) == *wanted;
}

static long refused, allocations, refused_first, first, refused_beside, beside, unread, reads, unwritten, writes, unstarted, starts, unopened, opens;

/* Whether the first thread calls. */
static int is_first(void) { return syscall(SYS_gettid) == getpid(); }

/* Whether an allocation is refused. */
static int is_refused(void) {
    int own = is_first() ? is_one("REFUSE_FIRST", &refused_first, &first) : is_one("REFUSE_BESIDE", &refused_beside, &beside);
    return is_one("REFUSE", &refused, &allocations) || own;
}

void *malloc(size_t size) {
    void *(*give)(size_t) = (void *(*)(size_t))dlsym(RTLD_NEXT, "malloc");
    return is_refused() ? NULL : give(size);
}

void *realloc(void *block, size_t size) {
    void *(*give)(void *, size_t) = (void *(*)(void *, size_t))dlsym(RTLD_NEXT, "realloc");
    return is_refused() ? NULL : give(block, size);
}

void *aligned_alloc(size_t align, size_t size) {
    void *(*give)(size_t, size_t) = (void *(*)(size_t, size_t))dlsym(RTLD_NEXT, "aligned_alloc");
    return is_refused() ? NULL : give(align, size);
}

int posix_memalign(void **block, size_t align, size_t size) {
    int (*give)(void **, size_t, size_t) = (int (*)(void **, size_t, size_t))dlsym(RTLD_NEXT, "posix_memalign");
    return is_refused() ? ENOMEM : give(block, align, size);
}

/* The allocations with which the first thread started others. */
static long of_starts[1024];
static int of_starts_count;

int pthread_create(pthread_t *thread, const pthread_attr_t *attributes, void *(*run)(void *), void *given) {
    int (*next)(pthread_t *, const pthread_attr_t *, void *(*)(void *), void *) =
        (int (*)(pthread_t *, const pthread_attr_t *, void *(*)(void *), void *))dlsym(RTLD_NEXT, "pthread_create");
    long number = first;
    int fault = is_one("FAIL_START", &unstarted, &starts) ? EAGAIN : next(thread, attributes, run, given);
    for (; is_first() && number <= first && of_starts_count < 1024; number++)
        of_starts[of_starts_count++] = number;
    return fault;
}

/* Whether an opening fails. */
static int open_fails(void) {
    if (!is_one("FAIL_OPEN", &unopened, &opens))
        return 0;
    long error = number_of("FAIL_ERROR");
    errno = error > 0 ? (int)error : EIO;
    return 1;
}

/* The opening of a file by a call of this name. */
#define OPENS(name)                                                                                                    \
    int name(const char *path, int flags, ...) {                                                                       \
        int (*next)(const char *, int, ...) = (int (*)(const char *, int, ...))dlsym(RTLD_NEXT, #name);                \
        va_list rest;                                                                                                  \
        va_start(rest, flags);                                                                                         \
        mode_t mode = flags & O_CREAT ? va_arg(rest, mode_t) : 0;                                                      \
        va_end(rest);                                                                                                  \
        return open_fails() ? -1 : next(path, flags, mode);                                                            \
    }
OPENS(open)
OPENS(open64)

/* Whether a read of this descriptor fails. */
static int read_fails(int descriptor) {
    long only = number_of("READ_FROM");
    if (only >= 0 && descriptor != only)
        return 0;
    if (!is_one("FAIL_READ", &unread, &reads))
        return 0;
    errno = EIO;
    return 1;
}

static int write_fails(void) {
    if (!is_one("FAIL_WRITE", &unwritten, &writes))
        return 0;
    errno = EIO;
    return 1;
}

ssize_t read(int descriptor, void *bytes, size_t count) {
    ssize_t (*next)(int, void *, size_t) = (ssize_t (*)(int, void *, size_t))dlsym(RTLD_NEXT, "read");
    return read_fails(descriptor) ? -1 : next(descriptor, bytes, count);
}

ssize_t readv(int descriptor, const struct iovec *parts, int count) {
    ssize_t (*next)(int, const struct iovec *, int) = (ssize_t (*)(int, const struct iovec *, int))dlsym(RTLD_NEXT, "readv");
    return read_fails(descriptor) ? -1 : next(descriptor, parts, count);
}

ssize_t write(int descriptor, const void *bytes, size_t count) {
    ssize_t (*next)(int, const void *, size_t) = (ssize_t (*)(int, const void *, size_t))dlsym(RTLD_NEXT, "write");
    return write_fails() ? -1 : next(descriptor, bytes, count);
}

/* What a program that was linked with the C library's own headers may call in its place. */
ssize_t __write(int descriptor, const void *bytes, size_t count) { return write(descriptor, bytes, count); }

ssize_t writev(int descriptor, const struct iovec *parts, int count) {
    ssize_t (*next)(int, const struct iovec *, int) = (ssize_t (*)(int, const struct iovec *, int))dlsym(RTLD_NEXT, "writev");
    return write_fails() ? -1 : next(descriptor, parts, count);
}

__attribute__((destructor)) static void count(void) {
    const char *path = getenv("COUNT");
    if (!path)
        return;
    static char line[16384];
    int length = snprintf(line, sizeof line, "%ld %ld %ld %ld %ld %ld %ld", allocations, reads, writes, starts, first, beside, opens);
    for (int at = 0; at < of_starts_count; at++)
        length += snprintf(line + length, sizeof line - length, " %ld", of_starts[at]);
    length += snprintf(line + length, sizeof line - length, "\n");
    int file = syscall(SYS_open, path, O_WRONLY | O_CREAT | O_TRUNC, 0600);
    ssize_t (*next)(int, const void *, size_t) = (ssize_t (*)(int, const void *, size_t))dlsym(RTLD_NEXT, "write");
    if (file >= 0 && next(file, line, length) == length)
        close(file);
}

/* A program that ends so runs no destructors. */
void _exit(int status) {
    count();
    syscall(SYS_exit_group, status);
    __builtin_unreachable();
}
