/* Loaded before the C library by tests of this folder, tests/runs/runs.sh and tests/forced/failed_orders.py: refuses one
 * call of a kind, as the system may.
 *
 * REFUSED_MEMORY is the allocation, REFUSED_THREAD the start of a thread, REFUSED_OPEN the opening of a file,
 * REFUSED_READ the read and REFUSED_WRITE the write that is refused, each counted from 1 over all threads;
 * REFUSED_THREADS_FROM and REFUSED_WRITES_FROM the first start of a thread, or write, from which on each is.
 * REFUSED_INTERRUPTED_READ and REFUSED_INTERRUPTED_WRITE are those that a signal interrupts before anything is read or
 * written, REFUSED_SHORT_READ and REFUSED_SHORT_WRITE those that move one byte alone, and REFUSED_SHORT_READS_FROM and
 * REFUSED_SHORT_WRITES_FROM the first from which on each does. Where it came to that, a file of the kind's name is made
 * in the folder REFUSED_MARKS.
 */
#define _GNU_SOURCE
#include <dlfcn.h>
#include <errno.h>
#include <fcntl.h>
#include <pthread.h>
#include <stdarg.h>
#include <stdatomic.h>
#include <stdio.h>
#include <stdlib.h>
#include <unistd.h>

struct kind {
    const char *refused; /* The variable that says which call is refused. */
    const char *name;
    int lasts; /* Whether all calls behind that one are refused too. */
    atomic_ulong calls;
};

static struct kind memory = {"REFUSED_MEMORY", "memory", 0, 0};
static struct kind threads = {"REFUSED_THREAD", "thread", 0, 0};
static struct kind threads_from = {"REFUSED_THREADS_FROM", "threads_from", 1, 0};
static struct kind opens = {"REFUSED_OPEN", "open", 0, 0};
static struct kind reads = {"REFUSED_READ", "read", 0, 0};
static struct kind interrupted_reads = {"REFUSED_INTERRUPTED_READ", "interrupted_read", 0, 0};
static struct kind short_reads = {"REFUSED_SHORT_READ", "short_read", 0, 0};
static struct kind short_reads_from = {"REFUSED_SHORT_READS_FROM", "short_reads_from", 1, 0};
static struct kind writes = {"REFUSED_WRITE", "write", 0, 0};
static struct kind writes_from = {"REFUSED_WRITES_FROM", "writes_from", 1, 0};
static struct kind interrupted_writes = {"REFUSED_INTERRUPTED_WRITE", "interrupted_write", 0, 0};
static struct kind short_writes = {"REFUSED_SHORT_WRITE", "short_write", 0, 0};
static struct kind short_writes_from = {"REFUSED_SHORT_WRITES_FROM", "short_writes_from", 1, 0};

static void mark(const struct kind *kind)
{
    const char *folder = getenv("REFUSED_MARKS");
    char path[4096];
    if (!folder || snprintf(path, sizeof path, "%s/%s", folder, kind->name) >= (int)sizeof path)
        return;
    int file = open(path, O_CREAT | O_WRONLY, 0600);
    if (file >= 0)
        close(file);
}

static int is_refused(struct kind *kind, int error)
{
    const char *number = getenv(kind->refused);
    unsigned long refused = number ? strtoul(number, NULL, 10) : 0;
    unsigned long call = atomic_fetch_add(&kind->calls, 1) + 1;
    if (refused == 0 || call < refused || (call > refused && !kind->lasts))
        return 0;
    mark(kind);
    errno = error;
    return 1;
}

void *malloc(size_t size)
{
    static void *(*next)(size_t);
    if (!next)
        next = (void *(*)(size_t))dlsym(RTLD_NEXT, "malloc");
    return is_refused(&memory, ENOMEM) ? NULL : next(size);
}

void *realloc(void *block, size_t size)
{
    static void *(*next)(void *, size_t);
    if (!next)
        next = (void *(*)(void *, size_t))dlsym(RTLD_NEXT, "realloc");
    return is_refused(&memory, ENOMEM) ? NULL : next(block, size);
}

int pthread_create(pthread_t *thread, const pthread_attr_t *attributes, void *(*body)(void *), void *given)
{
    typedef int start(pthread_t *, const pthread_attr_t *, void *(*)(void *), void *);
    start *next = (start *)dlsym(RTLD_NEXT, "pthread_create");
    if (is_refused(&threads, EAGAIN) || is_refused(&threads_from, EAGAIN))
        return EAGAIN;
    return next(thread, attributes, body, given);
}

/* The two names by which programs open files. */
static int open_by(const char *name, const char *path, int how, va_list more)
{
    int (*next)(const char *, int, ...) = (int (*)(const char *, int, ...))dlsym(RTLD_NEXT, name);
    mode_t mode = how & O_CREAT ? va_arg(more, mode_t) : 0;
    return is_refused(&opens, EMFILE) ? -1 : next(path, how, mode);
}

int open(const char *path, int how, ...)
{
    va_list more;
    va_start(more, how);
    int file = open_by("open", path, how, more);
    va_end(more);
    return file;
}

int open64(const char *path, int how, ...)
{
    va_list more;
    va_start(more, how);
    int file = open_by("open64", path, how, more);
    va_end(more);
    return file;
}

/* How many bytes of these one call moves. */
static size_t moved(size_t count, struct kind *one, struct kind *all_from)
{
    return count > 1 && (is_refused(one, 0) || is_refused(all_from, 0)) ? 1 : count;
}

ssize_t read(int file, void *bytes, size_t count)
{
    ssize_t (*next)(int, void *, size_t) = (ssize_t(*)(int, void *, size_t))dlsym(RTLD_NEXT, "read");
    if (is_refused(&reads, EIO) || is_refused(&interrupted_reads, EINTR))
        return -1;
    return next(file, bytes, moved(count, &short_reads, &short_reads_from));
}

ssize_t write(int file, const void *bytes, size_t count)
{
    ssize_t (*next)(int, const void *, size_t) = (ssize_t(*)(int, const void *, size_t))dlsym(RTLD_NEXT, "write");
    if (is_refused(&writes, ENOSPC) || is_refused(&writes_from, ENOSPC) || is_refused(&interrupted_writes, EINTR))
        return -1;
    return next(file, bytes, moved(count, &short_writes, &short_writes_from));
}

/* The C library's second name for it. */
ssize_t __write(int file, const void *bytes, size_t count)
{
    return write(file, bytes, count);
}
