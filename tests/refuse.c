// Refuses one call of the program that it is preloaded into, as a system does that has no memory left, or whose streams fail:
// cc -shared -fPIC -O1 -o refuse.so tests/refuse.c, and then LD_PRELOAD=./refuse.so REFUSE_READ=2 rollduel play FILE.
//
// REFUSE_ALLOCATION=N  the Nth allocation gets no memory, counted over all threads
// REFUSE_THREAD=N      the Nth thread can't be started
// REFUSE_READ=N        the Nth read fails
// REFUSE_WRITE=N       the Nth write to standard output fails
// REFUSE_TAKING=N      the Nth write to standard output takes nothing, and says so
// REFUSE_ERROR=E       a read or write that fails does so with this error number; with 5, EIO, where none is named
// MOST_READ=B          a read gives B bytes at most
// MOST_WRITTEN=B       a write to standard output takes B bytes at most
// REFUSE_COUNTS=FILE   what the process did is written there as it ends: `allocations A reads R writes W threads T started S
//                      joined J`, where T are the threads that it asked for
//
// What happens before the program's own first function is neither refused nor counted.
#define _GNU_SOURCE
#include <dlfcn.h>
#include <errno.h>
#include <fcntl.h>
#include <pthread.h>
#include <stdatomic.h>
#include <stdbool.h>
#include <stdint.h>
#include <stdio.h>
#include <stdlib.h>
#include <sys/syscall.h>
#include <sys/uio.h>
#include <unistd.h>

// The C library's own allocations.
void *__libc_malloc(size_t size);
void *__libc_calloc(size_t many, size_t size);
void *__libc_realloc(void *old, size_t size);
void *__libc_memalign(size_t alignment, size_t size);

// A kind of call: how many there were, and which one is refused, counted from 1.
struct kind {
    atomic_ulong made;
    unsigned long refused;
};

static struct kind allocations, reads, writes, threads;
static atomic_ulong started, joined;
static unsigned long taking_nothing, most_read = SIZE_MAX, most_written = SIZE_MAX;
static int error = EIO;

static unsigned long number(const char *name, unsigned long otherwise) {
    const char *text = getenv(name);
    return text ? strtoul(text, NULL, 10) : otherwise;
}

__attribute__((constructor)) static void begin(void) {
    allocations.refused = number("REFUSE_ALLOCATION", 0);
    threads.refused = number("REFUSE_THREAD", 0);
    reads.refused = number("REFUSE_READ", 0);
    writes.refused = number("REFUSE_WRITE", 0);
    taking_nothing = number("REFUSE_TAKING", 0);
    error = (int)number("REFUSE_ERROR", EIO);
    most_read = number("MOST_READ", SIZE_MAX);
    most_written = number("MOST_WRITTEN", SIZE_MAX);
    allocations.made = 0;
}

__attribute__((destructor)) static void end(void) {
    const char *file = getenv("REFUSE_COUNTS");
    int to = file ? open(file, O_WRONLY | O_CREAT | O_TRUNC, 0666) : -1;
    if (to >= 0) {
        char line[200];
        int size = snprintf(line, sizeof line, "allocations %lu reads %lu writes %lu threads %lu started %lu joined %lu\n",
                            allocations.made, reads.made, writes.made, threads.made, started, joined);
        syscall(SYS_write, to, line, (size_t)size);
        close(to);
    }
}

// A program with threads ends so, without destructors.
_Noreturn void _exit(int status) {
    end();
    syscall(SYS_exit_group, status);
    abort();
}

// Counts a call, and says which one of its kind it is.
static unsigned long count(struct kind *kind) { return atomic_fetch_add(&kind->made, 1) + 1; }

static bool is_refused(struct kind *kind) { return count(kind) == kind->refused; }

static void *no_memory(void) {
    errno = ENOMEM;
    return NULL;
}

void *malloc(size_t size) { return is_refused(&allocations) ? no_memory() : __libc_malloc(size); }

void *calloc(size_t many, size_t size) { return is_refused(&allocations) ? no_memory() : __libc_calloc(many, size); }

void *realloc(void *old, size_t size) { return is_refused(&allocations) ? no_memory() : __libc_realloc(old, size); }

void *aligned_alloc(size_t alignment, size_t size) { return is_refused(&allocations) ? no_memory() : __libc_memalign(alignment, size); }

int posix_memalign(void **place, size_t alignment, size_t size) {
    void *got = aligned_alloc(alignment, size);
    if (!got) {
        return ENOMEM;
    }
    *place = got;
    return 0;
}

int pthread_create(pthread_t *thread, const pthread_attr_t *attributes, void *(*start)(void *), void *with) {
    int (*real)(pthread_t *, const pthread_attr_t *, void *(*)(void *), void *) = dlsym(RTLD_NEXT, "pthread_create");
    int fault = is_refused(&threads) ? EAGAIN : real(thread, attributes, start, with);
    if (fault == 0) {
        atomic_fetch_add(&started, 1);
    }
    return fault;
}

int pthread_join(pthread_t thread, void **result) {
    int (*real)(pthread_t, void **) = dlsym(RTLD_NEXT, "pthread_join");
    atomic_fetch_add(&joined, 1);
    return real(thread, result);
}

static size_t least(size_t a, size_t b) { return a < b ? a : b; }

static ssize_t failed(void) {
    errno = error;
    return -1;
}

ssize_t read(int from, void *to, size_t size) {
    return is_refused(&reads) ? failed() : syscall(SYS_read, from, to, least(size, most_read));
}

ssize_t write(int to, const void *from, size_t size) {
    unsigned long this = to == STDOUT_FILENO ? count(&writes) : 0;
    if (this != 0 && this == writes.refused) {
        return failed();
    }
    if (this != 0 && this == taking_nothing) {
        return 0;
    }
    return syscall(SYS_write, to, from, this != 0 ? least(size, most_written) : size);
}

ssize_t __write(int to, const void *from, size_t size) { return write(to, from, size); }

// Writes no more than the first part that isn't empty.
ssize_t writev(int to, const struct iovec *parts, int many) {
    int first = 0;
    while (first + 1 < many && parts[first].iov_len == 0) {
        first++;
    }
    return many > 0 ? write(to, parts[first].iov_base, parts[first].iov_len) : 0;
}
