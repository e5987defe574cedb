/*
 * Stands before the C library's allocator, which it calls by the names that glibc gives it beside the usual ones, and
 * before its start of a thread, and refuses allocations or starts. The environment says which, counted from the
 * constructor below on, so that the loader's work is left alone, or, with REFUSE_AFTER, from the first allocation of just
 * so many bytes on:
 *
 *   REFUSE        the number of the allocation to be refused, or `all`; none where it is not set
 *   REFUSE_AFTER  how many bytes the allocation asks for after which the counting begins
 *   REFUSE_START  the number of the start of a thread to be refused; none where it is not set
 *   REFUSED       a file that is made where something was refused
 */
#define _GNU_SOURCE
#include <dlfcn.h>
#include <errno.h>
#include <fcntl.h>
#include <pthread.h>
#include <stddef.h>
#include <stdint.h>
#include <stdlib.h>
#include <string.h>
#include <unistd.h>

extern void *__libc_malloc(size_t);
extern void *__libc_calloc(size_t, size_t);
extern void *__libc_realloc(void *, size_t);
extern void *__libc_memalign(size_t, size_t);

typedef int start_thread(pthread_t *, const pthread_attr_t *, void *(*)(void *), void *);

static unsigned long counted, number, started, start_number;
static size_t mark;
static int counts, all;
static const char *trace;
static start_thread *real_start;

__attribute__((constructor)) static void begin(void) {
    const char *which = getenv("REFUSE");
    const char *after = getenv("REFUSE_AFTER");
    const char *start = getenv("REFUSE_START");
    real_start = (start_thread *)dlsym(RTLD_NEXT, "pthread_create");
    start_number = start != NULL ? strtoul(start, NULL, 10) : 0;
    trace = getenv("REFUSED");
    all = which != NULL && strcmp(which, "all") == 0;
    number = which != NULL && !all ? strtoul(which, NULL, 10) : 0;
    mark = after != NULL ? strtoul(after, NULL, 10) : 0;
    counted = 0;
    counts = mark == 0;
}

static void leave_trace(void) {
    int file = open(trace, O_WRONLY | O_CREAT, 0600);
    if (file < 0)
        _exit(99);
    close(file);
}

static int refuses(size_t size) {
    if (!counts) {
        counts = mark > 0 && size == mark;
        return 0;
    }
    if (!all && __atomic_add_fetch(&counted, 1, __ATOMIC_SEQ_CST) != number)
        return 0;
    leave_trace();
    errno = ENOMEM;
    return 1;
}

void *malloc(size_t size) {
    return refuses(size) ? NULL : __libc_malloc(size);
}

void *calloc(size_t count, size_t size) {
    return refuses(count * size) ? NULL : __libc_calloc(count, size);
}

void *realloc(void *old, size_t size) {
    return refuses(size) ? NULL : __libc_realloc(old, size);
}

void *reallocarray(void *old, size_t count, size_t size) {
    if (size != 0 && count > SIZE_MAX / size) {
        errno = ENOMEM;
        return NULL;
    }
    return refuses(count * size) ? NULL : __libc_realloc(old, count * size);
}

void *memalign(size_t alignment, size_t size) {
    return refuses(size) ? NULL : __libc_memalign(alignment, size);
}

void *aligned_alloc(size_t alignment, size_t size) {
    return refuses(size) ? NULL : __libc_memalign(alignment, size);
}

int posix_memalign(void **out, size_t alignment, size_t size) {
    void *made;
    if (refuses(size))
        return ENOMEM;
    made = __libc_memalign(alignment, size);
    if (made == NULL)
        return ENOMEM;
    *out = made;
    return 0;
}

int pthread_create(pthread_t *thread, const pthread_attr_t *attributes, void *(*run)(void *), void *argument) {
    if (counts && start_number > 0 && __atomic_add_fetch(&started, 1, __ATOMIC_SEQ_CST) == start_number) {
        leave_trace();
        return EAGAIN;
    }
    return real_start(thread, attributes, run, argument);
}
