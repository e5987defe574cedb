/*
 * Stands before the C library's realloc and its start of a thread, and has one of them take a second longer, in which the thread
 * sleeps. The environment says which:
 *
 *   SLOW_START   the number of the thread that sleeps before it begins, counted from 1; none where it is not set
 *   SLOW_GROWTH  how many bytes are asked for by the growth that sleeps: the first to so many or more, in another thread
 *                than the first; none where it is not set
 */
#define _GNU_SOURCE
#include <dlfcn.h>
#include <pthread.h>
#include <stdint.h>
#include <stdlib.h>
#include <unistd.h>

extern void *__libc_realloc(void *, size_t);

typedef void *run_thread(void *);
typedef int start_thread(pthread_t *, const pthread_attr_t *, run_thread *, void *);

static start_thread *real_start;
static pthread_t first;
static unsigned long started, slow_start;
static size_t slow_growth = SIZE_MAX;

/* What the thread does that begins late. */
static run_thread *late;

__attribute__((constructor)) static void begin(void) {
    const char *start = getenv("SLOW_START");
    const char *growth = getenv("SLOW_GROWTH");
    real_start = (start_thread *)dlsym(RTLD_NEXT, "pthread_create");
    first = pthread_self();
    slow_start = start != NULL ? strtoul(start, NULL, 10) : 0;
    if (growth != NULL)
        slow_growth = strtoul(growth, NULL, 10);
}

static void *begin_late(void *argument) {
    sleep(1);
    return late(argument);
}

int pthread_create(pthread_t *thread, const pthread_attr_t *attributes, run_thread *run, void *argument) {
    if (++started != slow_start)
        return real_start(thread, attributes, run, argument);
    late = run;
    return real_start(thread, attributes, begin_late, argument);
}

/* One thread after the other comes here, as each growth is under the hub's lock. */
void *realloc(void *old, size_t size) {
    if (size >= slow_growth && !pthread_equal(pthread_self(), first)) {
        slow_growth = SIZE_MAX;
        sleep(1);
    }
    return __libc_realloc(old, size);
}
