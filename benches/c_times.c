/* Times the calls of capi/chanhub.h, by whatever library has them: that of capi, or the plain one of live_peer.
 *
 *     c_times CALLS RUNS [WORKLOAD]      for each workload but alone_bytes, or for this one: NAME best N median M
 *
 * N and M are calls a second, and of `journal` bytes of its text a second. Each run has a new hub.
 */
#include "chanhub.h"

#include <pthread.h>
#include <stdio.h>
#include <stdlib.h>
#include <string.h>
#include <time.h>

enum { PORTS = 4, CREW = 4 };

static chanhub *hub;
static unsigned long count;
static pthread_barrier_t start;

static double now(void) {
    struct timespec t;
    clock_gettime(CLOCK_MONOTONIC, &t);
    return (double)t.tv_sec + (double)t.tv_nsec / 1e9;
}

static void want(int is_so) {
    if (is_so) return;
    puts("c_times: a wrong answer");
    exit(1);
}

static void send(unsigned pid, unsigned port, unsigned long i) { want(chanhub_send(hub, pid, port, chanhub_number(i)).what == CHANHUB_SENT); }

static chanhub_told receive(unsigned pid, unsigned port) {
    chanhub_told told = chanhub_recv(hub, pid, port);
    want(told.what == CHANHUB_GOT);
    return told;
}

/* Receives from whichever port has a value, and begins to look at another each time. */
static void receive_any(unsigned pid, unsigned long i) {
    chanhub_case cases[PORTS] = { { .port = 1 }, { .port = 2 }, { .port = 3 }, { .port = 4 } };
    want(chanhub_select(hub, pid, cases, PORTS, false, i).what == CHANHUB_GOT);
}

/* What the thread of one process does: so many calls on this port, or on all of them if it has none. */
struct task {
    unsigned pid, port;
    bool sends;
    unsigned long calls;
};

static void *works(void *pointer) {
    const struct task *task = pointer;
    pthread_barrier_wait(&start);
    for (unsigned long i = 0; i < task->calls; i++) {
        if (task->sends) send(task->pid, task->port, i);
        else if (task->port) receive(task->pid, task->port);
        else receive_any(task->pid, i);
    }
    return NULL;
}

/* The seconds that these tasks take, each in a thread, which begin at one signal. */
static double crew(struct task *tasks, unsigned size) {
    pthread_t threads[2 * CREW];
    want(pthread_barrier_init(&start, NULL, size + 1) == 0);
    for (unsigned i = 0; i < size; i++) want(pthread_create(&threads[i], NULL, works, &tasks[i]) == 0);
    pthread_barrier_wait(&start);
    double begun = now();
    for (unsigned i = 0; i < size; i++) want(pthread_join(threads[i], NULL) == 0);
    return now() - begun;
}

/* Process 1 receives what process 0 sends. */
static double two_threads(void) {
    struct task tasks[] = { { .pid = 0, .port = 1, .sends = true, .calls = count / 2 }, { .pid = 1, .port = 1, .calls = count / 2 } };
    return crew(tasks, 2);
}

/* Four processes receive what four send. */
static double four_to_four(void) {
    struct task tasks[2 * CREW];
    for (unsigned i = 0; i < 2 * CREW; i++) tasks[i] = (struct task){ .pid = i, .port = 1, .sends = i % 2, .calls = count / (2 * CREW) };
    return crew(tasks, 2 * CREW);
}

/* One process receives from four ports, on each of which another sends. */
static double select_over_four(void) {
    struct task tasks[CREW + 1] = { { .pid = 0, .calls = count / 2 } };
    for (unsigned i = 1; i <= CREW; i++) tasks[i] = (struct task){ .pid = i, .port = i, .sends = true, .calls = count / (2 * CREW) };
    return crew(tasks, CREW + 1);
}

/* One thread fills a part of the buffer and empties it again. */
static double one_thread(void) {
    double begun = now();
    for (unsigned long i = 0; i < count / 2; i += 100) {
        for (unsigned long k = i; k < i + 100; k++) send(0, 1, k);
        for (unsigned long k = i; k < i + 100; k++) want(receive(0, 1).value.number == k);
    }
    return now() - begun;
}

/* The same with values of 32 bytes. */
static double one_thread_bytes(void) {
    unsigned char bytes[32] = { 0 };
    double begun = now();
    for (unsigned long i = 0; i < count / 2; i += 100) {
        for (unsigned long k = i; k < i + 100; k++) {
            memcpy(bytes, &k, sizeof k);
            want(chanhub_send(hub, 0, 1, chanhub_bytes(bytes, sizeof bytes)).what == CHANHUB_SENT);
        }
        for (unsigned long k = i; k < i + 100; k++) want(memcmp(receive(0, 1).value.bytes, &k, sizeof k) == 0);
    }
    return now() - begun;
}

/* The same as with numbers, but it sends by selects of four cases, of which the others cannot proceed. */
static double one_thread_selects(void) {
    double begun = now();
    for (unsigned long i = 0; i < count / 2; i += 100) {
        for (unsigned long k = i; k < i + 100; k++) {
            chanhub_case cases[PORTS] = { { true, 1, chanhub_number(k) }, { .port = 2 }, { .port = 3 }, { .port = 4 } };
            want(chanhub_select(hub, 0, cases, PORTS, false, k).what == CHANHUB_SENT);
        }
        for (unsigned long k = i; k < i + 100; k++) want(receive(0, 1).value.number == k);
    }
    return now() - begun;
}

static double looks(void) {
    double begun = now();
    for (unsigned long i = 0; i < count; i++) want(chanhub_look(hub, 1).sent == 0);
    return now() - begun;
}

static const char first_lines[] = "chanhub journal 1\nprocs 8\n0 make 1024\n0 send 1 0\n";

/* The seconds that a byte of the text takes, so often as there are calls. */
static double journal(void) {
    size_t length;
    one_thread();
    double begun = now();
    char *text = chanhub_journal(hub, &length);
    double taken = now() - begun;
    want(text && strncmp(text, first_lines, sizeof first_lines - 1) == 0);
    chanhub_free_text(text);
    return taken * (double)count / (double)length;
}

struct workload {
    const char *name;
    unsigned ports;
    uint32_t capacity;
    double (*run)(void);
};

static const struct workload workloads[] = {
    { "hand_overs", 1, 0, two_threads }, { "buffered", 1, 1024, two_threads }, { "one_to_one", 1, 64, two_threads },
    { "four_to_four", 1, 64, four_to_four }, { "select_over_four", PORTS, 16, select_over_four }, { "alone", 1, 1024, one_thread },
    { "alone_select", PORTS, 1024, one_thread_selects }, { "look", 1, 1024, looks }, { "journal", 1, 1024, journal },
    { "alone_bytes", 1, 1024, one_thread_bytes },
};

/* Whether it sends bytes. Then it is run only where it is named, since one of the plain hubs has numbers alone. */
static bool has_bytes(const struct workload *w) { return w->run == one_thread_bytes; }

static double rate(const struct workload *w) {
    want(chanhub_open(&hub, has_bytes(w) ? 2 : 1, 2 * CREW, 1000000) == 0);
    for (unsigned i = 0; i < w->ports; i++) want(chanhub_make(hub, 0, w->capacity).what == CHANHUB_MADE);
    double taken = w->run();
    chanhub_free(hub);
    return (double)count / taken;
}

static int by_size(const void *a, const void *b) {
    double x = *(const double *)a, y = *(const double *)b;
    return (x > y) - (x < y);
}

int main(int argc, char **argv) {
    if (argc < 3) return 2;
    count = strtoul(argv[1], NULL, 10);
    size_t runs = strtoul(argv[2], NULL, 10);
    double *rates = calloc(runs, sizeof *rates);
    if (!rates || !runs || count % 200) return 2;
    for (size_t w = 0; w < sizeof workloads / sizeof *workloads; w++) {
        if (argc > 3 ? strcmp(argv[3], workloads[w].name) != 0 : has_bytes(&workloads[w])) continue;
        for (size_t i = 0; i < runs; i++) rates[i] = rate(&workloads[w]);
        qsort(rates, runs, sizeof *rates, by_size);
        printf("%s best %.0f median %.0f\n", workloads[w].name, rates[runs - 1], (rates[(runs - 1) / 2] + rates[runs / 2]) / 2);
    }
    free(rates);
    return 0;
}
