/* 16 threads on a hub that never ends, for as long as is told: half of them send and half receive, on ports with a buffer and without,
 * and each value has to come once and in order. Prints every ten seconds how many steps were made, and how much memory is resident,
 * which must not grow after the first minute by more than a tenth, or 4 MB where that is more.
 *
 *     soak SECONDS [--chapters FOLDER]      writes the chapters to FOLDER/chapter.0, chapter.1, ..; otherwise they are counted only
 */
#include "chanhub.h"

#include <inttypes.h>
#include <pthread.h>
#include <stdatomic.h>
#include <stdio.h>
#include <stdlib.h>
#include <string.h>
#include <unistd.h>

enum { PAIRS = 8, PORTS = 4, KEEP = 10000, EVERY = 10, MINUTE = 60, CACHE_LINE = 64, SENDER_AT = 56, MOST_PATH = 4096,
       LEAST_GROWTH = 4096 /* KB that may always be more: what the system and malloc keep differs from time to time */ };

struct worker {
    _Alignas(CACHE_LINE) atomic_uint_fast64_t steps;
    pthread_t thread;
    unsigned pid, port;
    uint64_t values;      /* how many it sent, or received */
    uint64_t last[PAIRS]; /* of a receiver: the number that it received last from each sender */
};

static chanhub *hub;
static struct worker senders[PAIRS], receivers[PAIRS];
static atomic_bool stopped;
static atomic_uint sending = PAIRS, wrong;

/* ---- The threads. ---- */

/* Calls for this case: mostly as it stands, sometimes by a select, or by what is begun and resumed. */
static chanhub_told call(struct worker *w, const chanhub_case *c) {
    chanhub_case cases[2] = { *c, { .port = 0 } };
    uint64_t step = atomic_fetch_add_explicit(&w->steps, 1, memory_order_relaxed);
    if (step % 8 == 5) return chanhub_select(hub, w->pid, cases, 2, false, step);
    if (step % 8 != 7) return c->sends ? chanhub_send(hub, w->pid, c->port, c->value) : chanhub_recv(hub, w->pid, c->port);
    chanhub_told t = chanhub_begin(hub, w->pid, cases, 2, false, step);
    return t.what == CHANHUB_WAITING ? chanhub_resume(hub, w->pid, UINT64_MAX) : t;
}

static void close_ports(unsigned pid) {
    for (unsigned port = 1; port <= PORTS; port++) wrong += chanhub_close(hub, pid, port).what != CHANHUB_DONE;
}

/* Sends its numbers from 1 on. The last sender closes the ports. */
static void *send_values(void *at) {
    struct worker *w = at;
    while (!stopped) {
        uint64_t value = (uint64_t)(w - senders) << SENDER_AT | ++w->values;
        chanhub_case c = { .sends = true, .port = (uint16_t)w->port, .value = chanhub_number(value) };
        wrong += call(w, &c).what != CHANHUB_SENT;
    }
    if (--sending == 0) close_ports(w->pid);
    wrong += chanhub_exit(hub, w->pid).what != CHANHUB_DONE;
    return NULL;
}

static void *receive_values(void *at) {
    struct worker *w = at;
    chanhub_case c = { .port = (uint16_t)w->port };
    chanhub_told t;
    while ((t = call(w, &c)).what == CHANHUB_GOT) {
        uint64_t *last = &w->last[t.value.number >> SENDER_AT], number = t.value.number & (((uint64_t)1 << SENDER_AT) - 1);
        wrong += number <= *last;
        *last = number;
        w->values++;
    }
    wrong += t.what != CHANHUB_DRAINED;
    wrong += chanhub_exit(hub, w->pid).what != CHANHUB_DONE;
    return NULL;
}

static void start(struct worker *w, unsigned pid, unsigned port, void *(*work)(void *)) {
    w->pid = pid;
    w->port = port;
    if (pthread_create(&w->thread, NULL, work, w)) exit(2);
}

static void start_all(void) {
    static const uint32_t caps[PORTS] = { 0, 1, 64, 1024 };
    for (unsigned i = 0; i < PORTS; i++) wrong += chanhub_make(hub, 0, caps[i]).port != i + 1;
    for (unsigned i = 0; i < PAIRS; i++) {
        start(&senders[i], i, 1 + i % PORTS, send_values);
        start(&receivers[i], PAIRS + i, 1 + i % PORTS, receive_values);
    }
}

/* Waits for them. Each value that was sent was received once. */
static void join_all(void) {
    uint64_t sent = 0, received = 0, hub_sent = 0, hub_received = 0;
    for (unsigned i = 0; i < PAIRS; i++) {
        pthread_join(senders[i].thread, NULL);
        pthread_join(receivers[i].thread, NULL);
        sent += senders[i].values;
        received += receivers[i].values;
    }
    for (unsigned port = 1; port <= PORTS; port++) {
        chanhub_counts c = chanhub_look(hub, port);
        hub_sent += c.sent;
        hub_received += c.received;
    }
    wrong += sent != received || hub_sent != sent || hub_received != sent;
}

/* ---- What is measured. ---- */

static atomic_uint_fast64_t chapters, bytes;

static void count_chapter(void *files, const char *text, size_t length) {
    wrong += !text;
    chapters++;
    bytes += length;
    if (files) chanhub_write_chapter(files, text, length);
}

static uint64_t steps_made(void) {
    uint64_t steps = 0;
    for (unsigned i = 0; i < PAIRS; i++) steps += senders[i].steps + receivers[i].steps;
    return steps;
}

/* How many KB of the process are in memory. */
static long resident(void) {
    long pages = 0;
    FILE *file = fopen("/proc/self/statm", "r");
    if (!file || fscanf(file, "%*d %ld", &pages) != 1) exit(2);
    fclose(file);
    return pages * (sysconf(_SC_PAGESIZE) / 1024);
}

/* Lets them run for so long. Whether the memory stays as it should. */
static bool watch(long seconds) {
    long first = 0, later = 0; /* the most in the first minute, and after it */
    for (long second = 1; second <= seconds; second++) {
        sleep(1);
        long now = resident();
        long *most = second <= MINUTE ? &first : &later;
        if (now > *most) *most = now;
        if (second % EVERY && second != seconds) continue;
        printf("%ld s: %" PRIu64 " steps, %" PRIuFAST64 " chapters of %" PRIuFAST64 " bytes, %ld KB resident\n", second,
               steps_made(), chapters, bytes, now);
        fflush(stdout);
    }
    return later <= first + (first / 10 > LEAST_GROWTH ? first / 10 : LEAST_GROWTH);
}

int main(int argc, char **argv) {
    bool writes = argc == 4 && strcmp(argv[2], "--chapters") == 0;
    if (argc != 2 && !writes) return 2;
    char name[MOST_PATH];
    chanhub_files files = { .name = name };
    if (writes) snprintf(name, sizeof name, "%s/chapter", argv[3]);
    if (chanhub_open_endless(&hub, 1, 2 * PAIRS, KEEP, count_chapter, writes ? &files : NULL)) return 2;
    start_all();
    bool is_bounded = watch(atol(argv[1]));
    stopped = true;
    join_all();
    chanhub_free(hub);
    printf("%" PRIu64 " steps, %" PRIuFAST64 " chapters; %s\n", steps_made(), chapters, is_bounded ? "memory is bounded" : "memory grows");
    if (wrong || files.error) printf("%u wrong\n", wrong + (files.error != 0));
    return wrong || files.error || !is_bounded;
}
