/* Looks take no lock but the first, and each is of one moment of the hub.
 *
 *     looks alone            random steps of one thread: each look is what the hub tells then, and only the first at a port asks it
 *     looks inside           a look ends while another thread is in the hub; first looks beside each other
 *     looks threads FOLDER   threads that look while others call: writes FOLDER/journal, and a line for each look to FOLDER/looks
 *
 * Linked with the library's sources, and with --wrap for hub_c_look and hub_c_recv.
 */
#include "hub_c.h"
#include "tally.h"

#include <inttypes.h>
#include <pthread.h>
#include <semaphore.h>
#include <stdlib.h>

enum { SECONDS = 300, RUNS = 60, STEPS = 400, PROCS = 4, PORTS = 5, LIMIT = 1000000 };
/* of the threads: how many call and look, and how often */
enum { PAIRS = 3, COUNT = 3000, LOOKERS = 2, MOST_LOOKS = 60000, OFTEN = 50, PROCESSES = 2 * PAIRS + 3, PLAIN_PORT = 4, LATE_PORT = 5,
       LATE_CAP = 5 };

static chanhub *hub;

/* The hub that was last looked at, and how often it was asked. */
static struct hub *asked;
static atomic_int asks;

chanhub_counts __real_hub_c_look(struct hub *h, uint16_t port);
chanhub_counts __wrap_hub_c_look(struct hub *h, uint16_t port);
chanhub_counts __wrap_hub_c_look(struct hub *h, uint16_t port) {
    asked = h;
    asks++;
    return __real_hub_c_look(h, port);
}

/* Where a receive waits inside of the hub. */
static atomic_bool waits_inside;
static sem_t is_inside, may_leave;

void __real_hub_c_recv(struct hub *h, uint8_t pid, uint16_t port, struct told *told);
void __wrap_hub_c_recv(struct hub *h, uint8_t pid, uint16_t port, struct told *told);
void __wrap_hub_c_recv(struct hub *h, uint8_t pid, uint16_t port, struct told *told) {
    __real_hub_c_recv(h, pid, port, told);
    if (!waits_inside) return;
    sem_post(&is_inside);
    sem_wait(&may_leave);
}

/* ---- By one thread. ---- */

static uint64_t state;

static unsigned below(unsigned bound) {
    state = state * 6364136223846793005u + 1442695040888963407u;
    return (unsigned)(state >> 33) % bound;
}

static void is_counts(const char *name, chanhub_counts found, chanhub_counts wanted) {
    is(name, found.made, wanted.made);
    is(name, found.closed, wanted.closed);
    is(name, found.cap, wanted.cap);
    is(name, (long long)found.sent, (long long)wanted.sent);
    is(name, (long long)found.received, (long long)wanted.received);
}

/* Makes a step of some kind; one that is refused will do too. */
static void step(bool has_clock) {
    unsigned pid = below(PROCS), port = 1 + below(PORTS), kind = below(20);
    chanhub_case cases[3];
    for (int i = 0; i < 3; i++) {
        cases[i] = (chanhub_case){ .sends = below(2), .port = (uint16_t)below(PORTS), .value = chanhub_number(below(100)) };
    }
    size_t count = 1 + below(3);
    if (kind == 0) chanhub_make(hub, pid, below(4));
    else if (kind == 1 && below(2)) chanhub_close(hub, pid, port);
    else if (kind == 1) chanhub_reopen(hub, pid, port, below(6));
    else if (kind == 2) chanhub_cancel(hub, pid, below(PROCS));
    else if (kind == 3) chanhub_cut(hub);
    else if (kind < 6) chanhub_try_send(hub, pid, port, chanhub_number(7));
    else if (kind < 8) chanhub_try_recv(hub, pid, port);
    else if (kind < 10) chanhub_select(hub, pid, cases, count, true, below(9));
    else if (kind < 14) chanhub_resume(hub, pid, 0);
    else if (kind < 16 && has_clock) chanhub_begin_until(hub, pid, cases, count, false, below(9), chanhub_in(below(2000)));
    else chanhub_begin(hub, pid, cases, count, false, below(9));
}

/* What each look has to show: what the hub tells now. */
static void look_at_all(bool *shown) {
    for (uint16_t port = 1; port <= PORTS; port++) {
        int before = asks;
        chanhub_counts found = chanhub_look(hub, port);
        is("the hub is asked at most once", asks - before, !shown[port]);
        is_counts("counts", found, __real_hub_c_look(asked, port));
        shown[port] |= found.made;
    }
    is("port 0", chanhub_look(hub, 0).made, 0);
    is("port 65", chanhub_look(hub, 65).made, 0);
}

/* A run on a hub that has a limit, never ends, or has a clock. */
static void run(unsigned seed) {
    chanhub_options options = { .edition = 3, .procs = PROCS, .keep = seed % 3 == 1 ? 40 : 0, .clock = seed % 3 == 2 };
    bool shown[PORTS + 1] = { false };
    state = seed;
    is("opened", chanhub_open_with(&hub, &options), 0);
    for (int i = 0; i < STEPS; i++) {
        step(options.clock);
        look_at_all(shown);
    }
    chanhub_free(hub);
}

/* The last port, and one that is full, of the greatest capacity. */
static void at_the_limits(void) {
    enum { LAST_PORT = 64, MOST_CAP = 1024 };
    is("opened", chanhub_open(&hub, 2, 1, LIMIT), 0);
    for (uint32_t port = 1; port <= LAST_PORT; port++) chanhub_make(hub, 0, port == LAST_PORT ? MOST_CAP : 0);
    is_counts("made", chanhub_look(hub, LAST_PORT), (chanhub_counts){ .made = true, .cap = MOST_CAP });
    for (int i = 0; i < MOST_CAP; i++) chanhub_send(hub, 0, LAST_PORT, chanhub_number(1));
    is_counts("full", chanhub_look(hub, LAST_PORT), (chanhub_counts){ .made = true, .cap = MOST_CAP, .sent = MOST_CAP });
    is_counts("no port", chanhub_look(hub, LAST_PORT + 1), (chanhub_counts){ 0 });
    chanhub_free(hub);
}

static void alone(void) {
    for (unsigned seed = 0; seed < RUNS; seed++) run(seed);
    at_the_limits();
}

/* ---- While a thread is inside. ---- */

static void *receives(void *at) {
    is("got", (long long)chanhub_recv(hub, 1, 1).value.number, 5);
    return at;
}

static void inside(void) {
    pthread_t thread;
    is("opened", chanhub_open(&hub, 2, 2, 100), 0);
    is("made", chanhub_make(hub, 0, 1).port, 1);
    is("sent", chanhub_send(hub, 0, 1, chanhub_number(5)).what, CHANHUB_SENT);
    chanhub_counts before = { .made = true, .cap = 1, .sent = 1 }, after = { .made = true, .cap = 1, .sent = 1, .received = 1 };
    is_counts("the first look", chanhub_look(hub, 1), before);
    sem_init(&is_inside, 0, 0);
    sem_init(&may_leave, 0, 0);
    waits_inside = true;
    if (pthread_create(&thread, NULL, receives, NULL)) exit(2);
    sem_wait(&is_inside);
    is_counts("a look while a step is made", chanhub_look(hub, 1), before);
    sem_post(&may_leave);
    pthread_join(thread, NULL);
    waits_inside = false;
    is_counts("a look behind the step", chanhub_look(hub, 1), after);
    chanhub_free(hub);
}

/* Two threads make the first look at each port beside each other. */
static void *looks_at_each(void *start) {
    pthread_barrier_wait(start);
    for (unsigned port = 1; port <= 64; port++) is("its capacity", chanhub_look(hub, port).cap, port);
    return NULL;
}

static void first_looks(void) {
    enum { ROUNDS = 20 };
    pthread_barrier_t start;
    pthread_barrier_init(&start, NULL, 2);
    for (int i = 0; i < ROUNDS; i++) {
        pthread_t threads[2];
        is("opened", chanhub_open(&hub, 2, 1, LIMIT), 0);
        for (uint32_t port = 1; port <= 64; port++) chanhub_make(hub, 0, port);
        for (int j = 0; j < 2; j++) if (pthread_create(&threads[j], NULL, looks_at_each, &start)) exit(2);
        for (int j = 0; j < 2; j++) pthread_join(threads[j], NULL);
        chanhub_free(hub);
    }
    pthread_barrier_destroy(&start);
}

/* ---- Threads. ---- */

static atomic_bool done;

struct seen {
    unsigned port;
    long long from, to; /* how many steps were made before the look and after it; -1 where nobody asked */
    chanhub_counts counts;
};

struct looker {
    pthread_t thread;
    size_t looks;
    struct seen seen[MOST_LOOKS];
};

static long long steps_made(void) { return LIMIT - (long long)chanhub_steps_left(hub); }

static bool is_same(const chanhub_counts *a, const chanhub_counts *b) {
    return a->made == b->made && a->closed == b->closed && a->cap == b->cap && a->sent == b->sent && a->received == b->received;
}

/* Keeps each look that shows something new, and each that stands between two questions which take the lock. */
static void *looks(void *at) {
    struct looker *mine = at;
    chanhub_counts before[LATE_PORT] = { { 0 } };
    for (unsigned i = 0; mine->looks < MOST_LOOKS && !done; i++) {
        bool asks_too = i % OFTEN == 0;
        struct seen seen = { .port = 1 + i / OFTEN % LATE_PORT, .from = asks_too ? steps_made() : -1, .to = -1 };
        seen.counts = chanhub_look(hub, seen.port);
        if (asks_too) seen.to = steps_made();
        if (asks_too || !is_same(&seen.counts, &before[seen.port - 1])) mine->seen[mine->looks++] = seen;
        before[seen.port - 1] = seen.counts;
        if (asks_too) usleep(20);
    }
    return NULL;
}

/* Sends on one of the first ports, or receives from one: it tries some, and then waits for any. */
static void *calls(void *at) {
    unsigned pid = (unsigned)(size_t)at;
    for (unsigned i = 0; i < COUNT; i++) {
        chanhub_case cases[3];
        for (unsigned k = 0; k < 3; k++) {
            cases[k] = (chanhub_case){ .sends = pid % 2, .port = (uint16_t)(1 + (k + pid) % 3), .value = chanhub_number(i) };
        }
        chanhub_told t = chanhub_select(hub, pid, cases, 1 + i % 3, i % 3 < 2, i);
        if (t.what == CHANHUB_DEFAULT) t = chanhub_select(hub, pid, cases, 3, false, i);
        is("sent or got", t.what, pid % 2 ? CHANHUB_SENT : CHANHUB_GOT);
    }
    return NULL;
}

/* Makes a port late, and closes it, so that it is seen in every state. */
static void *makes(void *at) {
    const unsigned pid = 2 * PAIRS;
    is("made", chanhub_make(hub, pid, LATE_CAP).port, LATE_PORT);
    for (unsigned i = 0; i < COUNT; i++) {
        is("sent", chanhub_send(hub, pid, LATE_PORT, chanhub_number(i)).what, CHANHUB_SENT);
        if (i >= LATE_CAP - 1) is("got", (long long)chanhub_recv(hub, pid, LATE_PORT).value.number, i - (LATE_CAP - 1));
    }
    is("closed", chanhub_close(hub, pid, LATE_PORT).what, CHANHUB_DONE);
    for (unsigned i = 1; i < LATE_CAP; i++) is("got", chanhub_recv(hub, pid, LATE_PORT).what, CHANHUB_GOT);
    is("drained", chanhub_recv(hub, pid, LATE_PORT).what, CHANHUB_DRAINED);
    return at;
}

/* Passes values on a port without a buffer, so that mostly one side has parked. */
static void *passes(void *at) {
    unsigned pid = (unsigned)(size_t)at;
    for (unsigned i = 0; i < COUNT; i++) {
        if (pid % 2) is("sent", chanhub_send(hub, pid, PLAIN_PORT, chanhub_number(i)).what, CHANHUB_SENT);
        else is("got", (long long)chanhub_recv(hub, pid, PLAIN_PORT).value.number, i);
    }
    return NULL;
}

static FILE *file_in(const char *folder, const char *name) {
    char path[4096];
    snprintf(path, sizeof path, "%s/%s", folder, name);
    FILE *file = fopen(path, "wb");
    if (!file) exit(2);
    return file;
}

static void write_journal(FILE *file) {
    size_t length;
    char *text = chanhub_journal(hub, &length);
    if (!text || fwrite(text, 1, length, file) != length) exit(2);
    fclose(file);
    chanhub_free_text(text);
}

static void write_looks(FILE *file, const struct looker *lookers) {
    for (size_t i = 0; i < LOOKERS; i++) {
        for (size_t k = 0; k < lookers[i].looks; k++) {
            const struct seen *s = &lookers[i].seen[k];
            const chanhub_counts *c = &s->counts;
            fprintf(file, "%zu %u %lld %lld %d %d %u %" PRIu64 " %" PRIu64 "\n", i, s->port, s->from, s->to, c->made, c->closed,
                    (unsigned)c->cap, c->sent, c->received);
        }
    }
    fclose(file);
}

static void threads(const char *folder) {
    static struct looker lookers[LOOKERS];
    pthread_t callers[PROCESSES];
    const uint32_t caps[PLAIN_PORT] = { 0, 2, 8, 0 };
    is("opened", chanhub_open(&hub, 2, PROCESSES, LIMIT), 0);
    for (size_t i = 0; i < PLAIN_PORT; i++) is("made", chanhub_make(hub, 0, caps[i]).port, (long long)i + 1);
    for (size_t i = 0; i < LOOKERS; i++) if (pthread_create(&lookers[i].thread, NULL, looks, &lookers[i])) exit(2);
    for (size_t i = 0; i < PROCESSES; i++) {
        void *(*work)(void *) = i < 2 * PAIRS ? calls : i == 2 * PAIRS ? makes : passes;
        if (pthread_create(&callers[i], NULL, work, (void *)i)) exit(2);
    }
    for (size_t i = 0; i < PROCESSES; i++) pthread_join(callers[i], NULL);
    done = true;
    for (size_t i = 0; i < LOOKERS; i++) pthread_join(lookers[i].thread, NULL);
    write_journal(file_in(folder, "journal"));
    write_looks(file_in(folder, "looks"), lookers);
    chanhub_free(hub);
}

int main(int argc, char **argv) {
    alarm(SECONDS);
    if (argc == 2 && !strcmp(argv[1], "alone")) alone();
    else if (argc == 2 && !strcmp(argv[1], "inside")) inside(), first_looks();
    else if (argc == 3 && !strcmp(argv[1], "threads")) threads(argv[2]);
    else return 2;
    return tally(argv[1]);
}
