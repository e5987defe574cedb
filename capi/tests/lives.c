/* Processes and ports that come back, in hubs of edition 3.
 *
 *     lives alone                each call by one thread: what it is told, and the journal
 *     lives followed COUNT       so many random runs of threads that come and go are recorded, and followed: all is told again
 *     lives many COUNT FOLDER    a hub that never ends, with a thread for each of so many requests: it is a process that was started for
 *                                it, and answers on a port that was opened again for it. Writes the chapters to FOLDER/chapter.0, ..
 */
#include "runs.h"

#include <inttypes.h>
#include <malloc.h>
#include <pthread.h>
#include <sched.h>
#include <stdlib.h>

enum { CLIENT = 0, WORKERS = 63, PORTS = 60, KEEP = 10000, STACK = 65536, MOST_PATH = 4096, SECONDS = 600,
       MANY = 10000 /* with so many requests all is warm after half of them */,
       GROWTH = 16384 /* KB that may be more: what the system keeps for threads */ };

/* ---- By one thread. ---- */

static chanhub *opened(unsigned edition, unsigned procs, uint32_t limit) {
    chanhub *hub;
    is("opened", chanhub_open(&hub, edition, procs, limit), 0);
    return hub;
}

static void is_done(const char *name, chanhub_told t) {
    is(name, t.what, CHANHUB_DONE);
}

static void processes(void) {
    chanhub *hub = opened(3, 2, 100);
    is("made", chanhub_make(hub, 0, 1).port, 1);
    is_done("exits", chanhub_exit(hub, 1));
    is_fault("gone", chanhub_send(hub, 1, 1, chanhub_number(7)), CHANHUB_GONE);
    is_done("starts", chanhub_start(hub, 0, 1));
    is("sent", chanhub_send(hub, 1, 1, chanhub_number(8)).what, CHANHUB_SENT);
    is("got", (long long)chanhub_recv(hub, 0, 1).value.number, 8);
    is_fault("not gone", chanhub_start(hub, 0, 1), CHANHUB_NOT_GONE);
    is_fault("its own process", chanhub_start(hub, 0, 0), CHANHUB_NOT_GONE);
    is_fault("no such process", chanhub_start(hub, 0, 255), CHANHUB_NOT_GONE);
    is_fault("no number of a process", chanhub_start(hub, 0, 256), CHANHUB_BAD_CALL);
    is_fault("by no number of a process", chanhub_start(hub, 256, 0), CHANHUB_BAD_CALL);
    is_fault("by no process", chanhub_start(hub, 2, 1), CHANHUB_NO_PROCESS);
    is_fault("no hub", chanhub_start(NULL, 0, 1), CHANHUB_BAD_CALL);
    has_journal("processes", hub,
                "chanhub journal 3\nprocs 2\n0 make 1\n1 exit\n0 start 1\n1 send 1 8\n0 recv 1\n0 start 1\n0 start 0\n0 start 255\n");
    chanhub_free(hub);
}

static void has_counts(const char *name, chanhub *hub, bool closed, uint32_t cap, uint64_t sent, uint64_t received) {
    chanhub_counts c = chanhub_look(hub, 1);
    is(name, c.made, true), is(name, c.closed, closed), is(name, c.cap, cap);
    is(name, (long long)c.sent, (long long)sent), is(name, (long long)c.received, (long long)received);
}

static void ports(void) {
    chanhub *hub = opened(3, 1, 100);
    is("made", chanhub_make(hub, 0, 1).port, 1);
    has_counts("first", hub, false, 1, 0, 0);
    is_fault("open", chanhub_reopen(hub, 0, 1, 2), CHANHUB_IN_USE);
    is("sent", chanhub_send(hub, 0, 1, chanhub_number(5)).what, CHANHUB_SENT);
    is_done("closes", chanhub_close(hub, 0, 1));
    is_fault("holds a value", chanhub_reopen(hub, 0, 1, 2), CHANHUB_IN_USE);
    is("got", (long long)chanhub_recv(hub, 0, 1).value.number, 5);
    has_counts("drained", hub, true, 1, 1, 1);
    is_fault("too great a capacity", chanhub_reopen(hub, 0, 1, 1025), CHANHUB_BAD_CAP);
    is_done("reopens", chanhub_reopen(hub, 0, 1, 1024));
    has_counts("second life", hub, false, 1024, 1, 1);
    is("sent", chanhub_send(hub, 0, 1, chanhub_number(6)).what, CHANHUB_SENT);
    has_counts("counts go on", hub, false, 1024, 2, 1);
    is_fault("no such port", chanhub_reopen(hub, 0, 2, 0), CHANHUB_NO_PORT);
    is_fault("port 0", chanhub_reopen(hub, 0, 0, 0), CHANHUB_NIL_CLOSE);
    is_fault("no number of a port", chanhub_reopen(hub, 0, 65536, 0), CHANHUB_BAD_CALL);
    is_fault("no hub", chanhub_reopen(NULL, 0, 1, 0), CHANHUB_BAD_CALL);
    has_journal("ports", hub,
                "chanhub journal 3\nprocs 1\n0 make 1\n0 reopen 1 2\n0 send 1 5\n0 close 1\n0 reopen 1 2\n0 recv 1\n0 reopen 1 1025\n"
                "0 reopen 1 1024\n0 send 1 6\n0 reopen 2 0\n0 reopen 0 0\n");
    chanhub_free(hub);
}

/* The first two editions have neither. */
static void other_editions(void) {
    for (unsigned edition = 1; edition <= 2; edition++) {
        chanhub *hub = opened(edition, 2, 10);
        is_done("exits", chanhub_exit(hub, 1));
        is_fault("start", chanhub_start(hub, 0, 1), CHANHUB_BAD_CALL);
        is("made", chanhub_make(hub, 0, 1).port, 1);
        is_done("closes", chanhub_close(hub, 0, 1));
        is_fault("reopen", chanhub_reopen(hub, 0, 1, 1), CHANHUB_BAD_CALL);
        is("three entries", lines_of(hub), 5);
        chanhub_free(hub);
    }
}

/* Starts count towards the limit; exits do not, however often they come. */
static void limit(void) {
    chanhub *hub = opened(3, 2, 3);
    for (unsigned left = 3; left; left--) {
        is("steps left", (long long)chanhub_steps_left(hub), left);
        is_done("exits", chanhub_exit(hub, 1));
        is("steps left", (long long)chanhub_steps_left(hub), left);
        is_done("starts", chanhub_start(hub, 0, 1));
    }
    is_done("exits", chanhub_exit(hub, 1));
    is_fault("full", chanhub_start(hub, 0, 1), CHANHUB_JOURNAL_FULL);
    is_done("exits", chanhub_exit(hub, 0));
    chanhub_free(hub);
}

/* A process that was started is waited for before calls stall. */
static void stalls(void) {
    chanhub *hub = opened(3, 2, 100);
    chanhub_case receive = { .port = 1 };
    is("made", chanhub_make(hub, 0, 0).port, 1);
    is_done("exits", chanhub_exit(hub, 1));
    is("alone", chanhub_recv(hub, 0, 1).what, CHANHUB_STALLED);
    is_done("starts", chanhub_start(hub, 0, 1));
    is("waits", chanhub_begin(hub, 0, &receive, 1, false, 0).what, CHANHUB_WAITING);
    is("sent", chanhub_send(hub, 1, 1, chanhub_number(3)).what, CHANHUB_SENT);
    is("got", (long long)chanhub_resume(hub, 0, 0).value.number, 3);
    is("waits", chanhub_begin(hub, 0, &receive, 1, false, 0).what, CHANHUB_WAITING);
    is_done("exits", chanhub_exit(hub, 1));
    is("stalled by the exit", chanhub_resume(hub, 0, 0).what, CHANHUB_STALLED);
    chanhub_free(hub);
}

/* What the calls below leave in the journal. */
static const char *const WITH_CLOCK =
    "chanhub journal 3\nprocs 3\n2 recv 0\n0 make 0\n1 exit\n0 start 1\n1 select 0 r1 default\n1 cancel 2\n1 recv 1\n2 cancel 1\n2 recv 0\n"
    "1 exit\n0 start 1\n1 exit\n0 exit\n2 exit\n";

static void call_with_clock(chanhub *hub) {
    is("made", chanhub_make(hub, 0, 0).port, 1);
    is_fault("the clock", chanhub_start(hub, 0, 2), CHANHUB_NO_PROCESS);
    is_done("exits", chanhub_exit(hub, 1));
    is_done("starts", chanhub_start(hub, 0, 1));
    is("timed out", chanhub_recv_until(hub, 1, 1, chanhub_in(10000000)).what, CHANHUB_TIMED_OUT);
    is_done("exits", chanhub_exit(hub, 1));
    is_done("starts", chanhub_start(hub, 0, 1));
    is_done("exits", chanhub_exit(hub, 1));
    is_done("exits", chanhub_exit(hub, 0));
}

/* Who comes back has deadlines again, and the clock exits once all others have, not before. The same when it is followed. */
static void clocks(void) {
    chanhub *hub;
    chanhub_options options = { .edition = 3, .procs = 2, .clock = true };
    is("opened", chanhub_open_with(&hub, &options), 0);
    call_with_clock(hub);
    has_journal("with a clock", hub, WITH_CLOCK);
    chanhub_free(hub);
    hub = follows(WITH_CLOCK, false);
    call_with_clock(hub);
    has_not_diverged(hub);
    has_journal("followed", hub, WITH_CLOCK);
    chanhub_free(hub);
}

static void divergences(void) {
    chanhub *hub = follows("chanhub journal 3\nprocs 2\n0 make 1\n1 exit\n0 start 1\n0 close 1\n0 reopen 1 2\n", true);
    is("made", chanhub_make(hub, 0, 1).port, 1);
    is_done("exits", chanhub_exit(hub, 1));
    is_fault("gone, and no divergence", chanhub_exit(hub, 1), CHANHUB_GONE);
    is_done("starts", chanhub_start(hub, 0, 1));
    is_done("closes", chanhub_close(hub, 0, 1));
    is_diverged("another capacity", chanhub_reopen(hub, 0, 1, 3), 5);
    diverged_so(hub, "P0 asked reopen 1 3, step 5 is 0 reopen 1 2");
    chanhub_free(hub);
}

/* A checkpoint makes no exit of a process that came back, and a port once, as it is now. */
static void chapters(void) {
    chanhub *hub;
    is("opened", chanhub_open_endless(&hub, 3, 2, 6, NULL, NULL), 0);
    is("made", chanhub_make(hub, 0, 1).port, 1);
    is_done("exits", chanhub_exit(hub, 1));
    is_done("closes", chanhub_close(hub, 0, 1));
    is_done("starts", chanhub_start(hub, 0, 1));
    is_done("reopens", chanhub_reopen(hub, 0, 1, 2));
    is("sent", chanhub_send(hub, 0, 1, chanhub_number(4)).what, CHANHUB_SENT);
    is("cut", chanhub_cut(hub), true);
    has_journal("all is there", hub, "chanhub journal 3\nprocs 2\n0 make 2\n0 send 1 4\n");
    is("got", (long long)chanhub_recv(hub, 1, 1).value.number, 4);
    has_counts("counts go on", hub, false, 2, 1, 1);
    is_done("exits", chanhub_exit(hub, 1));
    is_done("closes", chanhub_close(hub, 0, 1));
    is("cut", chanhub_cut(hub), true);
    has_journal("none is there", hub, "chanhub journal 3\nprocs 2\n0 make 2\n0 close 1\n1 exit\n");
    chanhub_free(hub);
}

static int call_alone(void) {
    processes();
    ports();
    other_editions();
    limit();
    stalls();
    clocks();
    divergences();
    chapters();
    return tally("lives");
}

/* ---- Random runs, and the same again. ---- */

enum { PROCS = 5, TURNS = 30, CALLS = 6, RANDOM_PORTS = 3, MOST_TOLD = 2 * TURNS * (CALLS + 1) };

/* What the lives of one process were told, one after the other. */
struct told_all {
    chanhub_told told[MOST_TOLD];
    unsigned count;
};

/* One life of a process. */
struct life {
    chanhub *hub;
    unsigned pid;
    uint32_t seed;
    struct told_all *all;
    pthread_t thread;
    bool runs;
};

static void keep(struct life *life, chanhub_told t) {
    life->all->told[life->all->count++] = t;
}

static chanhub_told call_at_random(struct life *life) {
    unsigned port = 1 + draw(&life->seed, RANDOM_PORTS), dice = draw(&life->seed, 10);
    uint64_t soon = chanhub_in(draw(&life->seed, 200000));
    if (dice < 3) return chanhub_send_until(life->hub, life->pid, port, chanhub_number(life->seed), soon);
    if (dice < 6) return chanhub_recv_until(life->hub, life->pid, port, soon);
    if (dice < 7) return chanhub_try_send(life->hub, life->pid, port, chanhub_number(life->seed));
    if (dice < 8) return chanhub_close(life->hub, life->pid, port);
    return chanhub_reopen(life->hub, life->pid, port, draw(&life->seed, 3));
}

static void *live(void *at) {
    struct life *life = at;
    for (unsigned i = draw(&life->seed, CALLS); i; i--) keep(life, call_at_random(life));
    keep(life, chanhub_exit(life->hub, life->pid));
    return NULL;
}

static void begin_life(struct life *life) {
    life->runs = pthread_create(&life->thread, NULL, live, life) == 0;
    if (!life->runs) exit(2);
}

static void end_life(struct life *life) {
    if (life->runs) pthread_join(life->thread, NULL);
    life->runs = false;
}

/* Process 0 starts the others again and again, each once its thread has ended. */
static void run(chanhub *hub, uint32_t seed, struct told_all *all) {
    struct life lives[PROCS];
    for (unsigned pid = 0; pid < PROCS; pid++) {
        lives[pid] = (struct life){ .hub = hub, .pid = pid, .seed = seed * PROCS + pid, .all = &all[pid] };
        all[pid].count = 0;
    }
    for (unsigned port = 0; port < RANDOM_PORTS; port++) keep(&lives[0], chanhub_make(hub, 0, port));
    for (unsigned pid = 1; pid < PROCS; pid++) begin_life(&lives[pid]);
    for (unsigned i = 0; i < TURNS; i++) {
        struct life *life = &lives[1 + draw(&lives[0].seed, PROCS - 1)];
        end_life(life);
        keep(&lives[0], chanhub_start(hub, 0, life->pid));
        begin_life(life);
        keep(&lives[0], call_at_random(&lives[0]));
    }
    for (unsigned pid = 1; pid < PROCS; pid++) end_life(&lives[pid]);
    keep(&lives[0], chanhub_exit(hub, 0));
}

static void is_told_again(const struct told_all *first, const struct told_all *again) {
    for (unsigned pid = 0; pid < PROCS; pid++) {
        is("as many answers", again[pid].count, first[pid].count);
        for (unsigned i = 0; i < first[pid].count; i++) is("the same answer", same_told(first[pid].told[i], again[pid].told[i]), true);
    }
}

/* Makes a run in a hub that is opened so. Returns its journal, a string. */
static char *journal_of_run(chanhub_options options, uint32_t seed, struct told_all *all) {
    chanhub *hub;
    size_t length;
    is("opened", chanhub_open_with(&hub, &options), 0);
    run(hub, seed, all);
    has_not_diverged(hub);
    char *text = chanhub_journal(hub, &length), *journal = strndup(text, length);
    chanhub_free_text(text);
    chanhub_free(hub);
    return journal;
}

static int follow_runs(uint32_t count) {
    static struct told_all first[PROCS], again[PROCS];
    for (uint32_t seed = 1; seed <= count; seed++) {
        char *journal = journal_of_run((chanhub_options){ .edition = 3, .procs = PROCS, .clock = true }, seed, first);
        char *followed = journal_of_run((chanhub_options){ .journal = journal, .journal_length = strlen(journal) }, seed, again);
        is("the same journal", strcmp(followed, journal), 0);
        is_told_again(first, again);
        free(journal);
        free(followed);
    }
    return tally("lives");
}

/* ---- By a thread for each request. ---- */

static chanhub *hub;
static atomic_uint running; /* threads */

/* A process, for one request. */
struct worker {
    unsigned pid, port;
    uint64_t number;
};

static void *answer(void *at) {
    struct worker w = *(struct worker *)at;
    free(at);
    is("answered", chanhub_send(hub, w.pid, w.port, chanhub_number(w.number)).what, CHANHUB_SENT);
    is_done("closes", chanhub_close(hub, w.pid, w.port));
    is_done("exits", chanhub_exit(hub, w.pid));
    running--;
    return NULL;
}

/* Starts a process as soon as it has exited. The thread that was that process may not have come back from its exit yet. */
static void start(unsigned pid) {
    chanhub_told t;
    while ((t = chanhub_start(hub, CLIENT, pid)).fault == CHANHUB_NOT_GONE) sched_yield();
    is_done("starts", t);
}

static void begin(const pthread_attr_t *small, uint64_t number) {
    struct worker *w = malloc(sizeof *w);
    pthread_t thread;
    *w = (struct worker){ .pid = 1 + number % WORKERS, .port = 1 + number % PORTS, .number = number };
    is_done("reopens", chanhub_reopen(hub, CLIENT, w->port, number % 2));
    start(w->pid);
    running++;
    while (pthread_create(&thread, small, answer, w)) sched_yield();
}

static void end(uint64_t number) {
    unsigned port = 1 + number % PORTS;
    chanhub_told t = chanhub_recv(hub, CLIENT, port);
    is("got", t.what, CHANHUB_GOT), is("the answer", (long long)t.value.number, (long long)number);
    is("drained", chanhub_recv(hub, CLIENT, port).what, CHANHUB_DRAINED);
}

/* How many KB of the process are in memory. */
static long resident(void) {
    long pages = 0;
    FILE *file = fopen("/proc/self/statm", "r");
    if (!file || fscanf(file, "%*d %ld", &pages) != 1) exit(2);
    fclose(file);
    return pages * (sysconf(_SC_PAGESIZE) / 1024);
}

static void open_ports(void) {
    for (unsigned port = 1; port <= PORTS; port++) {
        is("made", chanhub_make(hub, CLIENT, 0).port, port);
        is_done("closes", chanhub_close(hub, CLIENT, port));
    }
    for (unsigned pid = 1; pid <= WORKERS; pid++) is_done("exits", chanhub_exit(hub, pid));
}

static int serve(uint64_t count, const char *folder) {
    char name[MOST_PATH];
    snprintf(name, sizeof name, "%s/chapter", folder);
    chanhub_files files = { .name = name };
    pthread_attr_t small;
    mallopt(M_ARENA_MAX, 1); /* else many arenas each come to keep the room of a chapter's text */
    pthread_attr_init(&small);
    pthread_attr_setstacksize(&small, STACK);
    pthread_attr_setdetachstate(&small, PTHREAD_CREATE_DETACHED);
    if (chanhub_open_endless(&hub, 3, 1 + WORKERS, KEEP, chanhub_write_chapter, &files)) return 2;
    open_ports();
    long half = 0;
    for (uint64_t number = 0; number < count; number++) {
        if (number == count / 2) half = resident();
        if (number >= PORTS) end(number - PORTS);
        begin(&small, number);
    }
    long all = resident();
    for (uint64_t number = count < PORTS ? 0 : count - PORTS; number < count; number++) end(number);
    while (running) sched_yield();
    is_done("exits", chanhub_exit(hub, CLIENT));
    chanhub_free(hub);
    pthread_attr_destroy(&small);
    is("written", files.error, 0);
    printf("%" PRIu64 " lives, %" PRIu64 " chapters, %ld KB resident after half, %ld KB after all\n", count, files.next, half, all);
    if (count >= MANY) is("memory is flat", all <= half + GROWTH, true);
    return tally("lives");
}

int main(int argc, char **argv) {
    alarm(SECONDS);
    if (argc == 2 && strcmp(argv[1], "alone") == 0) return call_alone();
    if (argc == 3 && strcmp(argv[1], "followed") == 0) return follow_runs((uint32_t)atol(argv[2]));
    if (argc == 4 && strcmp(argv[1], "many") == 0) return serve(strtoull(argv[2], NULL, 10), argv[3]);
    return 2;
}
