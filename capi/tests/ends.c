/* Ports that close when the last of their ends is dropped, in hubs that follow a journal. A test that hangs is ended by an alarm.
 *
 *     ends alone             by hand: who makes the close, and when
 *     ends threads [RUNS]    random runs, each followed while other threads drop last
 */
#include "runs.h"

#include <pthread.h>
#include <stdlib.h>

enum { SECONDS = 300, RUNS = 200 };

static const uint64_t MILLISECOND = 1000000;

static chanhub *hub;

/* Opens a hub that follows this journal, in which port 1, once it is made, closes with its ends. */
static void open_with_ends(const char *journal, bool goes_on) {
    hub = follows(journal, goes_on);
    chanhub_closes_with_ends(hub, 1);
}

/* The same of a hub in which a call whose turn has not come is told so. */
static void open_asking(const char *journal) {
    chanhub_options options = { .journal = journal, .journal_length = strlen(journal), .asks_again = true };
    is("opened", chanhub_open_with(&hub, &options), 0);
    chanhub_closes_with_ends(hub, 1);
}

static bool is_closed(unsigned port) {
    return chanhub_look(hub, port).closed;
}

static void begin_recv(unsigned pid, unsigned port) {
    chanhub_case one = { .port = (uint16_t)port };
    is("waiting", chanhub_begin(hub, pid, &one, 1, false, 0).what, CHANHUB_WAITING);
}

static void make(unsigned pid, unsigned port) {
    is("made", chanhub_make(hub, pid, 0).port, port);
}

/* Returns once a thread waits in a call of this process. */
static void await_call(unsigned pid) {
    while (chanhub_resume(hub, pid, 0).fault != CHANHUB_BUSY) usleep(100);
}

/* ---- By hand. ---- */

#define HEAD "chanhub journal 2\nprocs 2\n"

/* The process that has the close makes no call: the close is made where the ends go if it is next, or with the step before. */
static void as_an_idle_process(void) {
    open_with_ends(HEAD "0 make 0\n1 close 1\n0 make 0\n", false);
    make(0, 1);
    is("it is made", chanhub_ends_gone(hub, 1), 1);
    is("here", is_closed(1), 1);
    make(0, 2);
    is("all is made", chanhub_ends_gone(hub, 1), 0);
    chanhub_free(hub);

    open_with_ends(HEAD "0 make 0\n0 make 0\n0 recv 1\n1 close 1\n1 exit\n", false);
    make(0, 1);
    is("it will be made", chanhub_ends_gone(hub, 1), 1);
    is("not yet", is_closed(1), 0);
    make(0, 2);
    is("drained, since it was", chanhub_recv(hub, 0, 1).what, CHANHUB_DRAINED);
    is("it goes on", chanhub_exit(hub, 1).what, CHANHUB_DONE);
    has_journal("the same", hub, HEAD "0 make 0\n0 make 0\n0 recv 1\n1 close 1\n1 exit\n");
    chanhub_free(hub);
}

/* The step before is the clock's. */
static void behind_the_clock(void) {
    open_with_ends("chanhub journal 2\nprocs 3\n2 recv 0\n0 make 0\n0 select 0 r1 default\n0 cancel 2\n0 recv 1\n2 cancel 0\n"
                   "2 recv 0\n1 close 1\n0 recv 1\n", false);
    make(0, 1);
    is("it will be made", chanhub_ends_gone(hub, 1), 1);
    is("timed out", chanhub_recv_until(hub, 0, 1, FAR_OFF).what, CHANHUB_TIMED_OUT);
    is("closed", is_closed(1), 1);
    is("drained", chanhub_recv(hub, 0, 1).what, CHANHUB_DRAINED);
    chanhub_free(hub);
}

/* The step before is a try, or wakes the clock: another follows in the same call. */
static void within_a_call(const char *journal) {
    open_with_ends(journal, false);
    make(0, 1), make(0, 2);
    is("it will be made", chanhub_ends_gone(hub, 1), 1);
    is("timed out", chanhub_recv_until(hub, 0, 2, FAR_OFF).what, CHANHUB_TIMED_OUT);
    is("closed", is_closed(1), 1);
    has_journal("the same", hub, journal);
    chanhub_free(hub);
}

#define TIMED "chanhub journal 2\nprocs 3\n2 recv 0\n0 make 0\n0 make 0\n0 select 0 r2 default\n"

/* The process waits in a call, and its answer is not picked up when the close is next: it loses no answer. */
static void behind_an_answer(void) {
    open_with_ends(HEAD "0 make 0\n0 make 0\n1 recv 2\n0 send 2 9\n1 close 1\n0 recv 1\n", false);
    make(0, 1), make(0, 2);
    begin_recv(1, 2);
    is("it will be made", chanhub_ends_gone(hub, 1), 1);
    is("sent", chanhub_send(hub, 0, 2, chanhub_number(9)).what, CHANHUB_SENT);
    is("not yet", is_closed(1), 0);
    is("got", (long long)chanhub_resume(hub, 1, 0).value.number, 9);
    is("closed", is_closed(1), 1);
    is("drained", chanhub_recv(hub, 0, 1).what, CHANHUB_DRAINED);
    chanhub_free(hub);
}

/* A process whose next step is such a close waits with its other calls, its exit among them. It may close the port itself. */
static void *exits(void *unused) {
    is("exit", chanhub_exit(hub, 1).what, CHANHUB_DONE);
    return unused;
}

static void others_wait(void) {
    pthread_t thread;
    open_with_ends(HEAD "0 make 0\n1 close 1\n1 exit\n0 exit\n", false);
    pthread_create(&thread, NULL, exits, NULL);
    await_call(1);
    is_fault("it is in a call", chanhub_make(hub, 1, 0), CHANHUB_BUSY);
    make(0, 1);
    is("made here", chanhub_ends_gone(hub, 1) && is_closed(1), 1);
    pthread_join(thread, NULL);
    is("its turn", chanhub_turn(hub, 0, CHANHUB_NEVER), 1);
    chanhub_free(hub);

    open_with_ends(HEAD "0 make 0\n1 close 1\n0 recv 1\n", false);
    make(0, 1);
    is("closed", chanhub_close(hub, 1, 1).what, CHANHUB_DONE);
    is("nothing is left to do", chanhub_ends_gone(hub, 1), 1);
    is("drained", chanhub_recv(hub, 0, 1).what, CHANHUB_DRAINED);
    chanhub_free(hub);

    open_asking(HEAD "0 make 0\n1 close 1\n1 exit\n");
    make(0, 1);
    is_fault("behind the close", chanhub_exit(hub, 1), CHANHUB_NOT_YET);
    is("not its turn", chanhub_turn(hub, 1, MILLISECOND), 0);
    is("made here", chanhub_ends_gone(hub, 1) && chanhub_turn(hub, 1, 0), 1);
    is("exit", chanhub_exit(hub, 1).what, CHANHUB_DONE);
    chanhub_free(hub);
}

/* A process that closes the port itself asks for the turn of that, also where this comes before it asks; with another call it would
 * have to wait. */
static void asks_for_its_close(void) {
    open_asking(HEAD "0 make 0\n0 make 0\n1 close 1\n1 exit\n");
    make(0, 1);
    is_fault("not yet", chanhub_close(hub, 1, 1), CHANHUB_NOT_YET);
    make(0, 2);
    is("its turn", chanhub_turn(hub, 1, MILLISECOND), 1);
    is_fault("behind the close", chanhub_exit(hub, 1), CHANHUB_NOT_YET);
    is("not its turn", chanhub_turn(hub, 1, MILLISECOND), 0);
    is("closed", chanhub_close(hub, 1, 1).what, CHANHUB_DONE);
    is("exit", chanhub_exit(hub, 1).what, CHANHUB_DONE);
    chanhub_free(hub);
}

/* The hub is stopped, or diverges, before the close is made. */
static void it_ends(void) {
    pthread_t thread;
    open_with_ends(HEAD "0 make 0\n0 make 0\n1 close 1\n1 exit\n", false);
    make(0, 1);
    is("it will be made", chanhub_ends_gone(hub, 1), 1);
    chanhub_stop(hub);
    is("it will not", chanhub_ends_gone(hub, 1), 0);
    is_diverged("stopped", chanhub_exit(hub, 1), 2);
    is("open", is_closed(1), 0);
    chanhub_free(hub);

    /* Then it is made freely, as a process that is in no call, and ends a call. */
    open_with_ends(HEAD "0 make 0\n0 recv 1\n1 make 0\n1 close 1\n", true);
    make(0, 1);
    begin_recv(0, 1);
    is("it will be made", chanhub_ends_gone(hub, 1), 1);
    is_diverged("another capacity", chanhub_make(hub, 1, 7), 3);
    is("drained", chanhub_resume(hub, 0, 0).what, CHANHUB_DRAINED);
    is("the caller's, from now on", chanhub_ends_gone(hub, 1), 0);
    has_journal("it went on", hub, HEAD "0 make 0\n0 recv 1\n1 close 1\n");
    chanhub_free(hub);

    /* Nobody is in no call when the journal ends, without the close: the first whose call has ended makes it. */
    open_with_ends(HEAD "0 make 0\n1 recv 1\n0 recv 0\n", true);
    make(0, 1);
    begin_recv(1, 1);
    is("it will be made", chanhub_ends_gone(hub, 1), 1);
    is("stalled", chanhub_recv(hub, 0, 0).what, CHANHUB_STALLED);
    is("closed", is_closed(1), 1);
    chanhub_free(hub);

    /* A call that waits for the close goes on. */
    open_with_ends(HEAD "0 make 0\n0 make 0\n1 close 1\n1 exit\n", true);
    pthread_create(&thread, NULL, exits, NULL);
    await_call(1);
    is_diverged("another capacity", chanhub_make(hub, 0, 7), 1);
    pthread_join(thread, NULL);
    chanhub_free(hub);
}

/* Nobody is in no call when the journal ends, and one of them waits for its turn: it makes the close before its own step. */
static void *is_drained(void *tries) {
    is("drained", (tries ? chanhub_try_recv : chanhub_recv)(hub, 0, 1).what, CHANHUB_DRAINED);
    is("exit", chanhub_exit(hub, 0).what, CHANHUB_DONE);
    return NULL;
}

static void behind_the_journal(bool tries) {
    pthread_t thread;
    open_with_ends(HEAD "0 make 0\n1 recv 0\n", true);
    make(0, 1);
    is("it will be made", chanhub_ends_gone(hub, 1), 1);
    pthread_create(&thread, NULL, is_drained, tries ? &tries : NULL);
    await_call(0);
    begin_recv(1, 0);
    pthread_join(thread, NULL);
    is("stalled", chanhub_resume(hub, 1, 0).what, CHANHUB_STALLED);
    has_journal("closed first", hub, tries ? HEAD "0 make 0\n1 recv 0\n0 close 1\n0 select 0 r1 default\n0 exit\n"
                                           : HEAD "0 make 0\n1 recv 0\n0 close 1\n0 recv 1\n0 exit\n");
    chanhub_free(hub);
}

/* Hubs and ports of which it was not said, and no hub. */
static void others(void) {
    hub = follows(HEAD "0 make 0\n1 close 1\n", false);
    make(0, 1);
    is("it was not said", chanhub_ends_gone(hub, 1), 0);
    is_diverged("no such close", chanhub_exit(hub, 1), 2);
    chanhub_free(hub);
    is("opened", chanhub_open(&hub, 2, 2, 10), 0);
    make(0, 1);
    chanhub_closes_with_ends(hub, 1);
    is("it follows nothing", chanhub_ends_gone(hub, 1), 0);
    chanhub_free(hub);
    chanhub_closes_with_ends(NULL, 1);
    is("no hub", chanhub_ends_gone(NULL, 1), 0);
}

/* Ports of which the program is still to say it: a process waits for them too, until their maker calls again. */
static void *says_late(void *unused) {
    make(0, 1);
    usleep(20000);
    chanhub_closes_with_ends(hub, 1);
    is("made here", chanhub_ends_gone(hub, 1), 1);
    return unused;
}

static void *diverges(void *unused) {
    is_diverged("nobody closes it", chanhub_exit(hub, 1), 2);
    return unused;
}

static void ports_to_come(void) {
    pthread_t thread;
    hub = follows(HEAD "0 make 0\n1 close 1\n1 exit\n", false);
    chanhub_closes_with_ends(hub, 0);
    pthread_create(&thread, NULL, exits, NULL);
    await_call(1);
    says_late(NULL);
    pthread_join(thread, NULL);
    chanhub_free(hub);

    hub = follows(HEAD "0 make 0\n1 close 1\n0 exit\n1 exit\n", false);
    chanhub_closes_with_ends(hub, 0);
    make(0, 1);
    pthread_create(&thread, NULL, diverges, NULL);
    await_call(1);
    is_diverged("nobody closes it", chanhub_exit(hub, 0), 2);
    pthread_join(thread, NULL);
    chanhub_free(hub);
}

/* ---- Random runs. Two processes send on ports that close once both have dropped their end, two receive until they are drained, and
 * one makes ports that it drops at once. Whoever drops last closes the port as any process that is in no call, if the hub does not. ---- */

enum { SENDERS = 2, RECEIVERS = 2, PROCS = SENDERS + RECEIVERS + 1, PORTS = 3, OWN_PORTS = 5, MOST_TOLD = 40 };

struct process {
    unsigned pid;
    uint32_t seed, noise;
    int count;
    chanhub_told told[MOST_TOLD];
};

static pthread_mutex_t calls[PROCS]; /* of a process: whether it is in a call */
static atomic_uint ends[PORTS + 1];
static atomic_uint last[PORTS + 1]; /* who dropped the last */

#define TELL(p, call) \
    (pthread_mutex_lock(&calls[(p)->pid]), (p)->told[(p)->count] = call, pthread_mutex_unlock(&calls[(p)->pid]), (p)->told[(p)->count++])

static void close_as_any(struct process *p, unsigned port) {
    for (unsigned pid = draw(&p->noise, PROCS);; pid = (pid + 1) % PROCS) {
        if (pthread_mutex_trylock(&calls[pid])) continue;
        chanhub_told t = chanhub_close(hub, pid, port);
        pthread_mutex_unlock(&calls[pid]);
        if (t.what == CHANHUB_DONE) return;
    }
}

static void drop(struct process *p, unsigned port) {
    usleep(draw(&p->noise, 200));
    if (port <= PORTS && --ends[port]) return;
    if (port <= PORTS) last[port] = p->pid;
    if (!chanhub_ends_gone(hub, port)) close_as_any(p, port);
}

static void make_and_drop(struct process *p) {
    unsigned port = TELL(p, chanhub_make(hub, p->pid, 0)).port;
    chanhub_closes_with_ends(hub, port);
    if (draw(&p->seed, 2)) TELL(p, chanhub_try_recv(hub, p->pid, port));
    drop(p, port);
}

static void *run_process(void *argument) {
    struct process *p = argument;
    for (unsigned port = 1; port <= PORTS; port++) {
        if (p->pid < SENDERS) {
            for (uint32_t i = draw(&p->seed, 4); i; i--) TELL(p, chanhub_send(hub, p->pid, port, chanhub_number(10 * p->pid + i)));
            drop(p, port);
        } else if (p->pid < SENDERS + RECEIVERS) {
            while (TELL(p, chanhub_recv(hub, p->pid, port)).what == CHANHUB_GOT) continue;
        }
    }
    for (int i = 0; i < OWN_PORTS && p->pid == PROCS - 1; i++) make_and_drop(p);
    TELL(p, chanhub_exit(hub, p->pid));
    return NULL;
}

static void run_all(struct process processes[PROCS], uint32_t seed, uint32_t noise) {
    pthread_t threads[PROCS];
    chanhub_closes_with_ends(hub, 0);
    for (unsigned port = 1; port <= PORTS; port++) {
        chanhub_make(hub, 0, port % 2);
        chanhub_closes_with_ends(hub, port);
        ends[port] = SENDERS;
    }
    for (unsigned pid = 0; pid < PROCS; pid++) {
        processes[pid] = (struct process){ .pid = pid, .seed = seed * 100 + pid, .noise = noise * 100 + pid };
        if (pthread_create(&threads[pid], NULL, run_process, &processes[pid])) exit(2);
    }
    for (unsigned pid = 0; pid < PROCS; pid++) pthread_join(threads[pid], NULL);
}

/* Returns how many ports were dropped last by another process than when the run was recorded. */
static int random_run(uint32_t seed) {
    static struct process recorded[PROCS], followed[PROCS];
    unsigned was_last[PORTS + 1];
    int others = 0;
    size_t length;
    chanhub_options options = { .procs = PROCS };
    is("opened", chanhub_open_with(&hub, &options), 0);
    run_all(recorded, seed, 2 * seed);
    for (int port = 1; port <= PORTS; port++) was_last[port] = last[port];
    options.journal = chanhub_journal(hub, &options.journal_length);
    chanhub_free(hub);

    is("follows", chanhub_open_with(&hub, &options), 0);
    run_all(followed, seed, 2 * seed + 1);
    for (int port = 1; port <= PORTS; port++) others += last[port] != was_last[port];
    char *text = chanhub_journal(hub, &length);
    is("the same journal", length == options.journal_length && memcmp(text, options.journal, length) == 0, 1);
    for (unsigned pid = 0; pid < PROCS; pid++) {
        bool is_same = recorded[pid].count == followed[pid].count;
        for (int i = 0; i < recorded[pid].count && is_same; i++) is_same = same_told(recorded[pid].told[i], followed[pid].told[i]);
        is("the same answers", is_same, 1);
    }
    chanhub_free_text(text);
    chanhub_free_text((char *)options.journal);
    chanhub_free(hub);
    return others;
}

static void random_runs(uint32_t runs) {
    int others = 0;
    for (unsigned pid = 0; pid < PROCS; pid++) pthread_mutex_init(&calls[pid], NULL);
    for (uint32_t seed = 0; seed < runs; seed++) others += random_run(seed);
    printf("%d ports were dropped last by another process\n", others);
    is("some were", others > 0, 1);
}

int main(int count, char **words) {
    alarm(SECONDS);
    if (count > 1 && strcmp(words[1], "alone") == 0) {
        as_an_idle_process();
        behind_the_clock();
        within_a_call(TIMED "1 close 1\n0 cancel 2\n0 recv 2\n2 cancel 0\n2 recv 0\n");
        within_a_call(TIMED "0 cancel 2\n1 close 1\n0 recv 2\n2 cancel 0\n2 recv 0\n");
        behind_an_answer();
        others_wait();
        asks_for_its_close();
        it_ends();
        for (int tries = 0; tries < 2; tries++) behind_the_journal(tries);
        others();
        ports_to_come();
    } else {
        random_runs(count > 2 ? (uint32_t)atoi(words[2]) : RUNS);
    }
    return tally("ends");
}
