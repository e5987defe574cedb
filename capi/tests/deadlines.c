/* Calls with deadlines, on hubs that have a clock:
 *
 *     deadlines alone              by one thread: each step that the journal has, each answer, and what is refused
 *     deadlines threads            by several: a deadline that passes, or is made to; stalls before and after; that none is late
 *     deadlines load FOLDER        100,000 calls among 16 threads: FOLDER/journal, and FOLDER/told, for deadlines.py
 *     deadlines chapters FOLDER    10,000 on a hub that hands out its chapters: FOLDER/journal.0, .1, .., and FOLDER/told
 *
 * A test that hangs is ended by an alarm.
 */
#include "tally.h"

#include <inttypes.h>
#include <pthread.h>
#include <stdlib.h>
#include <time.h>

enum { SECONDS = 300, LIMIT = 100 };

static const uint64_t MILLISECOND = 1000000;
/* A deadline that passes only where it is made to. */
static const uint64_t FAR_OFF = CHANHUB_NEVER - 1;

static chanhub *hub;

static void open_hub(unsigned procs, uint32_t limit) {
    chanhub_options options = { .procs = procs, .limit = limit, .clock = true };
    if (chanhub_open_with(&hub, &options)) exit(2);
}

static chanhub_case receives(unsigned port) {
    return (chanhub_case){ .port = (uint16_t)port };
}

static chanhub_told begin_recv(unsigned pid, unsigned port) {
    chanhub_case one = receives(port);
    return chanhub_begin(hub, pid, &one, 1, false, 0);
}

static chanhub_told begin_recv_until(unsigned pid, unsigned port, uint64_t deadline) {
    chanhub_case one = receives(port);
    return chanhub_begin_until(hub, pid, &one, 1, false, 0, deadline);
}

/* ---- By one thread. ---- */

static int opening(chanhub_options options) {
    chanhub *opened;
    int cause = chanhub_open_with(&opened, &options);
    is("a hub, or a cause", (opened != NULL) == (cause == 0), 1);
    chanhub_free(opened);
    return cause;
}

static void ignore(void *pointer, const char *text, size_t length) {
    (void)pointer, (void)text, (void)length;
}

static void openings(void) {
    is("no processes", opening((chanhub_options){ 0 }), 1);
    is("no processes", opening((chanhub_options){ .clock = true }), 1);
    is("most processes", opening((chanhub_options){ .procs = 64 }), 0);
    is("too many", opening((chanhub_options){ .procs = 65 }), 1);
    is("most with a clock", opening((chanhub_options){ .procs = 63, .clock = true }), 0);
    is("too many with a clock", opening((chanhub_options){ .procs = 64, .clock = true }), 1);
    is("too many with a clock", opening((chanhub_options){ .procs = UINT32_MAX, .clock = true }), 1);
    is("edition 1", opening((chanhub_options){ .edition = 1, .procs = 1 }), 0);
    is("edition 1 with a clock", opening((chanhub_options){ .edition = 1, .procs = 1, .clock = true }), 4);
    is("edition 4", opening((chanhub_options){ .edition = 4, .procs = 1, .clock = true }), 4);
    is("the limit", opening((chanhub_options){ .procs = 1, .limit = 1000001 }), 2);
    is("keep", opening((chanhub_options){ .procs = 1, .keep = 900001, .clock = true }), 2);
    is("keep", opening((chanhub_options){ .procs = 1, .keep = 900000, .chapters = ignore, .clock = true }), 0);
    is("both", opening((chanhub_options){ .procs = 1, .keep = 5, .limit = 5 }), 2);
    is("chapters without keep", opening((chanhub_options){ .procs = 1, .chapters = ignore }), 2);
    chanhub_options usual = { .procs = 1 };
    is("opened", chanhub_open_with(&hub, &usual), 0);
    is("the usual limit", (long long)chanhub_steps_left(hub), 1000000);
    is("the usual edition", chanhub_cancel(hub, 0, 0).fault, CHANHUB_NOT_PARKED);
    has_journal("journal", hub, "chanhub journal 2\nprocs 1\n0 cancel 0\n");
    chanhub_free(hub);
}

/* The head lines of a hub of two processes and a clock, and the first step. */
#define BEGINNING "chanhub journal 2\nprocs 3\n2 recv 0\n"

/* A deadline that passes, between calls without one: a deadlock is told before and after. */
static void a_deadline_passes(void) {
    open_hub(2, LIMIT);
    has_journal("at the opening", hub, BEGINNING);
    is("made", chanhub_make(hub, 0, 0).port, 1);
    is("waiting", begin_recv(1, 1).what, CHANHUB_WAITING);
    is("waiting", begin_recv_until(0, 1, FAR_OFF).what, CHANHUB_WAITING);
    has_journal("while it waits", hub, BEGINNING "0 make 0\n1 recv 1\n0 select 0 r1 default\n0 cancel 2\n0 recv 1\n");
    is("waiting", chanhub_resume(hub, 0, 0).what, CHANHUB_WAITING);
    is("waiting", chanhub_resume(hub, 0, MILLISECOND).what, CHANHUB_WAITING);
    is_fault("busy", chanhub_recv(hub, 0, 1), CHANHUB_BUSY);
    is_fault("busy", chanhub_exit(hub, 0), CHANHUB_BUSY);
    is("none that has one", chanhub_expire(hub, 1), 0);
    is("it passes", chanhub_expire(hub, 0), 1);
    is_fault("busy until it is picked up", chanhub_recv(hub, 0, 1), CHANHUB_BUSY);
    is("timed out", chanhub_resume(hub, 0, 0).what, CHANHUB_TIMED_OUT);
    is("none any more", chanhub_expire(hub, 0), 0);
    is_fault("nothing is open", chanhub_resume(hub, 0, 0), CHANHUB_NOT_PARKED);
    is("stalled", chanhub_recv(hub, 0, 1).what, CHANHUB_STALLED);
    is("stalled", chanhub_resume(hub, 1, 0).what, CHANHUB_STALLED);
    is("exit", chanhub_exit(hub, 1).what, CHANHUB_DONE);
    is("stalled alone", chanhub_recv(hub, 0, 1).what, CHANHUB_STALLED);
    is("exit", chanhub_exit(hub, 0).what, CHANHUB_DONE);
    is_fault("gone", chanhub_recv_until(hub, 0, 1, FAR_OFF), CHANHUB_GONE);
    has_journal("in the end", hub,
        BEGINNING "0 make 0\n1 recv 1\n0 select 0 r1 default\n0 cancel 2\n0 recv 1\n2 cancel 0\n2 recv 0\n0 recv 1\n2 recv 0\n1 exit\n"
        "0 recv 1\n2 recv 0\n0 exit\n2 exit\n");
    chanhub_free(hub);
}

/* Calls that end before their deadlines: by a value, a close, another's cancel, or at once. */
static void others_are_first(void) {
    open_hub(2, LIMIT);
    is("made", chanhub_make(hub, 0, 0).port, 1);
    is("waiting", begin_recv_until(0, 1, FAR_OFF).what, CHANHUB_WAITING);
    is("sent at once", chanhub_send_until(hub, 1, 1, chanhub_number(7), FAR_OFF).what, CHANHUB_SENT);
    is("answered already", chanhub_expire(hub, 0), 0);
    chanhub_told t = chanhub_resume(hub, 0, CHANHUB_NEVER);
    is("got", t.what, CHANHUB_GOT), is("got", (long long)t.value.number, 7);
    chanhub_case cases[2] = { receives(0), { .sends = true, .port = 1, .value = chanhub_bytes("ab", 2) } };
    is("waiting", chanhub_begin_until(hub, 0, cases, 2, false, 3, FAR_OFF).what, CHANHUB_WAITING);
    is("cancel", chanhub_cancel(hub, 1, 0).what, CHANHUB_DONE);
    is("cancelled", chanhub_resume(hub, 0, 0).what, CHANHUB_CANCELLED);
    is("waiting", chanhub_begin_until(hub, 0, cases, 2, false, 3, FAR_OFF).what, CHANHUB_WAITING);
    is("got", chanhub_recv_until(hub, 1, 1, 0).value.length, 2);
    t = chanhub_resume(hub, 0, 0);
    is("sent", t.what, CHANHUB_SENT), is("sent by case", t.index, 1);
    is("waiting", begin_recv_until(0, 1, FAR_OFF).what, CHANHUB_WAITING);
    is("waiting too", begin_recv_until(1, 1, FAR_OFF).what, CHANHUB_WAITING);
    is("it passes", chanhub_expire(hub, 0), 1);
    is("timed out", chanhub_resume(hub, 0, CHANHUB_NEVER).what, CHANHUB_TIMED_OUT);
    is("close", chanhub_close(hub, 0, 1).what, CHANHUB_DONE);
    is("drained", chanhub_resume(hub, 1, CHANHUB_NEVER).what, CHANHUB_DRAINED);
    is("drained at once", chanhub_recv_until(hub, 1, 1, 0).what, CHANHUB_DRAINED);
    has_journal("journal", hub,
        BEGINNING "0 make 0\n"
        "0 select 0 r1 default\n0 cancel 2\n0 recv 1\n1 send 1 7\n2 recv 0\n"
        "0 select 3 r0 s1:#6162 default\n0 cancel 2\n0 select 3 r0 s1:#6162\n1 cancel 0\n2 recv 0\n"
        "0 select 3 r0 s1:#6162 default\n0 cancel 2\n0 select 3 r0 s1:#6162\n1 select 0 r1 default\n2 recv 0\n"
        "0 select 0 r1 default\n0 cancel 2\n0 recv 1\n1 recv 1\n2 cancel 0\n0 close 1\n2 recv 0\n"
        "1 select 0 r1 default\n");
    chanhub_free(hub);
}

/* Those that never wait with a deadline: one that has passed, none, or a default. */
static void without_a_wait(void) {
    open_hub(2, LIMIT);
    is("made", chanhub_make(hub, 0, 1).port, 1);
    is("passed", chanhub_recv_until(hub, 0, 1, 0).what, CHANHUB_TIMED_OUT);
    is("passed", chanhub_recv_until(hub, 0, 1, chanhub_in(0)).what, CHANHUB_TIMED_OUT);
    is("room", chanhub_send_until(hub, 0, 1, chanhub_number(5), 0).what, CHANHUB_SENT);
    is("no room", chanhub_send_until(hub, 0, 1, chanhub_number(6), 0).what, CHANHUB_TIMED_OUT);
    chanhub_case cases[2] = { receives(0), receives(0) };
    is("default", chanhub_select_until(hub, 0, cases, 2, true, 0, FAR_OFF).what, CHANHUB_DEFAULT);
    is("default", chanhub_begin_until(hub, 0, cases, 2, true, 0, 0).what, CHANHUB_DEFAULT);
    is("no cases", chanhub_select_until(hub, 0, NULL, 0, false, 0, 0).what, CHANHUB_TIMED_OUT);
    is("waiting", begin_recv_until(1, 0, CHANHUB_NEVER).what, CHANHUB_WAITING);
    is("no deadline", chanhub_expire(hub, 1), 0);
    is("stalled", chanhub_recv_until(hub, 0, 0, CHANHUB_NEVER).what, CHANHUB_STALLED);
    is("stalled", chanhub_resume(hub, 1, 0).what, CHANHUB_STALLED);
    is_fault("no port", chanhub_recv_until(hub, 0, 9, FAR_OFF), CHANHUB_NO_PORT);
    has_journal("journal", hub,
        BEGINNING "0 make 1\n0 select 0 r1 default\n0 select 0 r1 default\n0 select 0 s1:5 default\n0 select 0 s1:6 default\n"
        "0 select 0 r0 r0 default\n0 select 0 r0 r0 default\n0 select 0 default\n1 recv 0\n0 recv 0\n2 recv 0\n0 select 0 r9 default\n");
    chanhub_free(hub);
}

/* What is refused without an entry. The clock is no process of the caller's. */
static void refusals(void) {
    open_hub(2, LIMIT);
    chanhub_case many[17] = { 0 };
    char long_bytes[33] = { 0 };
    is_fault("make", chanhub_make(hub, 2, 0), CHANHUB_NO_PROCESS);
    is_fault("send", chanhub_send(hub, 2, 0, chanhub_number(0)), CHANHUB_NO_PROCESS);
    is_fault("recv", chanhub_recv(hub, 2, 0), CHANHUB_NO_PROCESS);
    is_fault("select", chanhub_select(hub, 2, many, 1, true, 0), CHANHUB_NO_PROCESS);
    is_fault("begin", chanhub_begin(hub, 2, many, 1, true, 0), CHANHUB_NO_PROCESS);
    is_fault("recv until", chanhub_recv_until(hub, 2, 0, FAR_OFF), CHANHUB_NO_PROCESS);
    is_fault("resume", chanhub_resume(hub, 2, 0), CHANHUB_NOT_PARKED);
    is_fault("close", chanhub_close(hub, 2, 1), CHANHUB_NO_PROCESS);
    is_fault("cancel", chanhub_cancel(hub, 2, 0), CHANHUB_NO_PROCESS);
    is_fault("exit", chanhub_exit(hub, 2), CHANHUB_NO_PROCESS);
    is_fault("cancel of the clock", chanhub_cancel(hub, 0, 2), CHANHUB_NO_PROCESS);
    is("no deadline", chanhub_expire(hub, 2), 0);
    is_fault("no process", chanhub_recv_until(hub, 3, 0, FAR_OFF), CHANHUB_NO_PROCESS);
    is_fault("no process", chanhub_recv_until(hub, 256, 0, FAR_OFF), CHANHUB_BAD_CALL);
    is("no process", chanhub_expire(hub, 256), 0);
    is_fault("a port that would be 0 in 16 bits", chanhub_recv_until(hub, 0, 65536, FAR_OFF), CHANHUB_BAD_CALL);
    is_fault("33 bytes", chanhub_send_until(hub, 0, 0, chanhub_bytes(long_bytes, 33), FAR_OFF), CHANHUB_BAD_CALL);
    is_fault("17 cases", chanhub_select_until(hub, 0, many, 17, false, 0, FAR_OFF), CHANHUB_BAD_CALL);
    is_fault("no hub", chanhub_recv_until(NULL, 0, 0, FAR_OFF), CHANHUB_BAD_CALL);
    is("no hub", chanhub_expire(NULL, 0), 0);
    has_journal("journal", hub, BEGINNING);
    chanhub_free(hub);
    is("opened", chanhub_open(&hub, 2, 1, LIMIT), 0);
    is_fault("no clock", chanhub_recv_until(hub, 0, 0, 0), CHANHUB_BAD_CALL);
    is_fault("no clock", chanhub_recv_until(hub, 0, 0, CHANHUB_NEVER), CHANHUB_BAD_CALL);
    is_fault("no clock", begin_recv_until(0, 0, FAR_OFF), CHANHUB_BAD_CALL);
    is_fault("no clock", chanhub_send_until(hub, 0, 0, chanhub_number(0), FAR_OFF), CHANHUB_BAD_CALL);
    has_journal("journal", hub, "chanhub journal 2\nprocs 1\n");
    chanhub_free(hub);
}

static void times(void) {
    is("never", chanhub_in(UINT64_MAX) == CHANHUB_NEVER, 1);
    is("too late for a number", chanhub_in(UINT64_MAX - 1) == CHANHUB_NEVER, 1);
    struct timespec before, after;
    clock_gettime(CLOCK_MONOTONIC, &before);
    uint64_t time = chanhub_in(3000 * MILLISECOND);
    clock_gettime(CLOCK_MONOTONIC, &after);
    is("not sooner", time >= (uint64_t)(before.tv_sec + 3) * 1000000000 + (uint64_t)before.tv_nsec, 1);
    is("not later", time <= (uint64_t)(after.tv_sec + 3) * 1000000000 + (uint64_t)after.tv_nsec, 1);
}

/* A step is kept for each call with a deadline, and others are refused sooner. Process 1 waits without one. */
static void at_the_limit(void) {
    for (uint32_t limit = 4; limit <= 9; limit++) {
        open_hub(2, limit);
        is("made", chanhub_make(hub, 0, 0).port, 1);
        is("waiting", begin_recv(1, 1).what, CHANHUB_WAITING);
        chanhub_told t = begin_recv_until(0, 1, FAR_OFF);
        if (limit < 7) {
            is_fault("no room for its end", t, CHANHUB_JOURNAL_FULL);
            is_fault("nothing is open", chanhub_resume(hub, 0, 0), CHANHUB_NOT_PARKED);
            is("what is left", (long long)chanhub_steps_left(hub), limit - 4);
            chanhub_free(hub);
            continue;
        }
        is("waiting", t.what, CHANHUB_WAITING);
        is("what is left", (long long)chanhub_steps_left(hub), limit - 7);
        is("it passes", chanhub_expire(hub, 0), 1);
        is("timed out", chanhub_resume(hub, 0, 0).what, CHANHUB_TIMED_OUT);
        if (limit == 7) is_fault("full", chanhub_recv_until(hub, 0, 1, FAR_OFF), CHANHUB_JOURNAL_FULL);
        is("exit", chanhub_exit(hub, 0).what, CHANHUB_DONE);
        is("stalled", chanhub_resume(hub, 1, 0).what, CHANHUB_STALLED);
        is("exit", chanhub_exit(hub, 1).what, CHANHUB_DONE);
        chanhub_free(hub);
    }
}

/* The same limit, step by step, with another process that would take the step that is kept. */
static void others_leave_a_step(void) {
    open_hub(2, 9);
    is("made", chanhub_make(hub, 0, 0).port, 1);
    is("waiting", begin_recv_until(0, 1, FAR_OFF).what, CHANHUB_WAITING);
    is("what is left", (long long)chanhub_steps_left(hub), 3);
    is("default", chanhub_try_recv(hub, 1, 1).what, CHANHUB_DEFAULT);
    is("passed", chanhub_recv_until(hub, 1, 1, 0).what, CHANHUB_TIMED_OUT);
    is("what is left", (long long)chanhub_steps_left(hub), 1);
    is_fault("none to wait and none to end it", chanhub_recv_until(hub, 1, 1, FAR_OFF), CHANHUB_JOURNAL_FULL);
    is_fault("it is kept", chanhub_try_recv(hub, 1, 1), CHANHUB_JOURNAL_FULL);
    is_fault("it is kept", chanhub_send(hub, 1, 1, chanhub_number(1)), CHANHUB_JOURNAL_FULL);
    is("exit", chanhub_exit(hub, 1).what, CHANHUB_DONE);
    is("it passes", chanhub_expire(hub, 0), 1);
    is("timed out", chanhub_resume(hub, 0, CHANHUB_NEVER).what, CHANHUB_TIMED_OUT);
    is_fault("full", chanhub_try_recv(hub, 0, 1), CHANHUB_JOURNAL_FULL);
    is("exit", chanhub_exit(hub, 0).what, CHANHUB_DONE);
    has_journal("journal", hub,
        BEGINNING "0 make 0\n0 select 0 r1 default\n0 cancel 2\n0 recv 1\n1 select 0 r1 default\n1 select 0 r1 default\n"
        "1 select 0 r1 default\n1 exit\n2 cancel 0\n2 exit\n0 exit\n");
    chanhub_free(hub);
}

/* A call with a deadline waits across cuts, and so does the clock. */
static void across_cuts(void) {
    chanhub_options options = { .procs = 2, .keep = 3, .clock = true };
    is("opened", chanhub_open_with(&hub, &options), 0);
    is("made", chanhub_make(hub, 0, 0).port, 1);
    is("cut", chanhub_cut(hub), 1);
    has_journal("the clock waits", hub, "chanhub journal 2\nprocs 3\n0 make 0\n2 recv 0\n");
    is("waiting", begin_recv_until(0, 1, FAR_OFF).what, CHANHUB_WAITING);
    is("cut", chanhub_cut(hub), 1);
    has_journal("the call waits", hub, "chanhub journal 2\nprocs 3\n0 make 0\n0 recv 1\n");
    is("it passes", chanhub_expire(hub, 0), 1);
    is("timed out", chanhub_resume(hub, 0, CHANHUB_NEVER).what, CHANHUB_TIMED_OUT);
    has_journal("it waits again", hub, "chanhub journal 2\nprocs 3\n0 make 0\n0 recv 1\n2 cancel 0\n2 recv 0\n");
    is("waiting", begin_recv(1, 1).what, CHANHUB_WAITING);
    is("stalled", chanhub_recv(hub, 0, 1).what, CHANHUB_STALLED);
    is("stalled", chanhub_resume(hub, 1, 0).what, CHANHUB_STALLED);
    is("exit", chanhub_exit(hub, 0).what, CHANHUB_DONE);
    is("exit", chanhub_exit(hub, 1).what, CHANHUB_DONE);
    chanhub_free(hub);
}

/* A clock in a hub that cuts as often as it can and hands out each chapter: a step of the library waits for no room that only its own
 * thread could make. */
static void open_cutting(void) {
    chanhub_options options = { .procs = 2, .keep = 1, .chapters = ignore, .clock = true };
    is("opened", chanhub_open_with(&hub, &options), 0);
}

static void in_short_chapters(void) {
    open_cutting();
    is("made", chanhub_make(hub, 0, 1).port, 1);
    for (uint64_t i = 0; i < 20; i++) {
        is("timed out", chanhub_recv_until(hub, 0, 1, chanhub_in(i % 2 * MILLISECOND)).what, CHANHUB_TIMED_OUT);
        is("sent", chanhub_send(hub, 0, 1, chanhub_number(i)).what, CHANHUB_SENT);
        is("got", chanhub_recv_until(hub, 0, 1, FAR_OFF).what, CHANHUB_GOT);
    }
    chanhub_free(hub);
}

/* A call that is begun with a deadline and resumed for longer ends at its deadline. */
static void resumed_for_longer(void) {
    open_hub(2, LIMIT);
    uint64_t begun = chanhub_in(0);
    is("waiting", begin_recv_until(0, 0, begun + 10 * MILLISECOND).what, CHANHUB_WAITING);
    is("timed out", chanhub_resume(hub, 0, 5000 * MILLISECOND).what, CHANHUB_TIMED_OUT);
    is("before the resume ends", chanhub_in(0) < begun + 4000 * MILLISECOND, 1);
    chanhub_free(hub);
}

static void alone(void) {
    openings();
    a_deadline_passes();
    others_are_first();
    without_a_wait();
    refusals();
    times();
    at_the_limit();
    others_leave_a_step();
    across_cuts();
    in_short_chapters();
    resumed_for_longer();
}

/* ---- By several threads. ---- */

struct caller { pthread_t thread; unsigned pid, port; uint64_t deadline, ended; chanhub_told told; };

static uint64_t now(void) {
    return chanhub_in(0);
}

static void *receive_until(void *at) {
    struct caller *c = at;
    c->told = chanhub_recv_until(hub, c->pid, c->port, c->deadline);
    c->ended = now();
    return NULL;
}

static void start(struct caller *c, unsigned pid, unsigned port, uint64_t deadline) {
    *c = (struct caller){ .pid = pid, .port = port, .deadline = deadline };
    if (pthread_create(&c->thread, NULL, receive_until, c)) exit(2);
}

static chanhub_told ended(struct caller *c) {
    pthread_join(c->thread, NULL);
    return c->told;
}

/* Deadlines that pass at about one time, while nobody else does anything; and that is no deadlock. */
static void they_pass(uint32_t cap) {
    enum { PROCS = 16 };
    struct caller all[PROCS];
    open_hub(PROCS, 1000);
    is("made", chanhub_make(hub, 0, cap).port, 1);
    for (unsigned pid = 0; pid < PROCS; pid++) start(&all[pid], pid, 1, chanhub_in((20 + pid % 4 * 5) * MILLISECOND));
    for (unsigned pid = 0; pid < PROCS; pid++) {
        is("timed out", ended(&all[pid]).what, CHANHUB_TIMED_OUT);
        is("not too soon", all[pid].ended >= all[pid].deadline, 1);
    }
    /* Each call is tried once. On a busy machine a thread may begin so late that its deadline has passed: then it does not wait. */
    long made = lines_of(hub) - 2;
    is("at most a step for each but the first wait", made <= 1 + 1 + 3 * PROCS + 2, 1);
    is("a step for each call", made >= 1 + PROCS, 1);
    chanhub_free(hub);
}

/* Each call returns soon after its deadline, if a processor is free. Otherwise the machine is late, so a few calls may be. */
static void none_is_late(void) {
    enum { ROUNDS = 20 };
    int late = 0;
    open_hub(1, 1000);
    for (int i = 0; i < ROUNDS; i++) {
        uint64_t deadline = chanhub_in(2 * MILLISECOND);
        is("timed out", chanhub_recv_until(hub, 0, 0, deadline).what, CHANHUB_TIMED_OUT);
        uint64_t time = now();
        is("not too soon", time >= deadline, 1);
        late += time - deadline > 50 * MILLISECOND;
    }
    is("most are not late", late <= ROUNDS / 4, 1);
    chanhub_free(hub);
}

/* Another thread makes a deadline pass, again and again, each time once the call waits. */
static void made_to_pass(void) {
    open_hub(2, 100000);
    is("made", chanhub_make(hub, 0, 0).port, 1);
    for (int round = 0; round < 200; round++) {
        struct caller c;
        start(&c, 1, 1, FAR_OFF);
        while (!chanhub_expire(hub, 1)) usleep(10);
        is("timed out", ended(&c).what, CHANHUB_TIMED_OUT);
        is("none any more", chanhub_expire(hub, 1), 0);
    }
    chanhub_free(hub);
}

/* A deadlock of the others is told once no call with a deadline waits, however that ended. */
static void stalls_follow(void) {
    struct caller one, other;
    open_hub(3, 1000);
    is("made", chanhub_make(hub, 0, 0).port, 1);
    start(&one, 1, 1, CHANHUB_NEVER);
    await_entries(hub, 3);
    start(&other, 2, 0, chanhub_in(10 * MILLISECOND));
    is("timed out", ended(&other).what, CHANHUB_TIMED_OUT);
    is("exit", chanhub_exit(hub, 2).what, CHANHUB_DONE);
    is("stalled", chanhub_recv(hub, 0, 1).what, CHANHUB_STALLED);
    is("stalled", ended(&one).what, CHANHUB_STALLED);
    is("exit", chanhub_exit(hub, 1).what, CHANHUB_DONE);
    start(&other, 0, 1, CHANHUB_NEVER);
    is("stalled alone", ended(&other).what, CHANHUB_STALLED);
    chanhub_free(hub);
}

/* Values come while the receiver waits with a deadline, in a hub that cuts as often as it can. */
static void they_come_in_short_chapters(void) {
    struct caller c;
    open_cutting();
    is("made", chanhub_make(hub, 0, 0).port, 1);
    for (int i = 0; i < 20; i++) {
        start(&c, 0, 1, FAR_OFF);
        usleep(1000);
        is("sent", chanhub_send(hub, 1, 1, chanhub_number(7)).what, CHANHUB_SENT);
        is("got", (long long)ended(&c).value.number, 7);
    }
    chanhub_free(hub);
}

static void threads(void) {
    they_pass(0);
    they_pass(1);
    none_is_late();
    made_to_pass();
    stalls_follow();
    they_come_in_short_chapters();
}

/* ---- Under load. ---- */

enum { THREADS = 16, PORTS = 4, NAMED = 32, SEED = 20260710 };

struct worker {
    pthread_t thread;
    unsigned pid, count;   /* how many calls with a deadline it makes */
    uint64_t random, sent, got, timed_out, late;
    FILE *told;
};

/* A number below `end`. */
static uint64_t below(struct worker *w, uint64_t end) {
    w->random ^= w->random << 13;
    w->random ^= w->random >> 7;
    w->random ^= w->random << 17;
    return (w->random >> 11) % end;
}

/* What a call was told, behind its kind: t if it had a deadline. Of a call that has timed out a replay knows only a cancel. */
static void tell(struct worker *w, char kind, chanhub_told t) {
    w->sent += t.what == CHANHUB_SENT;
    w->got += t.what == CHANHUB_GOT;
    if (t.what == CHANHUB_SENT) fprintf(w->told, "%c %u case %u sent\n", kind, w->pid, t.index);
    else if (t.what == CHANHUB_GOT) fprintf(w->told, "%c %u case %u got %" PRIu64 "\n", kind, w->pid, t.index, t.value.number);
    else fprintf(w->told, "%c %u %s\n", kind, w->pid, chanhub_what_name(t.what));
}

/* The deadline of a call: sometimes it has passed already. */
static uint64_t some_deadline(struct worker *w) {
    return below(w, 16) ? chanhub_in(below(w, 300000)) : 0;
}

static chanhub_case some_case(struct worker *w) {
    bool sends = (w->pid + below(w, 8) / 7) % 2;
    chanhub_value value = chanhub_number(sends ? (uint64_t)w->pid << 32 | w->sent : 0);
    return (chanhub_case){ .sends = sends, .port = (uint16_t)(1 + below(w, PORTS)), .value = value };
}

/* A call with a deadline: a send or a receive, waited for at once or begun and resumed. Its word is 0. */
static void call_until(struct worker *w) {
    chanhub_case c = some_case(w);
    uint64_t deadline = some_deadline(w);
    chanhub_told t;
    if (below(w, 4) == 0) {
        t = chanhub_begin_until(hub, w->pid, &c, 1, false, 0, deadline);
        for (unsigned i = 0; t.what == CHANHUB_WAITING; i++) t = chanhub_resume(hub, w->pid, i < 2 ? 20000 : CHANHUB_NEVER);
    } else if (c.sends) t = chanhub_send_until(hub, w->pid, c.port, c.value, deadline);
    else t = chanhub_recv_until(hub, w->pid, c.port, deadline);
    if (t.what == CHANHUB_TIMED_OUT) {
        w->timed_out++;
        w->late += deadline && now() > deadline + 50 * MILLISECOND;
    }
    tell(w, 't', t);
}

/* Another call: a select that never waits, with a word that is not 0; a cancel, or that a deadline passes. */
static void call_otherwise(struct worker *w) {
    chanhub_case cases[2] = { some_case(w), some_case(w) };
    unsigned other = (unsigned)below(w, THREADS);
    switch (below(w, 4)) {
    case 0: chanhub_expire(hub, other); break;
    case 1: {
        chanhub_told t = chanhub_cancel(hub, w->pid, other);
        if (t.what == CHANHUB_DONE) tell(w, 'p', t);
        else fprintf(w->told, "p %u fault %u\n", w->pid, t.fault);
        break;
    }
    default: tell(w, 'p', chanhub_select(hub, w->pid, cases, 1 + below(w, 2), true, 1 + below(w, 9)));
    }
}

static void *work(void *at) {
    struct worker *w = at;
    for (unsigned i = 0; i < w->count; i++) {
        call_until(w);
        if (below(w, 4) == 0) call_otherwise(w);
    }
    tell(w, 'p', chanhub_exit(hub, w->pid));
    return NULL;
}

static FILE *file_in(const char *folder, const char *name) {
    char path[4096];
    snprintf(path, sizeof path, "%s/%s", folder, name);
    FILE *file = fopen(path, "w+b");
    if (!file) exit(2);
    return file;
}

/* Runs the threads, and writes what they were told. Whether each value that was received was sent. */
static void run_threads(const char *folder, unsigned calls) {
    static struct worker workers[THREADS];
    uint64_t sent = 0, got = 0, left = 0, timed_out = 0, late = 0;
    FILE *told = file_in(folder, "told");
    for (unsigned port = 1; port <= PORTS; port++) {
        is("made", chanhub_make(hub, 0, port == PORTS ? 16 : port - 1).port, port);
        fprintf(told, "p 0 made %u\n", port);
    }
    for (unsigned pid = 0; pid < THREADS; pid++) {
        char name[NAMED];
        snprintf(name, sizeof name, "told.%u", pid);
        struct worker *w = &workers[pid];
        *w = (struct worker){ .pid = pid, .count = calls / THREADS, .random = SEED + pid, .told = file_in(folder, name) };
        if (pthread_create(&w->thread, NULL, work, w)) exit(2);
    }
    for (unsigned pid = 0; pid < THREADS; pid++) {
        struct worker *w = &workers[pid];
        pthread_join(w->thread, NULL);
        rewind(w->told);
        for (int c; (c = getc(w->told)) != EOF;) putc(c, told);
        fclose(w->told);
        sent += w->sent, got += w->got, timed_out += w->timed_out, late += w->late;
    }
    fclose(told);
    for (unsigned port = 1; port <= PORTS; port++) {
        chanhub_counts c = chanhub_look(hub, port);
        left += c.sent - c.received;
    }
    printf("%" PRIu64 " sent, %" PRIu64 " timed out, %" PRIu64 " of them late by more than 50 ms\n", sent, timed_out, late);
    is("none is lost", (long long)(sent - got), (long long)left);
    is("deadlines passed", timed_out > calls / 100, 1);
    is("values were passed", got > calls / 100, 1);
}

static void load(const char *folder) {
    open_hub(THREADS, 1000000);
    run_threads(folder, 100000);
    size_t length;
    char *text = chanhub_journal(hub, &length);
    FILE *journal = file_in(folder, "journal");
    is("written", text && fwrite(text, 1, length, journal) == length, 1);
    fclose(journal);
    chanhub_free_text(text);
    chanhub_free(hub);
}

static void chapters(const char *folder) {
    char name[4096];
    snprintf(name, sizeof name, "%s/journal", folder);
    chanhub_files files = { .name = name };
    chanhub_options options = { .procs = THREADS, .keep = 300, .chapters = chanhub_write_chapter, .pointer = &files, .clock = true };
    if (chanhub_open_with(&hub, &options)) exit(2);
    run_threads(folder, 10000);
    chanhub_free(hub);
    is("written", files.error, 0);
    is("chapters", files.next > 10, 1);
}

int main(int argc, char **argv) {
    alarm(SECONDS);
    if (argc == 2 && strcmp(argv[1], "alone") == 0) alone();
    else if (argc == 2 && strcmp(argv[1], "threads") == 0) threads();
    else if (argc == 3 && strcmp(argv[1], "load") == 0) load(argv[2]);
    else if (argc == 3 && strcmp(argv[1], "chapters") == 0) chapters(argv[2]);
    else return 2;
    return tally(argv[1]);
}
