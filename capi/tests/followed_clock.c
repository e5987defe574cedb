/* Hubs that follow a journal which was recorded with a clock: each step and each answer, worked by hand. A test that hangs is
 * ended by an alarm.
 */
#include "runs.h"

#include <pthread.h>

enum { SECONDS = 60 };

static const uint64_t MILLISECOND = 1000000;

static chanhub_told begin_recv(chanhub *hub, unsigned pid, uint64_t deadline) {
    chanhub_case one = { .port = 1 };
    return chanhub_begin_until(hub, pid, &one, 1, false, 0, deadline);
}

/* The head lines of a hub of two processes and a clock, the clock's first step, and a port. */
#define BEGINNING "chanhub journal 2\nprocs 3\n2 recv 0\n0 make 0\n"

static chanhub *begun(const char *journal, bool goes_on) {
    chanhub *hub = follows(journal, goes_on);
    is("its clock", chanhub_has_clock(hub), 1);
    has_journal("the clock waits", hub, "chanhub journal 2\nprocs 3\n2 recv 0\n");
    is("made", chanhub_make(hub, 0, 0).port, 1);
    return hub;
}

/* A deadline that passed is told, though it is far off now; so are deadlocks. Nobody waits for the clock. */
static void a_deadline_passed(void) {
    static const char *const journal =
        BEGINNING "1 recv 1\n0 select 0 r1 default\n0 cancel 2\n0 recv 1\n2 cancel 0\n2 recv 0\n0 recv 1\n2 recv 0\n1 exit\n"
        "0 recv 1\n2 recv 0\n0 exit\n2 exit\n";
    chanhub *hub = begun(journal, false);
    is("waiting", begin_recv(hub, 1, CHANHUB_NEVER).what, CHANHUB_WAITING);
    is("timed out", chanhub_recv_until(hub, 0, 1, FAR_OFF).what, CHANHUB_TIMED_OUT);
    is("it has no deadline", chanhub_expire(hub, 1), 0);
    is("stalled", chanhub_recv(hub, 0, 1).what, CHANHUB_STALLED);
    is("stalled", chanhub_resume(hub, 1, 0).what, CHANHUB_STALLED);
    is_fault("the clock is nobody's", chanhub_recv(hub, 2, 0), CHANHUB_NO_PROCESS);
    is_fault("the clock is nobody's", chanhub_recv_until(hub, 2, 0, FAR_OFF), CHANHUB_NO_PROCESS);
    is_fault("the clock is nobody's", chanhub_cancel(hub, 0, 2), CHANHUB_NO_PROCESS);
    is_fault("no such process", chanhub_recv_until(hub, 3, 0, FAR_OFF), CHANHUB_NO_PROCESS);
    is("exit", chanhub_exit(hub, 1).what, CHANHUB_DONE);
    is("stalled alone", chanhub_recv(hub, 0, 1).what, CHANHUB_STALLED);
    is("exit", chanhub_exit(hub, 0).what, CHANHUB_DONE);
    is_fault("gone", chanhub_recv_until(hub, 1, 1, FAR_OFF), CHANHUB_GONE);
    has_journal("the same", hub, journal);
    chanhub_free(hub);
}

/* A call that was answered is, though its deadline has passed long ago and is made to pass again. */
static void a_value_came(void) {
    static const char *const journal = BEGINNING "0 select 0 r1 default\n0 cancel 2\n0 recv 1\n1 send 1 7\n2 recv 0\n";
    chanhub *hub = begun(journal, false);
    is("waiting", begin_recv(hub, 0, 0).what, CHANHUB_WAITING);
    is("waiting", chanhub_resume(hub, 0, MILLISECOND).what, CHANHUB_WAITING);
    is("it has a deadline", chanhub_expire(hub, 0), 1);
    is("waiting", chanhub_resume(hub, 0, MILLISECOND).what, CHANHUB_WAITING);
    is("sent", chanhub_send(hub, 1, 1, chanhub_number(7)).what, CHANHUB_SENT);
    chanhub_told t = chanhub_resume(hub, 0, CHANHUB_NEVER);
    is("got", t.what, CHANHUB_GOT), is("got", (long long)t.value.number, 7);
    has_journal("the same", hub, journal);
    chanhub_free(hub);
}

/* The clock waits again before the call does, which so has no deadline. No hub records that. */
static void the_clock_is_first(void) {
    static const char *const journal = BEGINNING "0 select 0 r1 default\n0 cancel 2\n2 recv 0\n0 recv 1\n1 send 1 7\n";
    chanhub *hub = begun(journal, false);
    is("waiting", begin_recv(hub, 0, 0).what, CHANHUB_WAITING);
    is("it has no deadline", chanhub_expire(hub, 0), 0);
    is("sent", chanhub_send(hub, 1, 1, chanhub_number(7)).what, CHANHUB_SENT);
    is("got", (long long)chanhub_resume(hub, 0, CHANHUB_NEVER).value.number, 7);
    has_journal("the same", hub, journal);
    chanhub_free(hub);
}

/* Calls that were tried, and then waited or not. While the clock is awake, one without a try waits. */
static void tries(void) {
    static const char *const journal =
        BEGINNING "0 select 0 r1 default\n1 select 0 r1 default\n1 cancel 2\n1 recv 1\n0 select 0 r1 default\n0 recv 1\n"
        "2 cancel 1\n2 recv 0\n1 select 0 s1:4 default\n0 select 0 r0 r1 default\n0 cancel 2\n0 select 0 r0 r1\n"
        "1 select 0 s1:5 default\n2 recv 0\n";
    chanhub *hub = begun(journal, false);
    is("did not wait", chanhub_recv_until(hub, 0, 1, FAR_OFF).what, CHANHUB_TIMED_OUT);
    is("waits", begin_recv(hub, 1, 0).what, CHANHUB_WAITING);
    is("did not wait", chanhub_recv_until(hub, 0, 1, FAR_OFF).what, CHANHUB_TIMED_OUT);
    is("waits", begin_recv(hub, 0, CHANHUB_NEVER).what, CHANHUB_WAITING);
    is("timed out", chanhub_resume(hub, 1, CHANHUB_NEVER).what, CHANHUB_TIMED_OUT);
    is("sent at once", chanhub_send_until(hub, 1, 1, chanhub_number(4), 0).what, CHANHUB_SENT);
    is("got", (long long)chanhub_resume(hub, 0, 0).value.number, 4);
    chanhub_case cases[2] = { { .port = 0 }, { .port = 1 } };
    is("waits", chanhub_begin_until(hub, 0, cases, 2, false, 0, 0).what, CHANHUB_WAITING);
    is("sent at once", chanhub_send_until(hub, 1, 1, chanhub_number(5), 0).what, CHANHUB_SENT);
    chanhub_told t = chanhub_resume(hub, 0, 0);
    is("got", (long long)t.value.number, 5), is("by case", t.index, 1);
    has_journal("the same", hub, journal);
    chanhub_free(hub);
}

/* Two calls with deadlines wait at once, the second without a try: one times out, the other is cancelled. A third times out in
 * the step after it parked. The clock exits before the others, as at a limit. */
static void several(void) {
    static const char *const journal =
        BEGINNING "0 select 0 r1 default\n0 cancel 2\n0 recv 1\n1 recv 1\n2 cancel 0\n0 cancel 1\n2 recv 0\n"
        "1 select 0 r1 default\n1 cancel 2\n1 recv 1\n2 cancel 1\n2 exit\n0 exit\n1 exit\n";
    chanhub *hub = begun(journal, false);
    is("waits", begin_recv(hub, 0, 0).what, CHANHUB_WAITING);
    is("waits", begin_recv(hub, 1, 0).what, CHANHUB_WAITING);
    is("timed out", chanhub_resume(hub, 0, 0).what, CHANHUB_TIMED_OUT);
    is("cancel", chanhub_cancel(hub, 0, 1).what, CHANHUB_DONE);
    is("cancelled", chanhub_resume(hub, 1, 0).what, CHANHUB_CANCELLED);
    is("timed out", chanhub_recv_until(hub, 1, 1, FAR_OFF).what, CHANHUB_TIMED_OUT);
    is("exit", chanhub_exit(hub, 0).what, CHANHUB_DONE);
    is("exit", chanhub_exit(hub, 1).what, CHANHUB_DONE);
    has_journal("the same", hub, journal);
    chanhub_free(hub);
}

/* Where the program does something else the hub ends, or deadlines count from then on, also that of a call that waits. */
static void divergences(void) {
    static const char *const made = BEGINNING "0 select 0 r1 default\n0 cancel 2\n0 recv 1\n";
    static const char *const journal = BEGINNING "0 select 0 r1 default\n0 cancel 2\n0 recv 1\n1 send 1 7\n2 recv 0\n";
    chanhub *hub = begun(journal, false);
    is("waits", begin_recv(hub, 0, 0).what, CHANHUB_WAITING);
    is_diverged("another value", chanhub_send_until(hub, 1, 1, chanhub_number(8), FAR_OFF), 6);
    is_diverged("its call", chanhub_resume(hub, 0, CHANHUB_NEVER), 6);
    is_diverged("ended", chanhub_recv_until(hub, 0, 1, 0), 6);
    is_diverged("ended", chanhub_exit(hub, 1), 6);
    has_journal("what was made", hub, made);
    chanhub_free(hub);

    hub = begun(journal, true);
    is("waits", begin_recv(hub, 0, 0).what, CHANHUB_WAITING);
    is("waits", chanhub_resume(hub, 0, MILLISECOND).what, CHANHUB_WAITING);
    is_diverged("another value", chanhub_send(hub, 1, 1, chanhub_number(8)), 6);
    is("timed out", chanhub_resume(hub, 0, CHANHUB_NEVER).what, CHANHUB_TIMED_OUT);
    is("waits", begin_recv(hub, 1, FAR_OFF).what, CHANHUB_WAITING);
    is("waits", chanhub_resume(hub, 1, 0).what, CHANHUB_WAITING);
    is("it passes", chanhub_expire(hub, 1), 1);
    is("timed out", chanhub_resume(hub, 1, CHANHUB_NEVER).what, CHANHUB_TIMED_OUT);
    is("waits", begin_recv(hub, 1, CHANHUB_NEVER).what, CHANHUB_WAITING);
    is("stalled", chanhub_recv(hub, 0, 1).what, CHANHUB_STALLED);
    is("stalled", chanhub_resume(hub, 1, 0).what, CHANHUB_STALLED);
    has_journal("it went on", hub,
        BEGINNING "0 select 0 r1 default\n0 cancel 2\n0 recv 1\n2 cancel 0\n2 recv 0\n1 select 0 r1 default\n1 cancel 2\n"
        "1 recv 1\n2 cancel 1\n2 recv 0\n1 recv 1\n0 recv 1\n2 recv 0\n");
    chanhub_free(hub);
}

/* A thread waits with a deadline that has passed when the hub begins to go on. */
static void *waits(void *hub) {
    is("timed out", chanhub_recv_until(hub, 0, 1, 0).what, CHANHUB_TIMED_OUT);
    return NULL;
}

static void a_thread_waits(void) {
    pthread_t thread;
    chanhub *hub = begun(BEGINNING "0 select 0 r1 default\n0 cancel 2\n0 recv 1\n1 send 1 7\n2 recv 0\n", true);
    pthread_create(&thread, NULL, waits, hub);
    await_entries(hub, 5);
    usleep(20000);
    is_diverged("another value", chanhub_send(hub, 1, 1, chanhub_number(8)), 6);
    pthread_join(thread, NULL);
    chanhub_free(hub);
}

/* A call has a deadline, and the one in its place had none, since the clock waited beside it: the deadline does not count. */
static void no_deadline_before(void) {
    chanhub *hub = begun(BEGINNING "0 select 0 r1 default\n0 cancel 2\n0 recv 1\n1 recv 1\n2 cancel 0\n2 recv 0\n", true);
    is("waits", begin_recv(hub, 0, 0).what, CHANHUB_WAITING);
    is("waits", begin_recv(hub, 1, 0).what, CHANHUB_WAITING);
    is("timed out", chanhub_resume(hub, 0, 0).what, CHANHUB_TIMED_OUT);
    chanhub_told t = chanhub_resume(hub, 1, MILLISECOND);
    is("waits", t.what, CHANHUB_WAITING), is("without a fault", t.fault, 0);
    is("stalled", chanhub_recv(hub, 0, 1).what, CHANHUB_STALLED);
    is("stalled", chanhub_resume(hub, 1, 0).what, CHANHUB_STALLED);
    chanhub_free(hub);
}

/* Behind the end of a journal: deadlines count from its last step on. */
static void at_the_end(void) {
    chanhub *hub = begun(BEGINNING "0 select 0 r1 default\n0 cancel 2\n0 recv 1\n1 make 1\n", true);
    is("waits", begin_recv(hub, 0, 0).what, CHANHUB_WAITING);
    is("waits", chanhub_resume(hub, 0, 0).what, CHANHUB_WAITING);
    is("made", chanhub_make(hub, 1, 1).port, 2);
    is("timed out", chanhub_resume(hub, 0, CHANHUB_NEVER).what, CHANHUB_TIMED_OUT);
    is("exit", chanhub_exit(hub, 0).what, CHANHUB_DONE);
    is("stalled", chanhub_recv(hub, 1, 1).what, CHANHUB_STALLED);
    is("exit", chanhub_exit(hub, 1).what, CHANHUB_DONE);
    has_journal("it went on", hub,
        BEGINNING "0 select 0 r1 default\n0 cancel 2\n0 recv 1\n1 make 1\n2 cancel 0\n2 recv 0\n0 exit\n1 recv 1\n2 recv 0\n"
        "1 exit\n2 exit\n");
    chanhub_free(hub);

    hub = begun(BEGINNING "0 select 0 r1 default\n", true);
    is("as it was told", chanhub_recv_until(hub, 0, 1, FAR_OFF).what, CHANHUB_TIMED_OUT);
    is("waits", begin_recv(hub, 0, FAR_OFF).what, CHANHUB_WAITING);
    is("it passes", chanhub_expire(hub, 0), 1);
    is("timed out", chanhub_resume(hub, 0, 0).what, CHANHUB_TIMED_OUT);
    chanhub_free(hub);

    hub = follows("chanhub journal 2\nprocs 3\n2 recv 0\n", true);
    uint64_t deadline = chanhub_in(5 * MILLISECOND);
    is("timed out", chanhub_recv_until(hub, 0, 0, deadline).what, CHANHUB_TIMED_OUT);
    is("not too soon", chanhub_in(0) >= deadline, 1);
    chanhub_free(hub);

    hub = begun(BEGINNING "0 select 0 r1 default\n", false);
    is("as it was told", chanhub_recv_until(hub, 0, 1, FAR_OFF).what, CHANHUB_TIMED_OUT);
    is_diverged("behind the end", chanhub_recv_until(hub, 0, 1, FAR_OFF), 4);
    chanhub_free(hub);

    /* The clock is awake when the last step, an exit, leaves another process waiting. */
    hub = begun(BEGINNING "0 select 0 r1 default\n0 cancel 2\n0 recv 1\n2 cancel 0\n0 recv 1\n1 exit\n", true);
    is("timed out", chanhub_recv_until(hub, 0, 1, FAR_OFF).what, CHANHUB_TIMED_OUT);
    is("waits", begin_recv(hub, 0, CHANHUB_NEVER).what, CHANHUB_WAITING);
    is("exit", chanhub_exit(hub, 1).what, CHANHUB_DONE);
    is("stalled", chanhub_resume(hub, 0, 0).what, CHANHUB_STALLED);
    chanhub_free(hub);
}

/* All wait when the journal ends, as in that of a program that hung. In a hub that does not go on, the deadline that passes first
 * is a divergence there. */
static void *waits_at_the_end(void *hub) {
    is_diverged("its deadline passes", chanhub_recv_until(hub, 0, 1, 0), 7);
    return NULL;
}

static void all_wait_at_the_end(void) {
    static const char *const journal = BEGINNING "0 select 0 r1 default\n0 cancel 2\n0 recv 1\n1 recv 1\n";
    pthread_t thread;
    chanhub *hub = begun(journal, false);
    is("waits", begin_recv(hub, 0, 0).what, CHANHUB_WAITING);
    is("no deadline passes yet", chanhub_resume(hub, 0, MILLISECOND).what, CHANHUB_WAITING);
    is("waits", begin_recv(hub, 1, CHANHUB_NEVER).what, CHANHUB_WAITING);
    is_diverged("its deadline passes", chanhub_resume(hub, 0, CHANHUB_NEVER), 7);
    is_diverged("the other", chanhub_resume(hub, 1, CHANHUB_NEVER), 7);
    diverged_so(hub, "P2 asked cancel 0, the journal ends with step 6");
    has_journal("the same", hub, journal);
    chanhub_free(hub);

    hub = begun(journal, false);
    pthread_create(&thread, NULL, waits_at_the_end, hub);
    await_entries(hub, 5);
    usleep(20000);
    is_diverged("told so too", chanhub_recv(hub, 1, 1), 7);
    pthread_join(thread, NULL);
    chanhub_free(hub);
}

/* A call with a deadline waits for its turn, and is made again, in vain, when another has diverged: no deadline is left. */
static void *calls_again(void *hub) {
    is_fault("no port", chanhub_recv_until(hub, 0, 1, 0), CHANHUB_NO_PORT);
    return NULL;
}

static void *waits_without(void *hub) {
    is("got", (long long)chanhub_recv(hub, 0, 1).value.number, 9);
    return NULL;
}

static void no_deadline_is_left(void) {
    pthread_t thread;
    chanhub *hub = follows("chanhub journal 2\nprocs 3\n2 recv 0\n1 make 1\n0 recv 1\n1 send 1 5\n", true);
    pthread_create(&thread, NULL, calls_again, hub);
    usleep(20000);
    is_diverged("another capacity", chanhub_make(hub, 1, 0), 2);
    pthread_join(thread, NULL);
    is("made", chanhub_make(hub, 1, 0).port, 1);
    pthread_create(&thread, NULL, waits_without, hub);
    await_entries(hub, 4);
    usleep(20000);
    is("sent", chanhub_send(hub, 1, 1, chanhub_number(9)).what, CHANHUB_SENT);
    pthread_join(thread, NULL);
    chanhub_free(hub);
}

/* The clock's first step is not the first of all: it is awake there, or waits later. */
static void a_late_clock(void) {
    static const char *const awake = "chanhub journal 2\nprocs 2\n0 make 1\n0 recv 1\n1 cancel 0\n1 recv 0\n";
    chanhub *hub = follows(awake, false);
    is("a clock", chanhub_has_clock(hub), 1);
    is("made", chanhub_make(hub, 0, 1).what, CHANHUB_MADE);
    is("timed out", chanhub_recv_until(hub, 0, 1, FAR_OFF).what, CHANHUB_TIMED_OUT);
    has_journal("the same", hub, awake);
    chanhub_free(hub);
    static const char *const asleep =
        "chanhub journal 2\nprocs 2\n0 make 1\n1 recv 0\n0 select 0 r1 default\n0 cancel 1\n0 recv 1\n1 cancel 0\n1 recv 0\n";
    hub = follows(asleep, false);
    is("made", chanhub_make(hub, 0, 1).what, CHANHUB_MADE);
    is("timed out", chanhub_recv_until(hub, 0, 1, FAR_OFF).what, CHANHUB_TIMED_OUT);
    has_journal("the same", hub, asleep);
    chanhub_free(hub);
}

/* Why the journal with these entries is not followed, or 0; whether its hub has a clock. */
static int opening(const char *entries, chanhub_options options, bool has_clock) {
    chanhub *hub;
    char journal[200];
    options.journal_length = (size_t)snprintf(journal, sizeof journal, "chanhub journal %s", entries);
    options.journal = journal;
    int why = chanhub_open_with(&hub, &options);
    is("its clock", chanhub_has_clock(hub), has_clock);
    chanhub_free(hub);
    return why;
}

/* Which journals have a clock, and what the options may say of it. */
static void openings(void) {
    static const char *const timed = "2\nprocs 3\n2 recv 0\n0 make 0\n";
    is("as it was opened", opening(timed, (chanhub_options){ .procs = 2, .clock = true, .edition = 2 }, true), 0);
    is("without the clock's name", opening(timed, (chanhub_options){ .procs = 2 }, true), 0);
    is("the clock is not counted", opening(timed, (chanhub_options){ .procs = 3 }, false), 1);
    is("another edition", opening(timed, (chanhub_options){ .edition = 1 }, false), 4);
    is("a limit", opening(timed, (chanhub_options){ .limit = 10 }, false), 7);
    is("nothing", opening("2\nprocs 3\n", (chanhub_options){ .procs = 3 }, false), 0);
    is("no clock", opening("2\nprocs 3\n", (chanhub_options){ .clock = true }, false), 7);
    is("another is first", opening("2\nprocs 3\n1 recv 0\n2 recv 0\n", (chanhub_options){ .procs = 3 }, false), 0);
    is("it does more", opening("2\nprocs 2\n1 recv 0\n0 cancel 1\n1 make 0\n", (chanhub_options){ .procs = 2 }, false), 0);
    is("edition 1", opening("1\nprocs 2\n1 recv 0\n", (chanhub_options){ .procs = 2 }, false), 0);
    is("it waits twice", opening("2\nprocs 2\n0 make 0\n1 recv 0\n0 cancel 1\n1 recv 0\n", (chanhub_options){ .clock = true }, true), 0);
    is("it only cancels", opening("2\nprocs 2\n0 make 0\n0 recv 1\n1 cancel 0\n", (chanhub_options){ .procs = 2 }, false), 0);
    is("alone", opening("2\nprocs 1\n0 recv 0\n", (chanhub_options){ .procs = 1 }, false), 0);
    is("most", opening("2\nprocs 64\n63 recv 0\n", (chanhub_options){ .procs = 63 }, true), 0);
    is("no hub", chanhub_has_clock(NULL), 0);
}

int main(void) {
    alarm(SECONDS);
    a_deadline_passed();
    a_value_came();
    the_clock_is_first();
    tries();
    several();
    divergences();
    a_thread_waits();
    no_deadline_before();
    at_the_end();
    all_wait_at_the_end();
    no_deadline_is_left();
    a_late_clock();
    openings();
    return tally("followed clock");
}
