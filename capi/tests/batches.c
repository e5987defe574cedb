/* Calls of many values:
 *
 *     batches alone             by one thread: each step that the journal has, each answer, and what is refused
 *     batches threads           by several: calls that wait in the middle, and how each of these ends; all values in order
 *     batches followed [RUNS]   random runs, 200 if their number is not given: each is recorded and followed, with the same answers
 *     batches endless FOLDER    values with deadlines on a hub that hands out short chapters: FOLDER/chapter.0, .1, ..
 *
 * A test that hangs is ended by an alarm.
 */
#include "runs.h"

#include <pthread.h>
#include <sched.h>
#include <stdlib.h>
#include <time.h>

enum { SECONDS = 300, MOST = 64, LONGEST = 1200 };

static const uint64_t NEVER = CHANHUB_NEVER, MILLISECOND = 1000000;

static chanhub *hub;
static chanhub_value values[LONGEST];
static size_t count; /* how many the last call sent or received */

static void open_hub(unsigned procs, uint32_t limit) {
    if (chanhub_open(&hub, 2, procs, limit)) exit(2);
}

static void open_with_clock(unsigned procs, uint32_t limit) {
    chanhub_options options = { .procs = procs, .limit = limit, .clock = true };
    if (chanhub_open_with(&hub, &options)) exit(2);
}

/* The numbers from this one on. */
static const chanhub_value *numbers(uint64_t first) {
    static chanhub_value from[LONGEST];
    for (int i = 0; i < LONGEST; i++) from[i] = chanhub_number(first + (uint64_t)i);
    return from;
}

static chanhub_told send_until(unsigned pid, unsigned port, uint64_t first, size_t all, uint64_t deadline) {
    count = 77;
    return chanhub_send_all(hub, pid, port, numbers(first), all, deadline, &count);
}

static chanhub_told send_all(unsigned pid, unsigned port, uint64_t first, size_t all) {
    return send_until(pid, port, first, all, NEVER);
}

static chanhub_told begin_send_all(unsigned pid, unsigned port, uint64_t first, size_t all, uint64_t deadline) {
    return chanhub_begin_send_all(hub, pid, port, numbers(first), all, deadline, &count);
}

static chanhub_told recv_up_to(unsigned pid, unsigned port, size_t most) {
    count = 77;
    return chanhub_recv_up_to(hub, pid, port, values, most, NEVER, &count);
}

static chanhub_told begin_recv(unsigned pid, unsigned port) {
    chanhub_case one = { .port = (uint16_t)port };
    return chanhub_begin(hub, pid, &one, 1, false, 0);
}

static chanhub_told begin_send(unsigned pid, unsigned port, uint64_t number) {
    chanhub_case one = { .sends = true, .port = (uint16_t)port, .value = chanhub_number(number) };
    return chanhub_begin(hub, pid, &one, 1, false, 0);
}

/* What a call was told, and of how many values. */
static void is_told(const char *name, chanhub_told t, int what, size_t wanted) {
    is(name, t.what, what), is(name, (long long)count, (long long)wanted);
}

/* It received so many numbers, from this one on, and was told the last. */
static void has_got(const char *name, chanhub_told t, uint64_t first, size_t wanted) {
    is_told(name, t, CHANHUB_GOT, wanted);
    for (size_t i = 0; i < count && i < wanted; i++) is(name, (long long)values[i].number, (long long)(first + i));
    is(name, (long long)t.value.number, (long long)(first + wanted - 1));
}

/* ---- By one thread. ---- */

static void steps(void) {
    open_hub(1, 100);
    chanhub_make(hub, 0, 4);
    is_told("sent", send_all(0, 1, 5, 3), CHANHUB_SENT, 3);
    has_got("as many as there are", recv_up_to(0, 1, MOST), 5, 3);
    is_told("as many as fit", send_all(0, 1, 1, 4), CHANHUB_SENT, 4);
    has_got("as many as wanted", recv_up_to(0, 1, 3), 1, 3);
    has_got("the rest", recv_up_to(0, 1, MOST), 4, 1);
    is_told("none", send_all(0, 1, 1, 0), CHANHUB_SENT, 0);
    is("not asked how many", chanhub_send_all(hub, 0, 1, numbers(6), 2, NEVER, NULL).what, CHANHUB_SENT);
    is("not asked how many", (long long)chanhub_recv_up_to(hub, 0, 1, values, 2, NEVER, NULL).value.number, 7);
    has_journal("a step for each", hub,
                "chanhub journal 2\nprocs 1\n0 make 4\n0 send 1 5\n0 send 1 6\n0 send 1 7\n0 recv 1\n0 recv 1\n0 recv 1\n"
                "0 send 1 1\n0 send 1 2\n0 send 1 3\n0 send 1 4\n0 recv 1\n0 recv 1\n0 recv 1\n0 recv 1\n"
                "0 send 1 6\n0 send 1 7\n0 recv 1\n0 recv 1\n");
    chanhub_free(hub);
}

static void bytes(void) {
    open_hub(1, 100);
    chanhub_make(hub, 0, 4);
    chanhub_value all[4] = { chanhub_bytes("", 0), chanhub_number(9), chanhub_bytes("0123456789abcdef0123456789abcdef", 32),
                             chanhub_bytes("ab", 2) };
    is("sent", chanhub_send_all(hub, 0, 1, all, 4, NEVER, &count).what, CHANHUB_SENT);
    is_told("got", recv_up_to(0, 1, MOST), CHANHUB_GOT, 4);
    for (int i = 0; i < 4; i++) is("the value", memcmp(&values[i].bytes, &all[i].bytes, 32) || values[i].length != all[i].length, 0);
    is("a number", values[1].number == 9 && !values[1].is_bytes, 1);
    all[1] = chanhub_bytes("0123456789abcdef0123456789abcdef0", 33);
    is_fault("too long", chanhub_send_all(hub, 0, 1, all, 3, NEVER, &count), CHANHUB_BAD_CALL);
    is("those before", (long long)count, 1);
    chanhub_free(hub);
    chanhub_open(&hub, 1, 1, 100);
    chanhub_make(hub, 0, 4);
    all[0] = chanhub_number(1), all[1] = chanhub_bytes("a", 1);
    is_fault("not in edition 1", chanhub_send_all(hub, 0, 1, all, 2, NEVER, &count), CHANHUB_BAD_CALL);
    is("those before", (long long)count, 1);
    chanhub_free(hub);
}

static void refusals(void) {
    open_hub(3, 100);
    is_fault("no hub", chanhub_send_all(NULL, 0, 1, values, 1, NEVER, &count), CHANHUB_BAD_CALL);
    is_fault("no hub", chanhub_recv_up_to(NULL, 0, 1, values, 1, NEVER, &count), CHANHUB_BAD_CALL);
    is_fault("process 256", send_all(256, 1, 1, 1), CHANHUB_BAD_CALL);
    is_fault("port 65,536", recv_up_to(0, 65536, 1), CHANHUB_BAD_CALL);
    is_fault("no values", chanhub_send_all(hub, 0, 1, NULL, 1, NEVER, &count), CHANHUB_BAD_CALL);
    is("no values", chanhub_send_all(hub, 0, 1, NULL, 0, NEVER, &count).what, CHANHUB_SENT);
    is_fault("nowhere", chanhub_recv_up_to(hub, 0, 1, NULL, 1, NEVER, &count), CHANHUB_BAD_CALL);
    is_fault("not one", recv_up_to(0, 1, 0), CHANHUB_BAD_CALL);
    is_fault("no clock", send_until(0, 1, 1, 1, FAR_OFF), CHANHUB_BAD_CALL);
    is("none sent", (long long)count, 0);
    is_fault("no process", send_all(3, 1, 1, 1), CHANHUB_NO_PROCESS);
    is_fault("no port", send_all(0, 1, 1, 2), CHANHUB_NO_PORT);
    is("none sent", (long long)count, 0);
    is_fault("no port", recv_up_to(0, 1, 2), CHANHUB_NO_PORT);
    is("none received", (long long)count, 0);
    chanhub_exit(hub, 0);
    is_fault("gone", send_all(0, 1, 1, 2), CHANHUB_GONE);
    begin_recv(1, 0);
    is_fault("busy", recv_up_to(1, 1, 2), CHANHUB_BUSY);
    has_journal("each once", hub, "chanhub journal 2\nprocs 3\n0 send 1 1\n0 recv 1\n0 exit\n1 recv 0\n");
    chanhub_free(hub);
    open_with_clock(1, 100);
    is_fault("the clock", send_until(1, 0, 1, 1, FAR_OFF), CHANHUB_NO_PROCESS);
    is_fault("the clock", send_all(1, 0, 1, 1), CHANHUB_NO_PROCESS);
    chanhub_free(hub);
}

/* What ends a call after some values. */
static void ends(void) {
    open_hub(1, 100);
    chanhub_make(hub, 0, 2);
    is_told("a stall in the middle", send_all(0, 1, 1, 4), CHANHUB_STALLED, 2);
    chanhub_close(hub, 0, 1);
    is_told("closed", send_all(0, 1, 1, 4), CHANHUB_CLOSED, 0);
    has_got("what is left", recv_up_to(0, 1, MOST), 1, 2);
    is_told("drained", recv_up_to(0, 1, MOST), CHANHUB_DRAINED, 0);
    chanhub_make(hub, 0, 0);
    is_told("a stall", recv_up_to(0, 2, MOST), CHANHUB_STALLED, 0);
    has_journal("no step in vain", hub,
                "chanhub journal 2\nprocs 1\n0 make 2\n0 send 1 1\n0 send 1 2\n0 send 1 3\n0 close 1\n0 send 1 1\n"
                "0 recv 1\n0 recv 1\n0 recv 1\n0 make 0\n0 recv 2\n");
    chanhub_free(hub);

    open_hub(1, 6);
    chanhub_make(hub, 0, 8);
    is_told("sent", send_all(0, 1, 1, 3), CHANHUB_SENT, 3);
    has_got("got", recv_up_to(0, 1, 1), 1, 1);
    is_fault("full in the middle", send_all(0, 1, 4, 3), CHANHUB_JOURNAL_FULL);
    is("those before", (long long)count, 1);
    chanhub_free(hub);

    open_hub(1, 6);
    chanhub_make(hub, 0, 8);
    is_told("sent", send_all(0, 1, 1, 3), CHANHUB_SENT, 3);
    has_got("those before it was full", recv_up_to(0, 1, MOST), 1, 2);
    is_fault("full", recv_up_to(0, 1, MOST), CHANHUB_JOURNAL_FULL);
    is("none", (long long)count, 0);
    chanhub_free(hub);
}

/* Others that wait: their calls end in order. */
static void others(void) {
    open_hub(4, 100);
    chanhub_make(hub, 0, 0);
    begin_recv(1, 1), begin_recv(2, 1);
    is_told("to two who wait", send_all(0, 1, 1, 2), CHANHUB_SENT, 2);
    is("the first", (long long)chanhub_resume(hub, 1, 0).value.number, 1);
    is("the second", (long long)chanhub_resume(hub, 2, 0).value.number, 2);
    begin_send(1, 1, 7), begin_send(2, 1, 8);
    has_got("one of a port without a buffer", recv_up_to(0, 1, MOST), 7, 1);
    has_got("one more", recv_up_to(0, 1, MOST), 8, 1);
    is("sent", chanhub_resume(hub, 1, 0).what, CHANHUB_SENT);
    is("sent", chanhub_resume(hub, 2, 0).what, CHANHUB_SENT);
    chanhub_make(hub, 0, 1);
    is("sent", chanhub_send(hub, 3, 2, chanhub_number(1)).what, CHANHUB_SENT);
    begin_send(1, 2, 2), begin_send(2, 2, 3);
    has_got("what comes into the buffer", recv_up_to(0, 2, MOST), 1, 3);
    is("sent", chanhub_resume(hub, 1, 0).what, CHANHUB_SENT);
    is("sent", chanhub_resume(hub, 2, 0).what, CHANHUB_SENT);
    is("the counts", (long long)chanhub_look(hub, 2).received, 3);
    is_told("sent", send_all(0, 2, 1, 1), CHANHUB_SENT, 1);
    is("the counts", (long long)chanhub_look(hub, 2).sent, 4);
    has_got("got", recv_up_to(0, 2, MOST), 1, 1);
    is("the counts", (long long)chanhub_look(hub, 2).received, 4);
    chanhub_free(hub);
}

static void begun(void) {
    open_hub(2, 100);
    chanhub_make(hub, 0, 2);
    is("waiting", chanhub_begin_recv_up_to(hub, 1, 1, values, MOST, NEVER, &count).what, CHANHUB_WAITING);
    is("none", (long long)count, 0);
    is_fault("busy", send_all(1, 1, 1, 1), CHANHUB_BUSY);
    is_told("sent", send_all(0, 1, 1, 3), CHANHUB_SENT, 3);
    is("the one", (long long)chanhub_resume(hub, 1, 0).value.number, 1);
    is("the rest", (long long)chanhub_begin_recv_up_to(hub, 1, 1, values, MOST, NEVER, &count).value.number, 3);
    is("both", (long long)count, 2);
    is_told("waiting", begin_send_all(0, 1, 1, 5, NEVER), CHANHUB_WAITING, 2);
    has_got("and the third", recv_up_to(1, 1, MOST), 1, 3);
    is("the third", chanhub_resume(hub, 0, 0).what, CHANHUB_SENT);
    is_told("the rest", begin_send_all(0, 1, 4, 2, NEVER), CHANHUB_SENT, 2);
    is_told("waiting", begin_send_all(0, 1, 6, 1, NEVER), CHANHUB_WAITING, 0);
    is("closed", chanhub_close(hub, 1, 1).what, CHANHUB_DONE);
    is("closed", chanhub_resume(hub, 0, 0).what, CHANHUB_CLOSED);
    chanhub_free(hub);
}

/* The deadline of the open call of process 0 passes. */
static void passes(void) {
    is("its deadline", chanhub_expire(hub, 0), 1);
    is("timed out", chanhub_resume(hub, 0, 0).what, CHANHUB_TIMED_OUT);
}

static void deadlines(void) {
    open_with_clock(1, 100);
    chanhub_make(hub, 0, 2);
    is_told("waiting in the middle", begin_send_all(0, 1, 1, 4, FAR_OFF), CHANHUB_WAITING, 2);
    passes();
    is_told("passed", send_until(0, 1, 7, 1, 0), CHANHUB_TIMED_OUT, 0);
    has_got("got", chanhub_recv_up_to(hub, 0, 1, values, MOST, 0, &count), 1, 2);
    is_told("passed", chanhub_recv_up_to(hub, 0, 1, values, MOST, 0, &count), CHANHUB_TIMED_OUT, 0);
    is_told("waiting", chanhub_begin_recv_up_to(hub, 0, 1, values, MOST, FAR_OFF, &count), CHANHUB_WAITING, 0);
    passes();
    is_told("passed, with room", send_until(0, 1, 1, 2, 0), CHANHUB_SENT, 2);
    has_journal("at most five steps for one that waits", hub,
                "chanhub journal 2\nprocs 2\n1 recv 0\n0 make 2\n0 send 1 1\n0 send 1 2\n0 select 0 s1:3 default\n0 cancel 1\n"
                "0 send 1 3\n1 cancel 0\n1 recv 0\n0 select 0 s1:7 default\n0 recv 1\n0 recv 1\n0 select 0 r1 default\n"
                "0 select 0 r1 default\n0 cancel 1\n0 recv 1\n1 cancel 0\n1 recv 0\n0 send 1 1\n0 send 1 2\n");
    has_got("got", recv_up_to(0, 1, MOST), 1, 2);
    is_told("in the middle", send_until(0, 1, 1, 4, chanhub_in(5 * MILLISECOND)), CHANHUB_TIMED_OUT, 2);
    has_got("got", recv_up_to(0, 1, MOST), 1, 2);
    is_told("it passes", chanhub_recv_up_to(hub, 0, 1, values, MOST, chanhub_in(MILLISECOND), &count), CHANHUB_TIMED_OUT, 0);
    chanhub_free(hub);

    open_with_clock(2, 100);
    chanhub_make(hub, 0, 2);
    is("waiting", chanhub_begin_recv_up_to(hub, 1, 1, values, MOST, FAR_OFF, &count).what, CHANHUB_WAITING);
    is_told("while the clock is awake", send_until(0, 1, 1, 3, FAR_OFF), CHANHUB_SENT, 3);
    is("the one", (long long)chanhub_resume(hub, 1, 0).value.number, 1);
    has_got("the rest", recv_up_to(1, 1, MOST), 2, 2);
    chanhub_free(hub);
}

/* Process 1 waits with a deadline, and 5 steps are left for the other calls: one is kept to end its call. */
static void open_with_5_left(void) {
    open_with_clock(2, 12);
    chanhub_make(hub, 0, 8), chanhub_make(hub, 0, 0);
    is("waiting", chanhub_begin_recv_up_to(hub, 1, 2, values, 1, FAR_OFF, &count).what, CHANHUB_WAITING);
    is("steps left", (long long)chanhub_steps_left(hub), 5);
}

static void free_with_none_left(void) {
    is_fault("full", recv_up_to(0, 1, MOST), CHANHUB_JOURNAL_FULL);
    is_fault("full", send_all(0, 1, 1, 3), CHANHUB_JOURNAL_FULL);
    is("its deadline", chanhub_expire(hub, 1), 1);
    is("timed out", chanhub_resume(hub, 1, 0).what, CHANHUB_TIMED_OUT);
    chanhub_free(hub);
}

static void kept_steps(void) {
    open_with_5_left();
    is_told("sent", send_all(0, 1, 1, 3), CHANHUB_SENT, 3);
    has_got("those for which there are steps", recv_up_to(0, 1, MOST), 1, 2);
    free_with_none_left();
    open_with_5_left();
    is_fault("full in the middle", send_all(0, 1, 1, 7), CHANHUB_JOURNAL_FULL);
    is("those for which there were steps", (long long)count, 5);
    free_with_none_left();
}

/* ---- Journals that are followed, by one thread. ---- */

static void followed(void) {
    const char *journal = "chanhub journal 2\nprocs 2\n0 make 4\n0 send 1 1\n0 send 1 2\n0 send 1 3\n1 recv 1\n1 recv 1\n0 send 1 4\n"
                          "1 recv 1\n1 recv 1\n1 recv 1\n0 send 1 5\n0 send 1 6\n1 recv 1\n";
    hub = follows(journal, false);
    chanhub_make(hub, 0, 4);
    is_told("sent", send_all(0, 1, 1, 3), CHANHUB_SENT, 3);
    has_got("as long as it is its turn", recv_up_to(1, 1, MOST), 1, 2);
    is_told("sent", send_all(0, 1, 4, 1), CHANHUB_SENT, 1);
    has_got("as the buffer holds", recv_up_to(1, 1, MOST), 3, 2);
    is("it had to wait", chanhub_begin_recv_up_to(hub, 1, 1, values, MOST, NEVER, &count).what, CHANHUB_WAITING);
    is_told("sent", send_all(0, 1, 5, 2), CHANHUB_SENT, 2);
    is("the one", (long long)chanhub_resume(hub, 1, NEVER).value.number, 5);
    has_got("the last", recv_up_to(1, 1, MOST), 6, 1);
    has_journal("the same", hub, journal);
    is_diverged("behind the end", send_all(0, 1, 5, 2), 14);
    chanhub_free(hub);

    hub = follows(journal, true);
    chanhub_make(hub, 0, 4);
    chanhub_value other[3] = { chanhub_number(1), chanhub_number(2), chanhub_number(9) };
    is_diverged("another value", chanhub_send_all(hub, 0, 1, other, 3, NEVER, &count), 4);
    is("those before", (long long)count, 2);
    has_got("it goes on", recv_up_to(1, 1, MOST), 1, 2);
    chanhub_free(hub);

    chanhub_options options = { .journal = journal, .journal_length = strlen(journal), .asks_again = true };
    is("opened", chanhub_open_with(&hub, &options), 0);
    chanhub_make(hub, 0, 4);
    is_fault("not yet", send_all(0, 1, 1, 4), CHANHUB_NOT_YET);
    is("those before", (long long)count, 3);
    has_got("its turn", recv_up_to(1, 1, MOST), 1, 2);
    is("its turn", chanhub_turn(hub, 0, 0), 1);
    is_told("the rest", send_all(0, 1, 4, 1), CHANHUB_SENT, 1);
    chanhub_free(hub);
}

/* ---- By several threads. ---- */

struct call {
    pthread_t thread;
    unsigned pid, port;
    size_t all, done;
    chanhub_told told;
};

static void *make_call(void *at) {
    struct call *c = at;
    chanhub_value mine[MOST];
    for (size_t i = 0; i < c->all; i++) mine[i] = chanhub_number(i + 1);
    if (c->all) c->told = chanhub_send_all(hub, c->pid, c->port, mine, c->all, NEVER, &c->done);
    else c->told = chanhub_recv_up_to(hub, c->pid, c->port, mine, MOST, NEVER, &c->done);
    return NULL;
}

/* Begins to send so many, or to receive. */
static void start(struct call *c, unsigned pid, unsigned port, size_t all) {
    *c = (struct call){ .pid = pid, .port = port, .all = all };
    if (pthread_create(&c->thread, NULL, make_call, c)) exit(2);
}

static void has_ended(const char *name, struct call *c, int what, size_t done) {
    pthread_join(c->thread, NULL);
    count = c->done;
    is_told(name, c->told, what, done);
}

static void waits_in_the_middle(void) {
    struct call a, b;
    open_hub(3, 1000);
    chanhub_make(hub, 0, 2), chanhub_make(hub, 0, 0);
    start(&a, 1, 1, 7);
    await_entries(hub, 5);
    is_fault("busy", send_all(1, 1, 1, 1), CHANHUB_BUSY);
    has_got("and the third", recv_up_to(0, 1, MOST), 1, 3);
    await_entries(hub, 11);
    is("closed", chanhub_close(hub, 0, 1).what, CHANHUB_DONE);
    has_ended("closed in the middle", &a, CHANHUB_CLOSED, 5);

    chanhub_make(hub, 0, 2);
    start(&a, 1, 3, 7);
    await_entries(hub, 16);
    is("cancelled", chanhub_cancel(hub, 0, 1).what, CHANHUB_DONE);
    has_ended("cancelled in the middle", &a, CHANHUB_CANCELLED, 2);
    start(&b, 2, 2, 0);
    await_entries(hub, 18);
    is("cancelled", chanhub_cancel(hub, 0, 2).what, CHANHUB_DONE);
    has_ended("cancelled", &b, CHANHUB_CANCELLED, 0);

    start(&a, 1, 3, 3);
    await_entries(hub, 20);
    start(&b, 2, 2, 0);
    await_entries(hub, 21);
    is("a stall", chanhub_recv(hub, 0, 2).what, CHANHUB_STALLED);
    has_ended("a stall", &a, CHANHUB_STALLED, 0);
    has_ended("a stall", &b, CHANHUB_STALLED, 0);
    has_got("got", recv_up_to(0, 3, MOST), 1, 2);

    start(&b, 2, 3, 0);
    await_entries(hub, 25);
    is_told("sent", send_all(0, 3, 1, 3), CHANHUB_SENT, 3);
    has_ended("what it waited for comes alone", &b, CHANHUB_GOT, 1);
    has_got("the rest", recv_up_to(2, 3, MOST), 2, 2);
    chanhub_free(hub);

    open_hub(2, 8);
    chanhub_make(hub, 0, 1);
    start(&a, 1, 1, MOST);
    await_entries(hub, 3);
    for (uint64_t i = 1; i < 3; i++) has_got("got", recv_up_to(0, 1, 1), i, 1), await_entries(hub, i == 1 ? 5 : 7);
    has_got("the last step", recv_up_to(0, 1, 1), 3, 1);
    has_ended("full in the middle", &a, CHANHUB_FAULT, 4);
    is("full", a.told.fault, CHANHUB_JOURNAL_FULL);
    chanhub_free(hub);
}

/* ---- Values of several senders, in order. ---- */

enum { SENDERS = 3, RECEIVERS = 3, EACH = 20000 };

struct worker {
    pthread_t thread;
    unsigned pid;
    uint32_t seed;
    uint64_t got[SENDERS]; /* the last number of each sender */
    size_t count;
};

static size_t each = EACH;
static bool is_timed; /* whether some calls have a deadline, soon or far off */

static uint64_t draw_deadline(uint32_t *seed) {
    uint32_t dice = is_timed ? draw(seed, 3) : 0;
    return dice == 0 ? NEVER : dice == 1 ? FAR_OFF : chanhub_in(draw(seed, 100000));
}

static void *send_each(void *at) {
    struct worker *w = at;
    chanhub_value mine[MOST];
    for (size_t next = 1, all, done; next <= each; next += done) {
        all = 1 + draw(&w->seed, MOST);
        if (all > each + 1 - next) all = each + 1 - next;
        for (size_t i = 0; i < all; i++) mine[i] = chanhub_number((uint64_t)w->pid << 32 | (next + i));
        chanhub_told t = chanhub_send_all(hub, w->pid, 1, mine, all, draw_deadline(&w->seed), &done);
        bool is_right = t.what == CHANHUB_SENT ? done == all : is_timed && t.what == CHANHUB_TIMED_OUT && done < all;
        if (!is_right) is("sent", t.what, CHANHUB_SENT), exit(1);
    }
    chanhub_exit(hub, w->pid);
    return NULL;
}

static void *receive_each(void *at) {
    struct worker *w = at;
    chanhub_value mine[MOST];
    chanhub_told t;
    for (size_t done;;) {
        t = chanhub_recv_up_to(hub, w->pid, 1, mine, 1 + draw(&w->seed, MOST), draw_deadline(&w->seed), &done);
        if (t.what != CHANHUB_GOT && t.what != CHANHUB_TIMED_OUT) break;
        for (size_t i = 0; i < done; i++) {
            uint64_t sender = mine[i].number >> 32, number = mine[i].number & UINT32_MAX;
            if (number <= w->got[sender]) is("in order", (long long)number, (long long)w->got[sender] + 1);
            w->got[sender] = number;
        }
        w->count += done;
    }
    is("no more", t.what, CHANHUB_DRAINED);
    chanhub_exit(hub, w->pid);
    return NULL;
}

/* The threads of a hub that is open pass all values through a port of this capacity; process 0 to 2 send. */
static void pass_all(uint32_t cap, unsigned receivers) {
    static struct worker workers[SENDERS + RECEIVERS];
    unsigned last = SENDERS + RECEIVERS;
    size_t sum = 0;
    chanhub_make(hub, last, cap);
    for (unsigned pid = 0; pid < SENDERS + receivers; pid++) {
        workers[pid] = (struct worker){ .pid = pid, .seed = pid * 7 + cap };
        if (pthread_create(&workers[pid].thread, NULL, pid < SENDERS ? send_each : receive_each, &workers[pid])) exit(2);
    }
    for (unsigned pid = SENDERS + receivers; pid < last; pid++) chanhub_exit(hub, pid);
    for (unsigned pid = 0; pid < SENDERS; pid++) pthread_join(workers[pid].thread, NULL);
    chanhub_close(hub, last, 1);
    chanhub_exit(hub, last);
    for (unsigned pid = SENDERS; pid < SENDERS + receivers; pid++) pthread_join(workers[pid].thread, NULL), sum += workers[pid].count;
    is("all", (long long)sum, (long long)(SENDERS * each));
    if (receivers > 1) return;
    for (unsigned pid = 0; pid < SENDERS; pid++) is("to the last", (long long)workers[SENDERS].got[pid], (long long)each);
}

static void in_order(void) {
    static const uint32_t caps[] = { 0, 1, 7, 64, 1024 };
    for (unsigned i = 0; i < 5; i++) {
        for (unsigned receivers = 1; receivers <= RECEIVERS; receivers += 2) {
            open_hub(SENDERS + RECEIVERS + 1, 1000000);
            pass_all(caps[i], receivers);
            chanhub_free(hub);
        }
    }
}

static void without_end(const char *folder) {
    char name[4096];
    snprintf(name, sizeof name, "%s/chapter", folder);
    chanhub_files files = { .name = name };
    chanhub_options options = {
        .procs = SENDERS + RECEIVERS + 1, .keep = 7, .chapters = chanhub_write_chapter, .pointer = &files, .clock = true
    };
    if (chanhub_open_with(&hub, &options)) exit(2);
    is_timed = true;
    each = 1000;
    pass_all(3, RECEIVERS);
    chanhub_free(hub);
    is("written", files.error, 0);
    /* Each begins with at most 8 steps: the port, 3 values, 3 waiting calls and the clock's. Twice as many follow. */
    is("chapters", files.next >= 2 * SENDERS * each / 16, 1);
}

/* ---- What is told while a chapter is handed out. ---- */

static chanhub_counts seen;

static void look_slowly(void *pointer, const char *text, size_t length) {
    (void)pointer, (void)text, (void)length;
    nanosleep(&(struct timespec){ .tv_nsec = 10 * (long)MILLISECOND }, NULL);
    seen = chanhub_look(hub, 1);
}

/* Picks up a value, and calls with a deadline at once. */
static void *call_anew(void *at) {
    chanhub_told *told = at;
    told[0] = chanhub_resume(hub, 1, NEVER);
    told[1] = chanhub_recv_until(hub, 1, 2, chanhub_in(MILLISECOND));
    return NULL;
}

/* Three values to a port with room for one and a receiver, behind so many other steps. Returns whether a chapter was handed out meanwhile. */
static bool sends_behind(int steps) {
    pthread_t thread;
    chanhub_told told[2];
    chanhub_options options = { .procs = 3, .keep = 1, .chapters = look_slowly, .clock = true };
    if (chanhub_open_with(&hub, &options)) exit(2);
    chanhub_make(hub, 0, 1), chanhub_make(hub, 0, 0);
    is("waits", begin_recv(1, 1).what, CHANHUB_WAITING);
    for (int i = 0; i < steps; i++) is("tried", chanhub_try_recv(hub, 2, 2).what, CHANHUB_DEFAULT);
    seen = (chanhub_counts){ 0 };
    if (pthread_create(&thread, NULL, call_anew, told)) exit(2);
    is_told("two", send_until(0, 1, 1, 3, chanhub_in(20 * MILLISECOND)), CHANHUB_TIMED_OUT, 2);
    pthread_join(thread, NULL);
    is("the first", told[0].what, CHANHUB_GOT);
    is("its next call", told[1].what, CHANHUB_TIMED_OUT);
    bool is_handed_out = seen.cap;
    if (is_handed_out) is("looks show what was sent", seen.sent > 0 && seen.received > 0, 1);
    chanhub_free(hub);
    return is_handed_out;
}

static void told_meanwhile(void) {
    int handed_out = 0;
    for (int steps = 0; steps < 30; steps++) handed_out += sends_behind(steps);
    is("some were handed out", handed_out > 5, 1);
}

/* ---- A deadline that is made to pass. ---- */

static void *send_two(void *told) {
    *(chanhub_told *)told = send_until(0, 1, 1, 2, FAR_OFF);
    return NULL;
}

/* The value that waits may be received before its thread runs. The other has no more time either. */
static void expired(void) {
    for (int run = 0; run < 50; run++) {
        pthread_t thread;
        chanhub_told told;
        open_with_clock(2, 1000);
        chanhub_make(hub, 0, 0);
        if (pthread_create(&thread, NULL, send_two, &told)) exit(2);
        while (!chanhub_expire(hub, 0)) sched_yield();
        bool is_got = chanhub_recv_until(hub, 1, 1, chanhub_in(MILLISECOND)).what == CHANHUB_GOT;
        pthread_join(thread, NULL);
        is_told("timed out", told, CHANHUB_TIMED_OUT, is_got);
        chanhub_free(hub);
    }
}

/* ---- Random runs that are recorded and followed. ---- */

enum { PROCS = 5, CALLS = 40, PORTS = 3, RUNS = 200, FEW = 6 };

struct answer {
    chanhub_told told;
    size_t count;
    uint64_t sum;
};

struct process {
    pthread_t thread;
    unsigned pid;
    uint32_t seed;
    bool follows;
    struct answer answers[CALLS];
};

static uint64_t some_deadline(struct process *p) {
    uint32_t dice = draw(&p->seed, 10), length = draw(&p->seed, 300000);
    if (dice < 5) return NEVER;
    if (p->follows) return dice < 7 ? 0 : FAR_OFF;
    return dice ? chanhub_in(length) : 0;
}

static void random_call(struct process *p, struct answer *a) {
    chanhub_value mine[FEW];
    uint32_t dice = draw(&p->seed, 100), port = 1 + draw(&p->seed, PORTS), all = draw(&p->seed, FEW) + 1, number = draw(&p->seed, 1000);
    uint64_t deadline = some_deadline(p);
    bool begins = number % 4 == 0;
    for (size_t i = 0; i < all; i++) mine[i] = i % 2 ? chanhub_bytes("abcdef", i) : chanhub_number(number + i);
    a->count = 0;
    if (dice < 40) {
        a->told = (begins ? chanhub_begin_send_all : chanhub_send_all)(hub, p->pid, port, mine, all, deadline, &a->count);
    } else if (dice < 85) {
        a->told = (begins ? chanhub_begin_recv_up_to : chanhub_recv_up_to)(hub, p->pid, port, mine, all, deadline, &a->count);
        for (size_t i = 0; i < a->count; i++) a->sum = a->sum * 31 + mine[i].number + mine[i].length;
    } else if (dice < 90) {
        a->told = chanhub_cancel(hub, p->pid, number % PROCS);
    } else if (dice < 91) {
        a->told = chanhub_close(hub, p->pid, port);
    } else {
        a->told = number % 2 ? chanhub_try_recv(hub, p->pid, port) : chanhub_recv(hub, p->pid, port);
    }
    while (a->told.what == CHANHUB_WAITING) a->told = chanhub_resume(hub, p->pid, 50000);
}

static void *run_process(void *at) {
    struct process *p = at;
    for (int i = 0; i < CALLS; i++) random_call(p, &p->answers[i]);
    chanhub_exit(hub, p->pid);
    return NULL;
}

/* A run of this seed; frees the hub, and returns its journal, which ends with a zero byte. */
static char *run_all(struct process processes[PROCS], uint32_t seed, bool follows) {
    size_t length;
    for (uint32_t i = 0; i < PORTS; i++) chanhub_make(hub, 0, i * 3);
    for (unsigned pid = 0; pid < PROCS; pid++) {
        processes[pid] = (struct process){ .pid = pid, .seed = seed * 1000 + pid, .follows = follows };
        if (pthread_create(&processes[pid].thread, NULL, run_process, &processes[pid])) exit(2);
    }
    for (unsigned pid = 0; pid < PROCS; pid++) pthread_join(processes[pid].thread, NULL);
    char *text = chanhub_journal(hub, &length), *journal = malloc(length + 1);
    if (!text || !journal) exit(2);
    memcpy(journal, text, length);
    journal[length] = '\0';
    chanhub_free_text(text);
    chanhub_free(hub);
    return journal;
}

static int many, timed_out;

static void compare(const struct process *recorded, const struct process *followed) {
    for (int i = 0; i < CALLS; i++) {
        const struct answer *a = &recorded->answers[i], *b = &followed->answers[i];
        is("the same answer", same_told(a->told, b->told), 1);
        is("as many values", (long long)b->count, (long long)a->count);
        is("the same values", (long long)b->sum, (long long)a->sum);
        many += a->count > 1;
        timed_out += a->told.what == CHANHUB_TIMED_OUT && a->count;
    }
}

static void random_runs(uint32_t runs) {
    static struct process recorded[PROCS], followed[PROCS];
    for (uint32_t seed = 0; seed < runs; seed++) {
        open_with_clock(PROCS, 0);
        char *journal = run_all(recorded, seed, false);
        hub = follows(journal, false);
        char *again = run_all(followed, seed, true);
        is("the same journal", strcmp(again, journal), 0);
        for (unsigned pid = 0; pid < PROCS; pid++) compare(&recorded[pid], &followed[pid]);
        free(journal), free(again);
    }
    printf("%u runs, %d calls of more than one value, %d timed out in the middle\n", runs, many, timed_out);
    is("some of many", many > (int)runs, 1);
    is("some timed out", timed_out > 0, 1);
}

int main(int words, char **word) {
    const char *part = words > 1 ? word[1] : "";
    alarm(SECONDS);
    if (strcmp(part, "alone") == 0) {
        steps(), bytes(), refusals(), ends(), others(), begun(), deadlines(), kept_steps(), followed();
    } else if (strcmp(part, "threads") == 0) {
        waits_in_the_middle(), expired(), in_order();
    } else if (strcmp(part, "followed") == 0) {
        random_runs(words > 2 ? (uint32_t)atoi(word[2]) : RUNS);
    } else if (strcmp(part, "endless") == 0 && words == 3) {
        told_meanwhile(), without_end(word[2]);
    }
    return tally(part);
}
