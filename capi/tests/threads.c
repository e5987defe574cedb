/* Calls that wait in threads of their own:
 *
 *     threads cancelled      a thread that waits is cancelled: its call returns, and the lock is free
 *     threads second         another thread calls in the name of a process whose answer is not picked up
 *     threads closed         a close ends 63 calls that wait
 *     threads stalled        the last call of 64 that wait ends them all
 *     threads handed         what a thread wrote before it sent is read by the one that received, without a lock of their own
 *
 * A test that hangs is ended by an alarm.
 */
#include "tally.h"

#include <pthread.h>
#include <stdlib.h>

enum { PROCS = 64, ROUNDS = 300, SECONDS = 300 };

static chanhub *hub;
static chanhub_told told[PROCS];

static void open_hub(unsigned procs) {
    if (chanhub_open(&hub, 2, procs, 1000000)) exit(2);
}

static void start(pthread_t *thread, void *(*work)(void *), size_t pid) {
    pthread_attr_t small;
    if (pthread_attr_init(&small) || pthread_attr_setstacksize(&small, 1 << 18)) exit(2);
    if (pthread_create(thread, &small, work, (void *)pid)) exit(2);
    pthread_attr_destroy(&small);
}

/* Receives once from port 1. */
static void *receive(void *at) {
    size_t pid = (size_t)at;
    told[pid] = chanhub_recv(hub, (unsigned)pid, 1);
    pthread_testcancel();
    return NULL;
}

/* One call that looks before it sleeps, since nothing is buffered, or one that sleeps at once. */
static void cancel_one(uint32_t cap) {
    open_hub(2);
    is("made", chanhub_make(hub, 0, cap).port, 1);
    pthread_t thread;
    start(&thread, receive, 1);
    await_entries(hub, 2);
    usleep(20000);
    is("cancelled", pthread_cancel(thread), 0);
    usleep(20000);
    is("sent", chanhub_send(hub, 0, 1, chanhub_number(7)).what, CHANHUB_SENT);
    void *result;
    pthread_join(thread, &result);
    is("the call returned", told[1].what, CHANHUB_GOT);
    is("the call returned", (long long)told[1].value.number, 7);
    is("then the thread was cancelled", result == PTHREAD_CANCELED, 1);
    is("the lock is free", chanhub_exit(hub, 1).what, CHANHUB_DONE);
    chanhub_free(hub);
}

static void cancelled(void) {
    cancel_one(0);
    cancel_one(1);
}

/* The receiver's answer is there, and mostly its thread sleeps still: another's call is refused by BUSY; or it comes later. */
static void second(void) {
    open_hub(2);
    is("made", chanhub_make(hub, 0, 1).port, 1);
    for (unsigned round = 0; round < ROUNDS; round++) {
        pthread_t thread;
        start(&thread, receive, 1);
        await_entries(hub, 2 + 3 * round);
        is("sent", chanhub_send(hub, 0, 1, chanhub_number(round)).what, CHANHUB_SENT);
        chanhub_told other = chanhub_close(hub, 1, 0);
        is("refused", other.what, CHANHUB_FAULT);
        is("by BUSY or behind it", other.fault == CHANHUB_BUSY || other.fault == CHANHUB_NIL_CLOSE, 1);
        pthread_join(thread, NULL);
        is("got", told[1].what, CHANHUB_GOT);
        is("got", (long long)told[1].value.number, round);
        if (other.fault == CHANHUB_BUSY) is_fault("later", chanhub_close(hub, 1, 0), CHANHUB_NIL_CLOSE);
    }
    chanhub_free(hub);
}

/* All others than process 0 receive; returns once all of them have parked. */
static void receive_all(pthread_t *threads, unsigned procs) {
    for (size_t pid = 1; pid < procs; pid++) start(&threads[pid], receive, pid);
    await_entries(hub, procs);
}

static void all_are(pthread_t *threads, unsigned procs, int what) {
    for (unsigned pid = 1; pid < procs; pid++) {
        pthread_join(threads[pid], NULL);
        is("told", told[pid].what, what);
    }
}

/* Soon after the last one has parked, when some still look, and later, when all sleep. */
static void closed(void) {
    for (int round = 0; round < 40; round++) {
        pthread_t threads[PROCS];
        open_hub(PROCS);
        is("made", chanhub_make(hub, 0, round % 2).port, 1);
        receive_all(threads, PROCS);
        if (round % 4 < 2) usleep(20000);
        is("closed", chanhub_close(hub, 0, 1).what, CHANHUB_DONE);
        all_are(threads, PROCS, CHANHUB_DRAINED);
        chanhub_free(hub);
    }
}

static void stalled(void) {
    for (int round = 0; round < 40; round++) {
        pthread_t threads[PROCS];
        open_hub(PROCS);
        is("made", chanhub_make(hub, 0, round % 2).port, 1);
        receive_all(threads, PROCS);
        if (round % 4 < 2) usleep(20000);
        is("the last", chanhub_recv(hub, 0, 1).what, CHANHUB_STALLED);
        all_are(threads, PROCS, CHANHUB_STALLED);
        chanhub_free(hub);
    }
}

/* Neither has a lock or an atomic operation, by which the thread sanitizer would pass over a hand-over that orders nothing. */
static unsigned notes[ROUNDS], misread;

static void *double_notes(void *at) {
    unsigned pid = (unsigned)(size_t)at;
    for (unsigned round = 0; round < ROUNDS; round++) {
        unsigned place = (unsigned)chanhub_recv(hub, pid, 1).value.number;
        misread += notes[place] != round;
        notes[place] = 2 * round;
        chanhub_send(hub, pid, 2, chanhub_number(place));
    }
    return NULL;
}

static void hand_over(uint32_t cap) {
    open_hub(2);
    for (unsigned port = 1; port <= 2; port++) is("made", chanhub_make(hub, 0, cap).port, port);
    pthread_t thread;
    start(&thread, double_notes, 1);
    for (unsigned round = 0; round < ROUNDS; round++) {
        notes[round] = round;
        chanhub_send(hub, 0, 1, chanhub_number(round));
        chanhub_recv(hub, 0, 2);
        misread += notes[round] != 2 * round;
    }
    pthread_join(thread, NULL);
    is("misread", misread, 0);
    chanhub_free(hub);
}

static void handed(void) {
    hand_over(0);
    hand_over(1);
}

int main(int argc, char **argv) {
    static const struct { const char *name; void (*run)(void); } tests[] = {
        { "cancelled", cancelled }, { "second", second }, { "closed", closed }, { "stalled", stalled },
        { "handed", handed },
    };
    alarm(SECONDS);
    for (size_t i = 0; argc == 2 && i < sizeof tests / sizeof *tests; i++) {
        if (strcmp(argv[1], tests[i].name) != 0) continue;
        tests[i].run();
        return tally(argv[1]);
    }
    return 2;
}
