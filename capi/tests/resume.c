/* Calls that are begun, and resumed later:
 *
 *     resume alone       by one thread: each answer, what is refused meanwhile, and for how long a resume waits
 *     resume threads     by two threads that resume one call, and by many that one step ends
 *
 * Linked with --wrap for clock_gettime, which shows by which clock a wait is measured. A test that hangs is ended by an alarm.
 */
#include "tally.h"

#include <pthread.h>
#include <stdlib.h>
#include <time.h>

enum { PROCS = 64, SECONDS = 300 };

static const uint64_t FOR_EVER = UINT64_MAX;
static const uint64_t MILLISECOND = 1000000;

static chanhub *hub;
static atomic_int asked[16]; /* how often each clock was asked by the library */

int __real_clock_gettime(clockid_t clock, struct timespec *time);
int __wrap_clock_gettime(clockid_t clock, struct timespec *time) {
    asked[clock & 15]++;
    return __real_clock_gettime(clock, time);
}

static void open_hub(unsigned edition, unsigned procs) {
    if (chanhub_open(&hub, edition, procs, 1000000)) exit(2);
}

static chanhub_case sends(unsigned port, uint64_t number) {
    return (chanhub_case){ .sends = true, .port = (uint16_t)port, .value = chanhub_number(number) };
}

static chanhub_case receives(unsigned port) {
    return (chanhub_case){ .port = (uint16_t)port };
}

static chanhub_told begin_recv(unsigned pid, unsigned port) {
    chanhub_case one = receives(port);
    return chanhub_begin(hub, pid, &one, 1, false, 0);
}

static uint64_t now(void) {
    struct timespec time;
    __real_clock_gettime(CLOCK_MONOTONIC, &time);
    return (uint64_t)time.tv_sec * 1000 * MILLISECOND + (uint64_t)time.tv_nsec;
}

/* What does not wait is answered as by a select, and leaves nothing open. */
static void at_once(void) {
    open_hub(2, 2);
    is("made", chanhub_make(hub, 0, 1).port, 1);
    chanhub_case cases[2] = { receives(1), sends(1, 5) };
    chanhub_told t = chanhub_begin(hub, 0, cases, 2, false, 0);
    is("sent", t.what, CHANHUB_SENT), is("sent by case", t.index, 1);
    t = chanhub_begin(hub, 0, cases, 2, false, 0);
    is("got", t.what, CHANHUB_GOT), is("got", (long long)t.value.number, 5);
    is("default", chanhub_begin(hub, 0, cases, 1, true, 0).what, CHANHUB_DEFAULT);
    is_fault("nothing is open", chanhub_resume(hub, 0, FOR_EVER), CHANHUB_NOT_PARKED);
    is_fault("no port", begin_recv(0, 9), CHANHUB_NO_PORT);
    is_fault("no process", begin_recv(2, 1), CHANHUB_NO_PROCESS);
    chanhub_case many[17] = { 0 };
    is_fault("cases", chanhub_begin(hub, 0, many, 17, true, 0), CHANHUB_BAD_CALL);
    is_fault("no hub", chanhub_begin(NULL, 0, many, 1, true, 0), CHANHUB_BAD_CALL);
    is_fault("no hub", chanhub_resume(NULL, 0, 0), CHANHUB_BAD_CALL);
    is_fault("no process", chanhub_resume(hub, 256, 0), CHANHUB_BAD_CALL);
    for (unsigned pid = 2; pid < 256; pid++) is_fault("nothing is open", chanhub_resume(hub, pid, 0), CHANHUB_NOT_PARKED);
    is("exit", chanhub_exit(hub, 1).what, CHANHUB_DONE);
    is("a stall at once", begin_recv(0, 1).what, CHANHUB_STALLED);
    is_fault("nothing is open", chanhub_resume(hub, 0, 0), CHANHUB_NOT_PARKED);
    chanhub_free(hub);
}

/* Each other call in the name of this process is refused, and changes nothing. */
static void is_busy(unsigned pid) {
    is_fault("make", chanhub_make(hub, pid, 3), CHANHUB_BUSY);
    is_fault("send", chanhub_send(hub, pid, 1, chanhub_bytes("ab", 2)), CHANHUB_BUSY);
    is_fault("recv", chanhub_recv(hub, pid, 1), CHANHUB_BUSY);
    chanhub_case one = sends(1, 9);
    is_fault("select", chanhub_select(hub, pid, &one, 1, true, 0), CHANHUB_BUSY);
    is_fault("begin", chanhub_begin(hub, pid, &one, 1, false, 0), CHANHUB_BUSY);
    is_fault("close", chanhub_close(hub, pid, 1), CHANHUB_BUSY);
    is_fault("cancel", chanhub_cancel(hub, pid, 0), CHANHUB_BUSY);
    is_fault("exit", chanhub_exit(hub, pid), CHANHUB_BUSY);
}

/* A call is open from the moment at which it parks until its answer is picked up; and then it was as any other. */
static void open_until_picked_up(void) {
    open_hub(2, 2);
    is("made", chanhub_make(hub, 0, 0).port, 1);
    is("waiting", begin_recv(1, 1).what, CHANHUB_WAITING);
    is_busy(1);
    is("waiting", chanhub_resume(hub, 1, 0).what, CHANHUB_WAITING);
    is("sent", chanhub_send(hub, 0, 1, chanhub_number(7)).what, CHANHUB_SENT);
    is_busy(1);
    chanhub_told t = chanhub_resume(hub, 1, FOR_EVER);
    is("got", t.what, CHANHUB_GOT), is("got", (long long)t.value.number, 7);
    is_fault("nothing is open", chanhub_resume(hub, 1, 0), CHANHUB_NOT_PARKED);
    chanhub_case cases[2] = { receives(0), sends(1, 8) };
    is("waiting", chanhub_begin(hub, 1, cases, 2, false, 3).what, CHANHUB_WAITING);
    is("got", (long long)chanhub_recv(hub, 0, 1).value.number, 8);
    t = chanhub_resume(hub, 1, 0);
    is("sent", t.what, CHANHUB_SENT), is("sent by case", t.index, 1);
    cases[0] = sends(1, 6);
    is("waiting", chanhub_begin(hub, 1, cases, 1, false, 0).what, CHANHUB_WAITING);
    is("close", chanhub_close(hub, 0, 1).what, CHANHUB_DONE);
    is("closed", chanhub_resume(hub, 1, 0).what, CHANHUB_CLOSED);
    is("drained", begin_recv(1, 1).what, CHANHUB_DRAINED);
    is("waiting", begin_recv(1, 0).what, CHANHUB_WAITING);
    is("cancel", chanhub_cancel(hub, 0, 1).what, CHANHUB_DONE);
    is_fault("it waits no longer", chanhub_cancel(hub, 0, 1), CHANHUB_NOT_PARKED);
    is("cancelled", chanhub_resume(hub, 1, 0).what, CHANHUB_CANCELLED);
    is("waiting", begin_recv(1, 0).what, CHANHUB_WAITING);
    is("exit", chanhub_exit(hub, 0).what, CHANHUB_DONE);
    is("stalled", chanhub_resume(hub, 1, FOR_EVER).what, CHANHUB_STALLED);
    is("exit", chanhub_exit(hub, 1).what, CHANHUB_DONE);
    has_journal("journal", hub,
        "chanhub journal 2\nprocs 2\n0 make 0\n1 recv 1\n0 send 1 7\n1 select 3 r0 s1:8\n0 recv 1\n1 send 1 6\n0 close 1\n1 recv 1\n"
        "1 recv 0\n0 cancel 1\n0 cancel 1\n1 recv 0\n0 exit\n1 exit\n");
    chanhub_free(hub);
}

/* A resume waits for as long as it is told on the monotonic clock, and no longer, whether it looks before it sleeps or not. */
static void for_so_long(uint32_t cap) {
    open_hub(2, 2);
    is("made", chanhub_make(hub, 0, cap).port, 1);
    is("waiting", begin_recv(1, 1).what, CHANHUB_WAITING);
    uint64_t times[] = { 0, 1, 1000, 30 * MILLISECOND, 1100 * MILLISECOND };
    for (size_t i = 0; i < sizeof times / sizeof *times; i++) {
        uint64_t began = now();
        is("waiting", chanhub_resume(hub, 1, times[i]).what, CHANHUB_WAITING);
        uint64_t took = now() - began;
        is("it waits for so long", took >= times[i], 1);
        is("it waits no longer", took < times[i] + 5000 * MILLISECOND, 1);
    }
    is("a clock was asked", asked[CLOCK_MONOTONIC] > 0, 1);
    is("no other clock was asked", asked[CLOCK_REALTIME], 0);
    is("sent", chanhub_send(hub, 0, 1, chanhub_number(3)).what, CHANHUB_SENT);
    is("got", (long long)chanhub_resume(hub, 1, UINT64_MAX - 1).value.number, 3);
    chanhub_free(hub);
}

static void alone(void) {
    at_once();
    open_until_picked_up();
    for_so_long(0);
    for_so_long(1);
}

struct resumer { pthread_t thread; unsigned pid; uint64_t nanoseconds; chanhub_told told; };

/* Resumes until the time for it is not over. */
static void *resume(void *at) {
    struct resumer *r = at;
    do r->told = chanhub_resume(hub, r->pid, r->nanoseconds);
    while (r->told.what == CHANHUB_WAITING);
    return NULL;
}

static void start(struct resumer *r, unsigned pid, uint64_t nanoseconds) {
    r->pid = pid;
    r->nanoseconds = nanoseconds;
    if (pthread_create(&r->thread, NULL, resume, r)) exit(2);
}

/* Of two that resume one call one waits, and the other is refused. */
static void two_resume(void) {
    open_hub(2, 2);
    is("made", chanhub_make(hub, 0, 1).port, 1);
    for (unsigned round = 0; round < 100; round++) {
        struct resumer two[2];
        is("waiting", begin_recv(1, 1).what, CHANHUB_WAITING);
        start(&two[0], 1, FOR_EVER);
        start(&two[1], 1, FOR_EVER);
        usleep(round % 4 * 200);
        is("sent", chanhub_send(hub, 0, 1, chanhub_number(round)).what, CHANHUB_SENT);
        unsigned got = 0, refused = 0;
        for (int i = 0; i < 2; i++) {
            pthread_join(two[i].thread, NULL);
            uint8_t fault = two[i].told.fault;
            got += two[i].told.what == CHANHUB_GOT && two[i].told.value.number == round;
            refused += fault == CHANHUB_BUSY || fault == CHANHUB_NOT_PARKED;
        }
        is("one gets it", got, 1);
        is("the other is refused", refused, 1);
    }
    chanhub_free(hub);
}

/* While another thread waits in a resume, or in a receive, a resume is refused at once. */
static void *receive(void *told) {
    *(chanhub_told *)told = chanhub_recv(hub, 1, 1);
    return NULL;
}

static void refused_meanwhile(void) {
    open_hub(2, 2);
    is("made", chanhub_make(hub, 0, 1).port, 1);
    pthread_t thread;
    chanhub_told told;
    if (pthread_create(&thread, NULL, receive, &told)) exit(2);
    await_entries(hub, 2);
    usleep(20000);
    is_busy(1);
    is_fault("resume", chanhub_resume(hub, 1, FOR_EVER), CHANHUB_BUSY);
    is("sent", chanhub_send(hub, 0, 1, chanhub_number(4)).what, CHANHUB_SENT);
    pthread_join(thread, NULL);
    is("got", (long long)told.value.number, 4);
    chanhub_free(hub);
}

/* One step ends 63 calls: some resumed for ever, some again and again, and some not yet. */
static void one_step_ends_many(bool stalls) {
    static struct resumer all[PROCS];
    open_hub(2, PROCS);
    is("made", chanhub_make(hub, 0, stalls).port, 1);
    for (unsigned pid = 1; pid < PROCS; pid++) is("waiting", begin_recv(pid, 1).what, CHANHUB_WAITING);
    for (unsigned pid = 1; pid < PROCS; pid += 2) start(&all[pid], pid, pid % 4 == 1 ? FOR_EVER : pid * 10000);
    usleep(20000);
    chanhub_told t = stalls ? chanhub_recv(hub, 0, 1) : chanhub_close(hub, 0, 1);
    is("the step", t.what, stalls ? CHANHUB_STALLED : CHANHUB_DONE);
    for (unsigned pid = 2; pid < PROCS; pid += 2) start(&all[pid], pid, FOR_EVER);
    for (unsigned pid = 1; pid < PROCS; pid++) {
        pthread_join(all[pid].thread, NULL);
        is("told", all[pid].told.what, stalls ? CHANHUB_STALLED : CHANHUB_DRAINED);
    }
    chanhub_free(hub);
}

static void threads(void) {
    two_resume();
    refused_meanwhile();
    one_step_ends_many(false);
    one_step_ends_many(true);
}

int main(int argc, char **argv) {
    alarm(SECONDS);
    if (argc != 2) return 2;
    if (strcmp(argv[1], "alone") == 0) alone();
    else if (strcmp(argv[1], "threads") == 0) threads();
    return tally(argv[1]);
}
