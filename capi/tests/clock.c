/* Memory refused to each step in turn, while deadlines pass: nothing hangs, whoever is refused is told, a deadlock is told as ever, and
 * the journal has the steps that were made.
 *
 * Linked with the library's sources and with --wrap for the steps of the proved library. A test that hangs is ended by an alarm.
 */
#include "hub_c.h"
#include "tally.h"

#include <pthread.h>
#include <stdlib.h>

enum { SECONDS = 300, MOST_STEPS = 40, MOST_TRIES = 100 };

static const uint64_t FAR_OFF = CHANHUB_NEVER - 1;

static chanhub *hub;
static int steps, first, count; /* the steps so far; `count` of them from `first` on are refused */
static int refused, by_clock;   /* how many were, and how many of the clock's */

/* Whether this step is refused, which is told then. An exit never is. */
static bool is_refused(uint8_t pid, struct told *told) {
    int step = steps++;
    if (step < first || step >= first + count) return false;
    *told = (struct told){ .it = { .what = CHANHUB_FAULT, .fault = CHANHUB_NO_MEMORY } };
    refused++;
    by_clock += pid == 2;
    return true;
}

#define REFUSED(name, parameters, arguments) \
    void __real_##name parameters; \
    void __wrap_##name parameters; \
    void __wrap_##name parameters { \
        if (!is_refused(pid, told)) __real_##name arguments; \
    }

REFUSED(hub_c_recv, (struct hub *h, uint8_t pid, uint16_t port, struct told *told), (h, pid, port, told))
REFUSED(hub_c_call,
        (struct hub *h, uint8_t pid, const chanhub_case *cases, size_t number, uint8_t has_default, uint64_t word, struct told *told),
        (h, pid, cases, number, has_default, word, told))
REFUSED(hub_c_cancel, (struct hub *h, uint8_t pid, uint8_t other, struct told *told), (h, pid, other, told))

/* A call, again while memory is refused to it, and then nothing is open, and no deadline is left. */
#define GRANTED(t, pid, call) \
    for (int tries = 0; is_short(t = call) && tries < MOST_TRIES; tries++) { \
        is_fault("nothing is open", chanhub_resume(hub, pid, 0), CHANHUB_NOT_PARKED); \
        is("no deadline is left", chanhub_expire(hub, pid), 0); \
    }

static bool is_short(chanhub_told t) {
    return t.what == CHANHUB_FAULT && t.fault == CHANHUB_NO_MEMORY;
}

static chanhub_told begin_recv_until(unsigned pid, uint64_t deadline) {
    chanhub_case one = { .port = 1 };
    return chanhub_begin_until(hub, pid, &one, 1, false, 0, deadline);
}

/* Resumes a call whose deadline has passed, again where the clock was refused memory; it is open then. */
static chanhub_told resumed(unsigned pid) {
    chanhub_told t;
    for (int tries = 0; (t = chanhub_resume(hub, pid, CHANHUB_NEVER)).what == CHANHUB_WAITING && tries < MOST_TRIES; tries++) {
        is("why it waits", t.fault, CHANHUB_NO_MEMORY);
        is_fault("it is open", chanhub_exit(hub, pid), CHANHUB_BUSY);
    }
    return t;
}

static bool open_hub(void) {
    chanhub_options options = { .procs = 2, .limit = 1000, .clock = true };
    int cause;
    for (int tries = 0; (cause = chanhub_open_with(&hub, &options)) == 3 && tries < MOST_TRIES; tries++) is("no hub", hub == NULL, 1);
    is("opened", cause, 0);
    return cause == 0;
}

/* How often this stands in the journal. */
static int in_journal(const char *line) {
    size_t length;
    char *text = chanhub_journal(hub, &length);
    char *end = text ? realloc(NULL, length + 1) : NULL;
    int found = 0;
    if (!end) exit(2);
    memcpy(end, text, length);
    end[length] = '\0';
    for (char *at = end; (at = strstr(at, line)); at++) found++;
    free(end);
    chanhub_free_text(text);
    return found;
}

/* Process 1 waits without a deadline. Those of process 0 pass: one while the thread waits, one before it does. Then a value comes first.
 * At last process 0 exits, and process 1 is told of the deadlock. */
static void run(int first_refused, int how_many) {
    chanhub_told t;
    chanhub_case one = { .port = 2 };
    steps = refused = by_clock = 0, first = first_refused, count = how_many;
    if (!open_hub()) return;
    GRANTED(t, 0, chanhub_make(hub, 0, 0));
    GRANTED(t, 0, chanhub_make(hub, 0, 1));
    GRANTED(t, 1, chanhub_begin(hub, 1, &one, 1, false, 0));
    is("waiting", t.what, CHANHUB_WAITING);
    GRANTED(t, 0, chanhub_recv_until(hub, 0, 1, chanhub_in(5000000)));
    if (t.what == CHANHUB_WAITING) t = resumed(0);
    is("timed out", t.what, CHANHUB_TIMED_OUT);
    GRANTED(t, 0, begin_recv_until(0, FAR_OFF));
    is("waiting", t.what, CHANHUB_WAITING);
    is("it passes", chanhub_expire(hub, 0), 1);
    is("timed out", resumed(0).what, CHANHUB_TIMED_OUT);
    GRANTED(t, 0, chanhub_send(hub, 0, 2, chanhub_number(5)));
    is("sent", t.what, CHANHUB_SENT);
    is("got", chanhub_resume(hub, 1, 0).what, CHANHUB_GOT);
    GRANTED(t, 1, chanhub_begin(hub, 1, &one, 1, false, 0));
    GRANTED(t, 0, begin_recv_until(0, FAR_OFF));
    is("waiting", t.what, CHANHUB_WAITING);
    is("it passes", chanhub_expire(hub, 0), 1);
    is("timed out", resumed(0).what, CHANHUB_TIMED_OUT);
    is("exit", chanhub_exit(hub, 0).what, CHANHUB_DONE);
    is("stalled", chanhub_resume(hub, 1, 0).what, CHANHUB_STALLED);
    is("exit", chanhub_exit(hub, 1).what, CHANHUB_DONE);
    is("the clock exits once", in_journal("\n2 exit\n"), 1);
    is("each was ended by the clock", in_journal("\n2 cancel 0\n"), 3);
    chanhub_free(hub);
}

/* The clock was to wait when process 0 exited, and was refused memory. It has exited, so deadlines are at an end. */
static void without_the_clock(void) {
    chanhub_options options = { .procs = 3, .clock = true };
    steps = 0, first = 0, count = 0;
    is("opened", chanhub_open_with(&hub, &options), 0);
    is("made", chanhub_make(hub, 0, 0).port, 1);
    is("waiting", begin_recv_until(0, FAR_OFF).what, CHANHUB_WAITING);
    is("it passes", chanhub_expire(hub, 0), 1);
    steps = 0, first = 1, count = MOST_STEPS;
    is("timed out", chanhub_resume(hub, 0, 0).what, CHANHUB_TIMED_OUT);
    is_fault("the clock is to wait first", chanhub_recv(hub, 1, 1), CHANHUB_NO_MEMORY);
    is_fault("the clock is to wait first", chanhub_make(hub, 1, 1), CHANHUB_NO_MEMORY);
    is("exit", chanhub_exit(hub, 0).what, CHANHUB_DONE);
    first = count = 0;
    is("a try", chanhub_recv_until(hub, 1, 1, 0).what, CHANHUB_TIMED_OUT);
    is_fault("no clock", chanhub_recv_until(hub, 1, 1, FAR_OFF), CHANHUB_NO_MEMORY);
    is_fault("nothing is open", chanhub_resume(hub, 1, 0), CHANHUB_NOT_PARKED);
    chanhub_case receive = { .port = 1 };
    is("waiting", chanhub_begin(hub, 2, &receive, 1, false, 0).what, CHANHUB_WAITING);
    is("stalled", chanhub_recv(hub, 1, 1).what, CHANHUB_STALLED);
    is("stalled", chanhub_resume(hub, 2, 0).what, CHANHUB_STALLED);
    has_journal("journal", hub,
        "chanhub journal 2\nprocs 4\n3 recv 0\n0 make 0\n0 select 0 r1 default\n0 cancel 3\n0 recv 1\n3 cancel 0\n3 exit\n0 exit\n"
        "1 select 0 r1 default\n1 select 0 r1 default\n2 recv 1\n1 recv 1\n");
    chanhub_free(hub);
}

/* Memory refused to each step in turn of a hub that follows a journal. A call that is refused it is made again. If a step of the
 * clock is refused it, the hub ends there, and all are told so, since nobody could make that step again. */
static void while_following(bool goes_on) {
    static const char *const journal =
        "chanhub journal 2\nprocs 3\n2 recv 0\n0 make 0\n0 select 0 r1 default\n0 cancel 2\n0 recv 1\n1 make 1\n2 cancel 0\n"
        "2 recv 0\n1 exit\n";
    enum { OPENING, TRY, WAKE, WAIT, CANCEL, CLOCK_WAITS, NONE };
    chanhub_options options = { .journal = journal, .journal_length = strlen(journal), .goes_on = goes_on };
    for (int step = OPENING; step <= NONE; step++) {
        bool ends = step == CANCEL || step == CLOCK_WAITS;
        steps = refused = 0, first = step, count = 1;
        is("opened", chanhub_open_with(&hub, &options), step == OPENING ? 3 : 0);
        if (step == OPENING) continue;
        is("made", chanhub_make(hub, 0, 0).port, 1);
        chanhub_told t;
        GRANTED(t, 0, begin_recv_until(0, 0));
        is("waiting", t.what, CHANHUB_WAITING);
        is("made", chanhub_make(hub, 1, 1).port, 2);
        t = chanhub_resume(hub, 0, CHANHUB_NEVER);
        if (step == CANCEL) is_fault("its call", t, CHANHUB_DIVERGED);
        else is("its call", t.what, CHANHUB_TIMED_OUT);
        t = chanhub_exit(hub, 1);
        is("what it is told", t.what, ends ? CHANHUB_FAULT : CHANHUB_DONE);
        is("the clock's step", (long long)t.value.number, !ends ? 0 : step == CANCEL ? 7 : 8);
        is("one was refused", refused, step != NONE);
        chanhub_free(hub);
    }
}

/* A thread waits when the last step of a journal leaves it alone, and the clock is refused memory to wait. The clock exits when
 * somebody asks for an exit, and the thread is told of the deadlock. */
static void *waits(void *unused) {
    is("stalled", chanhub_recv(hub, 0, 1).what, CHANHUB_STALLED);
    return unused;
}

static void an_exit_of_the_clock_ends_calls(void) {
    static const char *const journal =
        "chanhub journal 2\nprocs 3\n2 recv 0\n0 make 0\n0 select 0 r1 default\n0 cancel 2\n0 recv 1\n2 cancel 0\n0 recv 1\n1 exit\n";
    chanhub_options options = { .journal = journal, .journal_length = strlen(journal), .goes_on = true };
    pthread_t thread;
    first = count = 0;
    is("opened", chanhub_open_with(&hub, &options), 0);
    is("made", chanhub_make(hub, 0, 0).port, 1);
    is("timed out", chanhub_recv_until(hub, 0, 1, FAR_OFF).what, CHANHUB_TIMED_OUT);
    pthread_create(&thread, NULL, waits, NULL);
    await_entries(hub, 7);
    usleep(20000);
    first = steps, count = MOST_STEPS;
    is("exit", chanhub_exit(hub, 1).what, CHANHUB_DONE);
    usleep(20000);
    is_fault("exited", chanhub_exit(hub, 1), CHANHUB_GONE);
    pthread_join(thread, NULL);
    is("the clock exits", in_journal("\n2 exit\n"), 1);
    chanhub_free(hub);
}

int main(void) {
    int runs = 0, clocks = 0;
    alarm(SECONDS);
    for (int how_many = 1; how_many <= 4; how_many++) {
        for (int step = 0; step < MOST_STEPS; step++) {
            run(step, how_many);
            runs += refused > 0;
            clocks += by_clock > 0;
        }
    }
    is("steps were refused", runs > 60, 1);
    is("steps of the clock were refused", clocks > 20, 1);
    without_the_clock();
    while_following(false);
    while_following(true);
    an_exit_of_the_clock_ends_calls();
    printf("%d runs with refusals, %d of them of the clock's\n", runs, clocks);
    return tally("clock");
}
