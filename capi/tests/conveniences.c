/* What makes chanhub.h convenient, by one thread: the calls that never wait, the texts, the version, and how many steps are left. */
#include "tally.h"

#include <limits.h>

static void has_text(const char *name, const char *found, const char *wanted) {
    is(name, found && strcmp(found, wanted) == 0, 1);
}

static void tries(void) {
    chanhub *hub;
    is("opened", chanhub_open(&hub, 2, 1, 100), 0);
    is("made", chanhub_make(hub, 0, 1).port, 1);
    is("nothing there", chanhub_try_recv(hub, 0, 1).what, CHANHUB_DEFAULT);
    chanhub_told t = chanhub_try_send(hub, 0, 1, chanhub_bytes("ab", 2));
    is("sent", t.what, CHANHUB_SENT), is("by case", t.index, 0);
    is("no room", chanhub_try_send(hub, 0, 1, chanhub_number(7)).what, CHANHUB_DEFAULT);
    t = chanhub_try_recv(hub, 0, 1);
    is("got", t.what, CHANHUB_GOT);
    is("got bytes", t.value.is_bytes && t.value.length == 2 && memcmp(t.value.bytes, "ab", 2) == 0, 1);
    is("a number", chanhub_try_send(hub, 0, 1, chanhub_number(7)).what, CHANHUB_SENT);
    is("close", chanhub_close(hub, 0, 1).what, CHANHUB_DONE);
    is("closed", chanhub_try_send(hub, 0, 1, chanhub_number(8)).what, CHANHUB_CLOSED);
    is("what is left", (long long)chanhub_try_recv(hub, 0, 1).value.number, 7);
    is("drained", chanhub_try_recv(hub, 0, 1).what, CHANHUB_DRAINED);
    is("port 0", chanhub_try_recv(hub, 0, 0).what, CHANHUB_DEFAULT);
    is("port 0", chanhub_try_send(hub, 0, 0, chanhub_number(9)).what, CHANHUB_DEFAULT);
    is_fault("no port", chanhub_try_recv(hub, 0, 2), CHANHUB_NO_PORT);
    is_fault("a port that would be 1 in 16 bits", chanhub_try_recv(hub, 0, 65537), CHANHUB_BAD_CALL);
    is_fault("a port that would be 1 in 16 bits", chanhub_try_send(hub, 0, 65537, chanhub_number(1)), CHANHUB_BAD_CALL);
    char long_bytes[33] = { 0 };
    is_fault("33 bytes", chanhub_try_send(hub, 0, 1, chanhub_bytes(long_bytes, 33)), CHANHUB_BAD_CALL);
    is_fault("no process", chanhub_try_recv(hub, 1, 1), CHANHUB_NO_PROCESS);
    is_fault("a process that would be 0 in a byte", chanhub_try_recv(hub, 256, 1), CHANHUB_BAD_CALL);
    is_fault("no hub", chanhub_try_recv(NULL, 0, 1), CHANHUB_BAD_CALL);
    is_fault("no hub", chanhub_try_send(NULL, 0, 1, chanhub_number(1)), CHANHUB_BAD_CALL);
    has_journal("journal", hub,
        "chanhub journal 2\nprocs 1\n0 make 1\n0 select 0 r1 default\n0 select 0 s1:#6162 default\n0 select 0 s1:7 default\n"
        "0 select 0 r1 default\n0 select 0 s1:7 default\n0 close 1\n0 select 0 s1:8 default\n0 select 0 r1 default\n"
        "0 select 0 r1 default\n0 select 0 r0 default\n0 select 0 s0:9 default\n0 select 0 r2 default\n");
    chanhub_free(hub);
}

/* A call that waits is met by a try of the other side. */
static void tries_meet_waiting_calls(void) {
    chanhub *hub;
    is("opened", chanhub_open(&hub, 1, 2, 100), 0);
    is("made", chanhub_make(hub, 0, 0).port, 1);
    chanhub_case receive = { .port = 1 }, send = { .sends = true, .port = 1, .value = chanhub_number(6) };
    is("waiting", chanhub_begin(hub, 1, &receive, 1, false, 0).what, CHANHUB_WAITING);
    is_fault("busy", chanhub_try_recv(hub, 1, 1), CHANHUB_BUSY);
    is("sent", chanhub_try_send(hub, 0, 1, chanhub_number(5)).what, CHANHUB_SENT);
    is("got", (long long)chanhub_resume(hub, 1, 0).value.number, 5);
    is("waiting", chanhub_begin(hub, 1, &send, 1, false, 0).what, CHANHUB_WAITING);
    is("got", (long long)chanhub_try_recv(hub, 0, 1).value.number, 6);
    is("sent", chanhub_resume(hub, 1, 0).what, CHANHUB_SENT);
    chanhub_free(hub);
}

/* A text for each number up to the last, no two of them alike, and one for all other numbers. */
static void are_texts(const char *name, const char *(*text_of)(int), int first, int last) {
    static const int others[] = { -1, 255, 256, INT_MAX, INT_MIN };
    const char *unknown = text_of(last + 1);
    is(name, unknown != NULL, 1);
    for (unsigned i = 0; i < sizeof others / sizeof *others; i++) has_text(name, text_of(others[i]), unknown);
    for (int number = first; number <= last; number++) {
        is(name, text_of(number) && *text_of(number), 1);
        is(name, strcmp(text_of(number), unknown) != 0, 1);
        for (int other = first; other < number; other++) is(name, strcmp(text_of(number), text_of(other)) != 0, 1);
    }
}

static void texts(void) {
    static const char *const names[] = {
        "made", "sent", "got", "drained", "closed", "default", "done", "parked", "stalled", "fault", "cancelled", "timed out",
    };
    are_texts("errors", chanhub_strerror, 0, 7);
    are_texts("faults", chanhub_strfault, 0, CHANHUB_NOT_GONE);
    are_texts("kinds", chanhub_what_name, CHANHUB_MADE, CHANHUB_TIMED_OUT);
    for (int what = CHANHUB_MADE; what <= CHANHUB_TIMED_OUT; what++) has_text("kind", chanhub_what_name(what), names[what - 1]);
    has_text("no kind", chanhub_what_name(0), chanhub_what_name(99));
    has_text("no port", chanhub_strfault(CHANHUB_NO_PORT), "no such port");
    has_text("a full journal", chanhub_strfault(CHANHUB_JOURNAL_FULL), "the hub has reached its step limit");
    chanhub *hub;
    has_text("memory", chanhub_strerror(3), "out of memory");
    has_text("procs", chanhub_strerror(chanhub_open(&hub, 1, 0, 1)), "the number of processes must be between 1 and 64, or 63 with a clock");
    has_text("edition", chanhub_strerror(chanhub_open(&hub, 4, 1, 1)), "the edition must be 1, 2 or 3, and 2 or 3 with a clock");
}

static void version(void) {
    char wanted[32];
    snprintf(wanted, sizeof wanted, "%d.%d", CHANHUB_VERSION_MAJOR, CHANHUB_VERSION_MINOR);
    has_text("version", chanhub_version(), wanted);
    has_text("version", chanhub_version(), "1.0");
}

enum { LIMIT = 20, PROCS = 4 };

/* Whether so many steps are left, and the journal says the same: it has two head lines. */
static void are_left(const char *name, chanhub *hub, unsigned exits, long long wanted) {
    is(name, (long long)chanhub_steps_left(hub), wanted);
    is(name, LIMIT - ((long long)lines_of(hub) - 2 - exits), wanted);
}

/* Each step counts that the journal keeps, and no exit; what is refused does not. */
static void steps_left(void) {
    chanhub *hub;
    chanhub_case nothing = { .port = 0 };
    is("opened", chanhub_open(&hub, 2, PROCS, LIMIT), 0);
    are_left("none made", hub, 0, 20);
    is("made", chanhub_make(hub, 0, 1).what, CHANHUB_MADE), are_left("made", hub, 0, 19);
    is("sent", chanhub_send(hub, 0, 1, chanhub_bytes("a", 1)).what, CHANHUB_SENT), are_left("sent", hub, 0, 18);
    is("got", chanhub_recv(hub, 0, 1).what, CHANHUB_GOT), are_left("got", hub, 0, 17);
    is("default", chanhub_try_recv(hub, 0, 1).what, CHANHUB_DEFAULT), are_left("default", hub, 0, 16);
    is_fault("no port", chanhub_close(hub, 0, 9), CHANHUB_NO_PORT), are_left("a fault that is kept", hub, 0, 15);
    is_fault("capacity", chanhub_make(hub, 0, 1025), CHANHUB_BAD_CAP), are_left("a fault that is kept", hub, 0, 14);
    is_fault("not parked", chanhub_cancel(hub, 0, 1), CHANHUB_NOT_PARKED), are_left("a fault that is kept", hub, 0, 13);
    is_fault("no process", chanhub_recv(hub, 4, 1), CHANHUB_NO_PROCESS), are_left("a fault that is not", hub, 0, 13);
    is_fault("bad call", chanhub_recv(hub, 0, 70000), CHANHUB_BAD_CALL), are_left("a fault that is not", hub, 0, 13);
    is_fault("no process", chanhub_exit(hub, 4), CHANHUB_NO_PROCESS), are_left("no exit", hub, 0, 13);
    is("exit", chanhub_exit(hub, 3).what, CHANHUB_DONE), are_left("an exit", hub, 1, 13);
    is_fault("gone", chanhub_exit(hub, 3), CHANHUB_GONE), are_left("a second exit", hub, 1, 13);
    is("waiting", chanhub_begin(hub, 1, &nothing, 1, false, 0).what, CHANHUB_WAITING), are_left("waiting", hub, 1, 12);
    is_fault("busy", chanhub_exit(hub, 1), CHANHUB_BUSY), are_left("no exit", hub, 1, 12);
    is("cancel", chanhub_cancel(hub, 0, 1).what, CHANHUB_DONE), are_left("a cancel", hub, 1, 11);
    is("cancelled", chanhub_resume(hub, 1, 0).what, CHANHUB_CANCELLED), are_left("a resume", hub, 1, 11);
    is("waiting", chanhub_begin(hub, 1, &nothing, 1, false, 0).what, CHANHUB_WAITING), are_left("waiting", hub, 1, 10);
    is("exit", chanhub_exit(hub, 2).what, CHANHUB_DONE), are_left("an exit", hub, 2, 10);
    is("stalled", chanhub_recv(hub, 0, 1).what, CHANHUB_STALLED), are_left("stalled", hub, 2, 9);
    is("stalled", chanhub_resume(hub, 1, 0).what, CHANHUB_STALLED), are_left("stalled", hub, 2, 9);
    for (long long left = 8; left >= 0; left--) {
        is("default", chanhub_try_recv(hub, 0, 1).what, CHANHUB_DEFAULT);
        are_left("fewer", hub, 2, left);
    }
    is_fault("full", chanhub_try_recv(hub, 0, 1), CHANHUB_JOURNAL_FULL), are_left("full", hub, 2, 0);
    is("exit", chanhub_exit(hub, 0).what, CHANHUB_DONE), are_left("an exit of a full hub", hub, 3, 0);
    is("exit", chanhub_exit(hub, 1).what, CHANHUB_DONE), are_left("an exit of a full hub", hub, 4, 0);
    chanhub_free(hub);
}

/* An exit that ends the calls of all others is one exit. */
static void exits_that_stall(void) {
    chanhub *hub;
    chanhub_case nothing = { .port = 0 };
    is("opened", chanhub_open(&hub, 1, 2, LIMIT), 0);
    is("waiting", chanhub_begin(hub, 1, &nothing, 1, false, 0).what, CHANHUB_WAITING);
    is("exit", chanhub_exit(hub, 0).what, CHANHUB_DONE), are_left("an exit", hub, 1, LIMIT - 1);
    is("stalled", chanhub_resume(hub, 1, 0).what, CHANHUB_STALLED);
    chanhub_free(hub);
}

static void no_end_of_steps(void) {
    chanhub *hub;
    is("no hub", chanhub_steps_left(NULL) == 0, 1);
    is("opened", chanhub_open(&hub, 2, 1, 1000000), 0);
    is("the most", (long long)chanhub_steps_left(hub), 1000000);
    chanhub_free(hub);
    is("opened", chanhub_open_endless(&hub, 1, 1, 2, NULL, NULL), 0);
    for (unsigned port = 1; port <= 6; port++) {
        is("endless", chanhub_steps_left(hub) == UINT64_MAX, 1);
        is("made", chanhub_make(hub, 0, 0).port, port);
    }
    is("cut", chanhub_cut(hub), 1);
    is("endless", chanhub_steps_left(hub) == UINT64_MAX, 1);
    chanhub_free(hub);
}

int main(void) {
    tries();
    tries_meet_waiting_calls();
    texts();
    version();
    steps_left();
    exits_that_stall();
    no_end_of_steps();
    return tally("conveniences");
}
