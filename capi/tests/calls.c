/* Each call of chanhub.h, by one thread with a stack of 64 KB, or the least that the machine has: what it returns, and the journal at the
 * end.
 */
#include "tally.h"

#include <pthread.h>
#include <stdlib.h>
#include <unistd.h>

static void openings(void) {
    chanhub *hub;
    is("no process", chanhub_open(&hub, 1, 0, 10), 1);
    is("65 processes", chanhub_open(&hub, 1, 65, 10), 1);
    is("processes that would be 1 in a byte", chanhub_open(&hub, 1, 257, 10), 1);
    is("no step", chanhub_open(&hub, 2, 1, 0), 2);
    is("too many steps", chanhub_open(&hub, 2, 1, 1000001), 2);
    is("edition 0", chanhub_open(&hub, 0, 1, 1), 4);
    is("edition 4", chanhub_open(&hub, 4, 1, 1), 4);
    is("an edition that would be 1 in a byte", chanhub_open(&hub, 257, 1, 1), 4);
    is("nothing is put", hub == NULL, 1);
    chanhub_free(hub);
    is("the most", chanhub_open(&hub, 2, 64, 1000000), 0);
    chanhub_free(hub);
}

/* In edition 1, with one process: all that does not wait. */
static void edition_one(void) {
    chanhub *hub;
    is("opened", chanhub_open(&hub, 1, 1, 100), 0);
    chanhub_told t = chanhub_make(hub, 0, 2);
    is("made", t.what, CHANHUB_MADE), is("port", t.port, 1);
    t = chanhub_make(hub, 0, 0);
    is("made", t.what, CHANHUB_MADE), is("port", t.port, 2);
    t = chanhub_send(hub, 0, 1, chanhub_number(UINT64_MAX));
    is("sent", t.what, CHANHUB_SENT), is("sent by case", t.index, 0);
    chanhub_counts c = chanhub_look(hub, 1);
    is("look", c.made && !c.closed && c.cap == 2 && c.sent == 1 && c.received == 0, 1);
    t = chanhub_recv(hub, 0, 1);
    is("got", t.what, CHANHUB_GOT), is("got", t.value.number == UINT64_MAX && !t.value.is_bytes, 1);
    chanhub_case cases[3] = { { true, 2, chanhub_number(5) }, { true, 1, chanhub_number(6) }, { false, 1, { 0 } } };
    t = chanhub_select(hub, 0, cases, 3, false, 9);
    is("select", t.what, CHANHUB_SENT), is("select by case", t.index, 1);
    t = chanhub_select(hub, 0, cases, 1, true, 0);
    is("default", t.what, CHANHUB_DEFAULT);
    t = chanhub_recv(hub, 0, 2);
    is("alone", t.what, CHANHUB_STALLED);
    is("close", chanhub_close(hub, 0, 1).what, CHANHUB_DONE);
    is("closed", chanhub_send(hub, 0, 1, chanhub_number(1)).what, CHANHUB_CLOSED);
    is("got", chanhub_recv(hub, 0, 1).value.number, 6);
    is("drained", chanhub_recv(hub, 0, 1).what, CHANHUB_DRAINED);
    is("look", chanhub_look(hub, 1).closed, 1);
    is_fault("closed", chanhub_close(hub, 0, 1), CHANHUB_ALREADY_CLOSED);
    is_fault("nil close", chanhub_close(hub, 0, 0), CHANHUB_NIL_CLOSE);
    is_fault("no port", chanhub_recv(hub, 0, 65535), CHANHUB_NO_PORT);
    is_fault("port", chanhub_recv(hub, 0, 65537), CHANHUB_BAD_CALL);
    is_fault("capacity", chanhub_make(hub, 0, 1025), CHANHUB_BAD_CAP);
    is_fault("process", chanhub_recv(hub, 1, 1), CHANHUB_NO_PROCESS);
    is_fault("process", chanhub_recv(hub, 256, 1), CHANHUB_BAD_CALL);
    is_fault("no hub", chanhub_recv(NULL, 0, 1), CHANHUB_BAD_CALL);
    is_fault("bytes", chanhub_send(hub, 0, 1, chanhub_bytes("a", 1)), CHANHUB_BAD_CALL);
    is_fault("cancel", chanhub_cancel(hub, 0, 0), CHANHUB_BAD_CALL);
    is("nothing is given still", chanhub_select(hub, 0, NULL, 0, true, 0).what, CHANHUB_DEFAULT);
    chanhub_case many[17] = { 0 };
    is_fault("cases", chanhub_select(hub, 0, many, 9, true, 0), CHANHUB_TOO_MANY_CASES);
    is_fault("cases", chanhub_select(hub, 0, many, 17, true, 0), CHANHUB_BAD_CALL);
    is("look at no port", chanhub_look(hub, 0).made || chanhub_look(hub, 3).made || chanhub_look(hub, 70000).made, 0);
    is("exit", chanhub_exit(hub, 0).what, CHANHUB_DONE);
    is_fault("gone", chanhub_recv(hub, 0, 1), CHANHUB_GONE);
    has_journal("journal", hub,
        "chanhub journal 1\nprocs 1\n0 make 2\n0 make 0\n0 send 1 18446744073709551615\n0 recv 1\n0 select 9 s2:5 s1:6 r1\n"
        "0 select 0 s2:5 default\n0 recv 2\n0 close 1\n0 send 1 1\n0 recv 1\n0 recv 1\n0 close 1\n0 close 0\n0 recv 65535\n"
        "0 make 1025\n0 select 0 default\n0 select 0 r0 r0 r0 r0 r0 r0 r0 r0 r0 default\n0 exit\n");
    chanhub_free(hub);
}

/* In edition 2: bytes, sixteen cases, and the limit of steps. */
static void edition_two(void) {
    chanhub *hub;
    is("opened", chanhub_open(&hub, 2, 1, 7), 0);
    is("made", chanhub_make(hub, 0, 3).port, 1);
    char bytes[32];
    for (int i = 0; i < 32; i++) bytes[i] = (char)(255 - i);
    is("sent", chanhub_send(hub, 0, 1, chanhub_bytes(bytes, 32)).what, CHANHUB_SENT);
    is("sent", chanhub_send(hub, 0, 1, chanhub_bytes(NULL, 0)).what, CHANHUB_SENT);
    chanhub_case cases[16] = { 0 };
    cases[15] = (chanhub_case){ true, 1, chanhub_bytes("ab", 2) };
    chanhub_told t = chanhub_select(hub, 0, cases, 16, false, 3);
    is("sent", t.what, CHANHUB_SENT), is("sent by case", t.index, 15);
    t = chanhub_recv(hub, 0, 1);
    is("got bytes", t.value.is_bytes && t.value.length == 32 && memcmp(t.value.bytes, bytes, 32) == 0, 1);
    t = chanhub_recv(hub, 0, 1);
    is("got no bytes", t.value.is_bytes && t.value.length == 0, 1);
    char long_bytes[33] = { 0 };
    cases[15].value = chanhub_bytes(long_bytes, 33);
    is_fault("33 bytes", chanhub_send(hub, 0, 1, cases[15].value), CHANHUB_BAD_CALL);
    is_fault("33 bytes", chanhub_select(hub, 0, cases, 16, false, 0), CHANHUB_BAD_CALL);
    is_fault("no such process", chanhub_cancel(hub, 0, 256), CHANHUB_BAD_CALL);
    is_fault("no call waits", chanhub_cancel(hub, 0, 255), CHANHUB_NOT_PARKED);
    is_fault("the eighth step", chanhub_recv(hub, 0, 1), CHANHUB_JOURNAL_FULL);
    is("exit", chanhub_exit(hub, 0).what, CHANHUB_DONE);
    has_journal("journal", hub,
        "chanhub journal 2\nprocs 1\n0 make 3\n0 send 1 #fffefdfcfbfaf9f8f7f6f5f4f3f2f1f0efeeedecebeae9e8e7e6e5e4e3e2e1e0\n"
        "0 send 1 #\n0 select 3 r0 r0 r0 r0 r0 r0 r0 r0 r0 r0 r0 r0 r0 r0 r0 s1:#6162\n0 recv 1\n0 recv 1\n"
        "0 cancel 255\n0 exit\n");
    chanhub_free(hub);
}

/* Each call in the name of this process is refused so. */
static void are_faults(chanhub *hub, unsigned pid, int number) {
    is_fault("make", chanhub_make(hub, pid, 0), number);
    is_fault("send", chanhub_send(hub, pid, 0, chanhub_number(1)), number);
    is_fault("recv", chanhub_recv(hub, pid, 0), number);
    is_fault("select", chanhub_select(hub, pid, NULL, 0, true, 0), number);
    is_fault("close", chanhub_close(hub, pid, 0), number);
    is_fault("exit", chanhub_exit(hub, pid), number);
    is_fault("cancel", chanhub_cancel(hub, pid, 0), number);
}

/* Without a hub, and in the name of no process. */
static void nobody(void) {
    size_t length = 1;
    are_faults(NULL, 0, CHANHUB_BAD_CALL);
    is("look", chanhub_look(NULL, 0).made, 0);
    is("journal", chanhub_journal(NULL, &length) == NULL && length == 0, 1);
    chanhub_free(NULL), chanhub_free_text(NULL);
    chanhub *hub;
    is("opened", chanhub_open(&hub, 2, 3, 10), 0);
    for (unsigned pid = 3; pid < 256; pid++) are_faults(hub, pid, CHANHUB_NO_PROCESS);
    for (unsigned pid = 256; pid; pid *= 2) are_faults(hub, pid, CHANHUB_BAD_CALL);
    has_journal("journal", hub, "chanhub journal 2\nprocs 3\n");
    chanhub_free(hub);
}

/* A case that receives, with a value of which each byte is wrong. */
static chanhub_case receive_of_rubbish(uint16_t port) {
    chanhub_case c;
    memset(&c, 255, sizeof c);
    c.sends = false;
    c.port = port;
    return c;
}

/* The value of a receive is not read: not by a select, and not by what is begun. */
static void rubbish_in_receives(void) {
    chanhub *hub;
    is("opened", chanhub_open(&hub, 2, 1, 100), 0);
    is("made", chanhub_make(hub, 0, 2).port, 1);
    is("sent", chanhub_send(hub, 0, 1, chanhub_bytes("ab", 2)).what, CHANHUB_SENT);
    is("sent", chanhub_send(hub, 0, 1, chanhub_number(7)).what, CHANHUB_SENT);
    chanhub_case cases[2] = { receive_of_rubbish(1), receive_of_rubbish(0) };
    chanhub_told t = chanhub_select(hub, 0, cases, 2, true, 0);
    is("got", t.what == CHANHUB_GOT && t.value.is_bytes && t.value.length == 2 && t.value.number == 0, 1);
    t = chanhub_select(hub, 0, cases, 1, false, 0);
    is("got", t.what == CHANHUB_GOT && !t.value.is_bytes && t.value.number == 7, 1);
    has_journal("journal", hub, "chanhub journal 2\nprocs 1\n0 make 2\n0 send 1 #6162\n0 send 1 7\n0 select 0 r1 r0 default\n0 recv 1\n");
    chanhub_free(hub);
}

/* No cases where there are to be some, and too many: whatever the process, and the hub. */
static void bad_cases(void) {
    chanhub *hub;
    chanhub_case many[17] = { 0 };
    chanhub_options options = { .procs = 2, .clock = true };
    is("opened", chanhub_open_with(&hub, &options), 0);
    is("waiting", chanhub_begin(hub, 0, many, 1, false, 0).what, CHANHUB_WAITING);
    for (size_t count = 1; count <= SIZE_MAX / 2; count *= 2) {
        const chanhub_case *cases = count > 16 ? many : NULL;
        is_fault("select", chanhub_select(hub, 0, cases, count, true, 0), CHANHUB_BAD_CALL);
        is_fault("begin", chanhub_begin(hub, 0, cases, count, false, 0), CHANHUB_BAD_CALL);
        is_fault("select until", chanhub_select_until(hub, 0, cases, count, true, 0, 0), CHANHUB_BAD_CALL);
        is_fault("begin until", chanhub_begin_until(hub, 0, cases, count, false, 0, 0), CHANHUB_BAD_CALL);
    }
    is_fault("17 cases", chanhub_select(hub, 0, many, 17, true, 0), CHANHUB_BAD_CALL);
    has_journal("journal", hub, "chanhub journal 2\nprocs 3\n2 recv 0\n0 recv 0\n");
    chanhub_free(hub);
}

/* A cancel of a number that is no process is in the journal where it is one of a byte, and else is a bad call. */
static void cancels(void) {
    chanhub *hub;
    is("opened", chanhub_open(&hub, 2, 1, 100), 0);
    is_fault("no call waits", chanhub_cancel(hub, 0, 64), CHANHUB_NOT_PARKED);
    is_fault("no call waits", chanhub_cancel(hub, 0, 255), CHANHUB_NOT_PARKED);
    for (unsigned other = 256; other; other *= 2) is_fault("no process", chanhub_cancel(hub, 0, other), CHANHUB_BAD_CALL);
    has_journal("journal", hub, "chanhub journal 2\nprocs 1\n0 cancel 64\n0 cancel 255\n");
    chanhub_free(hub);
}

static void *run(void *unused) {
    openings();
    nobody();
    edition_one();
    edition_two();
    rubbish_in_receives();
    bad_cases();
    cancels();
    return unused;
}

int main(void) {
    pthread_attr_t small;
    pthread_t thread;
    size_t least = (size_t)sysconf(_SC_THREAD_STACK_MIN), stack = least > 65536 ? least : 65536;
    if (pthread_attr_init(&small) || pthread_attr_setstacksize(&small, stack)) return 2;
    if (pthread_create(&thread, &small, run, NULL) || pthread_join(thread, NULL)) return 2;
    pthread_attr_destroy(&small);
    return tally("calls");
}
