/* Makes calls of capi/chanhub.h, for their instructions to be counted: in hubs of each kind, by one thread.
 *
 *     c_costs KIND CALLS
 *
 * What CALLS more calls of a kind take is what a call costs there; what opening and ending take is the same for any number of calls.
 *
 *     single      a value is sent and received, 100 at a time, in a hub that ends
 *     many        the same by chanhub_send_all and chanhub_recv_up_to, 64 at a time
 *     endless     as single, in a hub that never ends and keeps 10,000 steps
 *     chapters    the same, and each chapter is handed out
 *     deep        the same where 32 ports hold 1,000 values each, and 1,000 steps are kept
 *     empty       the same as deep with 64 ports that hold nothing
 *     text        as single, and then the text of the journal is made
 *     followed    as single, in a hub that follows a journal of these calls
 *     early       a call is asked for again and again whose turn in the followed journal is 300,000 steps away
 *     late        the same of a process that has no step left there
 *     reopen      a port is closed and opened again, and a process exits and is started again: four calls
 */
#include "chanhub.h"

#include <stdio.h>
#include <stdlib.h>
#include <string.h>

enum { SOME = 100, AT_ONCE = 64, BUFFERED = 1000, KEEP = 10000, SHORT_KEEP = 1000, FOLLOWED = 300000 };

static chanhub *hub;

static void want(bool is_so) {
    if (is_so) return;
    puts("c_costs: a wrong answer");
    exit(1);
}

static void make(unsigned count, uint32_t cap) {
    for (unsigned port = 1; port <= count; port++) want(chanhub_make(hub, 0, cap).port == port);
}

static void open_with(chanhub_options options) { want(chanhub_open_with(&hub, &options) == 0); }

static void send(uint64_t value) { want(chanhub_send(hub, 0, 1, chanhub_number(value)).what == CHANHUB_SENT); }

static void receive(uint64_t value) { want(chanhub_recv(hub, 0, 1).value.number == value); }

/* So many calls of process 0 on port 1, which it leaves as it was. */
static void send_and_receive(unsigned long calls) {
    for (unsigned long done = 0; done < calls; done += 2 * SOME) {
        for (unsigned i = 0; i < SOME; i++) send(done + i);
        for (unsigned i = 0; i < SOME; i++) receive(done + i);
    }
}

static void single(unsigned long calls) {
    open_with((chanhub_options){ .procs = 2 });
    make(1, SOME);
    send_and_receive(calls);
}

static void many(unsigned long calls) {
    chanhub_value values[AT_ONCE], got[AT_ONCE];
    for (unsigned i = 0; i < AT_ONCE; i++) values[i] = chanhub_number(i);
    open_with((chanhub_options){ .procs = 2 });
    make(1, SOME);
    for (unsigned long done = 0; done < calls; done += 2 * AT_ONCE) {
        size_t sent, received;
        want(chanhub_send_all(hub, 0, 1, values, AT_ONCE, CHANHUB_NEVER, &sent).what == CHANHUB_SENT && sent == AT_ONCE);
        want(chanhub_recv_up_to(hub, 0, 1, got, AT_ONCE, CHANHUB_NEVER, &received).what == CHANHUB_GOT && received == AT_ONCE);
        want(got[AT_ONCE - 1].number == AT_ONCE - 1);
    }
}

static void endless(unsigned long calls) {
    open_with((chanhub_options){ .procs = 2, .keep = KEEP });
    make(1, SOME);
    send_and_receive(calls);
}

static void drop_chapter(void *pointer, const char *text, size_t length) {
    (void)text;
    *(size_t *)pointer += length;
}

static size_t told;

static void chapters(unsigned long calls) {
    open_with((chanhub_options){ .procs = 2, .keep = KEEP, .chapters = drop_chapter, .pointer = &told });
    make(1, SOME);
    send_and_receive(calls);
}

static void deep(unsigned long calls) {
    chanhub_value values[BUFFERED];
    for (unsigned i = 0; i < BUFFERED; i++) values[i] = chanhub_number(i);
    open_with((chanhub_options){ .procs = 2, .keep = SHORT_KEEP });
    make(33, BUFFERED);
    for (unsigned port = 2; port <= 33; port++)
        want(chanhub_send_all(hub, 0, port, values, BUFFERED, CHANHUB_NEVER, NULL).what == CHANHUB_SENT);
    send_and_receive(calls);
}

static void empty(unsigned long calls) {
    open_with((chanhub_options){ .procs = 2, .keep = SHORT_KEEP });
    make(64, SOME);
    send_and_receive(calls);
}

static void text(unsigned long calls) {
    size_t length;
    single(calls);
    char *journal = chanhub_journal(hub, &length);
    want(journal && length > calls);
    chanhub_free_text(journal);
}

/* Opens a hub that follows a run in which process 0 made FOLLOWED calls, then process 1 one, and process 2 none. */
static void follow(void) {
    size_t length;
    open_with((chanhub_options){ .procs = 3 });
    make(1, SOME);
    send_and_receive(FOLLOWED);
    want(chanhub_try_recv(hub, 1, 1).what == CHANHUB_DEFAULT);
    char *journal = chanhub_journal(hub, &length);
    want(journal != NULL);
    chanhub_free(hub);
    open_with((chanhub_options){ .journal = journal, .journal_length = length, .asks_again = true });
    chanhub_free_text(journal);
    make(1, SOME);
}

static void followed(unsigned long calls) {
    follow();
    send_and_receive(calls);
}

static void ask(unsigned pid, unsigned long calls) {
    follow();
    for (unsigned long done = 0; done < calls; done++) want(chanhub_try_recv(hub, pid, 1).fault == CHANHUB_NOT_YET);
}

static void early(unsigned long calls) { ask(1, calls); }

static void late(unsigned long calls) { ask(2, calls); }

static void reopen(unsigned long calls) {
    open_with((chanhub_options){ .edition = 3, .procs = 2 });
    make(1, SOME);
    for (unsigned long done = 0; done < calls; done += 4) {
        want(chanhub_close(hub, 0, 1).what == CHANHUB_DONE);
        want(chanhub_reopen(hub, 0, 1, SOME).what == CHANHUB_DONE);
        want(chanhub_exit(hub, 1).what == CHANHUB_DONE);
        want(chanhub_start(hub, 0, 1).what == CHANHUB_DONE);
    }
}

static const struct {
    const char *name;
    void (*make_calls)(unsigned long calls);
} kinds[] = {
    { "single", single }, { "many", many }, { "endless", endless },   { "chapters", chapters }, { "deep", deep },     { "empty", empty },
    { "text", text },     { "early", early }, { "followed", followed }, { "late", late },         { "reopen", reopen },
};

int main(int count, char **words) {
    if (count != 3) return 2;
    for (unsigned i = 0; i < sizeof kinds / sizeof *kinds; i++) {
        if (strcmp(kinds[i].name, words[1]) != 0) continue;
        kinds[i].make_calls(strtoul(words[2], NULL, 10));
        chanhub_free(hub);
        return 0;
    }
    return 2;
}
