/* Each allocation refused in turn: what wanted it says so and changes nothing, and what comes next succeeds. Of a hub that never ends
 * each chapter is handed out, or NULL where the allocation was one for its text.
 *
 * Linked with --wrap for malloc, calloc, realloc, mmap and mremap.
 */
#include "chanhub.h"

#include <stdio.h>
#include <stdlib.h>
#include <string.h>
#include <sys/mman.h>

static long left = -1; /* how many allocations succeed before one is refused; below 0: none is */
static int refused;

static bool is_refused(void) {
    bool now = left == 0;
    left -= left >= 0;
    refused += now;
    return now;
}

void *__real_malloc(size_t size);
void *__real_calloc(size_t count, size_t size);
void *__real_realloc(void *at, size_t size);
void *__wrap_malloc(size_t size) { return is_refused() ? NULL : __real_malloc(size); }
void *__wrap_calloc(size_t count, size_t size) { return is_refused() ? NULL : __real_calloc(count, size); }
void *__wrap_realloc(void *at, size_t size) { return is_refused() ? NULL : __real_realloc(at, size); }
void *__real_mmap(void *at, size_t size, int access, int kind, int file, off_t from);
void *__real_mremap(void *at, size_t old, size_t size, int flags);
void *__wrap_mmap(void *at, size_t size, int access, int kind, int file, off_t from) {
    return is_refused() ? MAP_FAILED : __real_mmap(at, size, access, kind, file, from);
}
void *__wrap_mremap(void *at, size_t old, size_t size, int flags) {
    return is_refused() ? MAP_FAILED : __real_mremap(at, old, size, flags);
}

static const char wanted[] =
    "chanhub journal 2\nprocs 2\n0 make 3\n0 send 1 7\n0 make 0\n0 select 0 s1:#6162 s2:1\n1 recv 1\n1 exit\n0 exit\n";

/* Whether it was refused, and then what it was: for want of memory. */
static bool is_short(chanhub_told t) { return t.what == CHANHUB_FAULT && t.fault == CHANHUB_NO_MEMORY; }

/* A call, again where it was refused. */
#define MADE(call, name) do { chanhub_told t = call; if (is_short(t)) t = call; if (t.what != (name)) return 1; } while (0)

/* The same calls on a hub that is opened so, with one allocation refused; 0 where all went well. */
static int run_with(const chanhub_options *options, long allowed) {
    chanhub *hub;
    refused = 0;
    left = allowed;
    int why = chanhub_open_with(&hub, options);
    if (why && (why != 3 || hub || chanhub_open_with(&hub, options))) return 1;
    MADE(chanhub_make(hub, 0, 3), CHANHUB_MADE);
    MADE(chanhub_send(hub, 0, 1, chanhub_number(7)), CHANHUB_SENT);
    MADE(chanhub_make(hub, 0, 0), CHANHUB_MADE);
    chanhub_case cases[2] = { { true, 1, chanhub_bytes("ab", 2) }, { true, 2, chanhub_number(1) } };
    MADE(chanhub_select(hub, 0, cases, 2, false, 0), CHANHUB_SENT);
    MADE(chanhub_recv(hub, 1, 1), CHANHUB_GOT);
    if (chanhub_exit(hub, 1).what != CHANHUB_DONE || chanhub_exit(hub, 0).what != CHANHUB_DONE) return 1;
    size_t length;
    char *text = chanhub_journal(hub, &length);
    if (!text) text = chanhub_journal(hub, &length);
    if (!text || length != strlen(wanted) || memcmp(text, wanted, length) != 0) return 1;
    chanhub_free_text(text);
    chanhub_free(hub);
    return 0;
}

static int run(long allowed) {
    chanhub_options options = { .procs = 2, .limit = 100 };
    return run_with(&options, allowed);
}

static int run_following(long allowed) {
    chanhub_options options = { .journal = wanted, .journal_length = sizeof wanted - 1 };
    return run_with(&options, allowed);
}

/* Where it diverges, what is told of that, once memory is there. */
static int run_diverging(long allowed) {
    static const char journal[] = "chanhub journal 2\nprocs 1\n0 make 3\n", wanted[] = "P0 asked exit, step 1 is 0 make 3";
    chanhub_options options = { .journal = journal, .journal_length = sizeof journal - 1 };
    chanhub *hub;
    size_t length;
    refused = 0;
    left = allowed;
    int why = chanhub_open_with(&hub, &options);
    if (why && (why != 3 || hub || chanhub_open_with(&hub, &options))) return 1;
    if (chanhub_exit(hub, 0).fault != CHANHUB_DIVERGED) return 1;
    char *text = chanhub_divergence(hub, &length);
    if (!text && (!refused || length || !(text = chanhub_divergence(hub, &length)))) return 1;
    bool is_wrong = length != sizeof wanted - 1 || memcmp(text, wanted, length) != 0;
    chanhub_free_text(text);
    chanhub_free(hub);
    return is_wrong;
}

/* The chapters that were handed out. Nothing is allocated for them. */
static struct { int count, lost; bool are_right; } given;

static const char *const chapters[] = {
    "chanhub journal 2\nprocs 2\n0 make 1\n",
    "chanhub journal 2\nprocs 2\n0 make 1\n1 recv 1\n0 send 1 #6162\n",
    "chanhub journal 2\nprocs 2\n0 make 1\n0 make 0\n0 select 0 s2:#63 s1:#64\n",
    "chanhub journal 2\nprocs 2\n0 make 1\n0 send 1 #64\n0 make 0\n1 recv 1\n1 recv 1\n",
    "chanhub journal 2\nprocs 2\n0 make 1\n0 make 0\n1 recv 1\n0 exit\n1 exit\n",
};
enum { CHAPTERS = sizeof chapters / sizeof *chapters };

static void get(void *unused, const char *text, size_t length) {
    (void)unused;
    if (given.count == CHAPTERS) {
        given.are_right = false;
        return;
    }
    const char *wanted = chapters[given.count++];
    given.lost += !text;
    bool is_right = text ? length == strlen(wanted) && memcmp(text, wanted, length) == 0 : length == 0;
    given.are_right = given.are_right && is_right;
}

static bool has_text(char *text, size_t length, const char *wanted) {
    bool has = text && length == strlen(wanted) && memcmp(text, wanted, length) == 0;
    chanhub_free_text(text);
    return has;
}

/* The same of a hub that never ends, in whose chapters a call waits, and an answer. */
static int run_endless(long allowed) {
    chanhub *hub;
    memset(&given, 0, sizeof given);
    given.are_right = true;
    refused = 0;
    left = allowed;
    int why = chanhub_open_endless(&hub, 2, 2, 1, get, NULL);
    if (why && (why != 3 || hub || chanhub_open_endless(&hub, 2, 2, 1, get, NULL))) return 1;
    MADE(chanhub_make(hub, 0, 1), CHANHUB_MADE);
    chanhub_case receive = { .port = 1 };
    MADE(chanhub_begin(hub, 1, &receive, 1, false, 0), CHANHUB_WAITING);
    MADE(chanhub_send(hub, 0, 1, chanhub_bytes("ab", 2)), CHANHUB_SENT);
    MADE(chanhub_make(hub, 0, 0), CHANHUB_MADE);
    size_t length;
    char *text = chanhub_before(hub, &length);
    if (!text) text = chanhub_before(hub, &length);
    if (!has_text(text, length, chapters[1])) return 1;
    chanhub_case cases[2] = { { true, 2, chanhub_bytes("c", 1) }, { true, 1, chanhub_bytes("d", 1) } };
    MADE(chanhub_select(hub, 0, cases, 2, false, 0), CHANHUB_SENT);
    chanhub_told t = chanhub_resume(hub, 1, 0);
    if (t.what != CHANHUB_GOT || t.value.length != 2 || memcmp(t.value.bytes, "ab", 2) != 0) return 1;
    MADE(chanhub_recv(hub, 1, 1), CHANHUB_GOT);
    MADE(chanhub_begin(hub, 1, &receive, 1, false, 0), CHANHUB_WAITING);
    if (!chanhub_cut(hub) && !chanhub_cut(hub)) return 1;
    MADE(chanhub_exit(hub, 0), CHANHUB_DONE);
    if (chanhub_resume(hub, 1, 0).what != CHANHUB_STALLED) return 1;
    MADE(chanhub_exit(hub, 1), CHANHUB_DONE);
    chanhub_counts c = chanhub_look(hub, 1);
    if (c.sent != 2 || c.received != 2) return 1;
    chanhub_free(hub);
    return given.count != CHAPTERS || !given.are_right || given.lost > refused;
}

/* A hub with a clock that is not opened hands out nothing. */
static int run_timed_endless(long allowed) {
    chanhub *hub;
    chanhub_options options = { .procs = 2, .keep = 10, .chapters = get, .clock = true };
    memset(&given, 0, sizeof given);
    refused = 0;
    left = allowed;
    int why = chanhub_open_with(&hub, &options);
    if (why && (why != 3 || hub || given.count || chanhub_open_with(&hub, &options))) return 1;
    chanhub_free(hub);
    return given.count != 1;
}

/* A long chapter is handed out whole or not at all. */
static struct { int count, lost, cut_off; } long_ones;

static void get_long(void *last, const char *text, size_t length) {
    size_t size = strlen(last);
    long_ones.count++;
    long_ones.lost += !text;
    long_ones.cut_off += text && (length < size || memcmp(text + length - size, last, size) != 0);
}

static int run_long(long allowed) {
    enum { VALUES = 1000 };
    chanhub *hub;
    memset(&long_ones, 0, sizeof long_ones);
    refused = 0;
    left = -1;
    if (chanhub_open_endless(&hub, 2, 1, 10000, get_long, "0 send 1 999\n0 recv 1\n")) return 1;
    MADE(chanhub_make(hub, 0, 1), CHANHUB_MADE);
    for (uint64_t i = 0; i < VALUES; i++) {
        MADE(chanhub_send(hub, 0, 1, chanhub_number(i)), CHANHUB_SENT);
        MADE(chanhub_recv(hub, 0, 1), CHANHUB_GOT);
    }
    if (!chanhub_cut(hub)) return 1;
    MADE(chanhub_send(hub, 0, 1, chanhub_number(1)), CHANHUB_SENT);
    left = allowed;
    if (!chanhub_cut(hub) && !chanhub_cut(hub)) return 1;
    left = -1;
    bool is_wrong = long_ones.count != 1 || long_ones.cut_off || long_ones.lost > refused;
    given.lost = long_ones.lost;
    chanhub_free(hub);
    return is_wrong;
}

/* How often this stands in the journal; -1 where there is no memory for that. */
static int in_journal(chanhub *hub, const char *wanted) {
    size_t length, size = strlen(wanted);
    int count = 0;
    char *text = chanhub_journal(hub, &length);
    if (!text) return -1;
    for (size_t i = 0; i + size <= length; i++) count += memcmp(text + i, wanted, size) == 0;
    chanhub_free_text(text);
    return count;
}

/* The same of a hub whose calls have deadlines: enough of them that the journal grows within them. What is made again stands in the
 * journal as often as it was tried. */
static int run_timed(long allowed) {
    enum { CALLS = 60 };
    chanhub_options options = { .procs = 2, .clock = true };
    chanhub *hub;
    refused = 0;
    left = allowed;
    int why = chanhub_open_with(&hub, &options);
    if (why && (why != 3 || hub || chanhub_open_with(&hub, &options))) return 1;
    chanhub_case receive = { .port = 1 };
    MADE(chanhub_make(hub, 0, 0), CHANHUB_MADE);
    for (int i = 0; i < CALLS; i++) {
        MADE(chanhub_begin_until(hub, 0, &receive, 1, false, 0, CHANHUB_NEVER - 1), CHANHUB_WAITING);
        if (!chanhub_expire(hub, 0)) return 1;
        chanhub_told t = chanhub_resume(hub, 0, 0);
        if (t.what == CHANHUB_WAITING && t.fault == CHANHUB_NO_MEMORY) t = chanhub_resume(hub, 0, 0);
        if (t.what != CHANHUB_TIMED_OUT) return 1;
    }
    MADE(chanhub_begin(hub, 1, &receive, 1, false, 0), CHANHUB_WAITING);
    if (chanhub_exit(hub, 0).what != CHANHUB_DONE || chanhub_resume(hub, 1, 0).what != CHANHUB_STALLED) return 1;
    if (chanhub_exit(hub, 1).what != CHANHUB_DONE) return 1;
    int cancels = in_journal(hub, "\n2 cancel 0\n");
    if (cancels < 0) cancels = in_journal(hub, "\n2 cancel 0\n");
    int exits = in_journal(hub, "\n2 exit\n");
    if (exits < 0) exits = in_journal(hub, "\n2 exit\n");
    chanhub_free(hub);
    return cancels != CALLS || exits != 1;
}

/* The journal of a hub whose calls have deadlines, recorded while nothing is refused: all of them time out. */
enum { TIMED_CALLS = 60 };
static chanhub_options timed;

static int record_timed(void) {
    chanhub_options options = { .procs = 1, .clock = true };
    chanhub *hub;
    left = -1;
    if (chanhub_open_with(&hub, &options)) return 1;
    for (int i = 0; i < TIMED_CALLS; i++) {
        if (chanhub_recv_until(hub, 0, 0, i % 2 ? 0 : chanhub_in(1000)).what != CHANHUB_TIMED_OUT) return 1;
    }
    if (chanhub_exit(hub, 0).what != CHANHUB_DONE) return 1;
    timed.journal = chanhub_journal(hub, &timed.journal_length);
    chanhub_free(hub);
    return !timed.journal;
}

/* A hub follows it. A call that is refused memory is made again. Once the clock is refused it, all are told DIVERGED. */
static int run_timed_following(long allowed) {
    chanhub *hub;
    bool has_ended = false;
    refused = 0;
    left = allowed;
    int why = chanhub_open_with(&hub, &timed);
    if (why && (why != 3 || hub || chanhub_open_with(&hub, &timed))) return 1;
    for (int i = 0; i < TIMED_CALLS; i++) {
        chanhub_told t = chanhub_recv_until(hub, 0, 0, CHANHUB_NEVER - 1);
        if (is_short(t)) t = chanhub_recv_until(hub, 0, 0, CHANHUB_NEVER - 1);
        has_ended = has_ended || (refused && t.fault == CHANHUB_DIVERGED);
        if (has_ended ? t.fault != CHANHUB_DIVERGED : t.what != CHANHUB_TIMED_OUT) return 1;
    }
    if (chanhub_exit(hub, 0).what != (has_ended ? CHANHUB_FAULT : CHANHUB_DONE)) return 1;
    chanhub_free(hub);
    return 0;
}

/* Runs with ever later refusals, until none comes. 0 where all went well. */
static int refuse_each(const char *name, int (*run)(long allowed)) {
    int runs = 0, lost = 0;
    do {
        if (run(runs)) {
            printf("%s, refused %d: wrong\n", name, runs);
            return 1;
        }
        lost += given.lost;
        runs++;
    } while (refused);
    printf("%s: %d refusals, %d of them of a chapter's text\n", name, runs - 1, lost);
    return runs < 5;
}

int main(void) {
    int failed = refuse_each("a hub", run);
    failed |= refuse_each("a hub that follows a journal", run_following);
    failed |= refuse_each("one that diverges", run_diverging);
    failed |= refuse_each("a hub that never ends", run_endless);
    failed |= refuse_each("one with a clock", run_timed_endless);
    failed |= refuse_each("a long chapter", run_long);
    failed |= record_timed() || refuse_each("a hub that follows a journal with a clock", run_timed_following);
    return refuse_each("a hub with a clock", run_timed) || failed;
}
