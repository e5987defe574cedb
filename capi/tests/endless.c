/* A hub that never ends, by one thread with a stack of 128 KB:
 *
 *     endless short       what refuses it, its chapters, and what waits across cuts
 *     endless long        more steps than another hub can make, and chapters that are as long as can be read
 */
#include "tally.h"

#include <pthread.h>
#include <stdlib.h>

enum { MOST_CHAPTERS = 8, MANY = 3000000, MANY_KEEP = 1000 };

/* The chapters that the function got, in order. */
struct chapters {
    int count;
    char *texts[MOST_CHAPTERS];
    size_t lengths[MOST_CHAPTERS];
};

static void collect(void *at, const char *text, size_t length) {
    struct chapters *all = at;
    if (!text || all->count == MOST_CHAPTERS) abort();
    all->texts[all->count] = memcpy(malloc(length), text, length);
    all->lengths[all->count++] = length;
}

static void is_text(const char *name, const char *text, size_t length, const char *wanted) {
    is(name, text && length == strlen(wanted) && memcmp(text, wanted, length) == 0, 1);
}

/* The chapters are these, of which the last is followed by NULL. */
static void are_chapters(struct chapters *all, const char *const *wanted) {
    int count = 0;
    for (; wanted[count]; count++) {
        if (count < all->count) is_text("chapter", all->texts[count], all->lengths[count], wanted[count]);
    }
    is("chapters", all->count, count);
    while (all->count) free(all->texts[--all->count]);
}

static void has_before(const char *name, chanhub *hub, const char *wanted) {
    size_t length = 1;
    char *text = chanhub_before(hub, &length);
    if (wanted) is_text(name, text, length, wanted);
    else is(name, !text && length == 0, 1);
    chanhub_free_text(text);
}

static void openings(void) {
    chanhub *hub;
    is("no process", chanhub_open_endless(&hub, 1, 0, 10, NULL, NULL), 1);
    is("65 processes", chanhub_open_endless(&hub, 1, 65, 10, NULL, NULL), 1);
    is("processes that would be 1 in a byte", chanhub_open_endless(&hub, 1, 257, 10, NULL, NULL), 1);
    is("nothing is kept", chanhub_open_endless(&hub, 2, 1, 0, NULL, NULL), 2);
    is("too much is kept", chanhub_open_endless(&hub, 2, 1, 900001, collect, NULL), 2);
    is("edition 0", chanhub_open_endless(&hub, 0, 1, 1, NULL, NULL), 4);
    is("edition 4", chanhub_open_endless(&hub, 4, 1, 1, NULL, NULL), 4);
    is("an edition that would be 1 in a byte", chanhub_open_endless(&hub, 257, 1, 1, NULL, NULL), 4);
    is("nothing is put", hub == NULL, 1);
    is("the most", chanhub_open_endless(&hub, 2, 64, 900000, NULL, NULL), 0);
    chanhub_free(hub);
}

/* Where there is no hub that never ends. */
static void nothing_to_cut(void) {
    chanhub *hub;
    is("no hub", chanhub_cut(NULL), 0);
    has_before("no hub", NULL, NULL);
    is("opened", chanhub_open(&hub, 1, 1, 10), 0);
    is("made", chanhub_make(hub, 0, 1).port, 1);
    is("a hub that ends", chanhub_cut(hub), 0);
    has_before("a hub that ends", hub, NULL);
    has_journal("nothing was cut", hub, "chanhub journal 1\nprocs 1\n0 make 1\n");
    chanhub_free(hub);
}

/* Chapters begin by themselves and by hand, while a call waits and while its answer does. */
static void waiting_calls(void) {
    struct chapters all = { 0 };
    chanhub *hub;
    is("opened", chanhub_open_endless(&hub, 2, 2, 3, collect, &all), 0);
    has_before("none before", hub, NULL);
    is("made", chanhub_make(hub, 0, 2).port, 1);
    is("sent", chanhub_send(hub, 0, 1, chanhub_bytes("ab", 2)).what, CHANHUB_SENT);
    is("sent", chanhub_send(hub, 0, 1, chanhub_number(5)).what, CHANHUB_SENT);
    has_before("full, but none before", hub, NULL);
    chanhub_told t = chanhub_recv(hub, 1, 1);
    is("got bytes", t.what == CHANHUB_GOT && t.value.is_bytes && t.value.length == 2 && memcmp(t.value.bytes, "ab", 2) == 0, 1);
    has_before("the first chapter", hub, "chanhub journal 2\nprocs 2\n0 make 2\n0 send 1 #6162\n0 send 1 5\n");
    has_journal("the second", hub, "chanhub journal 2\nprocs 2\n0 make 2\n0 send 1 #6162\n0 send 1 5\n1 recv 1\n");
    is("got", (long long)chanhub_recv(hub, 1, 1).value.number, 5);
    chanhub_case cases[2] = { { .port = 0 }, { .port = 1 } };
    is("waiting", chanhub_begin(hub, 1, cases, 2, false, 9).what, CHANHUB_WAITING);
    for (unsigned i = 0; i < 3; i++) is_fault("twice as many as it begins with", chanhub_close(hub, 0, 3), CHANHUB_NO_PORT);
    is("none fell out", all.count, 0);
    is_fault("begins the third", chanhub_close(hub, 0, 2), CHANHUB_NO_PORT);
    is("one fell out", all.count, 1);
    is("cut", chanhub_cut(hub), 1);
    is("another fell out", all.count, 2);
    is("waiting", chanhub_resume(hub, 1, 0).what, CHANHUB_WAITING);
    is_fault("busy", chanhub_recv(hub, 1, 1), CHANHUB_BUSY);
    is("sent", chanhub_send(hub, 0, 1, chanhub_number(6)).what, CHANHUB_SENT);
    is("cut", chanhub_cut(hub), 1);
    is("cut", chanhub_cut(hub), 1);
    t = chanhub_resume(hub, 1, UINT64_MAX);
    is("got", t.what, CHANHUB_GOT), is("got", (long long)t.value.number, 6), is("got by case", t.index, 1);
    chanhub_counts c = chanhub_look(hub, 1);
    is("look", c.made && !c.closed && c.cap == 2 && c.sent == 3 && c.received == 3, 1);
    is("exit", chanhub_exit(hub, 1).what, CHANHUB_DONE);
    is("stalled", chanhub_recv(hub, 0, 1).what, CHANHUB_STALLED);
    is("exit", chanhub_exit(hub, 0).what, CHANHUB_DONE);
    is_fault("gone", chanhub_recv(hub, 1, 1), CHANHUB_GONE);
    is_fault("no process", chanhub_recv(hub, 2, 1), CHANHUB_NO_PROCESS);
    chanhub_free(hub);
    are_chapters(&all, (const char *const[]){
        "chanhub journal 2\nprocs 2\n0 make 2\n0 send 1 #6162\n0 send 1 5\n",
        "chanhub journal 2\nprocs 2\n0 make 2\n0 send 1 #6162\n0 send 1 5\n1 recv 1\n1 recv 1\n1 select 9 r0 r1\n0 close 3\n0 close 3\n0 close 3\n",
        "chanhub journal 2\nprocs 2\n0 make 2\n1 select 0 r0 r1\n0 close 2\n",
        "chanhub journal 2\nprocs 2\n0 make 2\n1 select 0 r0 r1\n0 send 1 6\n",
        "chanhub journal 2\nprocs 2\n0 make 2\n",
        "chanhub journal 2\nprocs 2\n0 make 2\n1 exit\n0 recv 1\n0 exit\n",
        NULL });
}

/* Without a function the chapters go. */
static void nobody_gets_them(void) {
    chanhub *hub;
    is("opened", chanhub_open_endless(&hub, 1, 1, 2, NULL, NULL), 0);
    is("made", chanhub_make(hub, 0, 1).port, 1);
    for (unsigned i = 0; i < 3; i++) {
        is("sent", chanhub_send(hub, 0, 1, chanhub_number(i)).what, CHANHUB_SENT);
        chanhub_counts c = chanhub_look(hub, 1);
        is("so many sent", (long long)c.sent, i + 1), is("so many received", (long long)c.received, i);
        is("got", (long long)chanhub_recv(hub, 0, 1).value.number, i);
    }
    has_before("before", hub, "chanhub journal 1\nprocs 1\n0 make 1\n0 send 1 0\n0 recv 1\n0 send 1 1\n0 recv 1\n0 send 1 2\n");
    has_journal("present", hub, "chanhub journal 1\nprocs 1\n0 make 1\n0 send 1 2\n0 recv 1\n");
    is("cut", chanhub_cut(hub), 1);
    has_journal("present", hub, "chanhub journal 1\nprocs 1\n0 make 1\n");
    chanhub_free(hub);
}

/* An exit begins no chapter, and the next step does. */
static void exits(void) {
    chanhub *hub;
    is("opened", chanhub_open_endless(&hub, 1, 3, 1, NULL, NULL), 0);
    is("made", chanhub_make(hub, 0, 1).port, 1);
    is("exit", chanhub_exit(hub, 2).what, CHANHUB_DONE);
    is("exit", chanhub_exit(hub, 1).what, CHANHUB_DONE);
    has_journal("one chapter", hub, "chanhub journal 1\nprocs 3\n0 make 1\n2 exit\n1 exit\n");
    is("sent", chanhub_send(hub, 0, 1, chanhub_number(3)).what, CHANHUB_SENT);
    has_journal("the next", hub, "chanhub journal 1\nprocs 3\n0 make 1\n1 exit\n2 exit\n0 send 1 3\n");
    chanhub_free(hub);
}

/* Chapters may be empty too, where nothing has happened. */
static void empty_chapters(void) {
    static const char empty[] = "chanhub journal 2\nprocs 1\n";
    struct chapters all = { 0 };
    chanhub *hub;
    is("opened", chanhub_open_endless(&hub, 2, 1, 10, collect, &all), 0);
    chanhub_free(hub);
    are_chapters(&all, (const char *const[]){ empty, NULL });
    is("opened", chanhub_open_endless(&hub, 2, 1, 10, collect, &all), 0);
    is("cut", chanhub_cut(hub), 1);
    has_before("before", hub, empty);
    is("none fell out", all.count, 0);
    is("cut", chanhub_cut(hub), 1);
    is("one fell out", all.count, 1);
    chanhub_free(hub);
    are_chapters(&all, (const char *const[]){ empty, empty, empty, NULL });
}

/* What MANY steps leave in their chapters: port 1 is made, then it is sent each number, which is received. */
struct wanted {
    unsigned step;
    unsigned chapters, others; /* how many were handed out, and how many of them are not as they must be */
};

static int spell(char *at, unsigned step) {
    if (step == 0) return sprintf(at, "0 make 1\n");
    return step % 2 ? sprintf(at, "0 send 1 %u\n", step / 2) : sprintf(at, "0 recv 1\n");
}

static void compare(void *at, const char *text, size_t length) {
    static char wanted[MANY_KEEP * 20];
    struct wanted *w = at;
    int end = sprintf(wanted, "chanhub journal 1\nprocs 1\n");
    if (w->step) end += spell(wanted + end, 0);
    if (w->step && w->step % 2 == 0) end += spell(wanted + end, w->step - 1);
    for (unsigned i = 0; i < MANY_KEEP && w->step <= MANY; i++) end += spell(wanted + end, w->step++);
    w->chapters++;
    w->others += length != (size_t)end || memcmp(text, wanted, length) != 0;
}

/* More steps than a hub of chanhub_open can make: each chapter is handed out once, in order, and the counts go on. */
static void many_steps(void) {
    struct wanted w = { 0 };
    chanhub *hub;
    is("opened", chanhub_open_endless(&hub, 1, 1, MANY_KEEP, compare, &w), 0);
    is("made", chanhub_make(hub, 0, 1).port, 1);
    unsigned others = 0;
    for (unsigned i = 0; i < MANY / 2; i++) {
        others += chanhub_send(hub, 0, 1, chanhub_number(i)).what != CHANHUB_SENT;
        others += chanhub_recv(hub, 0, 1).value.number != i;
    }
    is("told otherwise", others, 0);
    chanhub_counts c = chanhub_look(hub, 1);
    is("sent", (long long)c.sent, MANY / 2), is("received", (long long)c.received, MANY / 2);
    is("counts of 64 bits", sizeof c.sent + sizeof c.received, 16);
    is("chapters that fell out", w.chapters, MANY / MANY_KEEP - 1);
    chanhub_free(hub);
    is("steps in them", w.step, MANY + 1);
    is("chapters", w.chapters, MANY / MANY_KEEP + 1);
    is("other chapters", w.others, 0);
}

struct longest { size_t length; unsigned chapters; };

static void measure(void *at, const char *text, size_t length) {
    struct longest *l = at;
    if (text && length > l->length) l->length = length;
    l->chapters++;
}

/* Long before so many are kept, a chapter ends that would get too long to be read. */
static void long_lines(void) {
    enum { STEPS = 60000, READABLE = 67108864 };
    struct longest l = { 0 };
    chanhub *hub;
    is("opened", chanhub_open_endless(&hub, 2, 1, 900000, measure, &l), 0);
    is("made", chanhub_make(hub, 0, 0).port, 1);
    char bytes[32];
    memset(bytes, 255, sizeof bytes);
    chanhub_case cases[16];
    for (int i = 0; i < 16; i++) cases[i] = (chanhub_case){ true, 1, chanhub_bytes(bytes, 32) };
    unsigned others = 0;
    for (unsigned i = 0; i < STEPS; i++) others += chanhub_select(hub, 0, cases, 16, true, UINT64_MAX).what != CHANHUB_DEFAULT;
    is("told otherwise", others, 0);
    chanhub_free(hub);
    is("chapters", l.chapters, 2);
    is("they are long", l.length > READABLE / 10 * 8, 1);
    is("they can be read", l.length <= READABLE, 1);
}

static void *run_short(void *unused) {
    openings();
    nothing_to_cut();
    waiting_calls();
    nobody_gets_them();
    exits();
    empty_chapters();
    return unused;
}

static void *run_long(void *unused) {
    many_steps();
    long_lines();
    return unused;
}

int main(int argc, char **argv) {
    if (argc != 2) return 2;
    pthread_attr_t small;
    pthread_t thread;
    if (pthread_attr_init(&small) || pthread_attr_setstacksize(&small, 131072)) return 2;
    void *(*run)(void *) = strcmp(argv[1], "long") == 0 ? run_long : run_short;
    if (pthread_create(&thread, &small, run, NULL) || pthread_join(thread, NULL)) return 2;
    pthread_attr_destroy(&small);
    return tally(argv[1]);
}
