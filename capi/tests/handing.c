/* Chapters that are handed out while other threads call:
 *
 *     handing busy           the call that hands out has not returned: others as its process are refused, and others go on
 *     handing parked         the call that hands out waits for its answer, which comes meanwhile, or it stalls
 *     handing woken          those are told at once whose calls it ended
 *     handing full           what would make the next chapter but one fall out waits for room
 *     handing cancelled      a thread that hands out is cancelled, or one that waits for that
 *     handing slow           a slow function gets each step of several threads once and in order, in bounded memory
 *     handing inside         the function looks at the hub and reads its journals
 *
 * A test that hangs is ended by an alarm.
 */
#include "tally.h"

#include <pthread.h>
#include <semaphore.h>
#include <stdlib.h>
#include <sys/resource.h>

enum { SECONDS = 300, PROCS = 4 };

static chanhub *hub;
static chanhub_told told[PROCS];

/* ---- A function that stops until it may go on. ---- */

static sem_t began, may_end;
static atomic_int handed; /* how many chapters it was given */

static void stop(void *at, const char *text, size_t length) {
    (void)at, (void)text, (void)length;
    handed++;
    sem_post(&began);
    sem_wait(&may_end);
}

static void open_stopping(unsigned procs, uint32_t keep) {
    sem_init(&began, 0, 0);
    sem_init(&may_end, 0, 0);
    handed = 0;
    if (chanhub_open_endless(&hub, 2, procs, keep, stop, NULL)) exit(2);
}

/* Lets it return at once from now on, and frees the hub. */
static void free_stopping(void) {
    for (int i = 0; i < 100; i++) sem_post(&may_end);
    chanhub_free(hub);
    sem_destroy(&began);
    sem_destroy(&may_end);
}

static void start(pthread_t *thread, void *(*work)(void *), size_t pid) {
    if (pthread_create(thread, NULL, work, (void *)pid)) exit(2);
}

static chanhub_told step(unsigned pid) {
    return chanhub_select(hub, pid, NULL, 0, true, 0);
}

static void *one_step(void *at) {
    size_t pid = (size_t)at;
    told[pid] = step((unsigned)pid);
    pthread_testcancel();
    return NULL;
}

static void *send(void *at) {
    size_t pid = (size_t)at;
    told[pid] = chanhub_send(hub, (unsigned)pid, 1, chanhub_number(pid + 8));
    return NULL;
}

static void *receive(void *at) {
    size_t pid = (size_t)at;
    told[pid] = chanhub_recv(hub, (unsigned)pid, 1);
    return NULL;
}

/* Makes so many steps as process 0. */
static void make_steps(unsigned count) {
    for (unsigned i = 0; i < count; i++) is("default", step(0).what, CHANHUB_DEFAULT);
}

/* Returns once a call of this process has begun that does not wait in the hub. */
static void await_call(unsigned pid) {
    while (chanhub_resume(hub, pid, 0).fault != CHANHUB_BUSY) usleep(100);
}

/* Returns once others have had time for what they must not do. */
static void wait_a_while(void) {
    usleep(20000);
}

static void busy(void) {
    pthread_t thread;
    open_stopping(2, 3);
    make_steps(6);
    start(&thread, one_step, 0);
    sem_wait(&began);
    is_fault("its process", step(0), CHANHUB_BUSY);
    is_fault("its process", chanhub_exit(hub, 0), CHANHUB_BUSY);
    is_fault("its answer", chanhub_resume(hub, 0, UINT64_MAX), CHANHUB_BUSY);
    is("another process", step(1).what, CHANHUB_DEFAULT);
    is_fault("nothing is open", chanhub_resume(hub, 1, 0), CHANHUB_NOT_PARKED);
    is_fault("it does not wait in the hub", chanhub_cancel(hub, 1, 0), CHANHUB_NOT_PARKED);
    sem_post(&may_end);
    pthread_join(thread, NULL);
    is("it has returned", told[0].what, CHANHUB_DEFAULT);
    is_fault("nothing is open", chanhub_resume(hub, 0, 0), CHANHUB_NOT_PARKED);
    is("one chapter", handed, 1);
    free_stopping();
}

/* Process 0 parks, and hands out. */
static void park_and_hand_out(pthread_t *thread) {
    open_stopping(2, 2);
    is("made", chanhub_make(hub, 0, 0).port, 1);
    make_steps(3);
    start(thread, receive, 0);
    sem_wait(&began);
}

static void parked(void) {
    pthread_t thread;
    park_and_hand_out(&thread);
    is("it waits in the hub", chanhub_send(hub, 1, 1, chanhub_number(7)).what, CHANHUB_SENT);
    is_fault("its answer", chanhub_resume(hub, 0, UINT64_MAX), CHANHUB_BUSY);
    is_fault("its process", step(0), CHANHUB_BUSY);
    sem_post(&may_end);
    pthread_join(thread, NULL);
    is("got", told[0].what, CHANHUB_GOT), is("got", (long long)told[0].value.number, 7);
    free_stopping();

    park_and_hand_out(&thread);
    is("the other stalls at once", chanhub_recv(hub, 1, 1).what, CHANHUB_STALLED);
    sem_post(&may_end);
    pthread_join(thread, NULL);
    is("stalled", told[0].what, CHANHUB_STALLED);
    free_stopping();
}

/* Whose calls a step ends they are told at once, before the function returns that the step's thread runs. */
static void woken(void) {
    pthread_t threads[2];
    open_stopping(2, 3);
    is("made", chanhub_make(hub, 0, 0).port, 1);
    make_steps(4);
    start(&threads[1], receive, 1);
    await_entries(hub, 1 + 3);
    start(&threads[0], send, 0);
    sem_wait(&began);
    pthread_join(threads[1], NULL);
    is("got", told[1].what, CHANHUB_GOT), is("got", (long long)told[1].value.number, 8);
    sem_post(&may_end);
    pthread_join(threads[0], NULL);
    is("sent", told[0].what, CHANHUB_SENT);
    free_stopping();

    open_stopping(2, 3);
    is("made", chanhub_make(hub, 0, 0).port, 1);
    make_steps(4);
    start(&threads[1], receive, 1);
    await_entries(hub, 1 + 3);
    start(&threads[0], receive, 0);
    sem_wait(&began);
    pthread_join(threads[1], NULL);
    is("stalled", told[1].what, CHANHUB_STALLED);
    sem_post(&may_end);
    pthread_join(threads[0], NULL);
    is("stalled", told[0].what, CHANHUB_STALLED);
    free_stopping();
}

/* Process 2 sends bytes, and process 3 selects a send of others. */
static void *send_bytes(void *at) {
    chanhub_case cases[2] = { { .port = 0 }, { true, 1, chanhub_bytes("cd", 2) } };
    if ((size_t)at == 2) told[2] = chanhub_send(hub, 2, 1, chanhub_bytes("ab", 2));
    else told[3] = chanhub_select(hub, 3, cases, 2, false, 0);
    return NULL;
}

static atomic_bool was_cut;

static void *cut(void *at) {
    was_cut = chanhub_cut(hub);
    return at;
}

static bool has_bytes(chanhub_told t, const char *wanted) {
    return t.what == CHANHUB_GOT && t.value.is_bytes && t.value.length == 2 && memcmp(t.value.bytes, wanted, 2) == 0;
}

/* Process 0 hands out the first chapter. Process 1 makes the second fall out, and waits for its turn. What would make the third fall
 * out waits until the second was let go, and is made then. */
static void full(void) {
    enum { CHAPTER = 4 };
    pthread_t threads[PROCS], cutter;
    open_stopping(PROCS + 1, CHAPTER);
    is("made", chanhub_make(hub, 0, 10).port, 1);
    make_steps(2 * CHAPTER - 1);
    start(&threads[0], one_step, 0);
    sem_wait(&began);
    for (int i = 1; i < CHAPTER; i++) is("more room", step(2).what, CHANHUB_DEFAULT);
    memset(told, 0, sizeof told);
    start(&threads[1], one_step, 1);
    await_call(1);
    is_fault("the second has not returned", step(1), CHANHUB_BUSY);
    for (int i = 1; i < CHAPTER; i++) is("still more room", step(2).what, CHANHUB_DEFAULT);
    start(&threads[2], send_bytes, 2);
    start(&threads[3], send_bytes, 3);
    start(&cutter, cut, 0);
    for (unsigned pid = 2; pid < PROCS; pid++) {
        await_call(pid);
        is_fault("it waits", step(pid), CHANHUB_BUSY);
        is_fault("it waits", chanhub_resume(hub, pid, UINT64_MAX), CHANHUB_BUSY);
    }
    wait_a_while();
    is("no step more", lines_of(hub), 2 + 1 + CHAPTER);
    for (size_t pid = 1; pid < PROCS; pid++) is("none has returned", told[pid].what, 0);
    is("nothing was cut", was_cut, 0);
    is("one chapter", handed, 1);
    is("an exit needs no room", chanhub_exit(hub, PROCS).what, CHANHUB_DONE);
    sem_post(&may_end);
    sem_wait(&began);
    pthread_join(threads[0], NULL);
    while (chanhub_look(hub, 1).sent < 2) usleep(100);
    is("the second is being handed out", handed, 2);
    is("by a call that has not returned", told[1].what, 0);
    for (int i = 0; i < 100; i++) sem_post(&may_end);
    for (size_t pid = 1; pid < PROCS; pid++) pthread_join(threads[pid], NULL);
    pthread_join(cutter, NULL);
    is("default", told[1].what, CHANHUB_DEFAULT), is("cut", was_cut, 1);
    is("sent", told[2].what, CHANHUB_SENT), is("sent", told[3].what, CHANHUB_SENT);
    chanhub_told first = chanhub_recv(hub, 0, 1), second = chanhub_recv(hub, 0, 1);
    is("got both", (has_bytes(first, "ab") && has_bytes(second, "cd")) || (has_bytes(first, "cd") && has_bytes(second, "ab")), 1);
    free_stopping();
}

static void cancelled(void) {
    pthread_t threads[3];
    open_stopping(3, 1);
    make_steps(2);
    start(&threads[0], one_step, 0);
    sem_wait(&began);
    for (unsigned pid = 1; pid < 3; pid++) {
        start(&threads[pid], one_step, pid);
        await_call(pid);
    }
    memset(told, 0, sizeof told);
    for (int i = 0; i < 3; i++) is("cancelled", pthread_cancel(threads[i]), 0);
    wait_a_while();
    for (int i = 0; i < 100; i++) sem_post(&may_end);
    for (int i = 0; i < 3; i++) {
        void *result;
        pthread_join(threads[i], &result);
        is("the call returned", told[i].what, CHANHUB_DEFAULT);
        is("then the thread was cancelled", result == PTHREAD_CANCELED, 1);
    }
    is("the hub is free", step(0).what, CHANHUB_DEFAULT);
    free_stopping();
}

/* ---- A slow function. ---- */

/* Four chapters, and what threads take. */
enum { KEEP = 10000, STEPS = 200000, MOST_BYTES = 4 * KEEP * 71 + (1 << 20) };

static const char head[] = "chanhub journal 2\nprocs 4\n";
static atomic_uint made;     /* how many steps have returned */
static unsigned next[PROCS]; /* the number of each process's next step in the chapters */
static unsigned wrong_lines, wrong_texts, too_many;
static atomic_uint wrong_steps;

/* Reads a line `PID select NUMBER default`, where the numbers of a process follow one another, or `PID exit`. Returns its end. */
static const char *read_step(const char *line) {
    unsigned pid = (unsigned)(line[0] - '0') % PROCS;
    if (memcmp(line + 1, " exit\n", 6) == 0) return line + 7;
    char *end;
    bool is_next = memcmp(line + 1, " select ", 8) == 0 && strtoul(line + 9, &end, 10) == next[pid]++;
    if (!is_next || memcmp(end, " default\n", 9) != 0) {
        wrong_lines++;
        return strchr(line, '\n') + 1;
    }
    return end + 9;
}

/* While it runs, there is room for what is left of one chapter and for another, and each thread may have had a step behind it. */
static void read_slowly(void *at, const char *text, size_t length) {
    unsigned before = made;
    usleep(*(useconds_t *)at);
    too_many += made - before > 2 * KEEP + PROCS;
    wrong_texts += !text || memcmp(text, head, sizeof head - 1) != 0 || text[length - 1] != '\n';
    for (const char *line = text + sizeof head - 1; line < text + length;) line = read_step(line);
}

static void *many_steps(void *at) {
    unsigned pid = (unsigned)(size_t)at;
    for (unsigned i = 0; i < STEPS; i++) {
        wrong_steps += chanhub_select(hub, pid, NULL, 0, true, i).what != CHANHUB_DEFAULT;
        made++;
    }
    wrong_steps += chanhub_exit(hub, pid).what != CHANHUB_DONE;
    return NULL;
}

/* The most bytes that the process has had in memory. */
static long most_bytes(void) {
    struct rusage used;
    getrusage(RUSAGE_SELF, &used);
    return used.ru_maxrss * 1024;
}

static void slow(void) {
    pthread_t threads[PROCS];
    useconds_t time = 20000;
    if (chanhub_open_endless(&hub, 2, PROCS, KEEP, read_slowly, &time)) exit(2);
    long bytes = most_bytes();
    for (size_t pid = 0; pid < PROCS; pid++) start(&threads[pid], many_steps, pid);
    for (size_t pid = 0; pid < PROCS; pid++) pthread_join(threads[pid], NULL);
    bytes = most_bytes() - bytes;
    chanhub_free(hub);
    printf("%ld KB\n", bytes / 1024);
#if !defined __SANITIZE_THREAD__ && !defined __SANITIZE_ADDRESS__
    is("bounded memory", bytes <= MOST_BYTES, 1);
#endif
    is("steps told otherwise", wrong_steps, 0);
    for (int pid = 0; pid < PROCS; pid++) is("steps in the chapters", next[pid], STEPS);
    is("wrong lines", wrong_lines, 0);
    is("wrong texts", wrong_texts, 0);
    is("steps too many meanwhile", too_many, 0);
}

/* ---- A function that looks. ---- */

enum { VALUES = 20000 };

static unsigned looks, wrong_looks;

static bool is_journal(char *text, size_t length) {
    bool is_whole = text && memcmp(text, head, sizeof head - 1) == 0 && text[length - 1] == '\n';
    chanhub_free_text(text);
    return is_whole;
}

static void look(void *at, const char *text, size_t length) {
    (void)at, (void)text, (void)length;
    chanhub_counts c = chanhub_look(hub, 1);
    wrong_looks += !c.made || c.sent - c.received > c.cap || c.sent > 2 * VALUES;
    size_t other_length;
    char *other = chanhub_before(hub, &other_length);
    wrong_looks += !is_journal(other, other_length);
    other = chanhub_journal(hub, &other_length);
    wrong_looks += !is_journal(other, other_length);
    looks++;
}

static void *sends_or_receives(void *at) {
    unsigned pid = (unsigned)(size_t)at;
    for (unsigned i = 0; i < VALUES; i++) {
        if (pid % 2) wrong_steps += chanhub_send(hub, pid, 1, chanhub_number(i)).what != CHANHUB_SENT;
        else wrong_steps += chanhub_recv(hub, pid, 1).what != CHANHUB_GOT;
    }
    chanhub_exit(hub, pid);
    return NULL;
}

static void inside(void) {
    pthread_t threads[PROCS];
    if (chanhub_open_endless(&hub, 2, PROCS, 100, look, NULL)) exit(2);
    is("made", chanhub_make(hub, 0, 3).port, 1);
    for (size_t pid = 0; pid < PROCS; pid++) start(&threads[pid], sends_or_receives, pid);
    for (size_t pid = 0; pid < PROCS; pid++) pthread_join(threads[pid], NULL);
    chanhub_counts c = chanhub_look(hub, 1);
    is("sent", (long long)c.sent, 2 * VALUES), is("received", (long long)c.received, 2 * VALUES);
    chanhub_free(hub);
    is("steps told otherwise", wrong_steps, 0);
    is("looks", looks >= PROCS * VALUES / 100, 1);
    is("wrong looks", wrong_looks, 0);
}

int main(int argc, char **argv) {
    static const struct { const char *name; void (*run)(void); } tests[] = {
        { "busy", busy }, { "parked", parked }, { "woken", woken }, { "full", full }, { "cancelled", cancelled }, { "slow", slow },
        { "inside", inside },
    };
    alarm(SECONDS);
    for (size_t i = 0; argc == 2 && i < sizeof tests / sizeof *tests; i++) {
        if (strcmp(argv[1], tests[i].name) != 0) continue;
        tests[i].run();
        return tally(argv[1]);
    }
    return 2;
}
