/* followed_runs [RUNS [BUSY]]: random runs whose calls have deadlines, 200 if their number is not given. Each is recorded and
 * followed, and each answer is the recorded one, whatever time it is. Then it is followed with another call, which its journal
 * has not. Meanwhile so many threads as BUSY says keep the processors busy. A test that hangs is ended by an alarm.
 */
#include "runs.h"

#include <pthread.h>
#include <stdlib.h>

enum { SECONDS = 600, PROCS = 5, CALLS = 40, PORTS = 3, RUNS = 200, MOST_CASES = 3, MOST_BUSY = 64 };

/* What the deadlines of a run are: those that are drawn, or ones that would answer each call otherwise. */
enum times { DRAWN, PASSED, NEVER_PASS };

struct process {
    chanhub *hub;
    unsigned pid;
    uint32_t seed;
    enum times times;
    int odd; /* the call before which it asks for one more, or -1 */
    int count;
    chanhub_told told[CALLS + 2];
};

/* Some pass before the call, some soon. */
static uint64_t some_deadline(struct process *p) {
    uint32_t dice = draw(&p->seed, 10), length = draw(&p->seed, dice < 8 ? 200000 : 2000000);
    if (p->times != DRAWN) return p->times == PASSED ? 0 : FAR_OFF;
    return dice ? chanhub_in(length) : 0;
}

static chanhub_told wait_for_it(struct process *p, chanhub_told t) {
    while (t.what == CHANHUB_WAITING) t = chanhub_resume(p->hub, p->pid, 50000);
    return t;
}

/* A call with a deadline: of one case, of several, or begun and resumed. */
static chanhub_told call_until(struct process *p) {
    chanhub_case cases[MOST_CASES];
    uint32_t dice = draw(&p->seed, 100), number = draw(&p->seed, 1000), port = 1 + draw(&p->seed, PORTS);
    uint64_t deadline = some_deadline(p);
    if (dice < 35) return chanhub_send_until(p->hub, p->pid, port, chanhub_number(number), deadline);
    if (dice < 75) return chanhub_recv_until(p->hub, p->pid, port, deadline);
    for (int i = 0; i < MOST_CASES; i++) {
        cases[i] = (chanhub_case){ .sends = draw(&p->seed, 2), .port = (uint16_t)draw(&p->seed, PORTS + 1) };
        if (cases[i].sends) cases[i].value = chanhub_bytes("abc", i);
    }
    size_t count = 1 + number % MOST_CASES;
    if (dice < 85) return chanhub_select_until(p->hub, p->pid, cases, count, false, number, deadline);
    return wait_for_it(p, chanhub_begin_until(p->hub, p->pid, cases, count, false, number, deadline));
}

static chanhub_told random_call(struct process *p) {
    uint32_t dice = draw(&p->seed, 100), port = 1 + draw(&p->seed, PORTS), number = draw(&p->seed, 1000);
    if (dice < 5) chanhub_expire(p->hub, number % PROCS);
    if (dice < 70) return call_until(p);
    if (dice < 78) return chanhub_send(p->hub, p->pid, port, chanhub_number(number));
    if (dice < 86) return chanhub_recv(p->hub, p->pid, port);
    if (dice < 88) return chanhub_close(p->hub, p->pid, port);
    if (dice < 94) return chanhub_cancel(p->hub, p->pid, number % PROCS);
    return number % 2 ? chanhub_try_recv(p->hub, p->pid, port) : chanhub_make(p->hub, p->pid, number % 3);
}

static void *run_process(void *argument) {
    struct process *p = argument;
    for (int i = 0; i < CALLS; i++) {
        if (i == p->odd) p->told[p->count++] = chanhub_make(p->hub, p->pid, 77);
        p->told[p->count++] = random_call(p);
    }
    p->told[p->count++] = chanhub_exit(p->hub, p->pid);
    return NULL;
}

/* A run of this seed, at most one of whose processes asks for one call more. */
static void run_all(chanhub *hub, uint32_t seed, enum times times, struct process processes[PROCS], unsigned other, int odd) {
    pthread_t threads[PROCS];
    for (int i = 0; i < PORTS; i++) chanhub_make(hub, 0, (uint32_t)i);
    for (unsigned pid = 0; pid < PROCS; pid++) {
        struct process *p = &processes[pid];
        *p = (struct process){ .hub = hub, .pid = pid, .seed = seed * 1000 + pid, .times = times, .odd = -1 };
        if (pid == other) p->odd = odd;
        pthread_create(&threads[pid], NULL, run_process, p);
    }
    for (unsigned pid = 0; pid < PROCS; pid++) pthread_join(threads[pid], NULL);
}

/* How many of the first calls of a process were told the same. */
static int told_alike(const struct process *a, const struct process *b) {
    int i = 0;
    while (i < a->count && i < b->count && same_told(a->told[i], b->told[i])) i++;
    return i;
}

static bool is_line(const char *line, const char *wanted) {
    return strncmp(line, wanted, strlen(wanted)) == 0;
}

/* The number of the step with which this process begins its call of this number, from 0; process 0 first makes the ports. A call
 * whose process wakes the clock, number PROCS, goes on by that and by its wait. */
static int number_of(const char *text, unsigned pid, int call) {
    bool wakes = false, has_woken = false;
    char cancels[16];
    snprintf(cancels, sizeof cancels, "%u cancel %d\n", pid, PROCS);
    for (int number = -1; *text; number++, text = strchr(text, '\n') + 1) {
        if (number < 1 || (unsigned)(*text - '0') != pid) continue;
        has_woken = wakes;
        wakes = is_line(text, cancels);
        if (!wakes && !has_woken && call-- == 0) return number;
    }
    return 0;
}

/* What came of all runs: the calls that timed out, and how many of them the clock cancelled. */
static int timed_out, cancelled;

static void count_ends(const struct process processes[PROCS], const char *text) {
    for (unsigned pid = 0; pid < PROCS; pid++) {
        for (int i = 0; i < processes[pid].count; i++) timed_out += processes[pid].told[i].what == CHANHUB_TIMED_OUT;
    }
    while ((text = strstr(text, "\n5 cancel "))) cancelled++, text++;
}

/* The journal of a hub, which is freed; ended by a zero byte. */
static char *journal_of(chanhub *hub) {
    size_t length;
    char *text = chanhub_journal(hub, &length), *journal = malloc(length + 1);
    if (!text || !journal) exit(2);
    memcpy(journal, text, length);
    journal[length] = '\0';
    chanhub_free_text(text);
    chanhub_free(hub);
    return journal;
}

/* Each call of a run is told the same when its journal is followed, and the journal is the same. */
static void is_repeated(const struct process recorded[PROCS], const char *journal, uint32_t seed, enum times times) {
    static struct process followed[PROCS];
    chanhub *hub = follows(journal, false);
    run_all(hub, seed, times, followed, PROCS, 0);
    for (unsigned pid = 0; pid < PROCS; pid++) {
        is("the same answers", told_alike(&recorded[pid], &followed[pid]), recorded[pid].count);
        is("as many answers", followed[pid].count, recorded[pid].count);
    }
    char *text = journal_of(hub);
    is("the same journal", strcmp(text, journal), 0);
    free(text);
}

/* A process asks for one call more, and all are told so. */
static void all_are_told(const struct process recorded[PROCS], const char *journal, uint32_t seed, unsigned other, int odd,
                         int step) {
    static struct process followed[PROCS];
    chanhub *hub = follows(journal, false);
    run_all(hub, seed, NEVER_PASS, followed, other, odd);
    is("as far as it is the same", told_alike(&recorded[other], &followed[other]), odd);
    for (unsigned pid = 0; pid < PROCS; pid++) {
        int alike = told_alike(&recorded[pid], &followed[pid]);
        if (alike <= CALLS) is_diverged("the first that differs", followed[pid].told[alike], step);
    }
    char *text = journal_of(hub);
    is("a beginning", strlen(text) < strlen(journal) && is_line(journal, text), 1);
    free(text);
}

/* A process asks for one call more, which is told so, and then all goes on, with deadlines. That run can be followed too. */
static void goes_on(const struct process recorded[PROCS], const char *journal, uint32_t seed, unsigned other, int odd, int step) {
    static struct process followed[PROCS];
    chanhub *hub = follows(journal, true);
    run_all(hub, seed, DRAWN, followed, other, odd);
    struct process *p = &followed[other];
    is("as far as it is the same", told_alike(&recorded[other], p), odd);
    is_diverged("the one more", p->told[odd], step);
    memmove(&p->told[odd], &p->told[odd + 1], (size_t)(--p->count - odd) * sizeof *p->told);
    for (unsigned pid = 0; pid < PROCS; pid++) {
        for (int i = 0; i < followed[pid].count; i++) is("no other is", followed[pid].told[i].fault == CHANHUB_DIVERGED, 0);
    }
    char *text = journal_of(hub);
    is_repeated(followed, text, seed, NEVER_PASS);
    count_ends(followed, text);
    free(text);
}

static void random_run(uint32_t seed) {
    static struct process recorded[PROCS];
    chanhub *hub;
    chanhub_options options = { .procs = PROCS, .clock = true };
    is("opened", chanhub_open_with(&hub, &options), 0);
    run_all(hub, seed, DRAWN, recorded, PROCS, 0);
    char *journal = journal_of(hub);
    count_ends(recorded, journal);
    is_repeated(recorded, journal, seed, seed % 3);
    unsigned other = seed % PROCS;
    int odd = (int)(seed * 7 % CALLS), step = number_of(journal, other, odd + (other ? 0 : PORTS));
    if (seed % 2) all_are_told(recorded, journal, seed, other, odd, step);
    else goes_on(recorded, journal, seed, other, odd, step);
    free(journal);
}

/* Keeps a processor busy. */
static atomic_bool is_over;

static void *busy(void *unused) {
    while (!is_over);
    return unused;
}

static void run_each(uint32_t runs, int count) {
    pthread_t loads[MOST_BUSY];
    for (int i = 0; i < count; i++) pthread_create(&loads[i], NULL, busy, NULL);
    for (uint32_t seed = 0; seed < runs; seed++) random_run(seed);
    is_over = true;
    for (int i = 0; i < count; i++) pthread_join(loads[i], NULL);
    printf("%u runs, %d calls timed out, %d of them after a wait\n", runs, timed_out, cancelled);
    is("some waited until their deadlines", cancelled > (int)runs, 1);
    is("some did not wait", timed_out - cancelled > (int)runs, 1);
}

int main(int count, char **words) {
    alarm(SECONDS);
    run_each(count > 1 ? (uint32_t)atoi(words[1]) : RUNS, count > 2 ? atoi(words[2]) % MOST_BUSY : 0);
    return tally("followed runs");
}
