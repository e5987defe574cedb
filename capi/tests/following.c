/* Hubs that follow a journal: 200 random runs are recorded and followed, each answer is the recorded one, and a run that diverges is told
 * so, with the step. A test that hangs is ended by an alarm.
 *
 *     following alone     by one thread: turns, the end, and why a journal is refused
 *     following threads   the random runs
 */
#include "runs.h"

#include <pthread.h>
#include <stdlib.h>

enum { SECONDS = 300, PROCS = 5, CALLS = 40, PORTS = 3, RUNS = 200, MOST_CASES = 3 };

static const char *const JOURNAL = "chanhub journal 2\nprocs 2\n0 make 0\n1 recv 1\n0 send 1 9\n0 close 1\n";

/* The turns of two processes, and a hub that goes on after the journal's end. */
static void turns(void) {
    chanhub *hub = follows(JOURNAL, true);
    chanhub_case receive = { .port = 1 };
    is("not yet", chanhub_turn(hub, 1, 1000), 0);
    is("its turn", chanhub_turn(hub, 0, 0), 1);
    is("made", chanhub_make(hub, 0, 0).port, 1);
    is("not yet", chanhub_turn(hub, 0, 0), 0);
    is("its turn", chanhub_turn(hub, 1, 0), 1);
    is("waiting", chanhub_begin(hub, 1, &receive, 1, false, 0).what, CHANHUB_WAITING);
    is_fault("busy", chanhub_recv(hub, 1, 1), CHANHUB_BUSY);
    is("sent", chanhub_send(hub, 0, 1, chanhub_number(9)).what, CHANHUB_SENT);
    is("got", (long long)chanhub_resume(hub, 1, 0).value.number, 9);
    is("no further step", chanhub_turn(hub, 1, 0), 0);
    is("closed", chanhub_close(hub, 0, 1).what, CHANHUB_DONE);
    is("all is made", chanhub_turn(hub, 1, 0) && chanhub_turn(hub, 0, 0), 1);
    has_journal("the same", hub, JOURNAL);
    is("it goes on", chanhub_exit(hub, 1).what, CHANHUB_DONE);
    is("it goes on", chanhub_exit(hub, 0).what, CHANHUB_DONE);
    chanhub_free(hub);
}

/* A hub that goes on, and one that ends, where a process asks for another step. */
static void divergences(void) {
    chanhub *hub = follows(JOURNAL, true);
    is("made", chanhub_make(hub, 0, 0).port, 1);
    has_not_diverged(hub);
    is_diverged("not a close yet", chanhub_close(hub, 0, 1), 3);
    diverged_so(hub, "P0 asked close 1, step 3 is 0 send 1 9");
    is("it goes on", chanhub_close(hub, 0, 1).what, CHANHUB_DONE);
    is("it goes on", chanhub_recv(hub, 1, 1).what, CHANHUB_DRAINED);
    chanhub_free(hub);

    hub = follows(JOURNAL, false);
    chanhub_case receive = { .port = 1 };
    is("made", chanhub_make(hub, 0, 0).port, 1);
    is("waiting", chanhub_begin(hub, 1, &receive, 1, false, 0).what, CHANHUB_WAITING);
    is_diverged("another value", chanhub_send(hub, 0, 1, chanhub_number(8)), 3);
    diverged_so(hub, "P0 asked send 1 8, step 3 is 0 send 1 9");
    is_diverged("ended", chanhub_send(hub, 0, 1, chanhub_number(9)), 3);
    is_diverged("its call", chanhub_resume(hub, 1, CHANHUB_NEVER), 3);
    is_diverged("ended", chanhub_recv(hub, 1, 1), 3);
    is_diverged("ended", chanhub_exit(hub, 1), 3);
    is("any turn", chanhub_turn(hub, 1, 0), 1);
    is("still counted", chanhub_look(hub, 1).made, 1);
    has_journal("what was made", hub, "chanhub journal 2\nprocs 2\n0 make 0\n1 recv 1\n");
    chanhub_free(hub);

    hub = follows("chanhub journal 1\nprocs 1\n0 make 1\n", false);
    is("made", chanhub_make(hub, 0, 1).port, 1);
    is_diverged("behind the end", chanhub_exit(hub, 0), 2);
    diverged_so(hub, "P0 asked exit, the journal ends with step 1");
    is_fault("no process", chanhub_exit(hub, 1), CHANHUB_DIVERGED);
    chanhub_free(hub);
}

/* Opens no hub, for this reason, in no line of a journal. */
static void is_refused(const char *name, chanhub_options options, int wanted) {
    chanhub *hub;
    uint32_t line = 7;
    options.journal_line = &line;
    is(name, chanhub_open_with(&hub, &options), wanted), is("no line", line, 0), is("no hub", hub == NULL, 1);
}

/* The word of a select is the journal's; its cases and its default are not. */
static void choice_words(void) {
    static const char *const journal =
        "chanhub journal 2\nprocs 1\n0 make 1\n0 make 1\n0 select 3 s1:5 s2:6\n0 select 9 r2\n0 select 1 r2 default\n";
    chanhub_case sends[2] = { { true, 1, chanhub_number(5) }, { true, 2, chanhub_number(6) } };
    chanhub_case receive = { .port = 2 };
    chanhub *hub = follows(journal, true);
    is("made", chanhub_make(hub, 0, 1).port, 1), is("made", chanhub_make(hub, 0, 1).port, 2);
    is("the journal's case", chanhub_select(hub, 0, sends, 2, false, 0).index, 1);
    is("got", (long long)chanhub_select(hub, 0, &receive, 1, false, 0).value.number, 6);
    is_diverged("no default", chanhub_select(hub, 0, &receive, 1, false, 1), 5);
    diverged_so(hub, "P0 asked select 1 r2, step 5 is 0 select 1 r2 default");
    is("its own word", chanhub_select(hub, 0, sends, 2, true, 1).index, 1);
    chanhub_free(hub);
}

/* Why a journal is not followed, and what the options must not say with one. */
static void refusals(void) {
    chanhub *hub;
    uint32_t line = 7;
    chanhub_options options = { .journal = "chanhub journal 2\nprocs 2\n0 makes 0\n", .journal_line = &line };
    options.journal_length = strlen(options.journal);
    is("malformed", chanhub_open_with(&hub, &options), 5), is("in line", line, 3), is("no hub", hub == NULL, 1);
    options.journal = "chanhub journal 2\nprocs 2\n0 exit\n0 make 0\n", options.journal_length = strlen(options.journal);
    is("gone", chanhub_open_with(&hub, &options), 6), is("in line", line, 4), is("no hub", hub == NULL, 1);
    options.journal = JOURNAL, options.journal_length = strlen(JOURNAL) - 1;
    is("cut", chanhub_open_with(&hub, &options), 5), is("in line", line, 6);
    options.journal_length = 0;
    is("empty", chanhub_open_with(&hub, &options), 5), is("in line", line, 1);
    options.journal_length = strlen(JOURNAL), options.procs = 3;
    is("other processes", chanhub_open_with(&hub, &options), 1), is("no line", line, 0);
    options.procs = 2, options.edition = 1;
    is("another edition", chanhub_open_with(&hub, &options), 4);
    options.edition = 2;
    chanhub_options limited = options, kept = options, timed = options;
    limited.limit = 10, kept.keep = 5, timed.clock = true;
    is_refused("a limit", limited, 7);
    is_refused("chapters", kept, 7);
    is_refused("a clock", timed, 7);
    is_refused("no processes and no journal", (chanhub_options){ 0 }, 1);
    options.journal_line = NULL;
    is("opened", chanhub_open_with(&hub, &options), 0);
    chanhub_free(hub);
    const char *sixty = "chanhub journal 1\nprocs 64\n63 exit\n";
    options = (chanhub_options){ .procs = 64, .edition = 1, .journal = sixty, .journal_length = strlen(sixty) };
    is("opened", chanhub_open_with(&hub, &options), 0);
    is("exited", chanhub_exit(hub, 63).what, CHANHUB_DONE);
    chanhub_free(hub);
}

/* A call that waits for its turn, one that waits for its answer, and one that comes later, when a hub is stopped. */
static void *waits_for_turn(void *hub) {
    is_diverged("stopped", chanhub_recv(hub, 1, 1), 1);
    return NULL;
}

static void *waits_for_answer(void *hub) {
    is_diverged("stopped", chanhub_recv(hub, 1, 1), 3);
    return NULL;
}

static void stops(void) {
    pthread_t thread;
    chanhub *hub = follows(JOURNAL, true);
    pthread_create(&thread, NULL, waits_for_turn, hub);
    usleep(20000);
    chanhub_stop(hub);
    pthread_join(thread, NULL);
    is_diverged("later", chanhub_make(hub, 0, 0), 1);
    diverged_so(hub, "stopped before step 1, which is 0 make 0");
    chanhub_free(hub);

    hub = follows("chanhub journal 1\nprocs 1\n0 make 1\n", false);
    is("made", chanhub_make(hub, 0, 1).port, 1);
    chanhub_stop(hub);
    diverged_so(hub, "stopped behind the last step, 1");
    chanhub_free(hub);

    chanhub_value bytes = chanhub_bytes("0123456789abcdef0123456789abcdef", 32);
    chanhub_case all[16];
    for (int i = 0; i < 16; i++) all[i] = (chanhub_case){ .sends = true, .port = 0, .value = bytes };
    hub = follows("chanhub journal 2\nprocs 12\n11 select 7 r0 s0:#61 default\n", false);
    is_diverged("another call", chanhub_select(hub, 11, all, 16, false, 7), 1);
    size_t length;
    char *text = chanhub_divergence(hub, &length);
    is("its length", (long long)length, (long long)(strlen("P11 asked select 7") + 16 * strlen(" s0:#") + 16 * 64 +
       strlen(", step 1 is 11 select 7 r0 s0:#61 default")));
    chanhub_free_text(text);
    chanhub_free(hub);

    hub = follows(JOURNAL, false);
    is("made", chanhub_make(hub, 0, 0).port, 1);
    pthread_create(&thread, NULL, waits_for_answer, hub);
    await_entries(hub, 2);
    chanhub_stop(hub);
    pthread_join(thread, NULL);
    is_diverged("later", chanhub_send(hub, 0, 1, chanhub_number(9)), 3);
    chanhub_stop(hub);
    chanhub_free(hub);

    is("opened", chanhub_open(&hub, 2, 1, 10), 0);
    chanhub_stop(hub);
    is("it follows nothing", chanhub_make(hub, 0, 0).port, 1);
    is("it follows nothing", chanhub_turn(hub, 0, 0), 1);
    has_not_diverged(hub);
    chanhub_free(hub);
    chanhub_stop(NULL);
    has_not_diverged(NULL);
}

/* A stop behind a divergence leaves the number that is told. */
static void stops_behind_a_divergence(void) {
    chanhub *hub = follows(JOURNAL, false);
    is_diverged("another step", chanhub_make(hub, 1, 0), 2);
    chanhub_stop(hub);
    is_diverged("the same", chanhub_make(hub, 0, 0), 2);
    diverged_so(hub, "P1 asked make 0, step 2 is 1 recv 1");
    chanhub_free(hub);
}

/* Nothing is made behind a stop, not even by a call that was woken for its turn before. */
static void *was_woken(void *told) {
    chanhub *hub = *(chanhub **)told;
    *(chanhub_told *)told = chanhub_recv(hub, 1, 1);
    return NULL;
}

static void stops_a_woken_call(void) {
    enum { ROUNDS = 100 };
    static const char *const journal = "chanhub journal 2\nprocs 2\n0 make 1\n0 send 1 9\n1 recv 1\n";
    for (int i = 0; i < ROUNDS; i++) {
        pthread_t thread;
        union { chanhub *hub; chanhub_told told; } call = { .hub = follows(journal, false) };
        chanhub *hub = call.hub;
        pthread_create(&thread, NULL, was_woken, &call);
        usleep(200);
        is("made", chanhub_make(hub, 0, 1).port, 1);
        is("sent", chanhub_send(hub, 0, 1, chanhub_number(9)).what, CHANHUB_SENT);
        chanhub_stop(hub);
        long long number = (long long)chanhub_exit(hub, 0).value.number;
        pthread_join(thread, NULL);
        is("what was made before", (long long)lines_of(hub) - 2, number - 1);
        if (number == 3) is_diverged("stopped", call.told, 3);
        chanhub_free(hub);
    }
}

/* Turns of no process, and beside a call of the process that waits for its own. */
static void *turn(void *hub) {
    is("its turn", chanhub_turn(hub, 1, CHANHUB_NEVER), 1);
    return NULL;
}

static void *receives(void *hub) {
    is("got", (long long)chanhub_recv(hub, 1, 1).value.number, 9);
    return NULL;
}

static void turns_beside_calls(void) {
    enum { ROUNDS = 20 };
    pthread_t thread;
    chanhub *hub = follows(JOURNAL, false);
    is("no process", chanhub_turn(hub, 64, CHANHUB_NEVER) && chanhub_turn(hub, 255, CHANHUB_NEVER), 1);
    pthread_create(&thread, NULL, receives, hub);
    while (chanhub_resume(hub, 1, 0).fault != CHANHUB_BUSY) usleep(100);
    is("it would be busy", chanhub_turn(hub, 1, CHANHUB_NEVER), 1);
    is("made", chanhub_make(hub, 0, 0).port, 1);
    is("sent", chanhub_send(hub, 0, 1, chanhub_number(9)).what, CHANHUB_SENT);
    pthread_join(thread, NULL);
    chanhub_free(hub);
    for (int i = 0; i < ROUNDS; i++) {
        pthread_t threads[3];
        hub = follows(JOURNAL, false);
        for (int j = 0; j < 3; j++) pthread_create(&threads[j], NULL, j == i % 3 ? receives : turn, hub);
        usleep(300);
        is("made", chanhub_make(hub, 0, 0).port, 1);
        is("sent", chanhub_send(hub, 0, 1, chanhub_number(9)).what, CHANHUB_SENT);
        is("closed", chanhub_close(hub, 0, 1).what, CHANHUB_DONE);
        for (int j = 0; j < 3; j++) pthread_join(threads[j], NULL);
        chanhub_free(hub);
    }
}

/* ---- Random runs. ---- */

struct process {
    chanhub *hub;
    unsigned pid;
    uint32_t seed;
    int odd; /* the call before which it asks for one more, or -1 */
    int count;
    chanhub_told told[CALLS + 2];
};

static chanhub_told random_call(struct process *p) {
    chanhub_case cases[MOST_CASES];
    uint32_t dice = draw(&p->seed, 100), port = 1 + draw(&p->seed, PORTS), number = draw(&p->seed, 1000);
    if (dice < 35) return chanhub_send(p->hub, p->pid, port, chanhub_number(number));
    if (dice < 70) return chanhub_recv(p->hub, p->pid, port);
    if (dice < 73) return chanhub_close(p->hub, p->pid, port);
    if (dice < 78) return chanhub_cancel(p->hub, p->pid, number % PROCS);
    if (dice < 82) return chanhub_make(p->hub, p->pid, number % 3);
    for (int i = 0; i < MOST_CASES; i++) {
        cases[i] = (chanhub_case){ .sends = draw(&p->seed, 2), .port = (uint16_t)draw(&p->seed, PORTS + 1) };
        if (cases[i].sends) cases[i].value = chanhub_bytes("abc", i);
    }
    return chanhub_select(p->hub, p->pid, cases, 1 + number % MOST_CASES, dice < 90, number);
}

static void *run_process(void *argument) {
    struct process *p = argument;
    for (int i = 0; i < CALLS; i++) {
        if (i == p->odd) p->told[p->count++] = chanhub_make(p->hub, p->pid, 77);
        p->told[p->count++] = random_call(p);
    }
    p->told[p->count++] = chanhub_exit(p->hub, p->pid);
    return NULL;
}

/* A run of this seed, at most one of whose processes asks for one call more. */
static void run_all(chanhub *hub, uint32_t seed, struct process processes[PROCS], unsigned other, int odd) {
    pthread_t threads[PROCS];
    for (int i = 0; i < PORTS; i++) chanhub_make(hub, 0, (uint32_t)i);
    for (unsigned pid = 0; pid < PROCS; pid++) {
        processes[pid] = (struct process){ .hub = hub, .pid = pid, .seed = seed * 1000 + pid, .odd = pid == other ? odd : -1 };
        pthread_create(&threads[pid], NULL, run_process, &processes[pid]);
    }
    for (unsigned pid = 0; pid < PROCS; pid++) pthread_join(threads[pid], NULL);
}

/* How many of the first calls of a process were told the same. */
static int told_alike(const struct process *a, const struct process *b) {
    int i = 0;
    while (i < a->count && i < b->count && same_told(a->told[i], b->told[i])) i++;
    return i;
}

/* The number of the step that this process makes so late, from 0, in a journal; its process 0 first makes the ports. */
static int number_of(const char *text, size_t length, unsigned pid, int place) {
    int number = -1;
    for (size_t at = 0; at < length; number++) {
        if (number > 0 && (unsigned)(text[at] - '0') == pid && place-- == 0) return number;
        while (text[at++] != '\n');
    }
    return 0;
}

static void random_run(uint32_t seed) {
    static struct process recorded[PROCS], followed[PROCS];
    chanhub *hub;
    chanhub_options options = { .procs = PROCS };
    is("opened", chanhub_open_with(&hub, &options), 0);
    run_all(hub, seed, recorded, PROCS, 0);
    options.journal = chanhub_journal(hub, &options.journal_length);
    chanhub_free(hub);

    size_t length;
    is("follows", chanhub_open_with(&hub, &options), 0);
    run_all(hub, seed, followed, PROCS, 0);
    char *text = chanhub_journal(hub, &length);
    is("the same journal", length == options.journal_length && memcmp(text, options.journal, length) == 0, 1);
    for (unsigned pid = 0; pid < PROCS; pid++) is("the same answers", told_alike(&recorded[pid], &followed[pid]), CALLS + 1);
    chanhub_free_text(text);
    chanhub_free(hub);

    /* Each call makes one entry: none is refused. */
    unsigned other = seed % PROCS;
    int odd = (int)(seed * 7 % CALLS), step = number_of(options.journal, options.journal_length, other, odd + (other ? 0 : PORTS));
    is("follows", chanhub_open_with(&hub, &options), 0);
    run_all(hub, seed, followed, other, odd);
    is("as far as it is the same", told_alike(&recorded[other], &followed[other]), odd);
    text = chanhub_journal(hub, &length);
    is("a beginning", length < options.journal_length && memcmp(text, options.journal, length) == 0, 1);
    for (unsigned pid = 0; pid < PROCS; pid++) {
        int alike = told_alike(&recorded[pid], &followed[pid]);
        if (alike <= CALLS) is_diverged("the first that differs", followed[pid].told[alike], step);
    }
    chanhub_free_text(text);
    chanhub_free(hub);
    chanhub_free_text((char *)options.journal);
}

int main(int count, char **words) {
    alarm(SECONDS);
    if (count > 1 && strcmp(words[1], "alone") == 0) {
        turns();
        divergences();
        choice_words();
        refusals();
        stops();
        stops_behind_a_divergence();
        stops_a_woken_call();
        turns_beside_calls();
    } else {
        uint32_t runs = count > 2 ? (uint32_t)atoi(words[2]) : RUNS;
        for (uint32_t seed = 0; seed < runs; seed++) random_run(seed);
    }
    return tally("following");
}
