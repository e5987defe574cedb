/* Random threads on hubs that never end, with cuts by hand among their calls. Each thread keeps what it was told.
 *
 *     chapters FOLDER FIRST COUNT     for each seed from FIRST on, COUNT of them, writes FOLDER/SEED.0, SEED.1, .., the chapters, and
 *                                     FOLDER/SEED.told, each thread's answers as event lines
 *
 * A seed decides the edition, how much is kept, how many threads there are, and what they call. A run that hangs is ended by an alarm.
 */
#include "chanhub.h"

#include <inttypes.h>
#include <pthread.h>
#include <stdatomic.h>
#include <stdio.h>
#include <stdlib.h>
#include <string.h>
#include <unistd.h>

enum { SECONDS = 300, MOST_PROCS = 6, MOST_TURNS = 60, MOST_CHAPTERS = 12, MOST_PATH = 4096, LINE = 128 };

/* What a run is made of. */
struct run {
    uint64_t seed;
    unsigned edition, procs, keep, turns; /* so many turns has each process */
    unsigned buffer;                      /* the capacities of the first ports are multiples of this */
    unsigned pause;                       /* the function takes so many microseconds */
};

struct worker {
    pthread_t thread;
    unsigned pid;
    uint64_t random;
    char told[(MOST_TURNS + 4) * LINE];
    size_t length;
};

static chanhub *hub;
static struct run run;
static atomic_bool done;
static atomic_uint left; /* how many threads have made all of their calls */
static atomic_int failures;

/* ---- Random choices. ---- */

/* The next number of a sequence (splitmix64). */
static uint64_t random_word(uint64_t *state) {
    uint64_t z = *state += 0x9e3779b97f4a7c15;
    z = (z ^ z >> 30) * 0xbf58476d1ce4e5b9;
    z = (z ^ z >> 27) * 0x94d049bb133111eb;
    return z ^ z >> 31;
}

static unsigned below(uint64_t *state, unsigned n) {
    return (unsigned)(random_word(state) % n);
}

static struct run run_of(uint64_t seed) {
    static const unsigned keeps[] = { 1, 2, 3, 5, 8, 13, 20, 40, 100 };
    uint64_t state = seed;
    struct run r = { .seed = seed, .edition = 1 + seed % 3 };
    r.procs = 1 + below(&state, MOST_PROCS);
    r.keep = keeps[below(&state, sizeof keeps / sizeof *keeps)];
    r.turns = 3 + r.keep * (2 + below(&state, MOST_CHAPTERS)) / r.procs;
    if (r.turns > MOST_TURNS) r.turns = MOST_TURNS;
    r.buffer = below(&state, 3);
    r.pause = below(&state, 3) ? 0 : 300;
    return r;
}

/* A number or, from edition 2 on, bytes. */
static chanhub_value random_value(uint64_t *state) {
    if (run.edition == 1 || below(state, 2)) return chanhub_number(random_word(state));
    char bytes[32];
    for (int i = 0; i < 32; i++) bytes[i] = (char)random_word(state);
    return chanhub_bytes(bytes, below(state, 33));
}

static chanhub_case random_case(uint64_t *state) {
    bool sends = below(state, 2);
    chanhub_case c = { .sends = sends, .port = (uint16_t)below(state, 5) };
    if (sends) c.value = random_value(state);
    return c;
}

/* ---- What a thread is told. ---- */

static void tell(struct worker *w, const char *line) {
    w->length += (size_t)sprintf(w->told + w->length, "%u %s\n", w->pid, line);
}

static int spell_value(char *at, const chanhub_value *value) {
    if (!value->is_bytes) return sprintf(at, "%" PRIu64, value->number);
    int length = sprintf(at, "#");
    for (unsigned i = 0; i < value->length; i++) length += sprintf(at + length, "%02x", value->bytes[i]);
    return length;
}

/* Keeps an answer as its event says it. Faults that are not in the journal are left out; of these a memory that is short, a full
 * journal and a call that is open must not come. */
static void keep(struct worker *w, chanhub_told t) {
    static const char *const plain[] = {
        [CHANHUB_DEFAULT] = "default", [CHANHUB_DONE] = "done", [CHANHUB_STALLED] = "stalled", [CHANHUB_CANCELLED] = "cancelled",
    };
    char line[LINE];
    switch (t.what) {
    case CHANHUB_MADE: sprintf(line, "made %u", t.port); break;
    case CHANHUB_SENT: sprintf(line, "case %u sent", t.index); break;
    case CHANHUB_GOT: spell_value(line + sprintf(line, "case %u got ", t.index), &t.value); break;
    case CHANHUB_DRAINED: sprintf(line, "case %u drained", t.index); break;
    case CHANHUB_CLOSED: sprintf(line, "case %u closed", t.index); break;
    case CHANHUB_FAULT:
        if (t.fault == CHANHUB_BUSY || t.fault == CHANHUB_JOURNAL_FULL || t.fault == CHANHUB_NO_MEMORY) failures++;
        if (t.fault <= CHANHUB_BUSY || (t.fault >= CHANHUB_JOURNAL_FULL && t.fault <= CHANHUB_NOT_YET && t.fault != CHANHUB_NOT_PARKED)) return;
        sprintf(line, "fault %u", t.fault);
        break;
    case CHANHUB_WAITING: failures++; return;
    default: strcpy(line, plain[t.what]);
    }
    tell(w, line);
}

/* ---- The threads. ---- */

/* A select, or a call that is begun and resumed: at once or later, and as often as it takes. */
static chanhub_told select_or_begin(struct worker *w) {
    chanhub_case cases[16];
    size_t count = below(&w->random, 5) ? 1 + below(&w->random, 3) : below(&w->random, 17);
    for (size_t i = 0; i < count; i++) cases[i] = random_case(&w->random);
    bool has_default = below(&w->random, 10) < 3;
    uint64_t word = below(&w->random, 3) ? random_word(&w->random) : 0;
    if (below(&w->random, 2)) return chanhub_select(hub, w->pid, cases, count, has_default, word);
    chanhub_told t = chanhub_begin(hub, w->pid, cases, count, has_default, word);
    while (t.what == CHANHUB_WAITING) {
        if (below(&w->random, 4) == 0) chanhub_cut(hub);
        if (below(&w->random, 4) == 0) usleep(below(&w->random, 100));
        t = chanhub_resume(hub, w->pid, below(&w->random, 3) ? below(&w->random, 100000) : UINT64_MAX);
    }
    return t;
}

static chanhub_told turn(struct worker *w) {
    unsigned port = below(&w->random, 5), dice = below(&w->random, 100);
    if (dice < 34) return chanhub_send(hub, w->pid, port, random_value(&w->random));
    if (dice < 68) return chanhub_recv(hub, w->pid, port);
    if (dice < 90) return select_or_begin(w);
    if (dice < 92) return chanhub_make(hub, w->pid, below(&w->random, 4) ? below(&w->random, 6) : 1025);
    if (dice < 99) return chanhub_cancel(hub, w->pid, below(&w->random, run.procs + 1));
    return chanhub_close(hub, w->pid, port);
}

/* A call of edition 3: processes leave and come back, and so do ports. Process 0 stays. */
static chanhub_told turn_of_lives(struct worker *w) {
    unsigned dice = below(&w->random, 100);
    if (dice < 10 && w->pid) return chanhub_exit(hub, w->pid);
    if (dice < 30) return chanhub_start(hub, w->pid, below(&w->random, run.procs + 1));
    if (dice < 40) return chanhub_close(hub, w->pid, below(&w->random, 5));
    if (dice < 60) return chanhub_reopen(hub, w->pid, below(&w->random, 5), below(&w->random, 4));
    return turn(w);
}

/* The process exits; in edition 3 again and again, until nobody is left who may start it. */
static void leave(struct worker *w) {
    left++;
    while (run.edition == 3 && left < run.procs) {
        keep(w, chanhub_exit(hub, w->pid));
        usleep(50);
    }
    keep(w, chanhub_exit(hub, w->pid));
}

static void *work(void *at) {
    struct worker *w = at;
    for (unsigned i = 0; i < run.turns; i++) {
        if (below(&w->random, 20) == 0) chanhub_cut(hub);
        if (below(&w->random, 40) == 0) usleep(below(&w->random, 200));
        keep(w, run.edition == 3 ? turn_of_lives(w) : turn(w));
    }
    leave(w);
    return NULL;
}

static bool is_journal(char *text, size_t length) {
    bool is_whole = text && length > 18 && memcmp(text, "chanhub journal ", 16) == 0 && text[length - 1] == '\n';
    chanhub_free_text(text);
    return is_whole;
}

/* Reads what any thread may read at any time. */
static void read_all(void) {
    size_t length;
    char *text = chanhub_journal(hub, &length);
    failures += !is_journal(text, length);
    text = chanhub_before(hub, &length);
    failures += text && !is_journal(text, length);
    for (unsigned port = 1; port < 5; port++) {
        chanhub_counts c = chanhub_look(hub, port);
        failures += c.sent - c.received > c.cap;
    }
}

/* Belongs to no process: it reads, and cuts now and then. */
static void *reads_and_cuts(void *at) {
    uint64_t state = run.seed + 1;
    while (!done) {
        read_all();
        if (below(&state, 4) == 0) failures += !chanhub_cut(hub);
        usleep(below(&state, 500));
    }
    return at;
}

/* Writes a chapter, and reads, sometimes slowly. */
static void write_chapter(void *files, const char *text, size_t length) {
    if (run.pause) usleep(run.pause);
    if (run.seed % 3 == 0) read_all();
    chanhub_write_chapter(files, text, length);
}

static void write_told(const char *name, const struct worker *workers, const char *made) {
    char path[MOST_PATH + sizeof ".told"];
    snprintf(path, sizeof path, "%s.told", name);
    FILE *file = fopen(path, "wb");
    if (!file) exit(2);
    fputs(made, file);
    for (unsigned pid = 0; pid < run.procs; pid++) fwrite(workers[pid].told, 1, workers[pid].length, file);
    fclose(file);
}

static void make_run(const char *folder, uint64_t seed) {
    static struct worker workers[MOST_PROCS];
    char name[MOST_PATH];
    snprintf(name, sizeof name, "%s/%" PRIu64, folder, seed);
    chanhub_files files = { .name = name };
    run = run_of(seed);
    done = false;
    left = 0;
    if (chanhub_open_endless(&hub, run.edition, run.procs, run.keep, write_chapter, &files)) exit(2);
    for (uint32_t port = 0; port < 3; port++) failures += chanhub_make(hub, 0, port * run.buffer).what != CHANHUB_MADE;
    for (unsigned pid = 0; pid < run.procs; pid++) {
        workers[pid] = (struct worker){ .pid = pid, .random = seed << 8 | pid };
        if (pthread_create(&workers[pid].thread, NULL, work, &workers[pid])) exit(2);
    }
    pthread_t reader;
    if (pthread_create(&reader, NULL, reads_and_cuts, NULL)) exit(2);
    for (unsigned pid = 0; pid < run.procs; pid++) pthread_join(workers[pid].thread, NULL);
    done = true;
    pthread_join(reader, NULL);
    chanhub_free(hub);
    failures += files.error != 0;
    write_told(name, workers, "0 made 1\n0 made 2\n0 made 3\n");
}

int main(int argc, char **argv) {
    if (argc != 4) return 2;
    uint64_t first = strtoull(argv[2], NULL, 10), count = strtoull(argv[3], NULL, 10);
    for (uint64_t seed = first; seed < first + count; seed++) {
        alarm(SECONDS);
        make_run(argv[1], seed);
        if (failures) printf("seed %" PRIu64 ": wrong\n", seed);
        if (failures) return 1;
    }
    return 0;
}
