/* How a hub is opened, and ends. Nobody else has it then, so there is no lock to hold. */
#include "hub.h"

#include <stdlib.h>
#include <time.h>

enum {
    MOST_STEPS = 1000000,
    GREATEST_EDITION = 255
};

/* Makes the place that a call of a process waits at. */
static void init_place(struct place *place) {
    pthread_condattr_t monotonic;
    pthread_condattr_init(&monotonic);
    pthread_condattr_setclock(&monotonic, CLOCK_MONOTONIC);
    pthread_cond_init(&place->answered, &monotonic);
    pthread_condattr_destroy(&monotonic);
}

/* The hub that was opened, or why it was not. */
static int opened(chanhub **hub, chanhub *h, int refusal) {
    if (refusal) {
        free(h);
        return refusal;
    }
    h->clock = NOBODY;
    pthread_mutex_init(&h->lock, NULL);
    pthread_cond_init(&h->handed, NULL);
    for (int pid = 0; pid < MOST_PROCS; pid++) init_place(&h->places[pid]);
    *hub = h;
    return 0;
}

/* A number that no hub has, if it is too great. */
static uint8_t edition_of(unsigned edition) { return edition > GREATEST_EDITION ? 0 : (uint8_t)edition; }
static uint8_t procs_of(unsigned procs) { return procs > GREATEST_PID ? GREATEST_PID : (uint8_t)procs; }

static int open_limited(chanhub **hub, unsigned edition, unsigned procs, uint32_t limit) {
    *hub = NULL;
    chanhub *h = calloc(1, sizeof *h);
    if (!h) return 3;
    h->limit = limit;
    return opened(hub, h, hub_c_open(&h->hub, edition_of(edition), procs_of(procs), limit));
}

static int open_endless(chanhub **hub, unsigned edition, unsigned procs, uint32_t keep, chanhub_chapters *chapters, void *pointer) {
    *hub = NULL;
    chanhub *h = calloc(1, sizeof *h);
    if (!h) return 3;
    h->chapters = chapters;
    h->pointer = pointer;
    return opened(hub, h, hub_c_open_endless(&h->hub, edition_of(edition), procs_of(procs), keep, chapters != NULL));
}

/* Memory was refused to a hub that was just opened, and it is freed. */
static int no_memory(chanhub **hub) {
    (*hub)->chapters = NULL; /* nobody has seen the hub, so nobody gets one */
    chanhub_free(*hub);
    *hub = NULL;
    return 3;
}

/* Makes the clock of a hub that was just opened wait. */
static int start_clock(chanhub **hub, uint8_t clock) {
    chanhub *h = *hub;
    struct told t = { 0 };
    hub_c_recv(&h->hub, clock, 0, &t);
    if (t.it.what != CHANHUB_WAITING) return no_memory(hub);
    h->clock = clock;
    set_clock(h, ASLEEP);
    return 0;
}

/* The number at a place of a text, of which at most two digits count. */
static unsigned number_at(const char *text) {
    unsigned first = (unsigned)(text[0] - '0');
    return text[1] == '\n' ? first : 10 * first + (unsigned)(text[1] - '0');
}

/* Whether the hub of a journal, which is well formed, was opened as the options say. Returns what differs, or 0. */
static int differs(const chanhub_options *o, bool has_clock) {
    static const char edition_line[] = "chanhub journal E\n", procs_line[] = "procs ";
    const char *edition = o->journal + sizeof edition_line - 3, *procs = edition + 2 + sizeof procs_line - 1;
    if (o->clock && !has_clock) return 7;
    if (o->procs && o->procs != number_at(procs) - has_clock) return 1;
    return o->edition && o->edition != number_at(edition) ? 4 : 0;
}

/* Begins to follow a journal. A clock is awake until its first wait, which is made here where it is the first step of all. */
static int begin_following(chanhub **hub, uint8_t clock) {
    chanhub *h = *hub;
    h->clock = clock;
    h->next = hub_c_next(&h->hub);
    h->state = h->goes_on && !h->next ? FREE : FOLLOWS;
    set_clock(h, clock == NOBODY ? NO_CLOCK : AWAKE);
    if (h->state == FOLLOWS) settle(h, NOBODY);
    return h->state == ENDED ? no_memory(hub) : 0;
}

/* Opens a hub that follows the journal of the options. */
static int open_following(chanhub **hub, const chanhub_options *o) {
    if (o->limit || o->keep || o->chapters) return 7;
    chanhub *h = calloc(1, sizeof *h);
    if (!h) return 3;
    struct followed f = hub_c_open_following(&h->hub, (const uint8_t *)o->journal, o->journal_length, o->goes_on);
    if (o->journal_line) *o->journal_line = f.line;
    uint8_t clock = hub_c_clock(&h->hub);
    int why = f.refusal ? f.refusal : differs(o, clock != NOBODY);
    if (why) hub_c_end(&h->hub);
    h->limit = MOST_STEPS;
    h->goes_on = o->goes_on;
    h->asks_again = o->asks_again;
    why = opened(hub, h, why);
    return why ? why : begin_following(hub, clock);
}

static int open_as(chanhub **hub, const chanhub_options *o) {
    unsigned edition = o->edition ? o->edition : 2, procs = o->procs;
    *hub = NULL;
    if (o->journal_line) *o->journal_line = 0;
    if (o->journal) return open_following(hub, o);
    if (o->clock && (procs < 1 || procs >= MOST_PROCS)) return 1;
    if (o->clock && edition == 1) return 4;
    if (o->keep ? o->limit != 0 : o->chapters != NULL) return 2;
    procs += o->clock;
    int why = o->keep ? open_endless(hub, edition, procs, o->keep, o->chapters, o->pointer)
                      : open_limited(hub, edition, procs, o->limit ? o->limit : MOST_STEPS);
    return why || !o->clock ? why : start_clock(hub, (uint8_t)o->procs);
}

/* The hub may be watched from now on, if it was opened. */
static int watched(chanhub **hub, int refusal) {
    if (!refusal) watch_hub(*hub);
    return refusal;
}

int chanhub_open(chanhub **hub, unsigned edition, unsigned procs, uint32_t limit) {
    return watched(hub, open_limited(hub, edition, procs, limit));
}

int chanhub_open_endless(chanhub **hub, unsigned edition, unsigned procs, uint32_t keep, chanhub_chapters *chapters,
                         void *pointer) {
    return watched(hub, open_endless(hub, edition, procs, keep, chapters, pointer));
}

int chanhub_open_with(chanhub **hub, const chanhub_options *options) {
    return watched(hub, open_as(hub, options));
}

void chanhub_free(chanhub *h) {
    if (!h) return;
    unwatch_hub(h);
    if (h->chapters) hand_out_rest(h);
    hub_c_end(&h->hub);
    for (int pid = 0; pid < MOST_PROCS; pid++) pthread_cond_destroy(&h->places[pid].answered);
    pthread_cond_destroy(&h->handed);
    pthread_mutex_destroy(&h->lock);
    free(h);
}
