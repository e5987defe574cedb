/* What the tests of hubs that follow a journal share: random numbers, and how answers and journals are compared. */
#ifndef RUNS_H
#define RUNS_H

#include "tally.h"

/* A deadline that does not pass while a test runs, unless it is made to. */
static const uint64_t FAR_OFF = CHANHUB_NEVER - 1;

static inline uint32_t draw(uint32_t *seed, uint32_t most) {
    *seed = *seed * 1664525 + 1013904223;
    return (*seed >> 8) % most;
}

static inline bool same_told(chanhub_told a, chanhub_told b) {
    return a.what == b.what && a.fault == b.fault && a.index == b.index && a.port == b.port && a.value.number == b.value.number &&
           a.value.is_bytes == b.value.is_bytes && a.value.length == b.value.length && memcmp(a.value.bytes, b.value.bytes, 32) == 0;
}

static inline void is_diverged(const char *name, chanhub_told t, int step) {
    is_fault(name, t, CHANHUB_DIVERGED);
    is(name, (long long)t.value.number, step);
}

/* What is told of the hub's divergence. */
static inline void diverged_so(chanhub *hub, const char *wanted) {
    size_t length;
    char *text = chanhub_divergence(hub, &length);
    is(wanted, text && length == strlen(wanted) && memcmp(text, wanted, length) == 0, 1);
    chanhub_free_text(text);
}

static inline void has_not_diverged(chanhub *hub) {
    size_t length = 1;
    is("no divergence", chanhub_divergence(hub, &length) == NULL && length == 0, 1);
}

/* Opens a hub that follows this journal. */
static inline chanhub *follows(const char *journal, bool goes_on) {
    chanhub *hub;
    chanhub_options options = { .journal = journal, .journal_length = strlen(journal), .goes_on = goes_on };
    is("opened", chanhub_open_with(&hub, &options), 0);
    return hub;
}

#endif
