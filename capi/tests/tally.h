/* What the tests in C share: they compare numbers, print those that are wrong, and count. */
#ifndef TALLY_H
#define TALLY_H

#include "chanhub.h"

#include <stdatomic.h>
#include <stdio.h>
#include <string.h>
#include <unistd.h>

static atomic_int tried, wrong;

static inline void is(const char *name, long long found, long long wanted) {
    tried++;
    if (found == wanted) return;
    wrong++;
    printf("%s: found %lld, wanted %lld\n", name, found, wanted);
}

static inline void is_fault(const char *name, chanhub_told t, int number) {
    is(name, t.what, CHANHUB_FAULT);
    is(name, t.fault, number);
}

static inline void has_journal(const char *name, chanhub *hub, const char *wanted) {
    size_t length;
    char *text = chanhub_journal(hub, &length);
    is(name, text && length == strlen(wanted) && memcmp(text, wanted, length) == 0, 1);
    chanhub_free_text(text);
}

/* How many lines the hub's journal has. */
static inline unsigned lines_of(chanhub *hub) {
    size_t length;
    unsigned lines = 0;
    char *text = chanhub_journal(hub, &length);
    for (size_t i = 0; i < length; i++) lines += text[i] == '\n';
    chanhub_free_text(text);
    return lines;
}

/* Returns once the journal has so many entries. A call that is among them and waits has parked by then. */
static inline void await_entries(chanhub *hub, unsigned entries) {
    while (lines_of(hub) < entries + 2) usleep(100);
}

/* Prints how many were right, and gives the status of the program. */
static inline int tally(const char *name) {
    printf("%s: %d of %d right\n", name, tried - wrong, (int)tried);
    return wrong || !tried;
}

#endif
