/* The texts of journals, which are read under the lock. */
#include "hub.h"

#include "heap.h"

#include <inttypes.h>
#include <sched.h>
#include <stdarg.h>
#include <stdio.h>
#include <string.h>

enum { YIELDS = 100 }; /* how often a thread yields to let others in */

/* Lets go of the lock, and takes it again. Those that sleep for it take longer to wake up than this thread to take it again, so
 * it lets them be first, unless that takes too long. */
static void let_others_in(chanhub *h) {
    leave_lock(h);
    for (int i = 0; i < YIELDS && h->sleepers; i++) sched_yield();
    take_lock(h);
}

/* Makes room for so many bytes more; whether memory was there. */
static bool make_room(struct text *text, size_t more) {
    size_t room = 2 * (text->length + more) + 4096;
    char *bytes = heap_realloc(text->bytes, room);
    if (!bytes) return false;
    text->bytes = bytes;
    text->room = room;
    return true;
}

/* Puts pieces of a journal behind the text, from this number on: some, or as many as have room. Tells WRITTEN, NO_PIECE or NO_MEMORY.
 * Holds the lock. */
static struct piece add_pieces(chanhub *h, struct text *text, reader *read, uint64_t number) {
    for (;;) {
        uint8_t *place = text->bytes ? (uint8_t *)text->bytes + text->length : NULL;
        struct piece piece = read(&h->hub, number, place, text->room - text->length);
        if (piece.what == WRITTEN) text->length += piece.length;
        if (piece.what != NO_ROOM) return piece;
        if (!make_room(text, piece.length)) return (struct piece){ .what = NO_MEMORY };
    }
}

/* Puts all pieces of a journal together. Returns whether there is such a journal; the text has no bytes if memory is refused.
 * Holds the lock; if the journal stays as it is meanwhile, not between readings of it. */
bool read_text(chanhub *h, struct text *text, reader *read, bool stays) {
    uint64_t number = 0;
    struct piece piece;
    *text = (struct text){ 0 };
    while ((piece = add_pieces(h, text, read, number)).what == WRITTEN) {
        number += piece.count;
        if (stays) let_others_in(h);
    }
    if (piece.what == NO_MEMORY) {
        heap_free(text->bytes);
        *text = (struct text){ 0 };
    }
    return number || piece.what == NO_MEMORY;
}

/* The text of a journal. */
static char *read_journal(chanhub *h, reader *read, size_t *length) {
    *length = 0;
    if (!h) return NULL;
    struct text text;
    take_lock(h);
    read_text(h, &text, read, false);
    leave_lock(h);
    *length = text.length;
    return text.bytes;
}

char *chanhub_journal(chanhub *h, size_t *length) {
    return read_journal(h, hub_c_present, length);
}

char *chanhub_before(chanhub *h, size_t *length) {
    return read_journal(h, hub_c_before, length);
}

void chanhub_free_text(char *text) {
    heap_free(text);
}

/* ---- Where a hub diverged from the journal that it follows. ---- */

/* Reads the line that a piece is, without its newline; no bytes if there is none. Returns whether memory was there. Holds the lock. */
static bool read_line(chanhub *h, struct text *line, reader *read, uint64_t number) {
    *line = (struct text){ 0 };
    uint8_t what = add_pieces(h, line, read, number).what;
    if (what == WRITTEN) line->length = (size_t)((char *)memchr(line->bytes, '\n', line->length) - line->bytes);
    return what != NO_MEMORY;
}

/* Prints into a block of its own; NULL, and no length, if memory is refused. */
__attribute__((format(printf, 2, 3))) static char *print(size_t *length, const char *format, ...) {
    va_list values;
    va_start(values, format);
    int size = vsnprintf(NULL, 0, format, values);
    va_end(values);
    char *text = heap_alloc((size_t)size + 1);
    if (!text) return NULL;
    va_start(values, format);
    vsnprintf(text, (size_t)size + 1, format, values);
    va_end(values);
    *length = (size_t)size;
    return text;
}

/* What was asked, if anything was, and what the journal has as the step of this number, if it has one. */
static char *print_divergence(size_t *length, const struct text *asked, const struct text *given, uint64_t number) {
    int all = (int)asked->length, has = (int)given->length, pid = 0;
    while (pid < all && asked->bytes[pid] != ' ') pid++;
    const char *words = asked->bytes + pid;
    if (all && has) {
        return print(length, "P%.*s asked%.*s, step %" PRIu64 " is %.*s", pid, asked->bytes, all - pid, words, number, has, given->bytes);
    }
    if (all) return print(length, "P%.*s asked%.*s, the journal ends with step %" PRIu64, pid, asked->bytes, all - pid, words, number - 1);
    if (has) return print(length, "stopped before step %" PRIu64 ", which is %.*s", number, has, given->bytes);
    return print(length, "stopped behind the last step, %" PRIu64, number - 1);
}

char *chanhub_divergence(chanhub *h, size_t *length) {
    *length = 0;
    if (!h) return NULL;
    struct text asked = { 0 }, given = { 0 };
    take_lock(h);
    uint64_t number = h->diverged;
    bool has_both = number && read_line(h, &asked, hub_c_asked, 0) && read_line(h, &given, hub_c_given, number);
    leave_lock(h);
    char *text = has_both ? print_divergence(length, &asked, &given, number) : NULL;
    heap_free(asked.bytes);
    heap_free(given.bytes);
    return text;
}
