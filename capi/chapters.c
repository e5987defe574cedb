/* The chapters of a hub that never ends.
 *
 * Each chapter is handed out once, in order. At most one waits in the hub. The thread whose step made it fall out claims it
 * before it lets go of the lock, so no other thread does. It waits until the chapter before is handed out, and then takes this
 * one out of the hub, so that the next may fall out.
 */
#include "hub.h"

#include "heap.h"

/* Waits, in a call of this process, until the chapter that waits in the hub is taken. Holds the lock, but not meanwhile. */
void wait_for_room(chanhub *h, unsigned pid) {
    struct pause pause = begin_pause(h, pid);
    uint64_t taken = h->taken;
    while (h->taken == taken) pthread_cond_wait(&h->handed, &h->lock);
    end_pause(h, pause);
}

/* Takes the chapter that waits out of the hub: its text, without bytes if memory is refused. Holds the lock, but not all the
 * time. */
static void take_chapter(chanhub *h, struct text *text) {
    read_text(h, text, hub_c_waiting, true);
    hub_c_let_go(&h->hub);
    h->waits = false;
    h->taken++;
    pthread_cond_broadcast(&h->handed);
}

/* Gives the text of a chapter to the function. Without the lock. */
static void give_chapter(chanhub *h, struct text *text) {
    h->chapters(h->pointer, text->bytes, text->length);
    heap_free(text->bytes);
}

/* Hands out the chapter that a call of this process claimed, after those before it. Holds the lock, but not while it waits or the
 * function runs. */
void hand_out(chanhub *h, unsigned pid) {
    struct pause pause = begin_pause(h, pid);
    while (h->handing) pthread_cond_wait(&h->handed, &h->lock);
    h->handing = true;
    struct text text;
    take_chapter(h, &text);
    leave_lock(h);
    give_chapter(h, &text);
    take_lock(h);
    h->handing = false;
    pthread_cond_broadcast(&h->handed);
    end_pause(h, pause);
}

/* Hands out the chapters that the hub still keeps. Nobody else has the hub. */
void hand_out_rest(chanhub *h) {
    struct pause pause = begin_pause(h, NOBODY);
    struct text text;
    if (read_text(h, &text, hub_c_before, false)) give_chapter(h, &text);
    read_text(h, &text, hub_c_present, false);
    give_chapter(h, &text);
    end_pause(h, pause);
}

bool chanhub_cut(chanhub *h) {
    if (!h) return false;
    take_lock(h);
    struct cut c;
    while (!(c = hub_c_cut(&h->hub)).cut && c.chapter) wait_for_room(h, NOBODY);
    if (claims_chapter(h, c.chapter)) hand_out(h, NOBODY);
    leave_lock(h);
    return c.cut;
}
