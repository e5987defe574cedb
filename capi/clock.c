/* The steps of the clock, a process that ends calls whose deadlines have passed. All functions here hold the lock; in a hub that
 * never ends, not while they wait or hand out a chapter. chanhub_steps_left takes it first, and chanhub_has_clock needs none.
 *
 * The clock is a process that no thread has: whoever holds the lock makes its steps. It waits on the nil port, where it holds up
 * no stall, unless a call with a deadline waits or is about to. Before such a call waits, its process wakes the clock. If its
 * deadline passes first, the thread that waits for it has the clock cancel it. Once the last such call has ended, the clock is
 * due to wait again: in the next step under the same lock, unless a chapter has to be handed out before. If the clock waits
 * later, no stall is missed, since the hub looks for one at each call that parks. While the clock is awake, a call first looks
 * whether it is due.
 *
 * If the clock's steps are next in the journal that the hub follows, the thread that made the step before makes them too, before
 * it lets go of the lock. So nobody ever waits for the clock. No deadline is looked at until all of the journal is made.
 */
#include "hub.h"

/* Sets whose calls look closer before they begin. Holds the lock. */
void set_closer(chanhub *h) {
    bool all = h->state == FREE ? h->clock_is == AWAKE : h->state == ENDED || h->with_ends || h->foresees;
    h->closer = all ? EVERYBODY : only(h->clock);
}

/* Notes what the clock is at. Holds the lock. Where the clock waits, no call that waits has a deadline that counts: otherwise
 * the program gives one to a call that had none in the journal that the hub follows. */
void set_clock(chanhub *h, enum clock clock_is) {
    h->clock_is = clock_is;
    if (clock_is != AWAKE) h->timed = 0;
    set_closer(h);
}

/* Does what follows from a step that was made within a call of this process: wakes those whose calls it ended, and hands out the
 * chapter that it made fall out. */
void follow_up(chanhub *h, unsigned pid, const struct told *t) {
    wake(h, note_step(h, t));
    if (claims_chapter(h, t->chapter)) hand_out(h, pid);
}

/* The clock exits, which nothing refuses. */
static void exit_clock(chanhub *h, struct told *t) {
    hub_c_exit(&h->hub, h->clock, t);
    h->exits++;
    set_clock(h, GONE);
}

/* The clock waits. */
static void park_clock(chanhub *h, struct told *t) {
    hub_c_recv(&h->hub, h->clock, 0, t);
    if (t->it.what == CHANHUB_WAITING) set_clock(h, ASLEEP);
}

/* The clock cancels the open call of a process. */
void cancel_by_clock(chanhub *h, unsigned pid, struct told *t) {
    hub_c_cancel(&h->hub, h->clock, (uint8_t)pid, t);
    if (t->it.what == CHANHUB_DONE) h->timed_out |= only(pid);
}

/* The clock waits; or it exits, if no other process is left, or no step. */
static void step_clock_freely(chanhub *h, struct told *t) {
    if (h->exited < h->clock) park_clock(h, t);
    if (h->exited == h->clock || t->it.fault == CHANHUB_JOURNAL_FULL) exit_clock(h, t);
}

/* Makes the step that is next in the journal that the hub follows: the clock's, or a close for ends that are gone. */
static void step_again(chanhub *h, struct told *t) {
    unsigned pid = (unsigned)__builtin_ctzll(h->next);
    struct next step = hub_c_step_of(&h->hub, (uint8_t)pid);
    if (step.what == STEP_CLOSE) close_for_ends(h, pid, step.port, t);
    else if (step.what == STEP_RECV) park_clock(h, t);
    else if (step.what == STEP_EXIT) exit_clock(h, t);
    else cancel_by_clock(h, step.other, t);
}

/* Makes the library's steps that are due, within a call of this process: more than one if the clock's wait brings a stall. If one is
 * refused memory, it is still due afterwards; a hub that follows a journal ends, since other threads may wait for that step. */
void settle(chanhub *h, unsigned pid) {
    while (is_due(h)) {
        struct told t = { 0 };
        if (h->state) step_again(h, &t);
        else step_clock_freely(h, &t);
        if (is_to_be_made_again(h, pid, &t)) continue;
        bool is_short = t.it.fault == CHANHUB_NO_MEMORY || t.it.fault == CHANHUB_JOURNAL_FULL;
        if (is_short && h->state) end_at(h, hub_c_entries(&h->hub) + 1);
        if (is_short) return;
        follow_up(h, pid, &t);
    }
}

/* How many steps the hub makes before it is full. All entries but the exits count; a refused step makes none. One step is kept
 * for each call with a deadline, to end it. */
uint64_t steps_left(chanhub *h) {
    if (!h->limit) return UINT64_MAX;
    uint64_t used = hub_c_entries(&h->hub) - h->exits + (uint64_t)__builtin_popcountll(h->timed);
    return used < h->limit ? h->limit - used : 0;
}

/* Why a call of this process cannot begin while the clock is awake, or 0. Each step can leave all others waiting, so a clock
 * that is due waits before it. An exit is never refused: if the clock cannot wait, it exits before. */
uint8_t refusal_by_clock(chanhub *h, unsigned pid, bool exits) {
    if (pid == h->clock) return CHANHUB_NO_PROCESS;
    if (h->state) return 0;
    settle(h, pid);
    if (exits) {
        struct told t = { 0 };
        if (!is_due(h)) return 0;
        exit_clock(h, &t);
        follow_up(h, pid, &t);
        return 0;
    }
    if (is_due(h)) return CHANHUB_NO_MEMORY;
    return steps_left(h) ? 0 : CHANHUB_JOURNAL_FULL;
}

bool chanhub_has_clock(const chanhub *h) {
    return h && h->clock != NOBODY;
}

uint64_t chanhub_steps_left(chanhub *h) {
    if (!h) return 0;
    take_lock(h);
    uint64_t left = steps_left(h);
    leave_lock(h);
    return left;
}
