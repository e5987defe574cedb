/* The calls with a deadline. clock.c says how the clock ends them.
 *
 * A journal tells of each call with a deadline whether it waited. One that was tried waits only if its process wakes the clock
 * in its next step, which no caller can. While the clock is awake, a call is tried only if it is not to wait, and otherwise
 * waits without a try.
 */
#include "hub.h"

/* ---- Each of these holds the lock; in a hub that never ends, not while it waits or hands out a chapter. ---- */

/* Does what follows from a step that is not the last of this process's call. The library's steps that are next in the journal are
 * made here, since this thread may have to wait for its next turn. Other hubs see to the clock once the call ends. */
void follow_up_within(chanhub *h, unsigned pid, const struct told *t) {
    follow_up(h, pid, t);
    if (h->state) settle(h, pid);
}

/* Wakes the clock, where it waits, within a call of this process. Returns why it is not awake, or 0. In a journal that is followed the
 * clock may wait again before the call goes on. */
static uint8_t wake_clock(chanhub *h, unsigned pid) {
    while (h->clock_is == ASLEEP) {
        struct told t = { 0 };
        hub_c_cancel(&h->hub, (uint8_t)pid, h->clock, &t);
        if (is_to_be_made_again(h, pid, &t)) continue;
        if (t.it.what != CHANHUB_DONE) return t.it.fault;
        follow_up_within(h, pid, &t);
        if (h->state) return 0;
    }
    return h->clock_is == AWAKE ? 0 : CHANHUB_NO_MEMORY;
}

/* Gets ready for a call of this process that was tried and is to wait. Returns what refuses it, or 0: then there is a step for
 * the call and one to end it, and the clock is awake. */
static uint8_t begin_deadline(chanhub *h, unsigned pid) {
    uint64_t steps = h->clock_is == ASLEEP ? 3 : 2;
    if (steps_left(h) < steps) return CHANHUB_JOURNAL_FULL;
    h->timed |= only(pid);
    return wake_clock(h, pid);
}

/* Whether a call of this process is to wait without a try, if it has to: while the clock is awake, unless the deadline has
 * passed, or there are no steps to wait and to end it. A journal that is followed says what the call did. */
static bool waits_untried(chanhub *h, unsigned pid) {
    if (h->state == FOLLOWS) {
        uint8_t next = hub_c_step_of(&h->hub, (uint8_t)pid).what;
        return next == STEP_SEND || next == STEP_RECV || next == STEP_SELECT;
    }
    return h->clock_is == AWAKE && steps_left(h) >= 2 && !has_passed(h->places[pid].deadline);
}

/* Whether this process wakes the clock in its next step in the journal. */
static bool wakes_clock_next(chanhub *h, unsigned pid) {
    struct next next = hub_c_step_of(&h->hub, (uint8_t)pid);
    return next.what == STEP_CANCEL && next.other == h->clock;
}

/* Whether a call of this process that was tried in vain is to wait: until its deadline, or as a journal says that was followed
 * at the try, where its process then wakes the clock. */
static bool waits_when_tried(chanhub *h, unsigned pid, bool followed) {
    return followed ? wakes_clock_next(h, pid) : !has_passed(h->places[pid].deadline);
}

/* Has the clock cancel the open call of this process, unless that is answered before, and picks up its answer. WAITING with the
 * fault where the clock was refused memory. Behind the end of the journal that the hub follows, this ends the hub. */
chanhub_told time_out(chanhub *h, unsigned pid) {
    struct told t = { 0 };
    while (h->timed & only(pid) && h->state != ENDED) {
        cancel_by_clock(h, pid, &t);
        if (is_to_be_made_again(h, pid, &t)) continue;
        bool is_refused = t.it.what != CHANHUB_DONE && t.it.fault != CHANHUB_DIVERGED;
        if (is_refused) return (chanhub_told){ .what = CHANHUB_WAITING, .fault = t.it.fault };
        follow_up(h, pid, &t);
        settle(h, pid);
    }
    return pick_up(h, pid);
}

/* Makes a call that was tried and has to wait, with a deadline. */
static void wait_with_deadline(chanhub *h, unsigned pid, const chanhub_case *cases, size_t count, uint64_t word, struct told *t) {
    uint8_t why = begin_deadline(h, pid);
    if (why) *t = (struct told){ .it = refused(h, why) };
    else STEP(h, pid, t, hub_c_call(&h->hub, (uint8_t)pid, cases, count, false, word, t));
}

/* Tries a call with a deadline, with a default, unless it is to wait without; then makes it, if it is to wait. A call that was tried in
 * the place that a journal has, and then was refused memory, goes on from there. */
static void try_until(chanhub *h, unsigned pid, const chanhub_case *cases, size_t count, uint64_t word, struct told *t) {
    bool waits;
    enum state state;
    do {
        state = h->state;
        waits = waits_untried(h, pid);
        if (waits) h->timed |= only(pid);
        else h->timed &= ~only(pid);
        hub_c_call(&h->hub, (uint8_t)pid, cases, count, !waits, word, t);
    } while (is_to_be_made_again(h, pid, t));
    if (t->it.what != CHANHUB_DEFAULT) return;
    if (!waits_when_tried(h, pid, state == FOLLOWS)) {
        t->it.what = CHANHUB_TIMED_OUT;
        return;
    }
    follow_up_within(h, pid, t);
    wait_with_deadline(h, pid, cases, count, word, t);
}

/* Makes the steps of a call with a deadline, which it no longer has afterwards unless it waits. The last came to `t`. */
void call_until(chanhub *h, unsigned pid, const chanhub_case *cases, size_t count, uint64_t word, uint64_t deadline, struct told *t) {
    h->places[pid].deadline = deadline;
    if (h->state == FOLLOWS && wakes_clock_next(h, pid)) wait_with_deadline(h, pid, cases, count, word, t);
    else try_until(h, pid, cases, count, word, t);
    if (t->it.what != CHANHUB_WAITING || h->clock_is != AWAKE) h->timed &= ~only(pid);
}

/* ---- The calls. ---- */

/* Why a call of this process cannot have a deadline, or 0. */
uint8_t refusal_of_deadline(const chanhub *h, unsigned pid) {
    if (h->clock == NOBODY) return CHANHUB_BAD_CALL;
    return pid < h->clock ? 0 : CHANHUB_NO_PROCESS;
}

/* Ends a call with a deadline, as finish does, and sees to the clock. Holds the lock since its step, and leaves it. */
chanhub_told finish_timed(chanhub *h, unsigned pid, const struct told *t, uint64_t nanoseconds) {
    return is_due(h) ? finish_by_waking(h, (uint8_t)pid, t, nanoseconds) : finish(h, (uint8_t)pid, t, nanoseconds);
}

/* A select with a deadline. */
static chanhub_told select_until(chanhub *h, unsigned pid, const chanhub_case *cases, size_t count, bool has_default,
                                 uint64_t word, uint64_t deadline, uint64_t nanoseconds) {
    if (is_bad(h, pid, 0) || h->clock == NOBODY) return fault(CHANHUB_BAD_CALL);
    if (has_default || deadline == FOR_EVER) {
        return (nanoseconds ? chanhub_select : chanhub_begin)(h, pid, cases, count, has_default, word);
    }
    uint8_t why = refusal_of_deadline(h, pid);
    if (!why) why = enter(h, pid, ANY_STEP);
    if (why) return refused(h, why);
    struct told t = { 0 };
    call_until(h, pid, cases, count, word, deadline, &t);
    show_fired(h, cases, count, &t);
    return finish_timed(h, pid, &t, nanoseconds);
}

/* The same, of this one case. */
static chanhub_told case_until(chanhub *h, unsigned pid, unsigned port, bool sends, chanhub_value value, uint64_t deadline) {
    if (port > GREATEST_PORT) return fault(CHANHUB_BAD_CALL);
    chanhub_case one = { .sends = sends, .port = (uint16_t)port, .value = value };
    return select_until(h, pid, &one, 1, false, 0, deadline, FOR_EVER);
}

chanhub_told chanhub_send_until(chanhub *h, unsigned pid, unsigned port, chanhub_value value, uint64_t deadline) {
    return case_until(h, pid, port, true, value, deadline);
}

chanhub_told chanhub_recv_until(chanhub *h, unsigned pid, unsigned port, uint64_t deadline) {
    return case_until(h, pid, port, false, (chanhub_value){ 0 }, deadline);
}

chanhub_told chanhub_select_until(chanhub *h, unsigned pid, const chanhub_case *cases, size_t count, bool has_default,
                                  uint64_t word, uint64_t deadline) {
    if (!are_cases(cases, count)) return fault(CHANHUB_BAD_CALL);
    return select_until(h, pid, cases, count, has_default, word, deadline, FOR_EVER);
}

chanhub_told chanhub_begin_until(chanhub *h, unsigned pid, const chanhub_case *cases, size_t count, bool has_default,
                                 uint64_t word, uint64_t deadline) {
    if (!are_cases(cases, count)) return fault(CHANHUB_BAD_CALL);
    return select_until(h, pid, cases, count, has_default, word, deadline, 0);
}

/* The deadline becomes a time that has passed. The thread that waits for the call sees to it once it is woken. */
bool chanhub_expire(chanhub *h, unsigned pid) {
    if (is_bad(h, pid, 0)) return false;
    take_lock(h);
    bool is_timed = h->timed & only(pid);
    if (is_timed) h->places[pid].deadline = 0;
    leave_lock(h);
    if (is_timed) wake(h, only(pid));
    return is_timed;
}
