/* The calls: how each begins and ends, and those that have no deadline.
 *
 * Mostly a call takes the lock, makes its step and leaves the lock, which hub.h has. What else there may be to do is not
 * compiled into the call. A thread holds the lock during each step, and until it has noted what follows from that. It lets go of
 * it to wait, and to hand out a chapter.
 */
#include "hub.h"

/* What the header builds into callers, for those that look for it in the library. */
extern inline chanhub_value chanhub_number(uint64_t number);
extern inline chanhub_value chanhub_bytes(const void *bytes, size_t length);

/* Why a call of this process cannot begin, or 0. Holds the lock. */
uint8_t look_closer(chanhub *h, unsigned pid, int step) {
    uint8_t why = h->open & only(pid) ? CHANHUB_BUSY : h->state == FOLLOWS ? await_closes(h, pid, step) : 0;
    if (why) return why;
    return h->state == ENDED ? CHANHUB_DIVERGED : refusal_by_clock(h, pid, step == EXIT);
}

/* The same; leaves the lock if it cannot. */
uint8_t enter_closer(chanhub *h, unsigned pid, int step) {
    uint8_t why = look_closer(h, pid, step);
    if (why) leave_lock(h);
    return why;
}

/* Does what follows from a step that parked, and waits for its answer for so many nanoseconds. Holds the lock, but not while it waits. */
chanhub_told await_answer(chanhub *h, unsigned pid, const struct told *t, uint64_t nanoseconds) {
    h->open |= only(pid);
    follow_up(h, pid, t);
    if (is_due(h)) settle(h, pid);
    return wait_for(h, pid, nanoseconds);
}

/* Ends the call of a process whose step parked, ended calls, or left a chapter to be read: wakes those whose calls it ended,
 * hands out the chapter that it made fall out, sees to the clock, and where it parked, waits for so many nanoseconds. Holds the
 * lock since the step, and leaves it. */
chanhub_told finish_by_waking(chanhub *h, uint8_t pid, const struct told *t, uint64_t nanoseconds) {
    if (t->it.what == CHANHUB_WAITING) {
        chanhub_told answer = await_answer(h, pid, t, nanoseconds);
        leave_lock(h);
        return answer;
    }
    uint64_t woken = note_step(h, t);
    bool claimed = claims_chapter(h, t->chapter);
    if (claimed || is_due(h)) {
        wake(h, woken);
        woken = 0;
        if (claimed) hand_out(h, pid);
        if (is_due(h)) settle(h, pid);
    }
    leave_lock(h);
    wake(h, woken);
    return t->it;
}

/* What each of these calls does, and returns: it is refused as a bad call where that is so; or it enters, makes its step and shows
 * what that changed, and ends, after so many nanoseconds where it waits. `t` is what the step comes to. */
#define CALL(bad, what, step, shows, nanoseconds) \
    if (bad) return fault(CHANHUB_BAD_CALL); \
    uint8_t why = enter(h, pid, what); \
    if (why) return refused(h, why); \
    struct told t = { 0 }; \
    STEP(h, pid, &t, step); \
    shows; \
    return finish(h, (uint8_t)pid, &t, nanoseconds)

/* Notes which port a call made; only closes that are foreseen want to know. */
static inline void note_made(chanhub *h, unsigned pid, uint16_t port) {
    if (h->foresees && only(pid)) h->places[pid].made = port;
}

chanhub_told chanhub_make(chanhub *h, unsigned pid, uint32_t cap) {
    CALL(is_bad(h, pid, 0), ANY_STEP, hub_c_make(&h->hub, (uint8_t)pid, cap, &t), note_made(h, pid, t.it.port), FOR_EVER);
}

chanhub_told chanhub_send(chanhub *h, unsigned pid, unsigned port, chanhub_value value) {
    CALL(is_bad(h, pid, port), ANY_STEP, hub_c_send(&h->hub, (uint8_t)pid, (uint16_t)port, &value, &t), show_port(h, port), FOR_EVER);
}

chanhub_told chanhub_recv(chanhub *h, unsigned pid, unsigned port) {
    CALL(is_bad(h, pid, port), ANY_STEP, hub_c_recv(&h->hub, (uint8_t)pid, (uint16_t)port, &t), show_port(h, port), FOR_EVER);
}

chanhub_told chanhub_close(chanhub *h, unsigned pid, unsigned port) {
    CALL(is_bad(h, pid, port), (int)port, hub_c_close(&h->hub, (uint8_t)pid, (uint16_t)port, &t), show_port(h, port), FOR_EVER);
}

/* Notes an exit. What is left of the call is nobody's: the process may be started again before it returns. */
static inline void note_exit(chanhub *h, unsigned *pid, const struct told *t) {
    if (t->it.what != CHANHUB_DONE) return;
    h->exits++;
    h->exited++;
    *pid = NOBODY;
}

chanhub_told chanhub_exit(chanhub *h, unsigned pid) {
    CALL(is_bad(h, pid, 0), EXIT, hub_c_exit(&h->hub, (uint8_t)pid, &t), note_exit(h, &pid, &t), FOR_EVER);
}

/* Whether this is the clock, which only the library cancels, and nobody starts. */
static inline bool is_clock(const chanhub *h, unsigned pid) {
    return h && pid == h->clock && pid != NOBODY;
}

chanhub_told chanhub_cancel(chanhub *h, unsigned pid, unsigned other) {
    if (is_clock(h, other) && pid <= GREATEST_PID) return fault(CHANHUB_NO_PROCESS);
    CALL(is_bad(h, pid, 0) || other > GREATEST_PID, ANY_STEP, hub_c_cancel(&h->hub, (uint8_t)pid, (uint8_t)other, &t), (void)0, FOR_EVER);
}

chanhub_told chanhub_start(chanhub *h, unsigned pid, unsigned other) {
    if (is_clock(h, other) && pid <= GREATEST_PID) return fault(CHANHUB_NO_PROCESS);
    CALL(is_bad(h, pid, 0) || other > GREATEST_PID, ANY_STEP, hub_c_start(&h->hub, (uint8_t)pid, (uint8_t)other, &t),
         h->exited -= t.it.what == CHANHUB_DONE, FOR_EVER);
}

chanhub_told chanhub_reopen(chanhub *h, unsigned pid, unsigned port, uint32_t cap) {
    CALL(is_bad(h, pid, port), ANY_STEP, hub_c_reopen(&h->hub, (uint8_t)pid, (uint16_t)port, cap, &t), show_port(h, port), FOR_EVER);
}

/* A select that stays open in the hub once it has waited for so long. */
#define SELECT(nanoseconds) \
    CALL(is_bad(h, pid, 0) || !are_cases(cases, count), ANY_STEP, \
         hub_c_call(&h->hub, (uint8_t)pid, cases, count, has_default, word, &t), show_fired(h, cases, count, &t), nanoseconds)

chanhub_told chanhub_select(chanhub *h, unsigned pid, const chanhub_case *cases, size_t count, bool has_default, uint64_t word) {
    SELECT(FOR_EVER);
}

chanhub_told chanhub_begin(chanhub *h, unsigned pid, const chanhub_case *cases, size_t count, bool has_default, uint64_t word) {
    SELECT(0);
}

/* A select of this one case, with a default. */
static chanhub_told try_case(chanhub *h, unsigned pid, unsigned port, bool sends, chanhub_value value) {
    if (port > GREATEST_PORT) return fault(CHANHUB_BAD_CALL);
    chanhub_case one = { .sends = sends, .port = (uint16_t)port, .value = value };
    return chanhub_select(h, pid, &one, 1, true, 0);
}

chanhub_told chanhub_try_send(chanhub *h, unsigned pid, unsigned port, chanhub_value value) {
    return try_case(h, pid, port, true, value);
}

chanhub_told chanhub_try_recv(chanhub *h, unsigned pid, unsigned port) {
    return try_case(h, pid, port, false, (chanhub_value){ 0 });
}

chanhub_told chanhub_resume(chanhub *h, unsigned pid, uint64_t nanoseconds) {
    if (is_bad(h, pid, 0)) return fault(CHANHUB_BAD_CALL);
    take_lock(h);
    chanhub_told t;
    if (!(h->open & only(pid))) t = fault(CHANHUB_NOT_PARKED);
    else if (h->awaited & only(pid)) t = fault(CHANHUB_BUSY);
    else t = wait_for(h, pid, nanoseconds);
    leave_lock(h);
    return t;
}
