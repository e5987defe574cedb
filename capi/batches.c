/* The calls of many values.
 *
 * Each value is a step of its own. Those that need no wait are made under one lock, and whose calls they ended is woken at the end, if
 * the lock is kept until then.
 *
 * How many values a receive gets follows from the journal, so that a hub that follows it gets as many. It goes on only directly after a
 * step of its own, if the buffer holds a value then. When it picks up an answer that it waited for, the hub may be at any step: so that
 * value comes alone.
 */
#include "hub.h"

/* A call of many values while it is made. */
struct batch {
    chanhub *hub;
    uint64_t self; /* its process, as a set */
    uint8_t pid;
    uint16_t port;
    bool sends;
    uint64_t deadline;
    uint64_t nanoseconds; /* how long it waits for each answer */
    uint64_t ready;       /* so many more values need no wait, at least; 0 if that has to be looked up */
    uint64_t ended;       /* whose calls were ended, and are still to be woken */
    uint8_t why;          /* why the next step cannot begin, or 0 */
    struct told t;        /* what the last step came to, or the wait for its answer */
};

/* Why such a call is refused, or 0. */
static uint8_t refusal(const struct batch *b, unsigned pid, unsigned port) {
    if (is_bad(b->hub, pid, port)) return CHANHUB_BAD_CALL;
    return b->deadline == FOR_EVER ? 0 : refusal_of_deadline(b->hub, pid);
}

/* ---- Each of these holds the lock, but not while it waits or hands out a chapter. ---- */

/* Shows what the steps changed, and has those woken whose calls they ended when the last is seen to. */
static void gather(struct batch *b) {
    show_port(b->hub, b->port);
    b->t.ended |= b->ended;
    b->ended = 0;
    b->ready = 0;
}

/* Does at once what gather leaves to the end, before a step that may let go of the lock: then nobody may still wait for what is made. */
static void let_know(struct batch *b) {
    show_port(b->hub, b->port);
    if (b->ended) wake(b->hub, note_step(b->hub, &(struct told){ .ended = b->ended }));
    b->ended = 0;
}

/* Looks up how many values the buffer holds, or has room for. Returns whether there are any. */
static bool look_up(struct batch *b) {
    chanhub_counts counts = hub_c_look(&b->hub->hub, b->port);
    uint64_t held = counts.sent - counts.received;
    b->ready = b->sends ? counts.cap - held : held;
    return b->ready;
}

/* Whether the next value is known to need no wait. Then it is counted as the next one. */
static inline bool is_ready(struct batch *b) {
    return (b->ready || look_up(b)) && b->ready--;
}

/* Whether this process is to receive from the port in the next step of the journal. */
static bool is_to_receive(struct batch *b) {
    if (hub_c_next(&b->hub->hub) != only(b->pid)) return false;
    struct next next = hub_c_step_of(&b->hub->hub, b->pid);
    return next.what == STEP_RECV && next.port == b->port;
}

/* Sees to what follows from the last step. Returns whether the next may begin: where a journal is followed, another value is received
 * only if the recorded call did not end here. */
static bool see_to_step(struct batch *b) {
    chanhub *h = b->hub;
    gather(b);
    follow_up_within(h, b->pid, &b->t);
    b->t = (struct told){ .it = b->t.it };
    if (!b->sends && h->state == FOLLOWS && !is_to_receive(b)) return false;
    b->why = h->closer & b->self ? look_closer(h, b->pid, ANY_STEP) : 0;
    return !b->why;
}

/* Whether nothing follows from the last step but that some are to be woken. */
static inline bool is_quiet(struct batch *b) {
    b->ended |= b->t.ended;
    return !(b->t.chapter | b->hub->state | (b->hub->closer & b->self));
}

/* Makes the steps of a value with the deadline of the call. */
static void step_until(struct batch *b, const chanhub_value *value) {
    chanhub_case one = { .sends = b->sends, .port = b->port };
    if (value) one.value = *value;
    let_know(b);
    call_until(b->hub, b->pid, &one, 1, 0, b->deadline, &b->t);
    b->ready = 0;
}

/* Makes the step of a value that is sent, or of one that is received. A journal that is followed says what a call with a deadline did. */
static inline void step(struct batch *b, const chanhub_value *value) {
    if (b->deadline != FOR_EVER && (b->hub->state || !is_ready(b))) step_until(b, value);
    else if (value) hub_c_send(&b->hub->hub, b->pid, b->port, value, &b->t);
    else hub_c_recv(&b->hub->hub, b->pid, b->port, &b->t);
}

/* Whether the last step is to be made again. What was known of the port is forgotten, since the lock was let go of. */
static inline bool is_again(struct batch *b) {
    if (!is_to_be_made_again(b->hub, b->pid, &b->t)) return false;
    b->t = (struct told){ 0 };
    b->ready = 0;
    return true;
}

/* Makes the step of a value again while it is to be, and waits for its answer if it parked. Returns whether it did. A deadline that was made
 * to pass meanwhile has passed for the values that are left. */
static bool see_to_answer(struct batch *b, const chanhub_value *value) {
    while (is_again(b)) step(b, value);
    if (b->t.it.what != CHANHUB_WAITING) return false;
    gather(b);
    b->t = (struct told){ .it = await_answer(b->hub, b->pid, &b->t, b->nanoseconds) };
    if (b->deadline != FOR_EVER) b->deadline = b->hub->places[b->pid].deadline;
    return true;
}

/* Sends a value. Returns whether it was sent. */
static inline bool send_one(struct batch *b, const chanhub_value *value) {
    step(b, value);
    if (b->t.it.what != CHANHUB_SENT) see_to_answer(b, value);
    return b->t.it.what == CHANHUB_SENT;
}

/* Receives a value that the buffer holds. Returns whether it did. */
static inline bool recv_held(struct batch *b) {
    while (is_ready(b)) {
        hub_c_recv(&b->hub->hub, b->pid, b->port, &b->t);
        if (!is_again(b)) return b->t.it.what == CHANHUB_GOT;
    }
    return false;
}

/* Ends the call, and leaves the lock. */
static chanhub_told end(struct batch *b) {
    gather(b);
    if (b->t.it.what != CHANHUB_WAITING) return finish_timed(b->hub, b->pid, &b->t, FOR_EVER);
    leave_lock(b->hub);
    return b->t.it;
}

/* ---- The calls. ---- */

static chanhub_told send_all(chanhub *h, unsigned pid, unsigned port, const chanhub_value *values, size_t count, uint64_t deadline,
                             uint64_t nanoseconds, size_t *sent) {
    struct batch b = {
        .hub = h, .self = only(pid), .pid = (uint8_t)pid, .port = (uint16_t)port, .sends = true, .deadline = deadline,
        .nanoseconds = nanoseconds
    };
    size_t done = 0;
    if (sent) *sent = 0;
    uint8_t why = refusal(&b, pid, port);
    if (!why && count && !values) why = CHANHUB_BAD_CALL;
    if (!why && !count) return (chanhub_told){ .what = CHANHUB_SENT };
    if (!why) why = enter(h, pid, ANY_STEP);
    if (why) return refused(h, why);
    while (send_one(&b, &values[done]) && ++done < count && (is_quiet(&b) || see_to_step(&b)));
    if (sent) *sent = done;
    chanhub_told last = end(&b);
    return b.why ? refused(h, b.why) : last;
}

static chanhub_told recv_up_to(chanhub *h, unsigned pid, unsigned port, chanhub_value *values, size_t most, uint64_t deadline,
                               uint64_t nanoseconds, size_t *received) {
    struct batch b = {
        .hub = h, .self = only(pid), .pid = (uint8_t)pid, .port = (uint16_t)port, .deadline = deadline, .nanoseconds = nanoseconds
    };
    size_t done = 0;
    if (received) *received = 0;
    uint8_t why = values && most ? refusal(&b, pid, port) : CHANHUB_BAD_CALL;
    if (!why) why = enter(h, pid, ANY_STEP);
    if (why) return refused(h, why);
    step(&b, NULL);
    bool waited = see_to_answer(&b, NULL);
    if (b.t.it.what != CHANHUB_GOT) return end(&b);
    do values[done++] = b.t.it.value;
    while (!waited && done < most && (is_quiet(&b) || see_to_step(&b)) && recv_held(&b));
    if (received) *received = done;
    b.t.it = (chanhub_told){ .what = CHANHUB_GOT, .value = values[done - 1] };
    return end(&b);
}

chanhub_told chanhub_send_all(chanhub *h, unsigned pid, unsigned port, const chanhub_value *values, size_t count, uint64_t deadline,
                              size_t *sent) {
    return send_all(h, pid, port, values, count, deadline, FOR_EVER, sent);
}

chanhub_told chanhub_recv_up_to(chanhub *h, unsigned pid, unsigned port, chanhub_value *values, size_t most, uint64_t deadline,
                                size_t *received) {
    return recv_up_to(h, pid, port, values, most, deadline, FOR_EVER, received);
}

chanhub_told chanhub_begin_send_all(chanhub *h, unsigned pid, unsigned port, const chanhub_value *values, size_t count,
                                    uint64_t deadline, size_t *sent) {
    return send_all(h, pid, port, values, count, deadline, 0, sent);
}

chanhub_told chanhub_begin_recv_up_to(chanhub *h, unsigned pid, unsigned port, chanhub_value *values, size_t most, uint64_t deadline,
                                      size_t *received) {
    return recv_up_to(h, pid, port, values, most, deadline, 0, received);
}
