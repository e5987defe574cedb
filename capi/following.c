/* Turns in the journal that a hub follows. All functions here hold the lock, but not while they wait; chanhub_turn and
 * what stands behind it take it first.
 *
 * A hub that follows a journal makes a step only in its turn. A call whose turn has not come waits at its place. After each step
 * the thread that made it notes whose step is next, and wakes that process if it waits; once there is none, since the hub has
 * diverged or all is made, it wakes all. If the hub ends then, each call is told so, also those that wait for an answer.
 *
 * The journal has each close of a port by the process that made it when the port's last end was dropped; now another thread may drop
 * last, sooner or later. So the library makes this close as that process, in its turn, once all ends are gone and no call of the
 * process is in the hub. Until then the process's other calls wait.
 */
#include "hub.h"

/* The process whose step has to be made first, as a set; the empty one where a call of this process waits for no turn. */
static uint64_t first_before(const chanhub *h, unsigned pid) {
    return h->next & ~only(pid);
}

/* Waits, in a call of this process, until its turn may have come. */
static void wait_for_turn(chanhub *h, unsigned pid) {
    struct pause pause = begin_pause(h, pid);
    while (first_before(h, pid)) sleep_until(h, &h->places[pid], FOR_EVER);
    end_pause(h, pause);
}

/* The hub ends at the step of this number. */
void end_at(chanhub *h, uint64_t number) {
    if (!h->diverged) h->diverged = number;
    h->state = ENDED;
    h->next = 0;
    set_closer(h);
    wake(h, EVERYBODY);
}

/* ---- Ends that are gone. ---- */

/* Whether the close of this port may be one for its ends: that was said, or the port's maker may be about to say so. */
static bool may_be_for_ends(chanhub *h, unsigned port) {
    if (h->with_ends & only_port(port)) return true;
    if (!h->foresees || !only_port(port)) return false;
    bool is_new = !hub_c_look(&h->hub, (uint16_t)port).made;
    for (int pid = 0; pid < MOST_PROCS; pid++) is_new = is_new || h->places[pid].made == port;
    return is_new;
}

/* Whether a call of this process has to wait for a close that the library makes. It may close the port itself. */
static bool is_behind(chanhub *h, unsigned pid, int step) {
    if (!(h->with_ends || h->foresees) || !only(pid) || !h->next) return false;
    struct next next = hub_c_step_of(&h->hub, (uint8_t)pid);
    return next.what == STEP_CLOSE && next.port != step && may_be_for_ends(h, next.port);
}

/* Waits, before a call of this process, for such closes. Returns why it does not, or 0. What the process made before is no longer
 * new. */
uint8_t await_closes(chanhub *h, unsigned pid, int step) {
    if (only(pid)) h->places[pid].step = step;
    if (only(pid) && h->places[pid].made) {
        h->places[pid].made = 0;
        if (h->foresees) wake(h, EVERYBODY);
    }
    if (!is_behind(h, pid, step)) return 0;
    if (h->asks_again) return CHANHUB_NOT_YET;
    struct pause pause = begin_pause(h, pid);
    h->behind |= only(pid);
    while (is_behind(h, pid, step)) sleep_until(h, &h->places[pid], FOR_EVER);
    h->behind &= ~only(pid);
    end_pause(h, pause);
    return 0;
}

/* Whether the step that is next in the journal is the library's: the clock's, or such a close. */
bool is_ours_next(chanhub *h) {
    if (!h->next || h->next & only(h->clock)) return h->next;
    if (!h->gone || h->next & h->open & ~h->behind) return false;
    struct next step = hub_c_step_of(&h->hub, (uint8_t)__builtin_ctzll(h->next));
    return step.what == STEP_CLOSE && h->gone & only_port(step.port);
}

/* Makes such a close, as this process. */
void close_for_ends(chanhub *h, unsigned pid, unsigned port, struct told *t) {
    hub_c_close(&h->hub, (uint8_t)pid, (uint16_t)port, t);
    show_port(h, port);
}

/* Closes a port whose ends are gone in a hub that no longer follows, as any process that is in no call. Returns whether there is no
 * more to do. */
static bool close_freely(chanhub *h, unsigned port) {
    chanhub_counts counts = hub_c_look(&h->hub, (uint16_t)port);
    bool is_done = !counts.made || counts.closed;
    for (unsigned pid = 0; pid < MOST_PROCS && !is_done; pid++) {
        struct told t = { 0 };
        if (h->open & only(pid) || pid == h->clock) continue;
        close_for_ends(h, pid, port, &t);
        is_done = t.it.what == CHANHUB_DONE;
        if (is_done) wake(h, note_step(h, &t));
    }
    return is_done;
}

/* Makes the closes that are due for ends that are gone, within a call of this process. */
void close_gone(chanhub *h, unsigned pid) {
    if (h->state == FOLLOWS) settle(h, pid);
    for (unsigned port = 1; port <= MOST_PORTS && h->state == FREE; port++) {
        if (h->gone & only_port(port) && close_freely(h, port)) h->gone &= ~only_port(port);
    }
}

/* The hub follows no longer: it makes any step. */
static void go_on(chanhub *h) {
    h->state = FREE;
    h->foresees = false;
    h->with_ends = 0;
    set_closer(h);
    close_gone(h, NOBODY);
}

/* ---- Turns. ---- */

/* Whether a thread waits for the turn of this process, or for a close before it. */
static bool is_awaited(const chanhub *h, unsigned pid) {
    return h->awaited & only(pid) || h->places[pid].asking;
}

/* Sees to what follows from a call that came to this. Returns whom to wake: the process whose step is next, if it waits, or all if
 * there is none. Then a hub that goes on no longer follows; otherwise the deadlines of calls that wait end it. */
uint64_t pass_turn(chanhub *h, const struct told *t) {
    if (t->it.fault == CHANHUB_DIVERGED && h->goes_on) h->diverged = t->it.value.number;
    else if (t->it.fault == CHANHUB_DIVERGED) end_at(h, t->it.value.number);
    h->next = h->state == FOLLOWS ? hub_c_next(&h->hub) : 0;
    if (!h->next && h->goes_on && h->state == FOLLOWS) go_on(h);
    if (!h->next) return EVERYBODY;
    unsigned pid = (unsigned)__builtin_ctzll(h->next);
    h->places[pid].turns++;
    return is_awaited(h, pid) ? h->next : 0;
}

/* Passes the turn behind a step that was made, if nothing else follows from it: the next step is that of a process that does not wait,
 * and the library has none to make. Returns whether it did. */
bool pass_quietly(chanhub *h) {
    if (h->state != FOLLOWS || h->gone) return false;
    uint64_t next = hub_c_next(&h->hub);
    if (!next || next & only(h->clock)) return false;
    unsigned pid = (unsigned)__builtin_ctzll(next);
    if (is_awaited(h, pid)) return false;
    h->next = next;
    h->places[pid].turns++;
    return true;
}

/* Whether the step whose turn had not come, as this tells, is to be made again. Then waits for that, unless the hub has ended
 * meanwhile. Where the hub follows no longer, all processes may have been in calls until now, so that nobody could make a close
 * for ends that are gone: it comes before the step. */
static bool waits_for_turn(chanhub *h, unsigned pid, struct told *t) {
    if (!h->asks_again) wait_for_turn(h, pid);
    if (h->state == FREE && h->gone) close_gone(h, pid);
    if (h->state != ENDED && !h->asks_again) return true;
    t->it = refused(h, h->state == ENDED ? CHANHUB_DIVERGED : CHANHUB_NOT_YET);
    return false;
}

/* The same of a step in a hub that follows a journal, or after which a chapter waits. */
bool is_for_another_try(chanhub *h, unsigned pid, struct told *t) {
    if (h->state) return waits_for_turn(h, pid, t);
    if (t->it.fault != CHANHUB_NO_MEMORY) return false;
    wait_for_room(h, pid);
    return true;
}

/* Whether this process would have to wait if it made its last call again: if one is open, that would be refused. */
static bool would_wait(chanhub *h, unsigned pid) {
    return !(h->open & only(pid)) && (first_before(h, pid) || is_behind(h, pid, h->places[pid].step));
}

bool chanhub_turn(chanhub *h, unsigned pid, uint64_t nanoseconds) {
    if (is_bad(h, pid, 0) || !only(pid)) return true;
    struct place *mine = &h->places[pid];
    uint64_t end = chanhub_in(nanoseconds);
    bool has_time = true, waits;
    take_lock(h);
    uint32_t turns = mine->turns;
    mine->asking++;
    while ((waits = mine->turns == turns && would_wait(h, pid)) && has_time) has_time = sleep_until(h, mine, end);
    mine->asking--;
    leave_lock(h);
    return !waits;
}

void chanhub_closes_with_ends(chanhub *h, unsigned port) {
    if (!h) return;
    take_lock(h);
    if (h->next) {
        h->with_ends |= only_port(port);
        h->foresees |= port == 0;
        set_closer(h);
    }
    leave_lock(h);
}

bool chanhub_ends_gone(chanhub *h, unsigned port) {
    if (!h) return false;
    take_lock(h);
    bool is_ours = h->next && h->with_ends & only_port(port);
    if (is_ours) {
        h->gone |= only_port(port);
        if (is_due(h)) settle(h, NOBODY);
    }
    leave_lock(h);
    return is_ours;
}

void chanhub_stop(chanhub *h) {
    if (!h) return;
    take_lock(h);
    if (h->state) end_at(h, hub_c_entries(&h->hub) + 1);
    leave_lock(h);
}
