/* Waits for the lock and for answers.
 *
 * No wake is lost. A thread that waits has found no answer under the lock, and clears `told` or begins to sleep before it lets
 * go of the lock. So the thread that brings the answer takes the lock later, and sets `told` and signals later still. A wake too
 * many does no harm: a woken thread looks under the lock, and waits again if it finds no answer.
 */
#include "hub.h"

#include <errno.h>
#include <time.h>

enum {
    TRIES = 30,           /* how often a thread tries to take the lock before it sleeps for it */
    FIRST_PAUSE = 128,    /* how long it pauses before the next try, in ticks */
    GROWTH = 4,           /* how many times as long the next pause is */
    LONGEST_PAUSE = 8192,
    LOOKS = 8,            /* how often a thread looks for its answer before it asks for the time, which takes longer */
    LOOK_TICKS = 25000,   /* how long a thread looks for its answer before it sleeps */
    LOOKS_TAKE = 10000,   /* the same in nanoseconds, roughly */
    MOST_LATE = 7         /* after so many late answers, the looks left out grow no more */
};

/* ---- The lock. ---- */

/* Tells the processor that the thread looks again and again. */
static inline void pause_once(void) {
#if defined __x86_64__
    __builtin_ia32_pause();
#elif defined __aarch64__
    __asm__ volatile("yield");
#endif
}

static void pause_for(uint64_t length) {
    uint64_t begun = ticks();
    do pause_once();
    while (ticks() - begun < length);
}

/* Takes the lock while another thread has it. Mostly that thread lets go before this one could sleep, and a thread that sleeps
 * for the lock costs whoever lets go a system call. The pauses between the tries grow, since tries hinder the thread that has
 * it: fast, so that it can make some steps while the hub lies in its own cache. */
void wait_for_lock(chanhub *h) {
    for (int i = 0, length = FIRST_PAUSE; i < TRIES; i++) {
        pause_for((uint64_t)length);
        if (pthread_mutex_trylock(&h->lock) == 0) return;
        if (length < LONGEST_PAUSE) length *= GROWTH;
    }
    h->sleepers++;
    pthread_mutex_lock(&h->lock);
    h->sleepers--;
}

/* ---- Times. ---- */

/* Times are nanoseconds of the monotonic clock. FOR_EVER is none. */
static uint64_t now(void) {
    struct timespec time;
    clock_gettime(CLOCK_MONOTONIC, &time);
    return (uint64_t)time.tv_sec * BILLION + (uint64_t)time.tv_nsec;
}

uint64_t chanhub_in(uint64_t nanoseconds) {
    if (nanoseconds == FOR_EVER) return FOR_EVER;
    uint64_t present = now();
    return nanoseconds < FOR_EVER - present ? present + nanoseconds : FOR_EVER;
}

bool has_passed(uint64_t time) {
    return time != FOR_EVER && time <= now();
}

/* When the deadline of this process's open call passes. No time ends a call until all of the journal that the hub follows is
 * made. Holds the lock. */
static uint64_t deadline_of(const chanhub *h, unsigned pid) {
    return h->timed & only(pid) && !h->next ? h->places[pid].deadline : FOR_EVER;
}

/* ---- Waits for answers. ---- */

/* Whether a wait until this time begins with looks, since most answers come soon. After each that came late twice as many waits
 * go without. Holds the lock. */
static bool begins_with_looks(struct place *mine, uint64_t end) {
    if (end != FOR_EVER && end < chanhub_in(LOOKS_TAKE)) return false;
    if (mine->sleeps == 0) return true;
    mine->sleeps--;
    return false;
}

/* Looks for a while whether the process is woken. Holds the lock, but not meanwhile. */
static void look_for_wake(chanhub *h, struct place *mine) {
    uint64_t begun = ticks();
    leave_lock(h);
    for (unsigned i = 1; !atomic_load(&mine->told) && (i % LOOKS || ticks() - begun < LOOK_TICKS); i++) pause_once();
    take_lock(h);
}

/* Notes whether the looks of a wait that began then saw the wake, or were in vain. Holds the lock. */
static void note_looks(struct place *mine, uint64_t begun) {
    uint64_t told = atomic_load(&mine->told);
    if (told && told - begun < LOOK_TICKS) mine->late = 0;
    else if (mine->late < MOST_LATE) mine->late++;
    mine->sleeps = (uint8_t)((1 << mine->late) - 1);
}

/* Sleeps until the process is woken, at latest until the end: then it says no. Holds the lock, but not meanwhile. A thread that
 * is cancelled would keep it for ever, so none is cancelled here. */
bool sleep_until(chanhub *h, struct place *mine, uint64_t end) {
    struct timespec time = { .tv_sec = (time_t)(end / BILLION), .tv_nsec = (long)(end % BILLION) };
    int state;
    pthread_setcancelstate(PTHREAD_CANCEL_DISABLE, &state);
    int why = end == FOR_EVER ? pthread_cond_wait(&mine->answered, &h->lock)
                              : pthread_cond_timedwait(&mine->answered, &h->lock, &time);
    pthread_setcancelstate(state, &state);
    return why != ETIMEDOUT;
}

/* Picks up the answer of the open call of this process. Its kind is 0 where there is none. Holds the lock. */
chanhub_told pick_up(chanhub *h, unsigned pid) {
    struct told t = { 0 };
    hub_c_take(&h->hub, (uint8_t)pid, &t);
    if (!t.it.what && h->state == ENDED) t.it = refused(h, CHANHUB_DIVERGED);
    if (!t.it.what) return t.it;
    if (h->timed_out & only(pid)) t.it.what = CHANHUB_TIMED_OUT;
    h->timed_out &= ~only(pid);
    h->open &= ~only(pid);
    return t.it;
}

/* Waits until this time, or the call's deadline, for the answer of the open call of this process, for which no other thread
 * waits, and picks it up. Its kind is 0 where it has not come. Holds the lock, but not while it waits. */
static chanhub_told wait_until(chanhub *h, unsigned pid, uint64_t end) {
    struct place *mine = &h->places[pid];
    chanhub_told t = { 0 };
    bool has_time = true;
    h->awaited |= only(pid);
    uint64_t begun = ticks();
    bool looks = begins_with_looks(mine, end);
    atomic_store(&mine->told, 0);
    if (looks) {
        look_for_wake(h, mine);
        t = pick_up(h, pid);
    }
    while (!t.what && has_time) {
        uint64_t deadline = deadline_of(h, pid);
        has_time = sleep_until(h, mine, deadline < end ? deadline : end);
        t = pick_up(h, pid);
    }
    h->awaited &= ~only(pid);
    if (looks) note_looks(mine, begun);
    return t;
}

/* Waits for the answer of the open call of this process, for which no other thread waits, and picks it up. WAITING where it has
 * not come in so many nanoseconds; the call is open then. Holds the lock, but not while it waits. */
chanhub_told wait_for(chanhub *h, unsigned pid, uint64_t nanoseconds) {
    chanhub_told t = pick_up(h, pid);
    if (!t.what && nanoseconds) t = wait_until(h, pid, chanhub_in(nanoseconds));
    if (!t.what && has_passed(deadline_of(h, pid))) t = time_out(h, pid);
    if (!t.what) t.what = CHANHUB_WAITING;
    else if (h->gone) close_gone(h, pid);
    return t;
}
