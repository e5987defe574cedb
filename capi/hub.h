/* hub.h: the struct of a hub, and what the files of the library share. Each of them includes it first; it is not installed.
 *
 * The proved hub answers each call: crates/hub_c. Around it stand
 *
 *     opening.c      how a hub is opened, and ends
 *     calls.c        the calls: how each begins and ends
 *     waits.c        waits for the lock and for answers
 *     clock.c        the steps of the clock, which ends calls whose deadlines have passed
 *     deadlines.c    the calls with a deadline
 *     batches.c      the calls of many values
 *     following.c    turns in the journal that a hub follows
 *     journals.c     the texts of journals
 *     chapters.c     the chapters of a hub that never ends
 *     looks.c        looks, which take no lock
 *     watch.c        the watch over hubs in which nothing moves
 *     files.c        whole files
 *
 * heap.c has a header of its own. texts.c stands over chanhub.h alone.
 *
 * One lock orders all that is asked of a hub. The comment of a function says whether its caller holds it, where that matters;
 * that of a function which other files call stands where it is defined. Each answer is picked up under the lock, so what the
 * thread that brought it wrote before is seen.
 *
 * A process is in one of these states, by the sets of struct chanhub that have it:
 *
 *     state     sets                     what ends it                                     next
 *     idle      -                        its call parks                                   waits
 *                                        its call is before its turn, or has no room      paused
 *                                        its call is before a close that ends make        behind
 *     paused    open awaited             its turn comes, there is room                    idle: the step is made (again)
 *     behind    open awaited behind      the close is made                                idle: the call goes on
 *     waits     open awaited             an answer is picked up                           idle
 *                                        no time is left to wait                          begun
 *     begun     open                     a resume                                         waits
 *
 * In each state but idle other calls of the process are refused as BUSY. In a hub that has ended each call, and each that is in one of
 * these states, is told DIVERGED. A call that waits with a deadline is in `timed` too, and in `timed_out` from its cancel to its answer.
 *
 * The clock, while the hub follows no journal; otherwise the journal has its steps:
 *
 *     asleep    its own call waits       a call is to wait with a deadline: cancels it    awake
 *                                        a stall ends it                                  awake
 *     awake     none of its calls is     no call is in `timed`: it waits                  asleep
 *               open, it holds up        all others have exited, the journal is full, or
 *               each stall               an exit finds no memory for its wait: it exits   gone
 *
 * The hub:
 *
 *     follows   a step waits for its     another step, or all is made                     free, if it goes on
 *               turn in the journal      another step, a deadline behind the last, a
 *                                        stop, or no memory for a step of the library     ended
 *     free      any step is made
 *     ended     none is, all are told
 */
#ifndef HUB_H
#define HUB_H

#define _POSIX_C_SOURCE 200809L /* for the monotonic clock */
#include "chanhub.h"

#include "hub_c.h"

#include <limits.h>
#include <pthread.h>
#include <stdatomic.h>
#include <time.h>

enum {
    MOST_PROCS = 64,
    NOBODY = MOST_PROCS, /* the number of no process */
    MOST_PORTS = 64,
    MOST_CASES = 16,
    GREATEST_PID = 255,
    GREATEST_PORT = 65535,
    PATH_ROOM = PATH_MAX + 32, /* a path that does not fit in this is too long for the system too */
    BILLION = 1000000000
};

/* A wait that has no end but the answer, and the set of all processes. */
#define FOR_EVER CHANHUB_NEVER
#define EVERYBODY UINT64_MAX

/* Whether the hub makes any step, or those of the journal that it follows, or none any more, since it diverged from that. */
enum state { FREE, FOLLOWS, ENDED };

/* What the clock is at: the process that cancels calls whose deadlines have passed. */
enum clock {
    NO_CLOCK, /* the hub has none */
    ASLEEP,   /* it waits on the nil port */
    AWAKE,    /* it holds up each stall */
    GONE      /* it has exited: after all others, or because it was refused memory or the journal is full */
};

/* Where the call of one process waits. */
struct place {
    pthread_cond_t answered;
    uint64_t deadline; /* of the call, if it is in `timed` */
    atomic_uint_least64_t told; /* when it was woken since it was cleared, in ticks; 0 if it was not; read without the lock */
    uint32_t turns;             /* how many times its process's turn came, in a hub that follows a journal */
    uint32_t asking;            /* how many threads are in chanhub_turn for it */
    int step;                   /* what its process's last call was to make, as for enter, in a hub that follows a journal */
    uint16_t made;              /* the port that its process's last call made, in a hub that follows a journal; 0 if it made none */
    uint8_t late;               /* how many times running its answer came later than a look would have seen */
    uint8_t sleeps;             /* how many times it sleeps at once before it looks again */
};

/* What the watch over hubs knows of this one. */
struct watch {
    chanhub *next;    /* the one that was opened next */
    uint64_t entries; /* how many there were when it looked last, in the present chapter */
    uint64_t values;  /* how many were sent and received by then */
    uint64_t since;   /* when it first saw so many, while a call waits */
    unsigned file;    /* the number of the file that has its journal, from 1; 0 if there is none yet */
    bool is_told;     /* whether that was written since */
};

/* A set of processes is a number with a bit for each, the lowest for process 0. One of ports has the lowest for port 1. */
struct chanhub {
    pthread_mutex_t lock;
    uint64_t open;              /* whose call is open: it has parked, and its answer is not picked up */
    uint64_t awaited;           /* for whose answer a thread waits now */
    uint64_t timed;             /* whose call with a deadline waits in the hub, or is about to; nobody's while the clock waits */
    uint64_t timed_out;         /* whose call the clock cancelled; its answer is not picked up */
    uint64_t closer;            /* whose calls look closer first: the clock's, and all while a free hub's is awake, while ports may close
                                   with their ends, and in a hub that has ended */
    uint8_t clock;              /* the number of the clock; NOBODY where there is none */
    enum clock clock_is;
    atomic_uint sleepers;       /* how many threads sleep for the lock */
    uint32_t limit;             /* the most steps that are no exits; 0 where the hub never ends */
    uint32_t exited;            /* how many processes other than the clock have exited, and were not started again */
    uint64_t exits;             /* how many exits were made */
    uint64_t looked;            /* the ports whose counts are shown */
    enum state state;
    uint64_t next;              /* whose step is next in the journal that it follows; nobody's once no step is made in turn */
    bool goes_on;               /* whether it is free when it has diverged from the journal */
    bool asks_again;            /* whether a call whose turn has not come is told so */
    bool foresees;              /* whether ports may close with their ends of which that was not said yet */
    uint64_t with_ends;         /* the ports of which it was said, as long as it follows */
    uint64_t gone;              /* the ports whose ends are gone, and that may have to be closed */
    uint64_t behind;            /* whose calls wait for such a close, and are not made yet */
    atomic_uint_least64_t diverged; /* the number of the step at which it diverged, or was stopped; else 0 */
    bool waits;                 /* whether a chapter waits in the hub; the thread that claimed it hands it out */
    bool handing;               /* whether a chapter is being handed out */
    uint64_t taken;             /* how many chapters were taken out of the hub */
    chanhub_chapters *chapters; /* gets the chapters that fall out; NULL where nobody does */
    void *pointer;              /* what it gets with them */
    pthread_cond_t handed;      /* a chapter was taken, or was handed out */
    struct place places[MOST_PROCS];
    atomic_uint_least64_t shown[MOST_PORTS]; /* the counts of each port, from 1 on, that a look without the lock sees; else 0 */
    struct watch watch;
    struct hub hub;
};

/* A text that grows. */
struct text {
    char *bytes;
    size_t length, room;
};

/* The set of this process alone; the empty one for a number that no hub has. */
static inline uint64_t only(unsigned pid) {
    return pid < MOST_PROCS ? (uint64_t)1 << pid : 0;
}

/* The set of this port alone; the empty one for a number that no port has. */
static inline uint64_t only_port(unsigned port) {
    return port - 1 < MOST_PORTS ? (uint64_t)1 << (port - 1) : 0;
}

static inline bool is_bad(const chanhub *h, unsigned pid, unsigned port) {
    return !h || pid > GREATEST_PID || port > GREATEST_PORT;
}

/* Whether there are so many cases, and a call may have them. */
static inline bool are_cases(const chanhub_case *cases, size_t count) {
    return count <= MOST_CASES && (cases || !count);
}

static inline chanhub_told fault(uint8_t number) {
    return (chanhub_told){ .what = CHANHUB_FAULT, .fault = number };
}

/* What a call is told that the hub does not carry out for this reason. */
static inline chanhub_told refused(const chanhub *h, uint8_t why) {
    chanhub_told t = fault(why);
    if (why == CHANHUB_DIVERGED) t.value.number = h->diverged;
    return t;
}

/* No name of these is seen from outside of the library. */
#pragma GCC visibility push(hidden)

/* waits.c */
void wait_for_lock(chanhub *h);
bool has_passed(uint64_t time);
bool sleep_until(chanhub *h, struct place *mine, uint64_t end);
chanhub_told pick_up(chanhub *h, unsigned pid);
chanhub_told wait_for(chanhub *h, unsigned pid, uint64_t nanoseconds);

/* calls.c */
uint8_t look_closer(chanhub *h, unsigned pid, int step);
uint8_t enter_closer(chanhub *h, unsigned pid, int step);
chanhub_told await_answer(chanhub *h, unsigned pid, const struct told *t, uint64_t nanoseconds);
chanhub_told finish_by_waking(chanhub *h, uint8_t pid, const struct told *t, uint64_t nanoseconds);

/* clock.c */
void set_closer(chanhub *h);
void set_clock(chanhub *h, enum clock clock_is);
void follow_up(chanhub *h, unsigned pid, const struct told *t);
void cancel_by_clock(chanhub *h, unsigned pid, struct told *t);
void settle(chanhub *h, unsigned pid);
uint64_t steps_left(chanhub *h);
uint8_t refusal_by_clock(chanhub *h, unsigned pid, bool exits);

/* deadlines.c */
void follow_up_within(chanhub *h, unsigned pid, const struct told *t);
chanhub_told time_out(chanhub *h, unsigned pid);
uint8_t refusal_of_deadline(const chanhub *h, unsigned pid);
void call_until(chanhub *h, unsigned pid, const chanhub_case *cases, size_t count, uint64_t word, uint64_t deadline, struct told *t);
chanhub_told finish_timed(chanhub *h, unsigned pid, const struct told *t, uint64_t nanoseconds);

/* following.c */
void end_at(chanhub *h, uint64_t number);
bool is_ours_next(chanhub *h);
uint8_t await_closes(chanhub *h, unsigned pid, int step);
void close_for_ends(chanhub *h, unsigned pid, unsigned port, struct told *t);
void close_gone(chanhub *h, unsigned pid);
uint64_t pass_turn(chanhub *h, const struct told *t);
bool pass_quietly(chanhub *h);
bool is_for_another_try(chanhub *h, unsigned pid, struct told *t);

/* journals.c */
bool read_text(chanhub *h, struct text *text, reader *read, bool stays);

/* chapters.c */
void wait_for_room(chanhub *h, unsigned pid);
void hand_out(chanhub *h, unsigned pid);
void hand_out_rest(chanhub *h);

/* looks.c */
void show(chanhub *h, unsigned port);

/* watch.c */
void watch_hub(chanhub *h);
void unwatch_hub(chanhub *h);

/* files.c */
int write_whole(const char *path, const char *part, const char *text, size_t length);
void tell_error(const char *path, int error);

#pragma GCC visibility pop

/* ---- What each call does. It is here so that it is compiled into the call. ---- */

static inline void take_lock(chanhub *h) {
    if (pthread_mutex_trylock(&h->lock) != 0) wait_for_lock(h);
}

static inline void leave_lock(chanhub *h) {
    pthread_mutex_unlock(&h->lock);
}

/* The time in ticks, some 2 to 4 in a nanosecond. It is for waits that are short, and are guesses. */
static inline uint64_t ticks(void) {
#ifdef __x86_64__
    return __builtin_ia32_rdtsc();
#else
    struct timespec now;
    clock_gettime(CLOCK_MONOTONIC, &now);
    return 2 * ((uint64_t)now.tv_sec * BILLION + (uint64_t)now.tv_nsec);
#endif
}

/* Wakes these processes: the thread that calls, and those that wait for its turn. With the lock or without. */
static inline void wake(chanhub *h, uint64_t pids) {
    for (; pids; pids &= pids - 1) {
        struct place *place = &h->places[__builtin_ctzll(pids)];
        atomic_store(&place->told, ticks() | 1);
        pthread_cond_broadcast(&place->answered);
    }
}

/* A time in which a call lets go of the lock, though not to wait for its answer. No other thread can call as its process then,
 * and its own is not cancelled. */
struct pause {
    int state;               /* whether the thread could be cancelled */
    uint64_t open, awaited; /* the process, where it is to leave these sets again */
};

/* Begins it. Holds the lock. */
static inline struct pause begin_pause(chanhub *h, unsigned pid) {
    struct pause pause = { .open = only(pid) & ~h->open, .awaited = only(pid) & ~h->awaited };
    pthread_setcancelstate(PTHREAD_CANCEL_DISABLE, &pause.state);
    h->open |= only(pid);
    h->awaited |= only(pid);
    return pause;
}

/* Ends it. Holds the lock. */
static inline void end_pause(chanhub *h, struct pause pause) {
    h->open &= ~pause.open;
    h->awaited &= ~pause.awaited;
    pthread_setcancelstate(pause.state, &pause.state);
}

/* Takes the lock for a call in the name of this process: an exit, the close of a port, or any step. If that cannot begin, returns
 * the fault, without the lock. */
enum { EXIT = -1, ANY_STEP = 0 };

static inline uint8_t enter(chanhub *h, unsigned pid, int step) {
    take_lock(h);
    return (h->open | h->closer) & only(pid) ? enter_closer(h, pid, step) : 0;
}

/* Whether the step that came to this is to be made again, since its turn had not come, or there was no room for another chapter.
 * Both may be otherwise when this returns, unless another thread was faster. Holds the lock, but not while it waits. */
static inline bool is_to_be_made_again(chanhub *h, unsigned pid, struct told *t) {
    return (h->state | t->chapter) && !(h->state && t->it.what) && is_for_another_try(h, pid, t);
}

/* Makes a step, and again while it is to be. Holds the lock, but not while it waits. */
#define STEP(h, pid, t, call) do call; while (is_to_be_made_again(h, pid, t))

/* Shows the counts of the port of a call, which its step may have changed; in most hubs nobody looks. Holds the lock since that
 * step. */
static inline void show_port(chanhub *h, unsigned port) {
    if (h->looked) show(h, port);
}

/* The same of the port of the case that fired, if one did. */
static inline void show_fired(chanhub *h, const chanhub_case *cases, size_t count, const struct told *t) {
    if (h->looked && t->it.index < count) show(h, cases[t->it.index].port);
}

/* Whether the step or the cut after which a chapter waits, or not, made it fall out. Then the caller has to hand it out. Holds
 * the lock since that step. */
static inline bool claims_chapter(chanhub *h, bool chapter) {
    if (!chapter || h->waits) return false;
    h->waits = true;
    return true;
}

/* Whether the library is to make a step: the clock is to wait or to exit, or the journal has such a step. Holds the lock. */
static inline bool is_due(chanhub *h) {
    return h->state ? is_ours_next(h) : h->clock_is == AWAKE && !h->timed;
}

/* Notes what follows from a step, and returns whom to wake: those whose calls it ended. If the clock's is among them, it is
 * awake; its answer is left, until its next step. Holds the lock since that step. */
static inline uint64_t note_step(chanhub *h, const struct told *t) {
    h->timed &= ~t->ended;
    if (t->ended & only(h->clock)) set_clock(h, AWAKE);
    return h->state ? t->ended | pass_turn(h, t) : t->ended;
}

/* Ends the call of a process whose step came to this, which mostly needs no more than the lock. Holds the lock since the step,
 * and leaves it. */
static inline chanhub_told finish(chanhub *h, uint8_t pid, const struct told *t, uint64_t nanoseconds) {
    bool is_quiet = t->it.what != CHANHUB_WAITING && !t->ended && !t->chapter && (!h->state || (!t->it.fault && pass_quietly(h)));
    if (!is_quiet) return finish_by_waking(h, pid, t, nanoseconds);
    leave_lock(h);
    return t->it;
}

#endif
