/* The watch over hubs in which nothing moves: CHANHUB_WATCH=60:hung.journal in the environment asks for it.
 *
 * One thread looks at all hubs, a few times in that many seconds. If a call waits in a hub, and for so long no step was made, it
 * writes the hub's journal to the file, and does so again only after something has moved. The thread ends with the program.
 */
#define _GNU_SOURCE /* for secure_getenv */
#include "hub.h"

#include <errno.h>
#include <inttypes.h>
#include <signal.h>
#include <stdio.h>
#include <stdlib.h>
#include <string.h>
#include <unistd.h>

enum {
    LOOKS = 8, /* how often it looks in the time after which it writes */
    MOST_SECONDS = 1000000000
};

static pthread_once_t once = PTHREAD_ONCE_INIT;
static char file[PATH_MAX]; /* a copy, since the program may change its environment */
static bool watches;
static uint64_t seconds;
static pthread_mutex_t lock = PTHREAD_MUTEX_INITIALIZER; /* of what follows; it is taken before that of a hub */
static chanhub *first;   /* the hubs that are open, the oldest first */
static unsigned written; /* of how many hubs a journal was written */

/* How many values were sent and received in a hub. Unlike its entries they count on from chapter to chapter. Holds the lock. */
static uint64_t passed(chanhub *h) {
    uint64_t count = 0;
    for (uint16_t port = 1; port <= MOST_PORTS; port++) {
        chanhub_counts counts = hub_c_look(&h->hub, port);
        count += counts.sent + counts.received;
    }
    return count;
}

/* Notes how far a hub is, and whether it has moved, or no call waits. */
static void note_moves(chanhub *h, uint64_t now) {
    struct watch *w = &h->watch;
    take_lock(h);
    uint64_t entries = hub_c_entries(&h->hub), values = passed(h);
    bool moved = entries != w->entries || values != w->values || !h->open;
    leave_lock(h);
    if (moved) *w = (struct watch){ .next = w->next, .file = w->file, .entries = entries, .values = values, .since = now };
}

/* Whether nothing has moved for so long in a hub, which nobody was told yet. */
static bool stands_still(chanhub *h) {
    struct watch *w = &h->watch;
    uint64_t now = chanhub_in(0);
    note_moves(h, now);
    bool is_news = !w->is_told && now - w->since >= seconds * BILLION;
    w->is_told |= is_news;
    return is_news;
}

/* Writes the journal of a hub to its file, which is another for each hub. Another program may have the same environment, so its part
 * has the number of this one in its name. */
static void write_journal(chanhub *h) {
    char path[PATH_ROOM], part[PATH_ROOM + sizeof ".2147483647.tmp"];
    size_t length;
    if (!h->watch.file) h->watch.file = ++written;
    if (h->watch.file == 1) snprintf(path, sizeof path, "%s", file);
    else snprintf(path, sizeof path, "%s.%u", file, h->watch.file);
    snprintf(part, sizeof part, "%s.%d.tmp", path, (int)getpid());
    char *text = chanhub_journal(h, &length);
    int error = text ? write_whole(path, part, text, length) : ENOMEM;
    chanhub_free_text(text);
    if (error) tell_error(path, error);
    else fprintf(stderr, "chanhub: nothing has moved in a hub for %" PRIu64 " s: its journal is in %s\n", seconds, path);
}

static void *look_at_hubs(void *unused) {
    uint64_t pause = seconds * BILLION / LOOKS;
    struct timespec time = { .tv_sec = (time_t)(pause / BILLION), .tv_nsec = (long)(pause % BILLION) };
    for (;;) {
        nanosleep(&time, NULL);
        pthread_mutex_lock(&lock);
        for (chanhub *h = first; h; h = h->watch.next) if (stands_still(h)) write_journal(h);
        pthread_mutex_unlock(&lock);
    }
    return unused;
}

/* Starts the thread, which leaves all signals to the others. Returns whether it could. */
static bool start(void) {
    sigset_t all, before;
    pthread_t thread;
    sigfillset(&all);
    pthread_sigmask(SIG_SETMASK, &all, &before);
    bool is_started = pthread_create(&thread, NULL, look_at_hubs, NULL) == 0;
    pthread_sigmask(SIG_SETMASK, &before, NULL);
    if (is_started) pthread_detach(thread);
    return is_started;
}

/* A child has no such thread, and nobody there lets go of the lock, if the thread has it. */
static void forget(void) {
    watches = false;
}

/* Reads what is asked for, SECONDS:FILE. Returns whether it is that, and there is room for it. */
static bool read_wish(const char *asked) {
    char *end;
    if (*asked < '0' || *asked > '9') return false;
    seconds = strtoull(asked, &end, 10);
    size_t length = *end == ':' ? strlen(end + 1) : 0;
    if (!seconds || seconds > MOST_SECONDS || !length || length >= sizeof file) return false;
    memcpy(file, end + 1, length + 1);
    return true;
}

/* Begins to watch, if it is asked for. */
static void begin(void) {
    const char *asked = secure_getenv("CHANHUB_WATCH");
    if (!asked || !*asked) return;
    watches = read_wish(asked) && pthread_atfork(NULL, NULL, forget) == 0 && start();
    if (watches) return;
    fprintf(stderr, "chanhub: CHANHUB_WATCH=%s: there is no watch; SECONDS:FILE asks for one\n", asked);
}

void watch_hub(chanhub *h) {
    pthread_once(&once, begin);
    if (!watches) return;
    h->watch.since = chanhub_in(0);
    pthread_mutex_lock(&lock);
    chanhub **last = &first;
    while (*last) last = &(*last)->watch.next;
    *last = h;
    pthread_mutex_unlock(&lock);
}

void unwatch_hub(chanhub *h) {
    if (!watches) return;
    pthread_mutex_lock(&lock);
    chanhub **at = &first;
    while (*at && *at != h) at = &(*at)->watch.next;
    if (*at) *at = h->watch.next;
    pthread_mutex_unlock(&lock);
}
