/* watch FILE: hubs that are watched, since CHANHUB_WATCH is 1:FILE. Each time that a hub stands still while a call waits, its journal
 * is written: of the first to FILE, of another to FILE.2. A test that hangs is ended by an alarm.
 */
#include "runs.h"

#include <pthread.h>
#include <stdlib.h>

enum { SECONDS = 60, STILL = 1500000, KEEP = 100, PAUSE = 20000 };

static const uint64_t SECOND = 1000000000;

static const char *file;

static void make(chanhub *hub) {
    is("made", chanhub_make(hub, 0, 0).port, 1);
}

static chanhub *opened(void) {
    chanhub *hub;
    is("opened", chanhub_open(&hub, 2, 2, 100), 0);
    make(hub);
    return hub;
}

static void waits(chanhub *hub) {
    chanhub_case receive = { .port = 1 };
    is("waiting", chanhub_begin(hub, 1, &receive, 1, false, 0).what, CHANHUB_WAITING);
}

static void hand_over(chanhub *hub) {
    is("sent", chanhub_send(hub, 0, 1, chanhub_number(5)).what, CHANHUB_SENT);
    is("got", chanhub_resume(hub, 1, 0).what, CHANHUB_GOT);
}

/* Opens the file whose name has this end. */
static FILE *open_file(const char *end, const char *mode) {
    char path[4096];
    snprintf(path, sizeof path, "%s%s", file, end);
    return fopen(path, mode);
}

/* Whether that file holds this text, or stands there if that is NULL. */
static bool file_holds(const char *end, const char *wanted) {
    char text[4096];
    FILE *found = open_file(end, "r");
    if (!found) return false;
    size_t length = fread(text, 1, sizeof text, found);
    fclose(found);
    return !wanted || (length == strlen(wanted) && memcmp(text, wanted, length) == 0);
}

/* The same of the file of this number. */
static bool holds(unsigned number, const char *wanted) {
    char end[16] = "";
    if (number > 1) snprintf(end, sizeof end, ".%u", number);
    return file_holds(end, wanted);
}

static void await(unsigned number, const char *wanted) {
    while (!holds(number, wanted)) usleep(10000);
}

#define HEAD "chanhub journal 2\nprocs 2\n"
#define BEGINNING HEAD "0 make 0\n"

/* One hub after the other stands still. One whose call waits is freed only once it is told of, so that it takes no other's file. */
static void some_stand_still(void) {
    chanhub *nobody_waits = opened(), *freed = opened(), *first = opened(), *second = opened();
    chanhub_free(freed);
    waits(first);
    await(1, BEGINNING "1 recv 1\n");
    /* Once, as long as nothing moves; and then again. */
    is("removed", remove(file), 0);
    usleep(STILL);
    is("told once", holds(1, NULL), 0);
    hand_over(first);
    usleep(STILL);
    is("nobody waits", holds(1, NULL), 0);
    waits(first);
    await(1, BEGINNING "1 recv 1\n0 send 1 5\n1 recv 1\n");
    chanhub_free(first);
    waits(second);
    await(2, BEGINNING "1 recv 1\n");
    is("no other file", holds(3, NULL), 0);
    chanhub_free(second), chanhub_free(nobody_waits);
}

/* A hub whose chapters have equally many entries whenever it is looked at moves nevertheless. Then it stands still. */
static void chapters_are_alike(void) {
    chanhub *hub;
    is("opened", chanhub_open_endless(&hub, 2, 2, KEEP, NULL, NULL), 0);
    make(hub), waits(hub);
    uint64_t before = chanhub_in(0), end = before + 2 * SECOND, longest = 0;
    while (before < end) {
        hand_over(hub), waits(hub);
        is("cut", chanhub_cut(hub), 1);
        usleep(PAUSE);
        uint64_t now = chanhub_in(0);
        if (now - before > longest) longest = now - before;
        before = now;
    }
    /* Where this thread stood still itself for so long, that could be told. */
    if (longest < SECOND / 2) is("it moves", holds(3, NULL), 0);
    await(3, BEGINNING "1 recv 1\n");
    chanhub_free(hub);
}

/* A hub in which no step was made yet: its first call waits for its turn in a journal. */
static void *is_stopped(void *hub) {
    is_diverged("stopped", chanhub_make(hub, 0, 0), 1);
    return NULL;
}

static void waits_for_its_turn(void) {
    pthread_t thread;
    uint64_t begun = chanhub_in(0);
    chanhub *hub = follows(HEAD "1 make 0\n0 make 0\n", false);
    pthread_create(&thread, NULL, is_stopped, hub);
    await(4, HEAD);
    is("not before its time", chanhub_in(0) - begun >= SECOND, 1);
    chanhub_stop(hub);
    pthread_join(thread, NULL);
    chanhub_free(hub);
}

/* Another program with the same environment is writing a journal. */
static void another_writes(void) {
    FILE *part = open_file(".tmp", "w");
    if (!part || fputs("another's", part) < 0 || fclose(part)) exit(2);
}

/* The environment is read when the first hub is opened, and never again. */
static void is_read_once(void) {
    chanhub *hub = opened();
    char *asked = getenv("CHANHUB_WATCH");
    memset(asked, 0, strlen(asked));
    chanhub_free(hub);
}

int main(int count, char **words) {
    if (count != 2) return 2;
    file = words[1];
    alarm(SECONDS);
    another_writes();
    is_read_once();
    some_stand_still();
    chapters_are_alike();
    waits_for_its_turn();
    is("another's stays", file_holds(".tmp", "another's"), 1);
    return tally("watch");
}
