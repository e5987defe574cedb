/* 64 threads, half of which send and half of which receive, on two ports of one hub; now and then by a select, or by a call that
 * is begun and resumed. Each keeps what it was told.
 *
 *     crew FOLDER CAP COUNT       writes FOLDER/journal, and FOLDER/told: each thread's answers as event lines
 */
#include "chanhub.h"

#include <inttypes.h>
#include <pthread.h>
#include <stdio.h>
#include <stdlib.h>

enum { PROCS = 64 };

static chanhub *hub;
static unsigned count;

struct worker { pthread_t thread; unsigned pid; chanhub_told *told; uint64_t got; };

/* Begins a call of these cases, and resumes it: at first for shorter times, then for as long as it takes. */
static chanhub_told begin(unsigned pid, const chanhub_case *cases, unsigned i) {
    chanhub_told t = chanhub_begin(hub, pid, cases, 2, false, i);
    uint64_t nanoseconds = i % 3 * 20000;
    for (unsigned tries = 0; t.what == CHANHUB_WAITING; tries++) {
        t = chanhub_resume(hub, pid, tries < 3 ? nanoseconds : UINT64_MAX);
    }
    return t;
}

static chanhub_told ask(unsigned pid, unsigned i) {
    chanhub_value value = chanhub_number((uint64_t)pid << 32 | i);
    bool sends = pid % 2;
    unsigned port = 1 + pid / 2 % 2;
    chanhub_case cases[2] = { { sends, (uint16_t)port, value }, { sends, (uint16_t)port, value } };
    if (i % 8 == 3) return chanhub_select(hub, pid, cases, 2, false, i);
    if (i % 8 == 5) return begin(pid, cases, i);
    return sends ? chanhub_send(hub, pid, port, value) : chanhub_recv(hub, pid, port);
}

static void *work(void *at) {
    struct worker *w = at;
    for (unsigned i = 0; i < count; i++) {
        w->told[i] = ask(w->pid, i);
        w->got += w->told[i].what == CHANHUB_GOT;
    }
    w->told[count] = chanhub_exit(hub, w->pid);
    return NULL;
}

static void write_told(FILE *file, unsigned pid, chanhub_told t) {
    if (t.what == CHANHUB_SENT) fprintf(file, "%u case %u sent\n", pid, t.index);
    else if (t.what == CHANHUB_GOT) fprintf(file, "%u case %u got %" PRIu64 "\n", pid, t.index, t.value.number);
    else if (t.what == CHANHUB_DONE) fprintf(file, "%u done\n", pid);
    else fprintf(file, "%u unexpected %u\n", pid, t.what);
}

static FILE *file_in(const char *folder, const char *name) {
    char path[4096];
    snprintf(path, sizeof path, "%s/%s", folder, name);
    FILE *file = fopen(path, "wb");
    if (!file) exit(2);
    return file;
}

int main(int argc, char **argv) {
    if (argc != 4) return 2;
    uint32_t cap = (uint32_t)atoi(argv[2]);
    count = (unsigned)atoi(argv[3]);
    if (chanhub_open(&hub, 1, PROCS, 1000000)) return 2;
    chanhub_told made[2] = { chanhub_make(hub, 0, cap), chanhub_make(hub, 0, cap) };
    static struct worker workers[PROCS];
    for (unsigned pid = 0; pid < PROCS; pid++) {
        workers[pid].pid = pid;
        workers[pid].told = calloc(count + 1, sizeof(chanhub_told));
        if (!workers[pid].told || pthread_create(&workers[pid].thread, NULL, work, &workers[pid])) return 2;
    }
    uint64_t got = 0;
    FILE *told = file_in(argv[1], "told");
    fprintf(told, "0 made %u\n0 made %u\n", made[0].port, made[1].port);
    for (unsigned pid = 0; pid < PROCS; pid++) {
        pthread_join(workers[pid].thread, NULL);
        got += workers[pid].got;
        for (unsigned i = 0; i <= count; i++) write_told(told, pid, workers[pid].told[i]);
        free(workers[pid].told);
    }
    fclose(told);
    size_t length;
    char *text = chanhub_journal(hub, &length);
    FILE *journal = file_in(argv[1], "journal");
    if (!text || fwrite(text, 1, length, journal) != length) return 2;
    fclose(journal);
    chanhub_free_text(text);
    chanhub_free(hub);
    printf("%" PRIu64 "\n", got);
    return got != (uint64_t)PROCS / 2 * count;
}
