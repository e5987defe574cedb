/* A pool that never ends: process 0 hands out jobs, eight workers do them, and each result comes back, until Ctrl-C.
 *
 *     forever JOURNAL [CHAPTERS]      saves the last chapter as JOURNAL; writes the older ones to CHAPTERS.0, CHAPTERS.1, ..
 */
#include <chanhub.h>
#include <inttypes.h>
#include <pthread.h>
#include <signal.h>
#include <stdatomic.h>
#include <stdint.h>
#include <stdio.h>

enum { WORKERS = 8, KEEP = 10000 };

static chanhub *hub;
static unsigned jobs, results;
static atomic_bool stopped;

static void *work(void *at) {
    unsigned pid = (unsigned)(uintptr_t)at;
    chanhub_told job;
    while ((job = chanhub_recv(hub, pid, jobs)).what == CHANHUB_GOT)
        chanhub_send(hub, pid, results, chanhub_number(job.value.number * job.value.number));
    chanhub_exit(hub, pid);
    return NULL;
}

/* Sends the next job or receives a result, whichever can proceed. */
static void *hand_out(void *unused) {
    uint64_t sent = 0, done = 0;
    bool ends = false;
    while (!ends || done < sent) {
        chanhub_case cases[] = { { .port = results }, { .sends = true, .port = jobs, .value = chanhub_number(sent) } };
        chanhub_told told = chanhub_select(hub, 0, cases, ends ? 1 : 2, false, sent);
        sent += told.what == CHANHUB_SENT;
        done += told.what == CHANHUB_GOT;
        ends = stopped;
    }
    chanhub_close(hub, 0, jobs);
    chanhub_exit(hub, 0);
    printf("%" PRIu64 " jobs\n", done);
    return unused;
}

static int save_journal(const char *path) {
    size_t length;
    char *journal = chanhub_journal(hub, &length);
    FILE *file = journal ? fopen(path, "wb") : NULL;
    int saved = file && fwrite(journal, 1, length, file) == length;
    if (file && fclose(file) != 0) saved = 0;
    chanhub_free_text(journal);
    if (!saved) perror(path);
    return saved;
}

int main(int argc, char **argv) {
    if (argc != 2 && argc != 3) return 2;
    sigset_t interrupt;
    sigemptyset(&interrupt);
    sigaddset(&interrupt, SIGINT);
    pthread_sigmask(SIG_BLOCK, &interrupt, NULL);
    chanhub_files files = { .name = argv[argc - 1] };
    if (chanhub_open_endless(&hub, 1, WORKERS + 1, KEEP, argc == 3 ? chanhub_write_chapter : NULL, &files) != 0) return 1;
    jobs = chanhub_make(hub, 0, 16).port;
    results = chanhub_make(hub, 0, 16).port;
    pthread_t threads[WORKERS + 1];
    for (uintptr_t i = 0; i <= WORKERS; i++)
        if (pthread_create(&threads[i], NULL, i == 0 ? hand_out : work, (void *)i) != 0) return 1;
    int signal;
    sigwait(&interrupt, &signal);
    stopped = true;
    for (int i = 0; i <= WORKERS; i++) pthread_join(threads[i], NULL);
    int saved = save_journal(argv[1]);
    chanhub_free(hub);
    return saved && !files.error ? 0 : 1;
}
