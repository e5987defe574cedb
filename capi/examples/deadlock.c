/* A deadlock: each of two threads waits for the other to send first. */
#include <chanhub.h>
#include <pthread.h>
#include <stdint.h>
#include <stdio.h>

static chanhub *hub;
static unsigned ports[2];

static void *ask_first(void *at) {
    unsigned pid = (unsigned)(uintptr_t)at;
    chanhub_told told = chanhub_recv(hub, pid, ports[1 - pid]);
    if (told.what == CHANHUB_GOT) told = chanhub_send(hub, pid, ports[pid], told.value);
    return (void *)(uintptr_t)(told.what == CHANHUB_STALLED);
}

int main(void) {
    if (chanhub_open(&hub, 1, 2, 1000) != 0) return 1;
    for (int i = 0; i < 2; i++) ports[i] = chanhub_make(hub, 0, 0).port;
    pthread_t threads[2];
    int stalled = 0;
    for (uintptr_t i = 0; i < 2; i++)
        if (pthread_create(&threads[i], NULL, ask_first, (void *)i) != 0) return 1;
    for (int i = 0; i < 2; i++) {
        void *told;
        pthread_join(threads[i], &told);
        stalled += (int)(uintptr_t)told;
    }
    size_t length;
    char *journal = chanhub_journal(hub, &length);
    if (journal) printf("%d stalled\n%.*s", stalled, (int)length, journal);
    chanhub_free_text(journal);
    chanhub_free(hub);
    return 0;
}
