/* A pool of workers: process 0 hands out jobs, 1 to 3 do them, and each result comes back. */
#include <chanhub.h>
#include <pthread.h>
#include <stdint.h>
#include <stdio.h>

static chanhub *hub;
static unsigned jobs, results;

static void *work(void *at) {
    unsigned pid = (unsigned)(uintptr_t)at;
    chanhub_told job;
    while ((job = chanhub_recv(hub, pid, jobs)).what == CHANHUB_GOT)
        chanhub_send(hub, pid, results, chanhub_number(job.value.number * job.value.number));
    chanhub_exit(hub, pid);
    return NULL;
}

int main(void) {
    if (chanhub_open(&hub, 1, 4, 1000) != 0) return 1;
    jobs = chanhub_make(hub, 0, 2).port;
    results = chanhub_make(hub, 0, 100).port;
    pthread_t workers[3];
    for (uintptr_t i = 0; i < 3; i++)
        if (pthread_create(&workers[i], NULL, work, (void *)(i + 1)) != 0) return 1;
    for (uint64_t job = 1; job <= 10; job++) chanhub_send(hub, 0, jobs, chanhub_number(job));
    chanhub_close(hub, 0, jobs);
    uint64_t sum = 0;
    for (int i = 0; i < 10; i++) sum += chanhub_recv(hub, 0, results).value.number;
    printf("%llu\n", (unsigned long long)sum);
    chanhub_exit(hub, 0);
    for (int i = 0; i < 3; i++) pthread_join(workers[i], NULL);
    chanhub_free(hub);
    return 0;
}
