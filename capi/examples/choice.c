/* A select with a default: it receives 5 or sends 7, as a random word chooses, until neither can proceed. */
#include <chanhub.h>
#include <stdint.h>
#include <stdio.h>
#include <sys/random.h>

static uint64_t random_word(void) {
    uint64_t word = 0;
    if (getrandom(&word, sizeof word, 0) != sizeof word) perror("getrandom");
    return word;
}

int main(void) {
    chanhub *hub;
    if (chanhub_open(&hub, 1, 1, 1000) != 0) return 1;
    unsigned jobs = chanhub_make(hub, 0, 1).port, results = chanhub_make(hub, 0, 1).port;
    chanhub_send(hub, 0, jobs, chanhub_number(5));
    chanhub_case cases[] = { { .port = jobs }, { .sends = true, .port = results, .value = chanhub_number(7) } };
    chanhub_told told;
    while ((told = chanhub_select(hub, 0, cases, 2, true, random_word())).what != CHANHUB_DEFAULT) {
        if (told.what == CHANHUB_GOT) printf("got %llu\n", (unsigned long long)told.value.number);
        else if (told.what == CHANHUB_SENT) puts("sent");
        else return 1;
    }
    puts("neither");
    chanhub_free(hub);
    return 0;
}
