/* Steps, selects and sends of bytes take the memory that chanhub.h tells, since their entries are kept short. */
#include "tally.h"

#include <stdlib.h>
#include <sys/resource.h>

enum { CASES = 16, VALUES = 200000 };

/* The most bytes that the process has had in memory. */
static long most_bytes(void) {
    struct rusage used;
    getrusage(RUSAGE_SELF, &used);
    return used.ru_maxrss * 1024;
}

/* Checks that each value takes about so many bytes, in two steps, and returns the hub. */
static chanhub *takes(const char *name, long told, size_t cases, chanhub_value value) {
    chanhub *hub;
    chanhub_case all[CASES] = { { .sends = true, .port = 1, .value = value } };
    if (chanhub_open(&hub, 2, 1, 1000000)) exit(2);
    is("made", chanhub_make(hub, 0, 1).port, 1);
    long before = most_bytes();
    for (unsigned i = 0; i < VALUES; i++) {
        if (chanhub_select(hub, 0, all, cases, false, 0).what != CHANHUB_SENT) exit(2);
        if (chanhub_recv(hub, 0, 1).what != CHANHUB_GOT) exit(2);
    }
    long bytes = (most_bytes() - before) / VALUES;
    printf("%s: %ld bytes\n", name, bytes);
    is(name, bytes >= told * 3 / 4 && bytes <= told * 5 / 4, 1);
    return hub;
}

int main(void) {
    char bytes[32] = { 0 };
    chanhub *hubs[] = {
        takes("a number", 16 + 16, 1, chanhub_number(1)),
        takes("bytes", 16 + 16 + 33 + 16, 1, chanhub_bytes(bytes, 32)),
        takes("a select", 16 + CASES * 16 + 16, CASES, chanhub_number(1)),
    };
    for (size_t i = 0; i < sizeof hubs / sizeof *hubs; i++) chanhub_free(hubs[i]);
    return tally("memory");
}
