/* Sends and receives of two processes on a port with a buffer, by one thread: to count the instructions that they take.
 *
 *     steps ends VALUES               on a hub of chanhub_open
 *     steps endless VALUES KEEP       on one that never ends, whose older chapters go
 *     steps handed VALUES KEEP        on one whose older chapters are handed out
 */
#include "chanhub.h"

#include <stdio.h>
#include <stdlib.h>
#include <string.h>

enum { CAP = 100, MOST_STEPS = 1000000 };

static void drop(void *pointer, const char *text, size_t length) {
    (void)pointer, (void)text, (void)length;
}

static int open_hub(chanhub **hub, int argc, char **argv) {
    if (argc == 3 && strcmp(argv[1], "ends") == 0) return chanhub_open(hub, 1, 2, MOST_STEPS);
    if (argc != 4) return 1;
    chanhub_chapters *chapters = strcmp(argv[1], "handed") == 0 ? drop : NULL;
    return chanhub_open_endless(hub, 1, 2, (uint32_t)strtoul(argv[3], NULL, 10), chapters, NULL);
}

/* Fills the buffer and empties it, until so many values were passed. Whether each came. */
static bool pass_values(chanhub *hub, unsigned port, unsigned values) {
    for (unsigned first = 0; first < values; first += CAP) {
        unsigned end = first + CAP < values ? first + CAP : values;
        for (unsigned i = first; i < end; i++) {
            if (chanhub_send(hub, 0, port, chanhub_number(i)).what != CHANHUB_SENT) return false;
        }
        for (unsigned i = first; i < end; i++) {
            if (chanhub_recv(hub, 1, port).value.number != i) return false;
        }
    }
    return true;
}

int main(int argc, char **argv) {
    chanhub *hub;
    if (open_hub(&hub, argc, argv)) return 2;
    bool passed = pass_values(hub, chanhub_make(hub, 0, CAP).port, (unsigned)strtoul(argv[2], NULL, 10));
    chanhub_free(hub);
    return !passed;
}
