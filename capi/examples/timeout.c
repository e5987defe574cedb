/* Receives that wait for at most 20 milliseconds: one in vain, and one that finds a value. Prints `timed out` and `got 9`. */
#include <chanhub.h>
#include <stdint.h>
#include <stdio.h>

static const uint64_t TIME = 20000000; /* nanoseconds */

int main(void) {
    chanhub *hub;
    chanhub_options options = { .procs = 1, .clock = true };
    if (chanhub_open_with(&hub, &options) != 0) return 1;
    unsigned port = chanhub_make(hub, 0, 1).port;
    chanhub_told told = chanhub_recv_until(hub, 0, port, chanhub_in(TIME));
    printf("%s\n", chanhub_what_name(told.what));
    chanhub_send_until(hub, 0, port, chanhub_number(9), chanhub_in(TIME));
    told = chanhub_recv_until(hub, 0, port, chanhub_in(TIME));
    printf("%s %llu\n", chanhub_what_name(told.what), (unsigned long long)told.value.number);
    chanhub_exit(hub, 0);
    chanhub_free(hub);
    return 0;
}
