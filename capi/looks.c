/* Looks, and what they see.
 *
 * A look takes no lock, but for the first at each port. From then on, whoever makes a step that may change the port's counts
 * asks the hub for them before it lets go of the lock, and shows them in one atomic word. So a look gives the counts that the
 * hub told after one step, and no two steps are mixed. Each step changes the counts of one port at most: that of the case that
 * fires, or the one closed or opened again.
 */
#include "hub.h"

/* The bits of a word that shows a port's counts, from the lowest: that it does, whether the port is closed, how many values it
 * buffers and its capacity (each at most 1,024), and how many values were received. */
enum {
    SHOWN = 1,
    SHOWN_CLOSED = 2,
    SHOWN_BUFFERED_AT = 2,
    SHOWN_CAP_AT = 13,
    SHOWN_RECEIVED_AT = 24,
    UP_TO_1024 = (1 << 11) - 1
};

/* These counts in a word; 0 where more were received than it has room for. */
static uint64_t word_of(const chanhub_counts *c) {
    if (c->received >> (64 - SHOWN_RECEIVED_AT)) return 0;
    return c->received << SHOWN_RECEIVED_AT | (uint64_t)c->cap << SHOWN_CAP_AT | (c->sent - c->received) << SHOWN_BUFFERED_AT |
           (c->closed ? SHOWN_CLOSED : 0) | SHOWN;
}

/* The counts that a word shows. */
static inline chanhub_counts counts_in(uint64_t word) {
    uint64_t received = word >> SHOWN_RECEIVED_AT;
    uint64_t buffered = word >> SHOWN_BUFFERED_AT & UP_TO_1024;
    uint32_t cap = word >> SHOWN_CAP_AT & UP_TO_1024;
    return (chanhub_counts){
        .made = true, .closed = word & SHOWN_CLOSED, .cap = cap, .sent = received + buffered, .received = received
    };
}

/* Shows the counts that the hub has just told of a port. Holds the lock since then. */
static void show_counts(chanhub *h, unsigned port, const chanhub_counts *counts) {
    atomic_store_explicit(&h->shown[port - 1], word_of(counts), memory_order_release);
}

/* Shows the counts of a port that was looked at, which a step may have changed. Holds the lock since that step. */
void show(chanhub *h, unsigned port) {
    if (!(h->looked & only_port(port))) return;
    chanhub_counts counts = hub_c_look(&h->hub, (uint16_t)port);
    show_counts(h, port, &counts);
}

/* Looks with the lock, and shows the counts from now on, if the port is made. Apart from the look that needs none of its
 * registers. */
__attribute__((noinline)) static chanhub_counts look_under_lock(chanhub *h, unsigned port) {
    take_lock(h);
    chanhub_counts counts = hub_c_look(&h->hub, (uint16_t)port);
    if (counts.made && !(h->looked & only_port(port))) {
        h->looked |= only_port(port);
        show_counts(h, port, &counts);
    }
    leave_lock(h);
    return counts;
}

chanhub_counts chanhub_look(chanhub *h, unsigned port) {
    if (!h || !only_port(port)) return (chanhub_counts){ 0 };
    uint64_t word = atomic_load_explicit(&h->shown[port - 1], memory_order_acquire);
    return word ? counts_in(word) : look_under_lock(h, port);
}
