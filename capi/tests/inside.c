/* No two threads are inside of a hub at once, and none reads what another was told: threads that pass bytes and numbers, look, read the
 * journal, begin and resume, and whose deadlines pass, with every entry into the proved library counted.
 *
 * Linked with the library's sources and with --wrap for each function of the library that it calls.
 */
#include "hub_c.h"
#include "tally.h"

#include <pthread.h>
#include <sched.h>
#include <stdlib.h>

enum { COUNT = 1500, MANY = 3, SENDERS = 3, SECONDS = 300 };

static chanhub *hub;
static atomic_int inside, entries, overlaps, mixed, torn;
static atomic_bool done;

/* Now and then it lets others run, who would find somebody inside. */
static void come_in(void) {
    overlaps += atomic_fetch_add(&inside, 1) != 0;
    if (++entries % 128 == 0) sched_yield();
}

/* A function, with those inside counted. */
#define COUNTED(name, parameters, arguments) \
    void __real_##name parameters; \
    void __wrap_##name parameters; \
    void __wrap_##name parameters { \
        come_in(); \
        __real_##name arguments; \
        inside--; \
    }

/* The same of one that answers by its result. */
#define ANSWERED(result, name, parameters, arguments) \
    result __real_##name parameters; \
    result __wrap_##name parameters; \
    result __wrap_##name parameters { \
        come_in(); \
        result r = __real_##name arguments; \
        inside--; \
        return r; \
    }

COUNTED(hub_c_make, (struct hub *h, uint8_t pid, uint32_t cap, struct told *told), (h, pid, cap, told))
COUNTED(hub_c_send, (struct hub *h, uint8_t pid, uint16_t port, const chanhub_value *value, struct told *told), (h, pid, port, value, told))
COUNTED(hub_c_recv, (struct hub *h, uint8_t pid, uint16_t port, struct told *told), (h, pid, port, told))
COUNTED(hub_c_call,
        (struct hub *h, uint8_t pid, const chanhub_case *cases, size_t count, uint8_t has_default, uint64_t word, struct told *told),
        (h, pid, cases, count, has_default, word, told))
COUNTED(hub_c_cancel, (struct hub *h, uint8_t pid, uint8_t other, struct told *told), (h, pid, other, told))
COUNTED(hub_c_exit, (struct hub *h, uint8_t pid, struct told *told), (h, pid, told))
COUNTED(hub_c_take, (struct hub *h, uint8_t pid, struct told *told), (h, pid, told))
ANSWERED(uint64_t, hub_c_entries, (struct hub *h), (h))
ANSWERED(chanhub_counts, hub_c_look, (struct hub *h, uint16_t port), (h, port))

/* The journal is of one moment: no entry is made between two pieces of it. */
struct piece __real_hub_c_present(struct hub *h, uint64_t number, uint8_t *place, size_t room);
struct piece __wrap_hub_c_present(struct hub *h, uint64_t number, uint8_t *place, size_t room);
struct piece __wrap_hub_c_present(struct hub *h, uint64_t number, uint8_t *place, size_t room) {
    static uint64_t at_first;
    come_in();
    uint64_t made = __real_hub_c_entries(h);
    if (number == 0) at_first = made;
    torn += made != at_first;
    struct piece piece = __real_hub_c_present(h, number, place, room);
    inside--;
    return piece;
}

/* Bytes that tell whose they are, of a length that does too. */
static chanhub_value value_of(unsigned pid) {
    unsigned char bytes[32];
    memset(bytes, 'a' + (int)pid, sizeof bytes);
    return chanhub_bytes(bytes, 32 - pid);
}

static bool is_value_of_one(const chanhub_value *value) {
    if (!value->is_bytes || value->length < 32 - SENDERS) return false;
    chanhub_value wanted = value_of(32u - value->length);
    return memcmp(value, &wanted, sizeof wanted) == 0;
}

static size_t least(size_t a, size_t b) {
    return a < b ? a : b;
}

/* Sends on port 1: by a send, by a select, by what is begun and resumed, or many at once. */
static void *sends_bytes(void *at) {
    unsigned pid = (unsigned)(size_t)at;
    chanhub_value many[MANY];
    for (int i = 0; i < MANY; i++) many[i] = value_of(pid);
    for (size_t i = 0, sent; i < COUNT; i += sent) {
        chanhub_case cases[2] = { { .port = 0 }, { .sends = true, .port = 1, .value = value_of(pid) } };
        chanhub_told t;
        sent = 1;
        if (i % 4 == 3) t = chanhub_send_all(hub, pid, 1, many, least(MANY, COUNT - i), CHANHUB_NEVER, &sent);
        else if (i % 3 == 0) t = chanhub_send(hub, pid, 1, cases[1].value);
        else if (i % 3 == 1) t = chanhub_select(hub, pid, cases, 2, false, i);
        else if ((t = chanhub_begin(hub, pid, cases, 2, false, i)).what == CHANHUB_WAITING) t = chanhub_resume(hub, pid, UINT64_MAX);
        mixed += t.what != CHANHUB_SENT;
    }
    return NULL;
}

static void *receives_bytes(void *at) {
    unsigned pid = (unsigned)(size_t)at;
    chanhub_value many[MANY];
    for (size_t i = 0, received; i < COUNT; i += received) {
        chanhub_told t = chanhub_recv_up_to(hub, pid, 1, many, least(MANY, COUNT - i), CHANHUB_NEVER, &received);
        if (t.what != CHANHUB_GOT) received = COUNT, mixed++;
        else for (size_t k = 0; k < received; k++) mixed += !is_value_of_one(&many[k]);
    }
    return NULL;
}

/* On port 2, which buffers nothing, each value that was sent was received. */
static void *looks(void *at) {
    while (!done) {
        chanhub_counts c = chanhub_look(hub, 2);
        torn += c.sent != c.received;
    }
    return at;
}

static void *reads(void *at) {
    while (!done) {
        size_t length;
        char *text = chanhub_journal(hub, &length);
        torn += !text || text[length - 1] != '\n' || memcmp(text, "chanhub journal 2\n", 18) != 0;
        chanhub_free_text(text);
        usleep(5000);
    }
    return at;
}

static void *sends_numbers(void *at) {
    for (unsigned i = 0; i < COUNT; i++) mixed += chanhub_send(hub, 2 * SENDERS, 2, chanhub_number(i)).what != CHANHUB_SENT;
    return at;
}

static void *receives_numbers(void *at) {
    for (unsigned i = 0; i < COUNT; i++) mixed += chanhub_recv(hub, 2 * SENDERS + 1, 2).value.number != i;
    return at;
}

/* Two of these wake and time out at about one time. */
static void *times_out(void *at) {
    unsigned pid = (unsigned)(size_t)at;
    while (!done) mixed += chanhub_recv_until(hub, pid, 0, chanhub_in(20000)).what != CHANHUB_TIMED_OUT;
    return at;
}

int main(void) {
    alarm(SECONDS);
    chanhub_options options = { .procs = 2 * SENDERS + 6, .clock = true };
    if (chanhub_open_with(&hub, &options)) return 2;
    is("made", chanhub_make(hub, 2 * SENDERS + 2, 1).port, 1);
    is("made", chanhub_make(hub, 2 * SENDERS + 2, 0).port, 2);
    void *(*others[])(void *) = { sends_numbers, receives_numbers, looks, reads, times_out, times_out };
    enum { OTHERS = sizeof others / sizeof *others };
    pthread_t threads[2 * SENDERS + OTHERS];
    for (size_t i = 0; i < 2 * SENDERS + OTHERS; i++) {
        void *(*work)(void *) = i < SENDERS ? sends_bytes : i < 2 * SENDERS ? receives_bytes : others[i - 2 * SENDERS];
        if (pthread_create(&threads[i], NULL, work, (void *)i)) return 2;
    }
    for (size_t i = 0; i < 2 * SENDERS + 2; i++) pthread_join(threads[i], NULL);
    done = true;
    for (size_t i = 2 * SENDERS + 2; i < 2 * SENDERS + OTHERS; i++) pthread_join(threads[i], NULL);
    chanhub_free(hub);
    is("entries are counted", entries > (2 * SENDERS + 2) * COUNT, 1);
    is("two at once", overlaps, 0);
    is("mixed values", mixed, 0);
    is("torn looks and journals", torn, 0);
    return tally("inside");
}
