/* The memory of hubs and of texts, whose large blocks have pages of their own.
 *
 * A hub reserves more than it ever writes to, which takes no memory while it lies in new pages. malloc gives new pages to a large
 * block, but no longer once one of that size was freed, and then its realloc copies what was reserved. It also keeps what is freed for
 * each thread. A hub that never ends frees as much as it allocates, so it would hold ten times the memory that it needs; and half as
 * much again, which grows slowly, if blocks were malloc's as long as they have less than 128 KB.
 *
 * At each cut a hub makes the buffers of all its ports anew, and frees those of a chapter before. So a few blocks that are freed are kept
 * for the next ones of their size, since each would cost two calls of the system, and its pages.
 */
#define _GNU_SOURCE /* for mremap */
#include "heap.h"

#include <stdatomic.h>
#include <stdbool.h>
#include <stdint.h>
#include <stdlib.h>
#include <string.h>
#include <sys/mman.h>

/* Stands before a block. */
struct head {
    _Alignas(16) size_t size; /* of the block and this */
};

static const size_t LARGE = 16 * 1024, MOST = PTRDIFF_MAX - sizeof(struct head);

/* The blocks that are kept: one for each port of the largest hub, 4 MB at most. Of all the threads one at a time has them, and any other
 * does without: so nobody waits, also not a process that was forked meanwhile. */
static const size_t MOST_KEPT = 64 * 1024;
static struct head *kept[64];
static unsigned next_kept;
static atomic_flag kept_is_taken = ATOMIC_FLAG_INIT;

static bool takes_kept(void) {
    return !atomic_flag_test_and_set_explicit(&kept_is_taken, memory_order_acquire);
}

static void leave_kept(void) {
    atomic_flag_clear_explicit(&kept_is_taken, memory_order_release);
}

static struct head *head_of(void *at) {
    return (struct head *)at - 1;
}

/* The block behind a head, which gets its size. NULL where there is none. */
static void *block_of(struct head *head, size_t size) {
    if (!head) return NULL;
    head->size = size;
    return head + 1;
}

/* The head at an address that the system gives. NULL where it gives none. */
static struct head *mapped(void *at) {
    return at == MAP_FAILED ? NULL : at;
}

/* A block of this size that was kept. NULL where there is none. */
static struct head *kept_of(size_t size) {
    if (size > MOST_KEPT || !takes_kept()) return NULL;
    struct head *found = NULL;
    for (size_t i = 0; i < sizeof kept / sizeof *kept && !found; i++) {
        if (!kept[i] || kept[i]->size != size) continue;
        found = kept[i];
        kept[i] = NULL;
    }
    leave_kept();
    return found;
}

/* Keeps a large block that is freed, in place of the one that was kept so long. Returns the one that is not kept, NULL where both are. */
static struct head *keep(struct head *head) {
    if (head->size > MOST_KEPT || !takes_kept()) return head;
    struct head *other = kept[next_kept];
    kept[next_kept] = head;
    next_kept = (next_kept + 1) % (sizeof kept / sizeof *kept);
    leave_kept();
    return other;
}

static struct head *new_large(size_t size) {
    struct head *head = kept_of(size);
    return head ? head : mapped(mmap(NULL, size, PROT_READ | PROT_WRITE, MAP_PRIVATE | MAP_ANONYMOUS, -1, 0));
}

static void free_large(struct head *head) {
    struct head *other = keep(head);
    if (other) munmap(other, other->size);
}

void *heap_alloc(size_t size) {
    if (size > MOST) return NULL;
    size += sizeof(struct head);
    return block_of(size < LARGE ? malloc(size) : new_large(size), size);
}

/* A block of another kind, large or not, with what this one holds. NULL where memory is refused, and then this one stays. */
static void *move(void *at, size_t size) {
    void *moved = heap_alloc(size);
    if (!moved) return NULL;
    size_t held = head_of(at)->size - sizeof(struct head);
    memcpy(moved, at, held < size ? held : size);
    heap_free(at);
    return moved;
}

void *heap_realloc(void *at, size_t size) {
    if (!at) return heap_alloc(size);
    if (size > MOST) return NULL;
    struct head *head = head_of(at);
    size_t whole = size + sizeof *head;
    if ((head->size < LARGE) != (whole < LARGE)) return move(at, size);
    if (whole < LARGE) return block_of(realloc(head, whole), whole);
    return block_of(mapped(mremap(head, head->size, whole, MREMAP_MAYMOVE)), whole);
}

void heap_free(void *at) {
    if (!at) return;
    struct head *head = head_of(at);
    if (head->size < LARGE) free(head);
    else free_large(head);
}

#ifndef __x86_64__
/* What the proved code asks for memory by, on machines for which the toolchain does not bring it: where there is none, the block is no
 * null pointer either. A block of no size stands where its alignment says. */
struct asked {
    bool given;
    void *at;
};

static struct asked asked(void *at) {
    static char none[16];
    return (struct asked){ .given = at, .at = at ? at : none };
}

struct asked rattle_alloc(size_t size, size_t alignment) {
    return asked(heap_alloc(size ? size : alignment));
}

struct asked rattle_realloc(void *at, size_t held, size_t size, size_t alignment) {
    (void)held;
    return asked(heap_realloc(at, size ? size : alignment));
}

void rattle_dealloc(void *at) {
    heap_free(at);
}
#endif
