/* The memory of hubs and of texts: random blocks that grow and shrink keep what they hold, and refused memory changes nothing.
 *
 * Linked with heap.c, and with --wrap for malloc, realloc, mmap and mremap.
 */
#include "heap.h"
#include "tally.h"

#include <stdlib.h>
#include <sys/mman.h>

enum { BLOCKS = 40, ROUNDS = 20000, LARGE = 16 * 1024, MOST = 3 * LARGE };

static bool refuses;
static unsigned refused, mapped;

static bool is_refused(void) {
    refused += refuses;
    return refuses;
}

void *__real_malloc(size_t size);
void *__real_realloc(void *at, size_t size);
void *__real_mmap(void *at, size_t size, int access, int kind, int file, off_t from);
void *__real_mremap(void *at, size_t old, size_t size, int flags);
void *__wrap_malloc(size_t size) { return is_refused() ? NULL : __real_malloc(size); }
void *__wrap_realloc(void *at, size_t size) { return is_refused() ? NULL : __real_realloc(at, size); }
void *__wrap_mmap(void *at, size_t size, int access, int kind, int file, off_t from) {
    mapped++;
    return is_refused() ? MAP_FAILED : __real_mmap(at, size, access, kind, file, from);
}
void *__wrap_mremap(void *at, size_t old, size_t size, int flags) {
    return is_refused() ? MAP_FAILED : __real_mremap(at, old, size, flags);
}

/* A block, each byte of which is `mark`. */
struct block { unsigned char *at; size_t size; unsigned char mark; };

static bool holds(const struct block *b, size_t size) {
    for (size_t i = 0; i < size; i++) {
        if (b->at[i] != b->mark) return false;
    }
    return (size_t)b->at % 16 == 0;
}

/* Sizes of all kinds, many of them about the size from which on a block is large. */
static size_t random_size(void) {
    if (rand() % 3 == 0) return (size_t)(rand() % 100);
    if (rand() % 2 == 0) return (size_t)(LARGE - 32 + rand() % 64);
    return (size_t)(rand() % MOST);
}

/* Allocates a block or gives it another size, where memory may be refused. Whether it is as it has to be. */
static bool change(struct block *b) {
    size_t size = random_size(), kept = b->at && b->size < size ? b->size : b->at ? size : 0;
    refused = 0;
    refuses = rand() % 4 == 0;
    unsigned char *at = b->at ? heap_realloc(b->at, size) : heap_alloc(size);
    refuses = false;
    if (!at) return refused && (!b->at || holds(b, b->size));
    b->at = at;
    if (!holds(b, kept)) return false;
    b->size = size;
    b->mark = (unsigned char)rand();
    memset(at, b->mark, size);
    return true;
}

/* How many blocks get new pages if one of this size is freed and so many are allocated. */
static unsigned mapped_after_one(size_t size, unsigned count) {
    void *all[BLOCKS];
    heap_free(heap_alloc(size));
    unsigned before = mapped;
    for (unsigned i = 0; i < count; i++) all[i] = heap_alloc(size);
    unsigned after = mapped;
    for (unsigned i = 0; i < count; i++) heap_free(all[i]);
    return after - before;
}

int main(void) {
    static struct block blocks[BLOCKS];
    unsigned others = 0;
    for (unsigned round = 0; round < ROUNDS; round++) {
        struct block *b = &blocks[rand() % BLOCKS];
        if (rand() % 4) {
            others += !change(b);
        } else {
            heap_free(b->at);
            b->at = NULL;
        }
    }
    for (unsigned i = 0; i < BLOCKS; i++) heap_free(blocks[i].at);
    is("blocks that are not as they were", others, 0);
    is("blocks with pages of their own", mapped > ROUNDS / 20, 1);
    is("a block that is freed is the next of its size", mapped_after_one(3 * LARGE + 1, 3), 2);
    is("and so is each of several", mapped_after_one(3 * LARGE + 1, 3), 0);
    is("but no very large one", mapped_after_one(5 * LARGE, 1), 1);
    is("no size is too great to be refused", !heap_alloc(SIZE_MAX) && !heap_alloc(SIZE_MAX - 15) && !heap_alloc(PTRDIFF_MAX), 1);
    void *at = heap_realloc(NULL, 10);
    is("a block anew", at != NULL, 1);
    is("nor to be refused for a block", !heap_realloc(at, SIZE_MAX) && !heap_realloc(at, PTRDIFF_MAX), 1);
    heap_free(at);
    return tally("heap");
}
