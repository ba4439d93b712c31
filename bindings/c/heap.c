/* What a program needs beside libhazbultra.a: the three functions by which it asks for memory, made of malloc, realloc and
 * free, and hz_next_id, which numbers mailboxes.
 *
 * Link this file, or functions of your own with the same names. Of the three for memory replace all or none. All are weak:
 * others with these names take their place, as those of a Rust library with the crate `hazbultra` do. A block of size 0 has
 * an address of its own, too, so that no two blocks share one. If memory is refused, `there` is false. Then `at` is not
 * null, and the library does not use it.
 */
#include <stdatomic.h>
#include <stdbool.h>
#include <stddef.h>
#include <stdint.h>
#include <stdlib.h>

#define WEAK __attribute__((weak))

struct tried {
    bool there;
    void *at;
};

struct tried rattle_alloc(size_t size, size_t align);
struct tried rattle_realloc(void *at, size_t kept, size_t size, size_t align);
void rattle_dealloc(void *at);
uint64_t hz_next_id(void);

static char nothing;

static struct tried tried(void *at) {
    return at ? (struct tried){true, at} : (struct tried){false, &nothing};
}

/* Returns a block of `size` bytes. The library asks for an alignment of 16 at most, and malloc aligns to 16. */
WEAK struct tried rattle_alloc(size_t size, size_t align) {
    return tried(malloc(size ? size : align));
}

/* Makes the block at `at` one of `size` bytes. It may move. If memory is refused, the block is as it was. */
WEAK struct tried rattle_realloc(void *at, size_t kept, size_t size, size_t align) {
    (void)kept;
    return tried(realloc(at, size ? size : align));
}

WEAK void rattle_dealloc(void *at) {
    free(at);
}

/* The number of the next mailbox. The Rust crate counts from 0. So a program with both gives no number twice. The order is
 * relaxed: no two of these steps return one number, in any order, and the number orders nothing else. */
static _Atomic uint64_t next_id = UINT64_C(1) << 63;

WEAK uint64_t hz_next_id(void) {
    return atomic_fetch_add_explicit(&next_id, 1, memory_order_relaxed);
}
