/* For tests: what has to be so, and a heap in place of heap.c that counts its blocks and refuses a chosen allocation. */
#include <stdbool.h>
#include <stddef.h>
#include <stdio.h>
#include <stdlib.h>

#define EXPECT(so) ((so) ? (void)0 : fail(__FILE__, __LINE__, #so))

static void fail(const char *file, int line, const char *what) {
    fprintf(stderr, "%s:%d: not so: %s\n", file, line, what);
    exit(1);
}

struct tried {
    bool there;
    void *at;
};

struct tried rattle_alloc(size_t size, size_t align);
struct tried rattle_realloc(void *at, size_t kept, size_t size, size_t align);
void rattle_dealloc(void *at);

static long blocks;         /* how many blocks are allocated now */
static long granted = -1;   /* how many allocations succeed before one is refused; if below 0, none is */
static char nothing;

static bool is_refused(void) {
    return granted >= 0 && granted-- == 0;
}

struct tried rattle_alloc(size_t size, size_t align) {
    if (is_refused())
        return (struct tried){false, &nothing};
    blocks++;
    void *at = malloc(size ? size : align);
    EXPECT(at);
    return (struct tried){true, at};
}

struct tried rattle_realloc(void *at, size_t kept, size_t size, size_t align) {
    (void)kept;
    if (is_refused())
        return (struct tried){false, &nothing};
    void *moved = realloc(at, size ? size : align);
    EXPECT(moved);
    return (struct tried){true, moved};
}

void rattle_dealloc(void *at) {
    blocks--;
    free(at);
}
