/* Checks the layout of the structs in hazbultra.h, which the proved crate and the Rust crate have too. This file is only
 * compiled, as C and as C++. */
#include "hazbultra.h"

#include <assert.h>

#define HAS(type, field, at) static_assert(offsetof(type, field) == (at), #type "." #field)
#define SIZE(type, size) static_assert(sizeof(type) == (size), #type)

SIZE(hz_handle, 16);
HAS(hz_handle, full, 0);
HAS(hz_handle, at, 8);
SIZE(hz_setup, 40);
HAS(hz_setup, producers, 0);
HAS(hz_setup, consumers, 8);
HAS(hz_setup, cells, 16);
HAS(hz_setup, pairs, 24);
HAS(hz_setup, table, 32);
HAS(hz_setup, fast, 36);
HAS(hz_setup, last, 37);
SIZE(hz_lane, 24);
HAS(hz_lane, put, 0);
HAS(hz_lane, left, 8);
HAS(hz_lane, ended, 16);
SIZE(hz_diary, 16);
HAS(hz_diary, notes, 0);
HAS(hz_diary, begun, 8);
SIZE(hz_note, 16);
HAS(hz_note, value, 0);
HAS(hz_note, kind, 8);
SIZE(hz_missing, 8);
HAS(hz_missing, producers, 0);
HAS(hz_missing, consumers, 4);

static_assert(HZ_VERSION_MAJOR * 10000 + HZ_VERSION_MINOR * 100 + HZ_VERSION_PATCH > 0, "the version is of numbers");

/* HZ_BEFORE_PUT and HZ_AFTER_TAKE also take a pointer to what is const. */
void tell_of(const int *item);
void tell_of(const int *item) {
    HZ_BEFORE_PUT(item);
    HZ_AFTER_TAKE(item);
}

/* HZ_NONE may be an initial value, and may be assigned later. */
hz_handle nothing_twice(void);
hz_handle nothing_twice(void) {
    hz_handle two[2] = {HZ_NONE, HZ_NONE};
    two[0] = HZ_NONE;
    return two[0];
}
