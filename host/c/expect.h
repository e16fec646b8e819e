/*
 * Looks at members of structs: where they are, when this is compiled, and what they hold, when it runs.
 */
#ifndef EXPECT_H
#define EXPECT_H

#include <inttypes.h>
#include <stddef.h>
#include <stdint.h>
#include <stdio.h>

/* Offsets and sizes as the header's reader expects them; host/madsjirn asserts the same of its declarations. */
#define ASSERT_MEMBER(type, member, offset, size)                                                                    \
    _Static_assert(offsetof(type, member) == (offset), "offset of " #member " in " #type);                           \
    _Static_assert(sizeof(((type *)0)->member) == (size), "size of " #member " in " #type)

static unsigned looked_at = 0;
static unsigned wrong = 0;

static void expect(const char *call, const char *member, uint64_t found, uint64_t due) {
    looked_at += 1;
    if (found != due) {
        wrong += 1;
        printf("  WRONG %s: %s is %" PRIu64 " (%08" PRIx64 " hex) and not %" PRIu64 " (%08" PRIx64 " hex)\n", call,
               member, found, found, due, due);
    }
}

#define EXPECT(call, answer, member, due) expect(call, #member, (answer).member, due)

/* Says how many members were wrong, and gives the program's exit status. */
static int looked_at_all(void) {
    printf("%u members looked at, %u wrong\n", looked_at, wrong);
    return wrong == 0 ? 0 : 1;
}

#endif
