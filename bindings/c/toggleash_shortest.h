/* The shortest list that forwards as an IPv4 table does, for a line card whose memory is small. A library above
 * toggleash.h: link with libtoggleash_shortest.a and libtoggleash.a. C11 or C++11 and later.
 *
 *     static uint32_t lent[TOGGLEASH_WORDS(7)];
 *     static uint8_t list[TOGGLEASH_SHORTEST_BYTES(1000)];
 *     toggleash_written written = toggleash_table_shortest(table, TOGGLEASH_SCRATCH(lent), list, sizeof list);
 *
 * The list. It gives every address the hop that the table gives it, and no list of fewer routes does. Its routes need not be
 * routes of the table, and the length that a lookup finds by it may be another. Of several shortest lists it is always the
 * same one: docs/SHORTEST.md says which. It is written as records of kind 1 and an end, in the order of writing out: a copy
 * is made from it (toggleash_copy_make), and a cleared table of as many arrays takes it as a feed, whole.
 *
 * The table. It must hold a default route, 0.0.0.0/0, and the winning hop of each of its prefixes must be from 1 to 32. It is
 * tested and not changed.
 *
 * The scratch. At least as many words as the table has, whatever they hold; more are fine. It is written to where the call
 * succeeds and where it refuses with 9, and what it holds then has no use to a caller (docs/SHORTEST.md).
 *
 * What toggleash.h says of pointers holds for all three parts lent; they must not overlap. */
#ifndef TOGGLEASH_SHORTEST_H
#define TOGGLEASH_SHORTEST_H

#include "toggleash.h"

#if TOGGLEASH_VERSION != 6
#error "toggleash.h is of another version than toggleash_shortest.h"
#endif

#ifdef __cplusplus
extern "C" {
#endif

/* Refusals beside 1, also for a scratch of fewer words than the table's, 2, and 9, a buffer under
 * TOGGLEASH_SHORTEST_BYTES(m) bytes for the m routes of the shortest list. Where several apply, the first in this order is
 * given: 1, 2, 23, 24, 9. */
enum {
    TOGGLEASH_NO_DEFAULT = 23, /* the table has no candidate for 0.0.0.0/0 */
    TOGGLEASH_HIGH_HOP = 24    /* the winning hop of a prefix that the table holds is over 32, whether an address gets it or not */
};

/* Limits. */
enum {
    TOGGLEASH_SHORTEST_MOST_HOP = 32
};

/* The bytes of a shortest list of so many routes, of which it never has more than the table has prefixes. */
#define TOGGLEASH_SHORTEST_BYTES(routes) ((size_t)8 * (size_t)(routes) + 1)

/* The archive's version, kept as that of toggleash.h is: it rises with it. */
uint32_t toggleash_shortest_version_6(void); /* returns 6 */

#if defined(__GNUC__) && !defined(TOGGLEASH_ARCHIVE)
#pragma GCC diagnostic push
#pragma GCC diagnostic ignored "-Wattributes"
static uint32_t (*const toggleash_shortest_version_linked_)(void) TOGGLEASH_KEPT_ = toggleash_shortest_version_6;
#pragma GCC diagnostic pop
#endif

/* The call of the archive, with words as pointers and their numbers. Writes the shortest list to the front of the buffer; the
 * rest of it stays, and all of it on a refusal. The scratch stays on each refusal but 9. */
TOGGLEASH_ANSWER toggleash_written toggleash_shortest(const uint32_t *words, size_t n, uint32_t *scratch, size_t s,
                                                      uint8_t *buffer, size_t room);

/* Words that are lent as a scratch, and their number. Neither a table nor a copy can be handed in for one. */
typedef struct {
    uint32_t *words;
    size_t n;
} toggleash_scratch;

/* TOGGLEASH_SCRATCH(array) makes one of an array of uint32_t; anything else does not compile. */
#ifdef __cplusplus
extern "C++" {
template <size_t n> constexpr toggleash_scratch toggleash_scratch_of_(uint32_t (&words)[n]) {
    return toggleash_scratch{words, n};
}
}
#define TOGGLEASH_SCRATCH(array) (toggleash_scratch_of_(array))
#else
#define TOGGLEASH_SCRATCH(array) ((toggleash_scratch){(array), TOGGLEASH_ARRAY_(array, 1)})
#endif

/* One in lent memory of TOGGLEASH_WORDS(arrays) words: for a table of as many arrays, or fewer. */
static inline toggleash_scratch toggleash_scratch_at(uint32_t *words, uint32_t arrays) {
    toggleash_scratch scratch;
    scratch.words = words;
    scratch.n = toggleash_table_at(words, arrays).n;
    return scratch;
}

/* The same call on a table. */
TOGGLEASH_ANSWER static inline toggleash_written toggleash_table_shortest(toggleash_table table, toggleash_scratch scratch,
                                                                          uint8_t *buffer, size_t room) {
    return toggleash_shortest(table.words, table.n, scratch.words, scratch.n, buffer, room);
}

/* What a refusal says, for a log. Never null. */
static inline const char *toggleash_shortest_text(uint32_t refusal) {
    switch (refusal) {
    case TOGGLEASH_WORD_COUNT: return "no table has so many words, or the scratch has fewer";
    case TOGGLEASH_NO_DEFAULT: return "the table has no default route";
    case TOGGLEASH_HIGH_HOP: return "a winning hop is over 32";
    default: return toggleash_refusal_text(refusal);
    }
}

#ifdef __cplusplus
}
#endif

#endif
