/* Compressed tables: the lookups of an IPv4 table in fewer words, for a card that only looks up. A library above
 * toggleash.h: link with libtoggleash_packed.a and libtoggleash.a. C11 or C++11 and later.
 *
 *     toggleash_needed need = toggleash_packed_table_need(table);
 *     toggleash_packed_table packed = toggleash_packed_table_at(malloc(need.words * sizeof(uint32_t)), need);
 *     toggleash_packed made = toggleash_packed_table_make(packed, table);
 *     toggleash_match match = toggleash_packed_table_find(packed, 0x0A010509);
 *
 * Words. A compressed table is made from a table once and is then only read. It answers every address as the table did
 * then, hop and length, but tells no block; later updates of the table do not reach it. Each array of the table has as
 * many entries in it as its prefixes need to be told apart, 1 to 256, in place of 256: docs/PACKED.md says how. The words
 * are in the machine's byte order and may be copied to anywhere: only their first `need.words` matter.
 *
 * Like toggleash_lookup a lookup does not test the words and changes nothing: it may go on beside others. What toggleash.h
 * says of pointers holds for both runs of words; the two must not overlap. */
#ifndef TOGGLEASH_PACKED_H
#define TOGGLEASH_PACKED_H

#include "toggleash.h"

#if TOGGLEASH_VERSION != 6
#error "toggleash.h is of another version than toggleash_packed.h"
#endif

#ifdef __cplusplus
extern "C" {
#endif

/* Limits. */
enum {
    TOGGLEASH_PACKED_LEAST_WORDS = 2048,   /* of a table without a route over 8 bits */
    TOGGLEASH_PACKED_MOST_WORDS = 4195328  /* of 4,096 arrays that each need 256 entries */
};

/* What making a compressed table counts. Where the call refused, all fields but the first are 0. */
typedef struct {
    uint32_t refusal; /* 0, 1, 2 or 9 */
    uint32_t arrays;  /* its arrays, the first one included: as many as the check of the table counts */
    uint64_t words;   /* its words, as toggleash_packed_need tells */
} toggleash_packed;

/* The archive's version, kept as that of toggleash.h is: it rises with it. */
uint32_t toggleash_packed_version_6(void); /* returns 6 */

#if defined(__GNUC__) && !defined(TOGGLEASH_ARCHIVE)
#pragma GCC diagnostic push
#pragma GCC diagnostic ignored "-Wattributes"
static uint32_t (*const toggleash_packed_version_linked_)(void) TOGGLEASH_KEPT_ = toggleash_packed_version_6;
#pragma GCC diagnostic pop
#endif

/* ---- The calls of the archive, with words as pointers and their numbers */

/* Counts the words that a table needs compressed: 1,024 and 4 for each entry, 256 of the first array. Refuses with 1, or with
 * 2 where the words are not a table. */
TOGGLEASH_ANSWER toggleash_needed toggleash_packed_need(const uint32_t *words, size_t n);

/* Makes the m words a compressed table of the table in the n words, whatever they hold. Their first 1,024 stay, which have no
 * use yet, and those past the need. Refuses with 1 or 2 as toggleash_packed_need does, then with 9 where m is less than the
 * need; a refused build has changed no word. */
TOGGLEASH_ANSWER toggleash_packed toggleash_packed_build(const uint32_t *words, size_t n, uint32_t *packed, size_t m);

/* Finds the longest match in a compressed table. m may be any number from the need on, whatever stands in the words past it.
 * Does not test the words: on others it reads inside them and gives what its walk gives (docs/PACKED.md), or 2 where that
 * meets a number outside its range, or ends outside the words. With fewer than 1,028 words, null and 0 too, it always gives 2. */
TOGGLEASH_ANSWER toggleash_match toggleash_packed_lookup(const uint32_t *packed, size_t m, uint32_t address);

/* ---- Compressed tables */

/* Words that are a compressed table, or are to become one by toggleash_packed_table_make, and their number. Neither a table
 * nor a copy can be handed in for one. */
typedef struct {
    uint32_t *words;
    size_t n;
} toggleash_packed_table;

/* TOGGLEASH_PACKED_TABLE(array) makes one of an array of uint32_t; anything else does not compile. */
#ifdef __cplusplus
extern "C++" {
template <size_t n> constexpr toggleash_packed_table toggleash_packed_table_of_(uint32_t (&words)[n]) {
    return toggleash_packed_table{words, n};
}
}
#define TOGGLEASH_PACKED_TABLE(array) (toggleash_packed_table_of_(array))
#else
#define TOGGLEASH_PACKED_TABLE(array) ((toggleash_packed_table){(array), TOGGLEASH_ARRAY_(array, 1)})
#endif

/* One in lent memory of as many words as the need told. */
static inline toggleash_packed_table toggleash_packed_table_at(uint32_t *words, toggleash_needed need) {
    toggleash_packed_table packed;
    packed.words = words;
    packed.n = (size_t)need.words;
    return packed;
}

/* The calls on them: as those of the archive. `find` is its lookup, `make` its build. */
TOGGLEASH_ANSWER static inline toggleash_needed toggleash_packed_table_need(toggleash_table table) {
    return toggleash_packed_need(table.words, table.n);
}

TOGGLEASH_ANSWER static inline toggleash_packed toggleash_packed_table_make(toggleash_packed_table packed,
                                                                            toggleash_table table) {
    return toggleash_packed_build(table.words, table.n, packed.words, packed.n);
}

TOGGLEASH_ANSWER static inline toggleash_match toggleash_packed_table_find(toggleash_packed_table packed,
                                                                           uint32_t address) {
    return toggleash_packed_lookup(packed.words, packed.n, address);
}

/* What a refusal says, for a log. Never null. */
static inline const char *toggleash_packed_text(uint32_t refusal) {
    switch (refusal) {
    case TOGGLEASH_NOT_A_TABLE: return "the words are not a table, or not a compressed one";
    case TOGGLEASH_BUFFER_SHORT: return "the words are fewer than the compressed table needs";
    default: return toggleash_refusal_text(refusal);
    }
}

#ifdef __cplusplus
}
#endif

#endif
