/* Compares each field of an answer with what it should be, prints what differs and counts: for the tests in C. */
#ifndef TOGGLEASH_FIELDS_H
#define TOGGLEASH_FIELDS_H

#include <stdio.h>
#include "toggleash.h"

static unsigned compared, differing;

static inline void same(const char *what, uint64_t expected, uint64_t got) {
    compared++;
    if (expected != got) {
        differing++;
        printf("%s: expected %llu, got %llu\n", what, (unsigned long long)expected, (unsigned long long)got);
    }
}

static inline void update(const char *what, toggleash_update u, uint32_t refusal, uint32_t hop, uint32_t cells) {
    same(what, refusal, u.refusal);
    same(what, hop, u.hop);
    same(what, cells, u.cells);
}

static inline void answer(const char *what, toggleash_answer a, uint32_t refusal, uint32_t found, uint32_t hop,
                   uint32_t length, uint32_t block) {
    same(what, refusal, a.refusal);
    same(what, found, a.found);
    same(what, hop, a.hop);
    same(what, length, a.length);
    same(what, block, a.block);
}

static inline void total(const char *what, toggleash_total t, uint32_t refusal, uint32_t prefixes) {
    same(what, refusal, t.refusal);
    same(what, prefixes, t.prefixes);
}

static inline void counts(const char *what, toggleash_counts c, uint32_t refusal, uint32_t routes, uint32_t arrays) {
    same(what, refusal, c.refusal);
    same(what, routes, c.routes);
    same(what, arrays, c.arrays);
}

static inline void written(const char *what, toggleash_written w, uint32_t refusal, uint64_t bytes) {
    same(what, refusal, w.refusal);
    same(what, bytes, w.bytes);
}

static inline void ran(const char *what, toggleash_ran r, uint32_t refusal, uint32_t stop, const uint64_t rest[4]) {
    same(what, refusal, r.refusal);
    same(what, stop, r.stop);
    same(what, rest[0], r.consumed);
    same(what, rest[1], r.written);
    same(what, rest[2], r.accepted);
    same(what, rest[3], r.refused);
}

static inline void match(const char *what, toggleash_match m, uint32_t refusal, uint32_t found, uint32_t hop, uint32_t length) {
    same(what, refusal, m.refusal);
    same(what, found, m.found);
    same(what, hop, m.hop);
    same(what, length, m.length);
}

static inline void needed(const char *what, toggleash_needed d, uint32_t refusal, uint64_t count) {
    same(what, refusal, d.refusal);
    same(what, count, d.words);
}

/* The word of a cell (docs/LAYOUT.md), without a link and with one. */
static inline uint32_t ends(uint32_t length, uint32_t hop, uint32_t block) {
    return hop << 12 | length << 4 | block;
}

static inline uint32_t leads(uint32_t length, uint32_t hop, uint32_t array) {
    return (length + 1) << 28 | hop << 12 | (array - 1);
}

/* Tells how many fields were compared; 1 on any difference. */
static inline int told(void) {
    printf("%u fields compared, %u differ\n", compared, differing);
    return differing != 0;
}

#endif
