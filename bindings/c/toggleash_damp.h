/* A front before an IPv4 table, which calms routes that come and go: a candidate that was withdrawn too often is held back for a
 * while. A library above toggleash.h: link with libtoggleash_damp.a and libtoggleash.a. C11 or C++11 and later.
 *
 *     static uint32_t words[TOGGLEASH_WORDS(7)], held[TOGGLEASH_FRONT_WORDS];
 *     toggleash_table table = TOGGLEASH_TABLE(words);
 *     toggleash_damper damper = TOGGLEASH_FRONT(held);
 *     toggleash_table_clear(table);
 *     toggleash_damper_clear(damper);
 *     toggleash_damper_announce(damper, table, 0x0A000000, 8, 5, 1, 0);
 *     toggleash_damper_withdraw(damper, table, 0x0A000000, 8, 1);
 *     toggleash_damper_tick(damper, table);         say every ten minutes
 *
 * Penalties. The front has a place for each of at most 256 candidates, a candidate being a prefix and a feed; while all are
 * taken, others pass as without a front. An accepted withdrawal adds 1,000 to the candidate's penalty, up to 12,000. Over 3,000
 * the candidate is held back: its announcement is accepted with 0 cells and kept, a later one replaces it, a withdrawal of what is
 * kept is accepted with 0 cells, and with nothing kept it is refused with 7. A tick halves each penalty. What is kept below 750 is
 * then announced to the table if it has room, in the order of writing out, and tried again at each later tick if not; who is below
 * 750 with nothing kept is held back no longer; a place with penalty 0 and nothing kept is free again.
 *
 * Words. A front is 1,024 words of its own beside the table's. Updates that are to be calmed go through both; lookups, checks and
 * lists are of the table alone, which the front's calls change only as announcements and withdrawals do. Each call tests both runs
 * of words, and refuses with 2 where one is not what it should be; a refused call has changed neither. What toggleash.h says of
 * pointers and threads holds for the front too; the two must not overlap.
 *
 * Tests. Testing a whole table takes milliseconds. The calls that end in _local test the front's words, and of the table's only
 * what they touch themselves; before a table they answer and leave the same words. Check both once where the words come from
 * elsewhere, and use the local calls from then on: every call here, and in toggleash.h, leaves a front a front and a table a
 * table. On any other words they stay inside them too, and a refused one has changed neither. */
#ifndef TOGGLEASH_DAMP_H
#define TOGGLEASH_DAMP_H

#include "toggleash.h"

#if TOGGLEASH_VERSION != 6
#error "toggleash.h is of another version than toggleash_damp.h"
#endif

#ifdef __cplusplus
extern "C" {
#endif

/* Limits. */
enum {
    TOGGLEASH_FRONT_WORDS = 1024,
    TOGGLEASH_MOST_PLACES = 256,
    TOGGLEASH_MOST_PENALTY = 12000
};

/* The kind of a tick in a feed, without a body. Its reply is kind 16 with hop 0 and cells 0, and counts as no update. */
enum { TOGGLEASH_KIND_TICK = 9 };

/* What the check and a tick count. Where the call refused, all fields but the first are 0. */
typedef struct {
    uint32_t refusal;   /* 0 or 2; of a tick also 1 */
    uint32_t places;    /* places taken */
    uint32_t held_back; /* candidates held back, with something kept or not */
} toggleash_front;

/* The archive's version, kept as that of toggleash.h is: it rises with it. */
uint32_t toggleash_damp_version_6(void); /* returns 6 */

#if defined(__GNUC__) && !defined(TOGGLEASH_ARCHIVE)
#pragma GCC diagnostic push
#pragma GCC diagnostic ignored "-Wattributes"
static uint32_t (*const toggleash_damp_version_linked_)(void) TOGGLEASH_KEPT_ = toggleash_damp_version_6;
#pragma GCC diagnostic pop
#endif

/* ---- The calls of the archive, with words as pointers and their numbers: the front's first */

/* Makes the m words a front without a place, whatever they hold. Returns 0, or 2 where m is not 1,024. */
TOGGLEASH_ANSWER uint32_t toggleash_damp_clear(uint32_t *front, size_t m);

/* Counts what a front holds. Refuses with 2 where the words are not a front (docs/LAYOUT.md), by number or content. */
TOGGLEASH_ANSWER toggleash_front toggleash_damp_check(const uint32_t *front, size_t m);

/* Announces and withdraws a candidate through the front. Refuses as toggleash_announce and toggleash_withdraw do, where 2 also
 * means that the m words are not a front: the first of 1, 3, 4, 5, 10, 2, 7, 8 that applies. */
TOGGLEASH_ANSWER toggleash_update toggleash_damp_announce(uint32_t *front, size_t m, uint32_t *words, size_t n,
                                                          uint32_t address, uint32_t length, uint32_t hop, uint32_t feed,
                                                          uint8_t preference);
TOGGLEASH_ANSWER toggleash_update toggleash_damp_withdraw(uint32_t *front, size_t m, uint32_t *words, size_t n,
                                                          uint32_t address, uint32_t length, uint32_t feed);

/* A tick. Counts as the check does after it. Refuses with 1, or with 2. It may install routes and tells none of them: after it a card
 * drops the blocks that it remembers, and reloads its cells. */
TOGGLEASH_ANSWER toggleash_front toggleash_damp_tick(uint32_t *front, size_t m, uint32_t *words, size_t n);

/* Runs an IPv4 feed through the front, as toggleash_run does without one, with ticks. Refuses with 1, or with 2. */
TOGGLEASH_ANSWER toggleash_ran toggleash_damp_run(uint32_t *front, size_t m, uint32_t *words, size_t n, const uint8_t *feed,
                                                  size_t feed_len, uint8_t *reply, size_t reply_len);

/* The same, testing the front's words, and of the table's only what they touch. Of a candidate that is held back the table's words
 * are not even read. Refuses with the first of 1, 3, 4, 5, 10, then 2 for words that are no front, then 2, 7 or 8 as
 * toggleash_announce_local and toggleash_withdraw_local do. At a tick a refused announcement, by 2 too, is kept and tried again. */
TOGGLEASH_ANSWER toggleash_update toggleash_damp_announce_local(uint32_t *front, size_t m, uint32_t *words, size_t n,
                                                                uint32_t address, uint32_t length, uint32_t hop,
                                                                uint32_t feed, uint8_t preference);
TOGGLEASH_ANSWER toggleash_update toggleash_damp_withdraw_local(uint32_t *front, size_t m, uint32_t *words, size_t n,
                                                                uint32_t address, uint32_t length, uint32_t feed);
TOGGLEASH_ANSWER toggleash_front toggleash_damp_tick_local(uint32_t *front, size_t m, uint32_t *words, size_t n);
TOGGLEASH_ANSWER toggleash_ran toggleash_damp_run_local(uint32_t *front, size_t m, uint32_t *words, size_t n,
                                                        const uint8_t *feed, size_t feed_len, uint8_t *reply,
                                                        size_t reply_len);

/* ---- Fronts */

/* Words that are a front, or are to become one by toggleash_damper_clear, and their number. Neither a table nor a copy can be
 * handed in for one. */
typedef struct {
    uint32_t *words;
    size_t n;
} toggleash_damper;

/* TOGGLEASH_FRONT(array) makes one of an array of 1,024 uint32_t; anything else does not compile. */
#ifdef __cplusplus
extern "C++" {
template <size_t n> constexpr toggleash_damper toggleash_damper_of_(uint32_t (&words)[n]) {
    static_assert(n == TOGGLEASH_FRONT_WORDS, "a front has TOGGLEASH_FRONT_WORDS words");
    return toggleash_damper{words, n};
}
}
#define TOGGLEASH_FRONT(array) (toggleash_damper_of_(array))
#else
#define TOGGLEASH_FRONT(array)                                                                                           \
    ((toggleash_damper){(array), TOGGLEASH_ARRAY_(array, TOGGLEASH_LENGTH_(array) == TOGGLEASH_FRONT_WORDS)})
#endif

/* One in lent memory of TOGGLEASH_FRONT_WORDS words. */
static inline toggleash_damper toggleash_damper_at(uint32_t *words) {
    toggleash_damper damper;
    damper.words = words;
    damper.n = TOGGLEASH_FRONT_WORDS;
    return damper;
}

/* The calls on them: as those of the archive. */
TOGGLEASH_ANSWER static inline uint32_t toggleash_damper_clear(toggleash_damper damper) {
    return toggleash_damp_clear(damper.words, damper.n);
}

TOGGLEASH_ANSWER static inline toggleash_front toggleash_damper_check(toggleash_damper damper) {
    return toggleash_damp_check(damper.words, damper.n);
}

TOGGLEASH_ANSWER static inline toggleash_update toggleash_damper_announce(toggleash_damper damper, toggleash_table table,
                                                                          uint32_t address, uint32_t length, uint32_t hop,
                                                                          uint32_t feed, uint8_t preference) {
    return toggleash_damp_announce(damper.words, damper.n, table.words, table.n, address, length, hop, feed,
                                   preference);
}

TOGGLEASH_ANSWER static inline toggleash_update toggleash_damper_withdraw(toggleash_damper damper, toggleash_table table,
                                                                          uint32_t address, uint32_t length,
                                                                          uint32_t feed) {
    return toggleash_damp_withdraw(damper.words, damper.n, table.words, table.n, address, length, feed);
}

TOGGLEASH_ANSWER static inline toggleash_front toggleash_damper_tick(toggleash_damper damper, toggleash_table table) {
    return toggleash_damp_tick(damper.words, damper.n, table.words, table.n);
}

TOGGLEASH_ANSWER static inline toggleash_ran toggleash_damper_run(toggleash_damper damper, toggleash_table table,
                                                                  const uint8_t *feed, size_t feed_len, uint8_t *reply,
                                                                  size_t reply_len) {
    return toggleash_damp_run(damper.words, damper.n, table.words, table.n, feed, feed_len, reply, reply_len);
}

TOGGLEASH_ANSWER static inline toggleash_update toggleash_damper_announce_local(toggleash_damper damper,
                                                                                toggleash_table table, uint32_t address,
                                                                                uint32_t length, uint32_t hop,
                                                                                uint32_t feed, uint8_t preference) {
    return toggleash_damp_announce_local(damper.words, damper.n, table.words, table.n, address, length, hop, feed,
                                         preference);
}

TOGGLEASH_ANSWER static inline toggleash_update toggleash_damper_withdraw_local(toggleash_damper damper,
                                                                                toggleash_table table, uint32_t address,
                                                                                uint32_t length, uint32_t feed) {
    return toggleash_damp_withdraw_local(damper.words, damper.n, table.words, table.n, address, length, feed);
}

TOGGLEASH_ANSWER static inline toggleash_front toggleash_damper_tick_local(toggleash_damper damper,
                                                                           toggleash_table table) {
    return toggleash_damp_tick_local(damper.words, damper.n, table.words, table.n);
}

TOGGLEASH_ANSWER static inline toggleash_ran toggleash_damper_run_local(toggleash_damper damper, toggleash_table table,
                                                                        const uint8_t *feed, size_t feed_len,
                                                                        uint8_t *reply, size_t reply_len) {
    return toggleash_damp_run_local(damper.words, damper.n, table.words, table.n, feed, feed_len, reply, reply_len);
}

/* What a refusal says, for a log. Never null. */
static inline const char *toggleash_damp_text(uint32_t refusal) {
    switch (refusal) {
    case TOGGLEASH_NOT_A_TABLE: return "the words are not a table, or those of the front not a front";
    default: return toggleash_refusal_text(refusal);
    }
}

#ifdef __cplusplus
}
#endif

#endif
