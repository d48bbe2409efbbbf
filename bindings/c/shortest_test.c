/* Writes shortest lists from C, or from C++, and compares each field, byte and word, so that the header and the archive are known to
 * agree; all archives are linked into it. Prints what differs and returns 1 on any difference. */
#include <stdlib.h>
#include <string.h>
#include "toggleash_shortest.h"
#include "fields.h"

#define IP(a, b, c, d) ((uint32_t)(a) << 24 | (uint32_t)(b) << 16 | (uint32_t)(c) << 8 | (uint32_t)(d))

enum { WORDS = 12288, ROOM = 40, UNTOUCHED = 0x5A, ROOT = 3072, SLOT = 4 };

static uint32_t words[WORDS], before[WORDS], scratch[WORDS + 1], again[WORDS];
static uint8_t buffer[ROOM];

static void hold(toggleash_table table, uint32_t address, uint32_t length, uint32_t hop) {
    same("announce", 0, toggleash_table_announce(table, address, length, hop, 1, 0).refusal);
}

static void lend(void) {
    memcpy(before, words, sizeof words);
    memset(scratch, UNTOUCHED, sizeof scratch);
    memset(buffer, UNTOUCHED, sizeof buffer);
}

/* The table's words are as they were, and so are the buffer's bytes from there on. */
static void kept(const char *what, size_t from) {
    same(what, 0, (uint64_t)abs(memcmp(before, words, sizeof words)));
    while (from < ROOM && buffer[from] == UNTOUCHED)
        from++;
    same(what, ROOM, from);
}

/* Scratch words that are not as they were. */
static size_t used(void) {
    size_t i, count = 0;
    for (i = 0; i <= WORDS; i++)
        count += scratch[i] != 0x5A5A5A5A;
    return count;
}

/* A call with a scratch and a buffer of these lengths that is refused and leaves all but, after 9, the scratch. */
static void refused(const char *what, toggleash_table table, size_t s, size_t room, uint32_t refusal) {
    lend();
    written(what, toggleash_shortest(table.words, table.n, scratch, s, buffer, room), refusal, 0);
    kept(what, 0);
    same(what, refusal == TOGGLEASH_BUFFER_SHORT, used() > 0);
}

/* Writes these bytes, and refuses a buffer of one fewer. The list is run into a cleared table of as many words, whole. */
static void shortest(const char *what, toggleash_table table, const uint8_t *bytes, size_t count) {
    toggleash_table other = TOGGLEASH_TABLE(again);
    uint8_t reply[ROOM];
    uint64_t rest[4];
    refused(what, table, WORDS, count - 1, TOGGLEASH_BUFFER_SHORT);
    lend();
    written(what, toggleash_table_shortest(table, TOGGLEASH_SCRATCH(scratch), buffer, ROOM), 0, count);
    same(what, 0, (uint64_t)abs(memcmp(bytes, buffer, count)));
    kept(what, count);
    same(what, 0x5A5A5A5A, scratch[WORDS]);
    rest[0] = count, rest[1] = 5 * (count / 8), rest[2] = count / 8, rest[3] = 0;
    same(what, 0, toggleash_table_clear(other));
    ran(what, toggleash_table_run(other, buffer, count, reply, sizeof reply), 0, TOGGLEASH_STOP_END, rest);
}

/* Document 02's worked cases of item 12. */
static void cases(toggleash_table table) {
    static const uint8_t one[] = {1, 0, 0, 0, 0, 0, 0, 7, 0};
    static const uint8_t unused[] = {1, 0, 0, 0, 0, 0, 0, 2, 0};
    static const uint8_t pairs[] = {1, 0, 0, 0, 0, 0, 0, 2, 1, 64, 0, 0, 0, 2, 0, 3, 1, 192, 0, 0, 0, 2, 0, 3, 0};
    static const uint8_t quarters[] = {1, 0, 0, 0, 0, 0, 0, 9, 1, 10, 0, 0, 0, 8, 0, 2, 1, 10, 0, 0, 0, 10, 0, 1, 0};
    uint32_t n;
    hold(table, 0, 0, 7);
    shortest("one route", table, one, sizeof one);
    hold(table, 0, 0, 1);
    hold(table, 0, 1, 2);
    hold(table, IP(128, 0, 0, 0), 1, 2);
    shortest("a default that nobody gets", table, unused, sizeof unused);
    same("clear", 0, toggleash_table_clear(table));
    hold(table, 0, 0, 1);
    for (n = 0; n < 4; n++)
        hold(table, IP(64 * n, 0, 0, 0), 2, 2 + n % 2);
    shortest("two pairs", table, pairs, sizeof pairs);
    /* the slots of the first array that a prefix stands in, and the sets: bit h - 1 for hop h */
    same("words used", 511, used());
    same("0.0.0.0/0", 6, scratch[ROOT + SLOT]);
    same("128.0.0.0/1", 6, scratch[ROOT + SLOT * 3]);
    same("64.0.0.0/2", 4, scratch[ROOT + SLOT * 5]);
    same("255.0.0.0/8", 4, scratch[ROOT + SLOT * 511]);
    same("clear", 0, toggleash_table_clear(table));
    hold(table, 0, 0, 9);
    for (n = 0; n < 4; n++)
        hold(table, IP(10, 64 * n, 0, 0), 10, n == 0 ? 1 : 2);
    shortest("three quarters", table, quarters, sizeof quarters);
    same("words used", 511 + 510, used());
}

/* The first that applies. */
static void refusals(toggleash_table table) {
    toggleash_table odd = table;
    odd.n--;
    hold(table, IP(10, 0, 0, 0), 8, 33);
    refused("a short scratch", table, WORDS - 1, 0, TOGGLEASH_WORD_COUNT);
    refused("no default route", table, WORDS, 0, TOGGLEASH_NO_DEFAULT);
    refused("no default route, room", table, WORDS + 1, ROOM, TOGGLEASH_NO_DEFAULT);
    hold(table, 0, 0, 1);
    hold(table, IP(10, 0, 0, 0), 9, 1);
    hold(table, IP(10, 128, 0, 0), 9, 1);
    refused("a high hop that nobody gets", table, WORDS, 0, TOGGLEASH_HIGH_HOP);
    same("announce", 0, toggleash_table_announce(table, IP(10, 0, 0, 0), 8, 32, 2, 0).refusal);
    refused("the high hop of feed 1", table, WORDS, ROOM, TOGGLEASH_HIGH_HOP);
    same("announce", 0, toggleash_table_announce(table, IP(10, 0, 0, 0), 8, 33, 1, 1).refusal);
    refused("a high hop that loses", table, WORDS, 8, TOGGLEASH_BUFFER_SHORT);
    refused("a wrong size", odd, WORDS, ROOM, TOGGLEASH_WORD_COUNT);
    lend();
    written("nothing lent", toggleash_shortest(NULL, 0, NULL, 0, NULL, 0), TOGGLEASH_WORD_COUNT, 0);
    written("no scratch", toggleash_shortest(words, WORDS, NULL, 0, buffer, ROOM), TOGGLEASH_WORD_COUNT, 0);
    written("no buffer", toggleash_shortest(words, WORDS, scratch, WORDS, NULL, 0), TOGGLEASH_BUFFER_SHORT, 0);
    written("scratch for 2 arrays", toggleash_table_shortest(table, toggleash_scratch_at(scratch, 2), buffer, ROOM),
            TOGGLEASH_WORD_COUNT, 0);
    written("scratch for 3 arrays", toggleash_table_shortest(table, toggleash_scratch_at(scratch, 3), buffer, 8),
            TOGGLEASH_BUFFER_SHORT, 0);
    written("scratch in bytes", toggleash_table_shortest(table, toggleash_scratch_at(scratch, sizeof scratch), buffer, ROOM),
            TOGGLEASH_WORD_COUNT, 0);
    words[0]++;
    refused("no table", table, WORDS, 0, TOGGLEASH_NOT_A_TABLE);
    refused("no table, a short scratch", table, WORDS - 1, 0, TOGGLEASH_WORD_COUNT);
}

int main(void) {
    toggleash_table table = TOGGLEASH_TABLE(words);
    same("clear", 0, toggleash_table_clear(table));
    cases(table);
    same("clear", 0, toggleash_table_clear(table));
    refusals(table);
    same("bytes", 25, TOGGLEASH_SHORTEST_BYTES(3));
    same("version", TOGGLEASH_VERSION, toggleash_shortest_version_6());
    same("text", 0, (uint64_t)abs(strcmp(toggleash_shortest_text(23), "the table has no default route")));
    same("text of 2", 0, (uint64_t)abs(strcmp(toggleash_shortest_text(2), toggleash_refusal_text(2))));
    return told();
}
