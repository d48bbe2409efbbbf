/* Compresses tables from C, or from C++, looks up in them, and compares each field, so that the header and the archive are known
 * to agree; all archives are linked into it. Prints what differs and returns 1 on any difference. */
#include <stdlib.h>
#include <string.h>
#include "toggleash_packed.h"
#include "fields.h"

#define IP(a, b, c, d) ((uint32_t)(a) << 24 | (uint32_t)(b) << 16 | (uint32_t)(c) << 8 | (uint32_t)(d))

enum { ROOM = 2600, UNTOUCHED = 0x5A5A5A5A, HEADER = 1024 };

static uint32_t words[TOGGLEASH_WORDS(7)], lent[ROOM], moved[ROOM];

static void packed(const char *what, toggleash_packed p, uint32_t refusal, uint32_t arrays, uint64_t count) {
    same(what, refusal, p.refusal);
    same(what, arrays, p.arrays);
    same(what, count, p.words);
}

static void hold(toggleash_table table, uint32_t address, uint32_t length, uint32_t hop) {
    same("announce", 0, toggleash_table_announce(table, address, length, hop, 1, 0).refusal);
}

/* An entry: slot, cover, where the array below begins, its mask. */
static void entry(const char *what, size_t at, uint32_t slot, uint32_t cover, uint32_t below, uint32_t mask) {
    same(what, slot, lent[at]);
    same(what, cover, lent[at + 1]);
    same(what, below, lent[at + 2]);
    same(what, mask, lent[at + 3]);
}

static void untouched(const char *what, size_t from, size_t to) {
    while (from < to && lent[from] == UNTOUCHED)
        from++;
    same(what, to, from);
}

/* Makes a compressed table of so many words, and sees that one word fewer is refused and nothing else written. */
static toggleash_packed_table made(const char *what, toggleash_table table, uint32_t arrays, uint64_t count) {
    toggleash_needed need = toggleash_packed_table_need(table);
    toggleash_packed_table all = TOGGLEASH_PACKED_TABLE(lent);
    size_t i;
    for (i = 0; i < ROOM; i++)
        lent[i] = UNTOUCHED;
    needed(what, need, 0, count);
    packed(what, toggleash_packed_build(table.words, table.n, lent, (size_t)count - 1), TOGGLEASH_BUFFER_SHORT, 0, 0);
    untouched(what, 0, ROOM);
    packed(what, toggleash_packed_table_make(all, table), 0, arrays, count);
    untouched(what, 0, HEADER);
    untouched(what, (size_t)count, ROOM);
    return toggleash_packed_table_at(lent, need);
}

/* Lists without a later array: the first alone, which has 256 entries. */
static void first_array(toggleash_table table) {
    toggleash_packed_table none = made("no route", table, 1, TOGGLEASH_PACKED_LEAST_WORDS), some;
    match("no route", toggleash_packed_table_find(none, IP(10, 0, 0, 1)), 0, 0, 0, 0);
    entry("no route", HEADER + 4 * 10, 0, 0, 0, 0);
    hold(table, 0, 0, 9);
    hold(table, IP(10, 0, 0, 0), 8, 1);
    some = made("two routes", table, 1, TOGGLEASH_PACKED_LEAST_WORDS);
    match("/8", toggleash_packed_table_find(some, IP(10, 0, 0, 1)), 0, 1, 1, 8);
    match("default", toggleash_packed_table_find(some, IP(11, 0, 0, 1)), 0, 1, 9, 0);
    entry("/8", HEADER + 4 * 10, 256 + 10, 8u << 16 | 1, 0, 0);
    entry("default", HEADER + 4 * 11, 1, 9, 0, 0);
}

/* The worked example of docs/PACKED.md: a link's entry keeps the shorter route's match, for what matches nothing below. */
static void shorter_over_link(toggleash_table table) {
    static const uint32_t inside[] = {0x0A01E000, 0x0A01EE01, 0x0A01EF05, 0x0A01EF7F, 0x0A01EF80, 0x0A01EFFF, 0x0A01F000};
    toggleash_packed_table short_one;
    size_t i;
    hold(table, IP(10, 1, 224, 0), 20, 4);
    hold(table, IP(10, 1, 239, 128), 25, 9);
    short_one = made("a link below a route", table, 4, HEADER + 4 * (256 + 1 + 16 + 1));
    match("above", toggleash_packed_table_find(short_one, IP(10, 1, 239, 5)), 0, 1, 4, 20);
    match("below", toggleash_packed_table_find(short_one, IP(10, 1, 239, 200)), 0, 1, 9, 25);
    match("beside", toggleash_packed_table_find(short_one, IP(10, 1, 240, 0)), 0, 0, 0, 0);
    entry("the first array", HEADER + 4 * 10, 256 + 10, 0, 2048, 0);
    entry("of one link", 2048, 256 + 1, 0, 2052, 15);
    entry("the route", 2052, 16 + 14, 4u << 16 | 4, 0, 0);
    entry("the link", 2052 + 4 * 15, 256 + 239, 4u << 16 | 4, 2116, 0);
    entry("of one route", 2116, 2 + 1, 1u << 16 | 9, 0, 0);
    for (i = 0; i < sizeof inside / sizeof inside[0]; i++) {
        toggleash_answer expected = toggleash_table_find(table, inside[i]);
        match("as the table", toggleash_packed_table_find(short_one, inside[i]), 0, expected.found, expected.hop,
              expected.length);
    }
}

/* The masks of docs/PACKED.md. */
static void masks(toggleash_table table) {
    hold(table, IP(10, 0, 0, 0), 9, 1);
    hold(table, IP(10, 0, 0, 0), 16, 2);
    made("nested", table, 2, 2560);
    same("nested, mask", 0x7F, lent[HEADER + 4 * 10 + 3]);
    same("clear", 0, toggleash_table_clear(table));
    hold(table, IP(10, 0x60, 0, 0), 12, 1);
    hold(table, IP(10, 0x78, 0, 0), 16, 2);
    hold(table, IP(10, 0xCD, 0, 0), 16, 3);
    made("figure 7", table, 2, HEADER + 4 * (256 + 4));
    same("figure 7, mask", 0x30, lent[HEADER + 4 * 10 + 3]);
    entry("01xxxxxx", 2048 + 4 * 2, 16 + 6, 4u << 16 | 1, 0, 0);
}

/* Carried to other words, with others past them; too few; and words that are none. */
static void carried(toggleash_table table) {
    toggleash_packed_table here = made("carried", table, 2, HEADER + 4 * (256 + 4)), there = TOGGLEASH_PACKED_TABLE(moved);
    memset(moved, 255, sizeof moved);
    memcpy(moved, lent, here.n * sizeof lent[0]);
    match("carried", toggleash_packed_table_find(there, IP(10, 0x78, 1, 1)), 0, 1, 2, 16);
    match("carried, none", toggleash_packed_table_find(there, IP(10, 0x79, 1, 1)), 0, 0, 0, 0);
    match("too few", toggleash_packed_lookup(moved, HEADER + 4 * 10 + 3, IP(10, 0, 0, 0)), TOGGLEASH_NOT_A_TABLE, 0, 0, 0);
    match("just enough", toggleash_packed_lookup(moved, HEADER + 4 * 10 + 4, IP(9, 0, 0, 0)), 0, 0, 0, 0);
    match("null", toggleash_packed_lookup(NULL, 0, 0), TOGGLEASH_NOT_A_TABLE, 0, 0, 0);
    memset(moved, 255, sizeof moved);
    match("none", toggleash_packed_table_find(there, 0), TOGGLEASH_NOT_A_TABLE, 0, 0, 0);
}

static void refused(toggleash_table table) {
    toggleash_packed_table all = TOGGLEASH_PACKED_TABLE(lent);
    toggleash_table odd = table;
    odd.n--;
    made("before", table, 2, HEADER + 4 * (256 + 4));
    memset(moved, 255, sizeof moved);
    memcpy(moved, lent, sizeof moved);
    needed("a wrong size", toggleash_packed_table_need(odd), TOGGLEASH_WORD_COUNT, 0);
    packed("a wrong size", toggleash_packed_table_make(all, odd), TOGGLEASH_WORD_COUNT, 0, 0);
    packed("a wrong size, null", toggleash_packed_build(words, 6145, NULL, 0), TOGGLEASH_WORD_COUNT, 0, 0);
    packed("to null", toggleash_packed_build(table.words, table.n, NULL, 0), TOGGLEASH_BUFFER_SHORT, 0, 0);
    words[0]++;
    needed("no table", toggleash_packed_table_need(table), TOGGLEASH_NOT_A_TABLE, 0);
    packed("no table", toggleash_packed_table_make(all, table), TOGGLEASH_NOT_A_TABLE, 0, 0);
    packed("no table, null", toggleash_packed_build(table.words, table.n, NULL, 0), TOGGLEASH_NOT_A_TABLE, 0, 0);
    same("refused", 0, (uint64_t)abs(memcmp(moved, lent, sizeof moved)));
}

int main(void) {
    toggleash_table table = TOGGLEASH_TABLE(words);
    same("clear", 0, toggleash_table_clear(table));
    first_array(table);
    same("clear", 0, toggleash_table_clear(table));
    shorter_over_link(table);
    same("clear", 0, toggleash_table_clear(table));
    masks(table);
    carried(table);
    refused(table);
    same("version", TOGGLEASH_VERSION, toggleash_packed_version_6());
    same("text", 0, (uint64_t)abs(strcmp(toggleash_packed_text(9), "the words are fewer than the compressed table needs")));
    same("text of 1", 0, (uint64_t)abs(strcmp(toggleash_packed_text(1), toggleash_refusal_text(1))));
    return told();
}
