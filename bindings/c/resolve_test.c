/* Resolves from C, or from C++, and compares each field, so that the header and the archive are known to agree; all archives
 * are linked into it. Prints what differs and returns 1 on any difference. */
#include <string.h>
#include "fields.h"
#include "toggleash_resolve.h"

#define IP(a, b, c, d) ((uint32_t)(a) << 24 | (uint32_t)(b) << 16 | (uint32_t)(c) << 8 | (uint32_t)(d))

static uint32_t words[TOGGLEASH_WORDS(7)];
static toggleash_hop many[TOGGLEASH_MOST_ENTRIES + 1];

static void route(const char *what, toggleash_route r, uint32_t refusal, uint32_t interface, uint32_t has_gateway,
                  uint32_t gateway) {
    same(what, refusal, r.refusal);
    same(what, interface, r.interface);
    same(what, has_gateway, r.has_gateway);
    same(what, gateway, r.gateway);
}

static void hold(toggleash_table table, uint32_t address, uint32_t length, uint32_t hop) {
    same("announce", 0, toggleash_table_announce(table, address, length, hop, 1, 0).refusal);
}

/* The worked cases of docs/EDITS.md: none to three gateways, a loop, no entry. */
static void gateways(toggleash_table table) {
    static const toggleash_hop five[] = {
        {1, 0}, {0, IP(192, 0, 2, 9)}, {0, IP(10, 9, 9, 9)}, {64, IP(10, 1, 0, 1)}, {0, IP(10, 1, 0, 1)}};
    static const toggleash_hop around[] = {{1, 0}, {0, IP(10, 0, 0, 1)}};
    hold(table, 0, 0, 1);
    hold(table, IP(10, 0, 0, 0), 8, 2);
    hold(table, IP(10, 1, 0, 0), 16, 3);
    hold(table, IP(192, 0, 2, 0), 24, 4);
    hold(table, IP(192, 0, 2, 1), 32, 5);
    hold(table, IP(203, 0, 113, 0), 24, 300);
    route("no gateway", toggleash_table_resolve(table, five, 5, IP(8, 8, 8, 8)), 0, 1, 0, 0);
    route("the gateway ignored", toggleash_table_resolve(table, five, 5, IP(192, 0, 2, 200)), 0, 64, 0, 0);
    route("one gateway", toggleash_table_resolve(table, five, 5, IP(10, 9, 9, 9)), 0, 64, 1, IP(192, 0, 2, 9));
    route("two gateways", toggleash_table_resolve(table, five, 5, IP(10, 1, 2, 3)), 0, 64, 1, IP(192, 0, 2, 9));
    route("three gateways", toggleash_table_resolve(table, five, 5, IP(192, 0, 2, 1)), 0, 64, 1, IP(192, 0, 2, 9));
    route("a loop", toggleash_table_resolve(table, around, 2, IP(10, 0, 0, 1)), TOGGLEASH_NO_INTERFACE, 0, 0, 0);
    route("hop 300", toggleash_table_resolve(table, five, 5, IP(203, 0, 113, 1)), TOGGLEASH_NO_ENTRY, 0, 0, 0);
}

/* A chain of four gateways whose last entry is given, and numbers of entries. */
static void chains(toggleash_table table) {
    toggleash_hop chain[] = {{0, IP(2, 0, 0, 0)}, {0, IP(3, 0, 0, 0)}, {0, IP(4, 0, 0, 0)}, {0, IP(5, 0, 0, 0)}, {65, 0}};
    uint32_t n;
    for (n = 1; n <= 5; n++)
        hold(table, IP(n, 0, 0, 0), 8, n);
    route("65", toggleash_table_resolve(table, chain, 5, IP(5, 0, 0, 0)), TOGGLEASH_NO_ENTRY, 0, 0, 0);
    route("65 at the fourth", toggleash_table_resolve(table, chain, 5, IP(2, 0, 0, 0)), TOGGLEASH_NO_ENTRY, 0, 0, 0);
    route("65 not met", toggleash_table_resolve(table, chain, 5, IP(1, 0, 0, 0)), TOGGLEASH_NO_INTERFACE, 0, 0, 0);
    chain[4].interface = 64;
    route("64", toggleash_table_resolve(table, chain, 5, IP(5, 0, 0, 0)), 0, 64, 0, 0);
    route("64 at the fourth", toggleash_table_resolve(table, chain, 5, IP(2, 0, 0, 0)), 0, 64, 1, IP(5, 0, 0, 0));
    for (n = 0; n <= TOGGLEASH_MOST_ENTRIES; n++)
        many[n].interface = 1;
    route("256 entries", toggleash_table_resolve(table, many, 256, IP(1, 0, 0, 0)), 0, 1, 0, 0);
    route("257 entries", toggleash_table_resolve(table, many, 257, IP(1, 0, 0, 0)), TOGGLEASH_NO_ENTRY, 0, 0, 0);
    route("257, no route", toggleash_table_resolve(table, many, 257, IP(9, 9, 9, 9)), TOGGLEASH_NO_ENTRY, 0, 0, 0);
    route("no route", toggleash_table_resolve(table, many, 256, IP(9, 9, 9, 9)), TOGGLEASH_NO_ROUTE, 0, 0, 0);
    route("no entry", toggleash_table_resolve(table, NULL, 0, IP(1, 0, 0, 0)), TOGGLEASH_NO_ENTRY, 0, 0, 0);
    route("a wrong size", toggleash_resolve(words, 6145, many, 257, 0), TOGGLEASH_WORD_COUNT, 0, 0, 0);
}

int main(void) {
    toggleash_table table = TOGGLEASH_TABLE(words);
    same("clear", 0, toggleash_table_clear(table));
    gateways(table);
    same("clear", 0, toggleash_table_clear(table));
    chains(table);
    memset(words, 255, sizeof words);
    route("no table", toggleash_table_resolve(table, many, 256, 0), TOGGLEASH_NOT_A_TABLE, 0, 0, 0);
    route("no table, 257", toggleash_table_resolve(table, many, 257, 0), TOGGLEASH_NO_ENTRY, 0, 0, 0);
    same("version", TOGGLEASH_VERSION, toggleash_resolve_version_6());
    same("text", 0, (uint32_t)strcmp(toggleash_resolve_text(22), "no interface after four lookups"));
    same("text of 1", 0, (uint32_t)strcmp(toggleash_resolve_text(1), toggleash_refusal_text(1)));
    return told();
}
