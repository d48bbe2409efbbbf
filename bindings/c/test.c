/* Calls every function of an IPv4 table and of a copy from C, or from C++, and compares each field, so that the header and the
 * archive are known to agree. Prints what differs and returns 1 on any difference. v6_test.c does it for IPv6. */
#include <stdlib.h>
#include <string.h>
#include "fields.h"

#define ROOM TOGGLEASH_WORDS(4)

static uint32_t words[ROOM];

static void built(const char *what, toggleash_built b, uint32_t refusal, uint64_t routes, uint64_t markers) {
    same(what, refusal, b.refusal);
    same(what, routes, b.routes);
    same(what, markers, b.markers);
}

static void updates(void) {
    same("clear", 0, toggleash_clear(words, ROOM));
    update("announce", toggleash_announce(words, ROOM, 0x0A010180, 25, 65535, 1, 0), 0, 65535, 128);
    update("announce held", toggleash_announce(words, ROOM, 0x0A010180, 25, 2, 1, 0), 0, 2, 128);
    update("announce held, same hop", toggleash_announce(words, ROOM, 0x0A010180, 25, 2, 1, 0), 0, 2, 0);
    update("announce held, first hop", toggleash_announce(words, ROOM, 0x0A010180, 25, 65535, 1, 0), 0, 65535, 128);
    update("announce, no room", toggleash_announce(words, ROOM, 0x0A010200, 25, 2, 1, 0), 8, 0, 0);
    update("announce, length", toggleash_announce(words, ROOM, 0, 33, 0, 1, 0), 3, 0, 0);
    update("announce, stray bit", toggleash_announce(words, ROOM, 0x0A000001, 24, 0, 1, 0), 4, 0, 0);
    update("announce, hop 0", toggleash_announce(words, ROOM, 0, 0, 0, 1, 0), 5, 0, 0);
    update("announce, hop", toggleash_announce(words, ROOM, 0, 0, 65536, 1, 0), 5, 0, 0);
    update("announce, feed 0", toggleash_announce(words, ROOM, 0, 0, 1, 0, 0), 10, 0, 0);
    update("announce, feed", toggleash_announce(words, ROOM, 0, 0, 1, 4000000000u, 255), 10, 0, 0);
    update("announce default", toggleash_announce(words, ROOM, 0, 0, 7, 1, 0), 0, 7, 256);
    update("withdraw, not held", toggleash_withdraw(words, ROOM, 0, 1, 1), 7, 0, 0);
    update("withdraw, of another feed", toggleash_withdraw(words, ROOM, 0, 0, 2), 7, 0, 0);
    update("withdraw, feed", toggleash_withdraw(words, ROOM, 0, 0, 5), 10, 0, 0);
    update("withdraw, length", toggleash_withdraw(words, ROOM, 0, 4000000000u, 5), 3, 0, 0);
    counts("check", toggleash_check(words, ROOM), 0, 2, 4);
    answer("lookup", toggleash_lookup(words, ROOM, 0x0A0101FF), 0, 1, 65535, 25, 25);
    answer("lookup default", toggleash_lookup(words, ROOM, 0xFFFFFFFF), 0, 1, 7, 0, 1);
    update("withdraw", toggleash_withdraw(words, ROOM, 0, 0, 1), 0, 7, 256);
    answer("lookup none", toggleash_lookup(words, ROOM, 0xFFFFFFFF), 0, 0, 0, 0, 1);
}

/* A feed's candidates for 10.1.4.0/22, which covers 4 cells, and the hop that wins then. */
static void candidates(void) {
    toggleash_table table = TOGGLEASH_TABLE(words);
    same("clear", 0, toggleash_table_clear(table));
    update("first", toggleash_table_announce(table, 0x0A010400, 22, 5, 4, 10), 0, 5, 4);
    update("worse", toggleash_table_announce(table, 0x0A010400, 22, 6, 1, 255), 0, 6, 0);
    answer("the first wins", toggleash_table_find(table, 0x0A010509), 0, 1, 5, 22, 22);
    update("as good, lower feed", toggleash_table_announce(table, 0x0A010400, 22, 7, 2, 10), 0, 7, 4);
    update("as good, higher feed", toggleash_table_announce(table, 0x0A010400, 22, 8, 3, 10), 0, 8, 0);
    answer("the lower feed wins", toggleash_table_find(table, 0x0A010509), 0, 1, 7, 22, 22);
    update("better, same hop", toggleash_table_announce(table, 0x0A010400, 22, 7, 1, 0), 0, 7, 0);
    counts("four candidates", toggleash_table_check(table), 0, 4, 3);
    update("worse, same hop", toggleash_table_announce(table, 0x0A010400, 22, 7, 2, 11), 0, 7, 0);
    update("withdraw a winner", toggleash_table_withdraw(table, 0x0A010400, 22, 1), 0, 7, 4);
    answer("the next wins", toggleash_table_find(table, 0x0A010509), 0, 1, 8, 22, 22);
    update("withdraw a loser", toggleash_table_withdraw(table, 0x0A010400, 22, 4), 0, 5, 0);
    update("withdraw, not held by it", toggleash_table_withdraw(table, 0x0A010400, 22, 4), TOGGLEASH_NOT_HELD, 0, 0);
    update("no such feed", toggleash_table_announce(table, 0, 0, 1, TOGGLEASH_MOST_FEED + 1, 0),
           TOGGLEASH_FEED_OUT_OF_RANGE, 0, 0);
    update("withdraw the winner", toggleash_table_withdraw(table, 0x0A010400, 22, 3), 0, 8, 4);
    update("withdraw the last", toggleash_table_withdraw(table, 0x0A010400, 22, 2), 0, 7, 4);
    counts("no candidate", toggleash_table_check(table), 0, 0, 1);
}

/* The same by records, with what is written out in between. */
static void kinds(void) {
    static const uint8_t feed[] = {
        TOGGLEASH_KIND_ANNOUNCE_FOR, 10, 0, 0, 0, 8, 0, 6, 2, 255, /* feed 2 with preference 255 */
        TOGGLEASH_KIND_ANNOUNCE, 10, 0, 0, 0, 8, 1, 0,             /* feed 1 with preference 0 */
        TOGGLEASH_KIND_ANNOUNCE_FOR, 10, 0, 0, 0, 8, 0, 7, 5, 0,   /* there is no feed 5 */
        TOGGLEASH_KIND_WITHDRAW_FOR, 10, 0, 0, 0, 8, 3, TOGGLEASH_KIND_END,
    };
    static const uint8_t list[TOGGLEASH_WRITTEN_BYTES(2)] = {4, 10, 0, 0, 0, 8, 1, 0, 1, 0,
                                                             4, 10, 0, 0, 0, 8, 0, 6, 2, 255, 0};
    static const uint8_t end[] = {TOGGLEASH_KIND_WITHDRAW, 10, 0, 0, 0, 8, TOGGLEASH_KIND_WITHDRAW_FOR, 10, 0, 0, 0, 8, 2};
    static const uint8_t after_feed[14] = {16, 0, 6, 0, 1, 16, 1, 0, 0, 1, 19, 10, 19, 7};
    static const uint8_t after_end[10] = {16, 1, 0, 0, 1, 16, 0, 6, 0, 1};
    static const uint64_t four[4] = {sizeof feed, 14, 2, 2}, two[4] = {sizeof end, 10, 2, 0};
    toggleash_table table = TOGGLEASH_TABLE(words);
    uint8_t reply[4 * TOGGLEASH_REPLY_MOST], buffer[sizeof list];
    same("clear", 0, toggleash_table_clear(table));
    ran("kinds", toggleash_table_run(table, feed, sizeof feed, reply, sizeof reply), 0, TOGGLEASH_STOP_END, four);
    same("replies to kinds", 0, (uint64_t)memcmp(reply, after_feed, sizeof after_feed));
    written("write candidates", toggleash_table_write(table, buffer, sizeof buffer), 0, sizeof list);
    same("list of candidates", 0, (uint64_t)memcmp(buffer, list, sizeof list));
    ran("kinds, end", toggleash_table_run(table, end, sizeof end, reply, sizeof reply), 0, TOGGLEASH_STOP_NO_BYTE, two);
    same("replies to the end", 0, (uint64_t)memcmp(reply, after_end, sizeof after_end));
}

/* Blocks: one announcement after another, and what is found then. */
static void blocks(void) {
    toggleash_table table = TOGGLEASH_TABLE(words);
    same("clear", 0, toggleash_table_clear(table));
    answer("block, no route", toggleash_table_find(table, 0xFFFFFFFF), 0, 0, 0, 0, 0);
    update("block, /8", toggleash_table_announce(table, 0x0A000000, 8, 1, 1, 0), 0, 1, 1);
    update("block, /22", toggleash_table_announce(table, 0x0A010400, 22, 2, 1, 0), 0, 2, 4);
    answer("block, 10.1.5.9", toggleash_table_find(table, 0x0A010509), 0, 1, 2, 22, 22);
    answer("block, 10.1.0.1", toggleash_table_find(table, 0x0A010001), 0, 1, 1, 8, 22);
    answer("block, 10.1.8.0", toggleash_table_find(table, 0x0A010800), 0, 1, 1, 8, 21);
    answer("block, 10.2.0.0", toggleash_table_find(table, 0x0A020000), 0, 1, 1, 8, 15);
    answer("block, 10.128.0.0", toggleash_table_find(table, 0x0A800000), 0, 1, 1, 8, 9);
    answer("block, 11.0.0.0", toggleash_table_find(table, 0x0B000000), 0, 0, 0, 0, 8);
    same("clear again", 0, toggleash_table_clear(table));
    update("block, /32", toggleash_table_announce(table, 0x0A000000, 32, 1, 1, 0), 0, 1, 1);
    answer("block, 10.0.0.0", toggleash_table_find(table, 0x0A000000), 0, 1, 1, 32, 32);
    answer("block, 10.0.0.1", toggleash_table_find(table, 0x0A000001), 0, 0, 0, 0, 32);
    answer("block, 10.0.0.2", toggleash_table_find(table, 0x0A000002), 0, 0, 0, 0, 31);
    answer("block, 10.0.0.128", toggleash_table_find(table, 0x0A000080), 0, 0, 0, 0, 25);
    answer("block, 10.0.1.0", toggleash_table_find(table, 0x0A000100), 0, 0, 0, 0, 24);
    update("block, default", toggleash_table_announce(table, 0, 0, 2, 1, 0), 0, 2, 256);
    answer("block, 10.0.0.1 now", toggleash_table_find(table, 0x0A000001), 0, 1, 2, 0, 32);
    answer("block, 255.0.0.0", toggleash_table_find(table, 0xFF000000), 0, 1, 2, 0, 1);
    update("block, default alone", toggleash_table_withdraw(table, 0x0A000000, 32, 1), 0, 1, 1);
    answer("block, 1.2.3.4", toggleash_table_find(table, 0x01020304), 0, 1, 2, 0, 0);
}

/* A prefix, and how many lie inside it. */
typedef struct {
    uint32_t address, length, prefixes;
} inside;

/* Eight prefixes on all four levels, and what lies inside others. */
static void withins(void) {
    static const inside held[] = {{0, 0, 8},           {0x0A000000, 8, 6},  {0x0A000000, 9, 5},  {0x0A010000, 16, 4},
                                  {0x0A010400, 22, 3}, {0x0A010400, 24, 2}, {0x0A010480, 25, 1}, {0x0B000000, 8, 1}};
    static const inside others[] = {
        {0x0A000000, 7, 7},  {0, 1, 7},           {0x80000000, 1, 0},  {0x0C000000, 8, 0},  /* on level 0 */
        {0x0A800000, 9, 0},  {0x0A000000, 15, 4}, {0x0B000000, 9, 0},                       /* on level 1, or no array */
        {0x0A010000, 17, 3}, {0x0A010400, 23, 2}, {0x0A010500, 24, 0}, {0x0C010100, 24, 0}, /* on level 2 */
        {0x0A010400, 25, 0}, {0x0A010480, 26, 0}, {0x0A010480, 32, 0}, {0x0A020000, 32, 0}, /* on level 3 */
    };
    toggleash_table table = TOGGLEASH_TABLE(words);
    same("clear", 0, toggleash_table_clear(table));
    total("within an empty table", toggleash_table_within(table, 0, 0), 0, 0);
    for (size_t i = 0; i < sizeof held / sizeof *held; i++)
        same("announce", 0, toggleash_table_announce(table, held[i].address, held[i].length, 1, 1, 0).refusal);
    for (size_t i = 0; i < sizeof held / sizeof *held; i++)
        total("within a held one", toggleash_table_within(table, held[i].address, held[i].length), 0, held[i].prefixes);
    for (size_t i = 0; i < sizeof others / sizeof *others; i++)
        total("within another", toggleash_table_within(table, others[i].address, others[i].length), 0, others[i].prefixes);
    update("withdraw inside", toggleash_table_withdraw(table, 0x0A010480, 25, 1), 0, 1, 128);
    total("within after it", toggleash_table_within(table, 0x0A010400, 24), 0, 1);
    total("within all after it", toggleash_table_within(table, 0, 0), 0, 7);
}

/* Prefixes are counted, not candidates; and the refusals, in their order. */
static void within_refused(void) {
    toggleash_table table = TOGGLEASH_TABLE(words);
    same("clear", 0, toggleash_table_clear(table));
    update("one side", toggleash_table_announce(table, 0x0A000000, 8, 1, 1, 0), 0, 1, 1);
    update("another side", toggleash_table_announce(table, 0x0A000000, 8, 2, 2, 0), 0, 2, 0);
    update("a third", toggleash_table_announce(table, 0x0A000000, 9, 1, 4, 0), 0, 1, 128);
    total("prefixes", toggleash_table_within(table, 0, 0), 0, 2);
    counts("candidates", toggleash_table_check(table), 0, 3, 2);
    total("within, null", toggleash_within(NULL, 0, 1, 33), TOGGLEASH_WORD_COUNT, 0);
    total("within, a word short", toggleash_within(words, ROOM - 1, 1, 33), TOGGLEASH_WORD_COUNT, 0);
    memset(words, 0xEE, sizeof words);
    total("within, length", toggleash_table_within(table, 1, 33), TOGGLEASH_LENGTH_OVER_32, 0);
    total("within, a large length", toggleash_table_within(table, 1, UINT32_MAX), TOGGLEASH_LENGTH_OVER_32, 0);
    total("within, stray bit", toggleash_table_within(table, 1, 31), TOGGLEASH_STRAY_BIT, 0);
    total("within foreign words", toggleash_table_within(table, 1, 32), TOGGLEASH_NOT_A_TABLE, 0);
    total("within foreign words, no link", toggleash_table_within(table, 0, 0), TOGGLEASH_NOT_A_TABLE, 0);
}

/* The replies of lookups, of 5 and of 2 bytes. Fewer than 5 free bytes stop the run, though 2 would do. */
static void replies(void) {
    static const uint8_t found[19] = {1, 10, 0, 0, 0, 8, 0, 1, 3, 10, 1, 5, 9, 3, 11, 0, 0, 1, 0};
    static const uint8_t none[10] = {3, 1, 1, 1, 1, 3, 2, 2, 2, 2};
    static const uint8_t after_found[12] = {16, 0, 1, 0, 1, TOGGLEASH_KIND_FOUND, 0, 1, 8, 8, TOGGLEASH_KIND_NONE, 8};
    static const uint8_t after_none[8] = {TOGGLEASH_KIND_NONE, 0, 0xEE, 0xEE, 0xEE, 0xEE, 0xEE, 0xEE};
    static const uint64_t three[4] = {19, 12, 1, 0}, one[4] = {5, 2, 0, 0};
    toggleash_table table = TOGGLEASH_TABLE(words);
    uint8_t reply[15];
    same("clear", 0, toggleash_table_clear(table));
    memset(reply, 0xEE, sizeof reply);
    ran("none", toggleash_table_run(table, none, sizeof none, reply, 6), 0, TOGGLEASH_STOP_REPLY, one);
    same("reply of none", 0, (uint64_t)memcmp(reply, after_none, sizeof after_none));
    ran("found", toggleash_table_run(table, found, sizeof found, reply, sizeof reply), 0, TOGGLEASH_STOP_END, three);
    same("reply of found", 0, (uint64_t)memcmp(reply, after_found, sizeof after_found));
}

static void bytes(void) {
    static const uint8_t list[11] = {TOGGLEASH_KIND_ANNOUNCE_FOR, 0x0A, 1, 1, 0x80, 25, 0xFF, 0xFF, 1, 0, 0};
    static const uint8_t feed[7] = {TOGGLEASH_KIND_WITHDRAW, 0x0A, 1, 1, 0x80, 25, TOGGLEASH_KIND_END};
    static const uint8_t replied[6] = {TOGGLEASH_KIND_DONE, 0xFF, 0xFF, 0, 128, 0xEE};
    static const uint64_t taken[4] = {7, TOGGLEASH_REPLY_MOST, 1, 0}, again[4] = {7, 2, 0, 1};
    uint8_t buffer[12], reply[6];
    memset(buffer, 0xEE, sizeof buffer);
    memset(reply, 0xEE, sizeof reply);
    written("write out, short", toggleash_write_out(words, ROOM, buffer, 10), 9, 0);
    same("buffer kept", 0xEE, buffer[0]);
    written("write out", toggleash_write_out(words, ROOM, buffer, sizeof buffer), 0, sizeof list);
    same("list", 0, (uint64_t)memcmp(buffer, list, sizeof list));
    same("rest kept", 0xEE, buffer[11]);
    ran("run", toggleash_run(words, ROOM, feed, sizeof feed, reply, sizeof reply), 0, TOGGLEASH_STOP_END, taken);
    same("reply", 0, (uint64_t)memcmp(reply, replied, sizeof reply));
    ran("run again", toggleash_run(words, ROOM, feed, sizeof feed, reply, sizeof reply), 0, TOGGLEASH_STOP_END, again);
}

static void nothing(void) {
    static const uint64_t zeros[4] = {0, 0, 0, 0};
    ran("run, null feed", toggleash_run(words, ROOM, NULL, 0, NULL, 0), 0, 1, zeros);
    written("write out, null", toggleash_write_out(words, ROOM, NULL, 0), 9, 0);
    same("clear, null", 1, toggleash_clear(NULL, 0));
    counts("check, null", toggleash_check(NULL, 0), 1, 0, 0);
    answer("lookup, null", toggleash_lookup(NULL, 0, 1), 1, 0, 0, 0, 0);
    update("announce, null", toggleash_announce(NULL, 0, 0, 33, 0, 0, 0), 1, 0, 0);
    update("withdraw, null", toggleash_withdraw(NULL, 0, 0, 33, 0), 1, 0, 0);
    written("write out, null words", toggleash_write_out(NULL, 0, NULL, 0), 1, 0);
    ran("run, null words", toggleash_run(NULL, 0, NULL, 0, NULL, 0), 1, 0, zeros);
    words[0]++;
    counts("check, no table", toggleash_check(words, ROOM), 2, 0, 0);
    update("announce, no table", toggleash_announce(words, ROOM, 0, 0, 1, 1, 0), 2, 0, 0);
    update("announce, no table and no feed", toggleash_announce(words, ROOM, 0, 0, 1, 5, 0), 10, 0, 0);
    update("withdraw, no table and no feed", toggleash_withdraw(words, ROOM, 0, 0, 0), 10, 0, 0);
    written("write out, no table", toggleash_write_out(words, ROOM, NULL, 0), 2, 0);
    ran("run, no table", toggleash_run(words, ROOM, NULL, 0, NULL, 0), 2, 0, zeros);
}

/* 10.0.0.0/8, 10.1.0.0/20 and 10.1.4.0/22, whose one marker is 10.1.0.0/16: 8 * 4 + 1,024 words. */
static const uint8_t sample[25] = {1, 10, 0, 0, 0, 8,  0,    1,    1, 10, 1, 0, 0, 20, 0, 3,
                                   1, 10, 1, 4, 0, 22, 0xFF, 0xFF, 0};
#define NEED 1056

/* The same routes as winners: feed 2 has a better candidate for the /8, and feed 1 one for the /22. */
static const uint8_t rivals[TOGGLEASH_WRITTEN_BYTES(5)] = {
    4, 10, 0, 0, 0, 8,  0,    9,    1, 2, 4, 10, 0, 0, 0, 8,  0, 1, 2, 1, 4, 10, 1, 0, 0, 20, 0, 3, 4, 9,
    4, 10, 1, 4, 0, 22, 0xFF, 0xFF, 1, 7, 4, 10, 1, 4, 0, 22, 0, 4, 3, 7, 0};

/* The default route alone. */
static const uint8_t alone[TOGGLEASH_WRITTEN_BYTES(1)] = {TOGGLEASH_KIND_ANNOUNCE_FOR, 0, 0, 0, 0, 0, 0, 7, 1, 0,
                                                          TOGGLEASH_KIND_END};

static uint32_t copy[NEED + 2];

static void spoil(void) {
    memset(copy, 0xEE, sizeof copy);
}

static void kept(const char *what, size_t from) {
    uint64_t changed = 0;
    for (size_t i = from; i < NEED + 2; i++)
        changed += copy[i] != 0xEEEEEEEE;
    same(what, 0, changed);
}

static void copies(void) {
    static uint32_t of_routes[NEED + 2];
    needed("need", toggleash_copy_need(sample, sizeof sample), 0, NEED);
    needed("need, empty list", toggleash_copy_need(sample + 24, 1), 0, 1024);
    spoil();
    built("build", toggleash_copy_build(sample, sizeof sample, copy, NEED + 2), 0, 3, 1);
    kept("words past the need", NEED);
    memcpy(of_routes, copy, sizeof copy);
    spoil();
    needed("need of winners", toggleash_copy_need(rivals, sizeof rivals), 0, NEED);
    built("build of winners", toggleash_copy_build(rivals, sizeof rivals, copy, NEED + 2), 0, 3, 1);
    same("the same copy", 0, (uint64_t)memcmp(of_routes, copy, sizeof copy));
    match("copy lookup", toggleash_copy_lookup(copy, NEED + 2, 0x0A010509), 0, 1, 65535, 22);
    match("copy lookup, next box out", toggleash_copy_lookup(copy, NEED + 2, 0x0A010809), 0, 1, 3, 20);
    match("copy lookup, by the marker", toggleash_copy_lookup(copy, NEED, 0x0A011000), 0, 1, 1, 8);
    match("copy lookup, none", toggleash_copy_lookup(copy, NEED, 0x0B000000), 0, 0, 0, 0);
    built("build, default", toggleash_copy_build(alone, sizeof alone, copy, 1032), 0, 1, 0);
    match("copy lookup, default", toggleash_copy_lookup(copy, 1032, 0xFFFFFFFF), 0, 1, 7, 0);
    built("build, empty list", toggleash_copy_build(sample + 24, 1, copy, 1024), 0, 0, 0);
    match("copy lookup, empty list", toggleash_copy_lookup(copy, 1024, 0x0A010509), 0, 0, 0, 0);
}

static void no_copies(void) {
    static const uint8_t disordered[] = {4, 10, 0, 0, 0, 8, 0, 1, 2, 1, 4, 10, 0, 0, 0, 8, 0, 9, 1, 2, 0};
    static const uint8_t both[] = {1, 10, 0, 0, 0, 8, 0, 1, 4, 11, 0, 0, 0, 8, 0, 1, 1, 0, 0};
    spoil();
    needed("need, null", toggleash_copy_need(NULL, 0), 2, 0);
    needed("need, no end", toggleash_copy_need(sample, 24), 2, 0);
    needed("need, no record", toggleash_copy_need(sample + 1, 24), 2, 0);
    needed("need, candidates without an end", toggleash_copy_need(rivals, 50), 2, 0);
    needed("need, candidates out of order", toggleash_copy_need(disordered, sizeof disordered), 2, 0);
    needed("need, both kinds", toggleash_copy_need(both, sizeof both), 2, 0);
    built("build, null", toggleash_copy_build(NULL, 0, NULL, 0), 2, 0, 0);
    built("build, null bytes", toggleash_copy_build(NULL, 0, copy, NEED), 2, 0, 0);
    built("build, no end", toggleash_copy_build(sample, 24, copy, NEED), 2, 0, 0);
    built("build, null words", toggleash_copy_build(sample, sizeof sample, NULL, 0), 9, 0, 0);
    built("build, a word short", toggleash_copy_build(sample, sizeof sample, copy, NEED - 1), 9, 0, 0);
    kept("words of a refused build", 0);
    match("copy lookup, null", toggleash_copy_lookup(NULL, 0, 1), 2, 0, 0, 0);
    match("copy lookup, foreign words", toggleash_copy_lookup(copy, NEED, 0x0A010509), 2, 0, 0, 0);
    memset(copy, 0, sizeof copy);
    match("copy lookup, too few words", toggleash_copy_lookup(copy, 1023, 1), 2, 0, 0, 0);
    match("copy lookup, zeros", toggleash_copy_lookup(copy, 1024, 1), 0, 0, 0, 0);
    copy[0] = 256;
    match("copy lookup, a default alone", toggleash_copy_lookup(copy, 1024, 1), 0, 1, 1, 0);
    copy[0] = 256 + 33;
    match("copy lookup, a length over 32", toggleash_copy_lookup(copy, 1024, 1), 2, 0, 0, 0);
}

/* Each call on a table does what the archive's does on its words. */
static void tables(void) {
    static const uint64_t taken[4] = {11, 5, 1, 0};
    toggleash_table table = TOGGLEASH_TABLE(words);
    uint8_t list[TOGGLEASH_WRITTEN_BYTES(2)], reply[TOGGLEASH_REPLY_MOST];
    same("words of a table", ROOM, table.n);
    same("clear table", 0, toggleash_table_clear(table));
    ran("run table", toggleash_table_run(table, alone, sizeof alone, reply, sizeof reply), 0, TOGGLEASH_STOP_END, taken);
    update("announce table", toggleash_table_announce(table, 0x0A000000, 8, TOGGLEASH_MOST_HOP, 1, 0), 0, 65535, 1);
    update("announce table, stray bit", toggleash_table_announce(table, 0x0A000001, 8, 1, 1, 0), TOGGLEASH_STRAY_BIT, 0, 0);
    counts("check table", toggleash_table_check(table), 0, 2, 1);
    answer("find in table", toggleash_table_find(table, 0x0A010509), 0, 1, 65535, 8, 8);
    answer("find in table, default", toggleash_table_find(table, 0x0C000000), 0, 1, 7, 0, 6);
    written("write table", toggleash_table_write(table, list, sizeof list), 0, sizeof list);
    written("write table, short", toggleash_table_write(table, list, sizeof list - 1), TOGGLEASH_BUFFER_SHORT, 0);
    update("withdraw table", toggleash_table_withdraw(table, 0x0A000000, 8, 1), 0, 65535, 1);
    update("withdraw table, not held", toggleash_table_withdraw(table, 0x0A000000, 8, 1), TOGGLEASH_NOT_HELD, 0, 0);
    toggleash_needed need = toggleash_copy_need(list, sizeof list);
    needed("need of two", need, 0, TOGGLEASH_COPY_LEAST_WORDS + 16);
    built("make copy", toggleash_copy_make(TOGGLEASH_COPY(copy), list, sizeof list), 0, 2, 0);
    match("find in copy", toggleash_copy_find(TOGGLEASH_COPY(copy), 0x0A010509), 0, 1, 65535, 8);
    toggleash_copy in_part = toggleash_copy_at(copy, need);
    same("words of a copy", need.words, in_part.n);
    match("find in copy of the need", toggleash_copy_find(in_part, 0xFFFFFFFF), 0, 1, 7, 0);
    in_part.n--;
    built("make copy, a word short", toggleash_copy_make(in_part, list, sizeof list), TOGGLEASH_BUFFER_SHORT, 0, 0);
}

/* Words that are no table: what a cell on the walk must be for an answer. There are 4 arrays. */
static void foreign(void) {
    uint32_t *cell = words + 3072 + 2048;
    const uint32_t refused[] = {
        ends(9, 0, 0),  ends(9, 1, 0),   ends(255, 1, 8), /* a length over 8, with a hop or without */
        leads(9, 1, 4), leads(14, 0, 4),                  /* beside a link too */
        ends(0, 0, 9),  ends(8, 1, 15),                   /* a block over 8 */
        leads(0, 0, 5), leads(8, 1, 4096),                /* a link past the last array */
        leads(0, 0, 1),                                   /* back to this very cell, level after level */
    };
    memset(words, 0, sizeof words);
    answer("zeros", toggleash_lookup(words, ROOM, 0), 0, 0, 0, 0, 0);
    for (size_t i = 0; i < sizeof refused / sizeof *refused; i++) {
        *cell = refused[i];
        answer("foreign cell", toggleash_lookup(words, ROOM, 0), TOGGLEASH_NOT_A_TABLE, 0, 0, 0, 0);
        answer("foreign cell not met", toggleash_lookup(words, ROOM, 0x01000000), 0, 0, 0, 0, 0);
    }
    *cell = ends(8, 65535, 8);
    answer("the largest cell", toggleash_lookup(words, ROOM, 0), 0, 1, 65535, 8, 8);
    *cell = leads(8, 7, 4);
    answer("a link to the last array", toggleash_lookup(words, ROOM, 0), 0, 1, 7, 8, 8);
}

/* Words that are no table: what a link and a total on the walk of within must be. There are 4 arrays, so 2,044 slots. */
static void foreign_totals(void) {
    uint32_t *cell = words + 3072 + 2048, *totals = words + 3072 + 2304, *below = words + 4 * 3072 + 2304;
    memset(words, 0, sizeof words);
    total("zeros", toggleash_within(words, ROOM, 0, 9), 0, 0);
    totals[1] = below[2] = 2044;
    total("the largest total", toggleash_within(words, ROOM, 0, 0), 0, 2044);
    totals[1] = 2045;
    total("a total over it", toggleash_within(words, ROOM, 0, 0), TOGGLEASH_NOT_A_TABLE, 0);
    total("a total not met", toggleash_within(words, ROOM, 0, 1), 0, 0);
    *cell = leads(14, 65535, 4); /* the length beside the link is not looked at */
    total("a total below a link", toggleash_within(words, ROOM, 0, 9), 0, 2044);
    total("another one there", toggleash_within(words, ROOM, 0x00800000, 9), 0, 0);
    below[2] = UINT32_MAX;
    total("a total over it below", toggleash_within(words, ROOM, 0, 9), TOGGLEASH_NOT_A_TABLE, 0);
    *cell = leads(0, 0, 5);
    total("a link past the last array", toggleash_within(words, ROOM, 0, 9), TOGGLEASH_NOT_A_TABLE, 0);
    total("the same link above the walk's end", toggleash_within(words, ROOM, 0, 8), 0, 0);
    *cell = leads(0, 0, 1);
    totals[511] = 7;
    total("a link to the first array", toggleash_within(words, ROOM, 0x000000FF, 32), 0, 7);
    *cell = ends(255, 65535, 15);
    total("no link", toggleash_within(words, ROOM, 0, 32), 0, 0);
}

/* A table whose totals are not right is none. */
static void wrong_totals(void) {
    uint32_t *of_root = words + 3072 + 2304 + 1, *of_free = words + 4 * 3072 + 2304 + 511;
    same("clear", 0, toggleash_clear(words, ROOM));
    ++*of_root;
    counts("a total too large", toggleash_check(words, ROOM), TOGGLEASH_NOT_A_TABLE, 0, 0);
    update("announce beside it", toggleash_announce(words, ROOM, 0, 0, 1, 1, 0), TOGGLEASH_NOT_A_TABLE, 0, 0);
    total("what it says", toggleash_within(words, ROOM, 0, 0), 0, 1);
    --*of_root;
    counts("the total as it was", toggleash_check(words, ROOM), 0, 0, 1);
    *of_free = 1;
    counts("a total of a free array", toggleash_check(words, ROOM), TOGGLEASH_NOT_A_TABLE, 0, 0);
    *of_free = 0;
    words[3072 + 2304] = words[3072 + 2816] = 7;
    counts("words without a use", toggleash_check(words, ROOM), 0, 0, 1);
}

/* ---- The local calls, beside those that test the whole table */

static uint32_t others[ROOM];

/* An update, an announcement or a withdrawal. */
typedef struct {
    char kind;
    uint32_t address, length, hop, feed;
    uint8_t preference;
} step;

static toggleash_update checked(toggleash_table table, step s) {
    if (s.kind == 'w')
        return toggleash_table_withdraw(table, s.address, s.length, s.feed);
    return toggleash_table_announce(table, s.address, s.length, s.hop, s.feed, s.preference);
}

static toggleash_update local(toggleash_table table, step s) {
    if (s.kind == 'w')
        return toggleash_table_withdraw_local(table, s.address, s.length, s.feed);
    return toggleash_table_announce_local(table, s.address, s.length, s.hop, s.feed, s.preference);
}

/* Each update by both calls, on a table each: every field and every word is the same. */
static void locals(void) {
    static const step steps[] = {
        {'a', 0x0A010180, 25, 65535, 1, 0}, {'a', 0x0A010180, 25, 65535, 1, 0}, /* three arrays gained, and held already */
        {'a', 0x0A010180, 25, 2, 1, 0},     {'a', 0x0A010100, 24, 3, 4, 255},   /* another hop, another prefix */
        {'a', 0x0A010180, 25, 5, 4, 255},   {'a', 0x0A010200, 25, 2, 1, 0},     /* a loser, no room */
        {'a', 0, 33, 0, 0, 0},              {'a', 0x0A000001, 24, 0, 0, 0},     /* 3, 4 */
        {'a', 0, 0, 0, 0, 0},               {'a', 0, 0, 65536, 0, 0},           /* 5 */
        {'a', 0, 0, 1, 0, 0},               {'a', 0, 0, 1, 4000000000u, 255},   /* 10 */
        {'w', 0, UINT32_MAX, 0, 0, 0},      {'w', 1, 31, 0, 0, 0},              /* 3, 4 */
        {'w', 0, 0, 0, 5, 0},               {'w', 0, 0, 0, 1, 0},               /* 10, 7 */
        {'w', 0x0A010200, 25, 0, 1, 0},     {'w', 0x0A010180, 25, 0, 2, 0},     /* 7: no array there, no word of the feed */
        {'a', 0, 0, 7, 1, 0},               {'w', 0x0A010180, 25, 0, 1, 0},     /* the default route, and a winner goes */
        {'w', 0x0A010180, 25, 0, 4, 0},     {'w', 0x0A010100, 24, 0, 4, 0},     /* arrays freed */
        {'w', 0, 0, 0, 1, 0},
    };
    toggleash_table whole = TOGGLEASH_TABLE(words), touched = TOGGLEASH_TABLE(others);
    same("clear both", 0, toggleash_table_clear(whole) + toggleash_table_clear(touched));
    for (size_t i = 0; i < sizeof steps / sizeof *steps; i++) {
        toggleash_update u = checked(whole, steps[i]);
        update("local update", local(touched, steps[i]), u.refusal, u.hop, u.cells);
        same("words of a local update", 0, (uint64_t)memcmp(words, others, sizeof words));
    }
    counts("all withdrawn", toggleash_table_check(touched), 0, 0, 1);
}

/* A feed by both runs: every field, every reply and every word is the same. */
static void local_runs(void) {
    static const uint8_t feed[] = {
        1, 10, 1, 1, 128, 25, 0, 1,       4, 10, 1, 1, 128, 25, 0, 2, 2, 9, 3, 10, 1, 1, 255, 1, 11, 0, 0, 0, 9, 0, 3, /* 8 */
        1, 10, 0, 0, 0,   8,  0, 0,       2, 10, 1, 1, 128, 25, 5, 10, 1, 1, 128, 25, 2, 3, 10, 1, 1, 255,
        1, 11, 0, 0, 0,   9,  0, 3,       0,
    };
    toggleash_table whole = TOGGLEASH_TABLE(words), touched = TOGGLEASH_TABLE(others);
    uint8_t reply[64], replied[64];
    memset(reply, 0xEE, sizeof reply);
    memset(replied, 0xEE, sizeof replied);
    same("clear both", 0, toggleash_table_clear(whole) + toggleash_table_clear(touched));
    for (size_t room = 0; room < sizeof reply; room += 7) {
        toggleash_ran r = toggleash_table_run(whole, feed, sizeof feed, reply, room);
        const uint64_t rest[4] = {r.consumed, r.written, r.accepted, r.refused};
        ran("local run", toggleash_table_run_local(touched, feed, sizeof feed, replied, room), 0, r.stop, rest);
        same("replies of a local run", 0, (uint64_t)memcmp(reply, replied, sizeof reply));
        same("words of a local run", 0, (uint64_t)memcmp(words, others, sizeof words));
    }
    static const uint64_t none[4] = {0, 0, 0, 0};
    ran("local run, null feed", toggleash_run_local(others, ROOM, NULL, 0, NULL, 0), 0, TOGGLEASH_STOP_NO_BYTE, none);
}

/* No words, a wrong number, and words of which nothing is as in a table: refusals in their order, and no word is changed. */
static void local_refused(void) {
    static const uint8_t feed[] = {1, 10, 0, 0, 0, 8, 0, 1, 3, 10, 0, 0, 0, 2, 10, 0, 0, 0, 8, 0};
    static const uint8_t refused[6] = {19, 2, 19, 2, 19, 2};
    static const uint64_t zeros[4] = {0, 0, 0, 0}, three[4] = {sizeof feed, 6, 0, 3};
    uint8_t reply[15];
    update("announce_local, null", toggleash_announce_local(NULL, 0, 0, 33, 0, 0, 0), TOGGLEASH_WORD_COUNT, 0, 0);
    update("withdraw_local, null", toggleash_withdraw_local(NULL, 0, 0, 33, 0), TOGGLEASH_WORD_COUNT, 0, 0);
    ran("run_local, null", toggleash_run_local(NULL, 0, NULL, 0, NULL, 0), TOGGLEASH_WORD_COUNT, 0, zeros);
    update("announce_local, a word short", toggleash_announce_local(words, ROOM - 1, 0, 33, 0, 0, 0), 1, 0, 0);
    memset(words, 0xEE, sizeof words);
    memset(others, 0xEE, sizeof others);
    update("announce_local, length", toggleash_announce_local(words, ROOM, 1, 33, 0, 0, 0), 3, 0, 0);
    update("announce_local, stray bit", toggleash_announce_local(words, ROOM, 1, 31, 0, 0, 0), 4, 0, 0);
    update("announce_local, hop", toggleash_announce_local(words, ROOM, 1, 32, 0, 0, 0), 5, 0, 0);
    update("announce_local, feed", toggleash_announce_local(words, ROOM, 1, 32, 1, 5, 0), 10, 0, 0);
    update("announce_local, no table", toggleash_announce_local(words, ROOM, 1, 32, 1, 1, 0), 2, 0, 0);
    update("withdraw_local, feed", toggleash_withdraw_local(words, ROOM, 1, 32, 0), 10, 0, 0);
    update("withdraw_local, no table", toggleash_withdraw_local(words, ROOM, 1, 32, 1), 2, 0, 0);
    ran("run_local, no table", toggleash_run_local(words, ROOM, feed, sizeof feed, reply, sizeof reply), 0, 0, three);
    same("replies on no table", 0, (uint64_t)memcmp(reply, refused, sizeof refused));
    same("words of refused calls", 0, (uint64_t)memcmp(words, others, sizeof words));
}

/* What a damaged word does to an update: its place, the word in its place, the update, and its refusal. */
typedef struct {
    size_t at;
    uint32_t word;
    step s;
    uint32_t refusal;
} damage;

/* 10.0.0.0/9 is in array 2 and 11.0.0.0/9 in array 3; array 4 is free. An update sees what it touches, and the check sees all. */
static void local_damage(void) {
    const damage damages[] = {
        {3 * 3072, 8192 + 11 * 32 + 3, {'a', 0x0B000000, 10, 1, 1, 0}, 2}, /* the tag of the array below names no such level */
        {3 * 3072, 8192 + 12 * 32 + 2, {'w', 0x0B000000, 9, 0, 1, 0}, 2},  /* no such cell */
        {3 * 3072, 8192 + 12 * 32 + 2, {'a', 0x0A000000, 10, 1, 1, 0}, 0}, /* which is off this update's path */
        {3072, 0, {'a', 0, 0, 1, 1, 0}, 2},                                /* the root's tag */
        {3072 + 2048 + 11, leads(0, 0, 5), {'w', 0x0B000000, 9, 0, 1, 0}, 2}, /* a link past the last array */
        {3072 + 2048 + 11, leads(9, 0, 3), {'w', 0x0B000000, 9, 0, 1, 0}, 2}, /* a best out of its range beside it */
        {3072 + 2048 + 12, ends(9, 0, 8), {'a', 0x0C000000, 9, 1, 1, 0}, 2},  /* in the cell that would get a link */
        {3072 + 2048 + 12, ends(0, 0, 9), {'a', 0x0C000000, 9, 1, 1, 0}, 2},  /* a block out of its range there */
        {4 * 3072 + 4 + 2299, 1, {'a', 0x0C000000, 9, 1, 1, 0}, 2},           /* a free array that is not blank */
        {4 * 3072 + 4 + 2299, 1, {'a', 0x0B000000, 10, 1, 1, 0}, 0},          /* which this update does not gain */
        {0, 4, {'a', 0x0C000000, 9, 1, 1, 0}, 8},                             /* the header knows of no free array */
        {0, 4, {'w', 0x0A000000, 9, 0, 2, 0}, 7},                             /* and a withdrawal does not ask */
    };
    toggleash_table whole = TOGGLEASH_TABLE(words), touched = TOGGLEASH_TABLE(others);
    same("clear", 0, toggleash_table_clear(whole));
    same("announce", 0, toggleash_table_announce_local(whole, 0x0A000000, 9, 1, 1, 0).refusal);
    same("announce", 0, toggleash_table_announce_local(whole, 0x0B000000, 9, 2, 1, 0).refusal);
    for (size_t i = 0; i < sizeof damages / sizeof *damages; i++) {
        const damage d = damages[i];
        const uint32_t was = words[d.at];
        words[d.at] = d.word;
        memcpy(others, words, sizeof words);
        same("the check sees it", 2, toggleash_table_check(touched).refusal);
        same("and the checked call", 2, checked(touched, d.s).refusal);
        same("local update of damaged words", d.refusal, local(touched, d.s).refusal);
        if (d.refusal)
            same("words of a refused one", 0, (uint64_t)memcmp(words, others, sizeof words));
        const size_t spared = d.s.address == 0x0A000000 ? 3 : 2; /* an array off the path */
        same("words off its path", 0, (uint64_t)memcmp(words + 3072 * spared, others + 3072 * spared, 3072 * 4));
        words[d.at] = was;
    }
    counts("mended", toggleash_table_check(whole), 0, 2, 3);
}

/* Lent memory whose size is not in a type: by arrays, or by the need. */
static void sizes(void) {
    toggleash_table whole = toggleash_table_at(words, 4);
    same("words of 4 arrays", ROOM, whole.n);
    same("clear 4 arrays", 0, toggleash_table_clear(whole));
    same("no array", TOGGLEASH_WORD_COUNT, toggleash_table_clear(toggleash_table_at(words, 0)));
    same("bytes for arrays", TOGGLEASH_WORD_COUNT, toggleash_table_clear(toggleash_table_at(words, sizeof words)));
    same("most arrays", TOGGLEASH_MOST_WORDS, toggleash_table_at(words, TOGGLEASH_MOST_ARRAYS).n);
    same("an array too many", 0, toggleash_table_at(words, TOGGLEASH_MOST_ARRAYS + 1).n);
    same("least words", TOGGLEASH_LEAST_WORDS, TOGGLEASH_WORDS(1));
    uint32_t(*lent)[TOGGLEASH_WORDS(1)] = (uint32_t(*)[TOGGLEASH_WORDS(1)])malloc(sizeof *lent);
    if (lent == NULL)
        abort();
    toggleash_table one = TOGGLEASH_TABLE(*lent);
    same("clear a whole array", 0, toggleash_table_clear(one));
    update("one array", toggleash_table_announce(one, 0x0A000000, 9, 1, 1, 0), TOGGLEASH_NO_ROOM, 0, 0);
    free(lent);
}

static void texts(void) {
    same("version", TOGGLEASH_VERSION, toggleash_version_6());
    for (uint32_t i = 0; i <= 11; i++) {
        int none = strcmp(toggleash_refusal_text(i), toggleash_refusal_text(6)) == 0;
        same("text of a refusal", i == 6 || i == 11, (uint64_t)none);
        none = strcmp(toggleash_stop_text(i), toggleash_stop_text(5)) == 0;
        same("text of a stop", i > 4, (uint64_t)none);
    }
    same("text of no room", 0, (uint64_t)strcmp(toggleash_refusal_text(8), "the table has no room for the prefix"));
}

int main(void) {
    updates();
    bytes();
    nothing();
    candidates();
    kinds();
    blocks();
    withins();
    within_refused();
    replies();
    foreign();
    foreign_totals();
    wrong_totals();
    copies();
    no_copies();
    tables();
    locals();
    local_runs();
    local_refused();
    local_damage();
    sizes();
    texts();
    return told();
}
