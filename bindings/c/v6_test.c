/* Calls every function of an IPv6 table from C, or from C++, and compares each field, so that the header and the archive are
 * known to agree: also on where an address goes, by value. Prints what differs and returns 1 on any difference. */
#include <string.h>
#include "fields.h"

#define ROOM TOGGLEASH_WORDS(16)
#define FEW TOGGLEASH_WORDS(4)

static uint32_t words[ROOM], others[ROOM]; /* the others for local calls, beside those that test the whole table */
static const toggleash_ipv6 zero = {{0}};

/* An address in four groups of 32 bits. */
static toggleash_ipv6 six(uint32_t a, uint32_t b, uint32_t c, uint32_t d) {
    const uint32_t groups[4] = {a, b, c, d};
    toggleash_ipv6 address;
    for (unsigned i = 0; i < 16; i++)
        address.bytes[i] = (uint8_t)(groups[i / 4] >> (24 - i % 4 * 8));
    return address;
}

/* Writes the bytes that hexadecimal digits say and gives their number; spaces are for the reader. */
static size_t bytes_of(const char *digits, uint8_t *bytes) {
    static const char all[] = "0123456789ABCDEF";
    size_t count = 0;
    for (; *digits; digits++)
        if (*digits != ' ') {
            uint8_t digit = (uint8_t)(strchr(all, *digits) - all);
            bytes[count / 2] = (uint8_t)(count % 2 ? bytes[count / 2] << 4 | digit : digit);
            count++;
        }
    return count / 2;
}

/* A feed on a cleared table of so many arrays, its replies, and what the table holds then. */
typedef struct {
    const char *name;
    uint32_t arrays;
    const char *feed, *replies;
    uint64_t accepted, refused;
    uint32_t routes, needed;
    const char *list;
} worked;

static const worked cases[] = {
    {"default route and none", 1,
     "08 00000000000000000000000000000001           06 00000000000000000000000000000000 00 0001 01 00"
     "08 FFFFFFFFFFFFFFFFFFFFFFFFFFFFFFFF           06 80000000000000000000000000000000 01 0002 01 00"
     "08 80000000000000000000000000000000           07 00000000000000000000000000000000 00 01         00",
     "12 00  10 0001 0100  11 0001 00 00  10 0002 0080  11 0002 01 01  10 0001 0080", 3, 0, 1, 1,
     "06 80000000000000000000000000000000 01 0002 01 00  00"},
    {"length 128 needs sixteen arrays", 16,
     "06 FF000000000000000000000000000001 80 0007 04 09  08 FF000000000000000000000000000001"
     "08 FF000000000000000000000000000000                08 FF000000000000000000000000000002"
     "06 FF000000000000000000000000000000 78 0008 01 00  06 FF000000000000000000000000000000 79 0009 01 00"
     "06 FE000000000000000000000000000000 09 0009 01 00  00",
     "10 0007 0001  11 0007 80 80  12 80  12 7F  10 0008 0001  10 0009 007F  13 08", 3, 1, 3, 16,
     "06 FF000000000000000000000000000000 78 0008 01 00  06 FF000000000000000000000000000000 79 0009 01 00"
     "06 FF000000000000000000000000000001 80 0007 04 09  00"},
    {"fifteen arrays are too few for it", 15, "06 FF000000000000000000000000000001 80 0007 04 09  00", "13 08", 0, 1, 0, 1,
     "00"},
    {"candidates and writing out", 3,
     "06 20010000000000000000000000000000 10 0005 02 01  06 20010000000000000000000000000000 10 0006 01 01"
     "06 20000000000000000000000000000000 03 0007 03 00  07 20010000000000000000000000000000 10 01          00",
     "10 0005 0001  10 0006 0001  10 0007 0020  10 0006 0001", 4, 0, 2, 2,
     "06 20000000000000000000000000000000 03 0007 03 00  06 20010000000000000000000000000000 10 0005 02 01  00"},
};

/* Each feed, by both runs, and its list as a feed that gives the same list. */
static void worked_feeds(void) {
    for (size_t i = 0; i < sizeof cases / sizeof *cases; i++) {
        const worked c = cases[i];
        uint8_t feed[512], replies[64], list[128], reply[64], buffer[128];
        const size_t sent = bytes_of(c.feed, feed), replied = bytes_of(c.replies, replies), left = bytes_of(c.list, list);
        const uint64_t rest[4] = {sent, replied, c.accepted, c.refused}, again[4] = {left, 5 * c.routes, c.routes, 0};
        toggleash_v6_table table = toggleash_v6_table_at(words, c.arrays);
        same(c.name, 0, toggleash_v6_table_clear(table));
        ran(c.name, toggleash_v6_table_run(table, feed, sent, reply, sizeof reply), 0, TOGGLEASH_STOP_END, rest);
        same(c.name, 0, (uint64_t)memcmp(reply, replies, replied));
        toggleash_v6_table touched = toggleash_v6_table_at(others, c.arrays);
        same(c.name, 0, toggleash_v6_table_clear(touched));
        ran(c.name, toggleash_v6_table_run_local(touched, feed, sent, reply, sizeof reply), 0, TOGGLEASH_STOP_END, rest);
        same(c.name, 0, (uint64_t)memcmp(reply, replies, replied));
        same(c.name, 0, (uint64_t)memcmp(words, others, table.n * sizeof *words));
        counts(c.name, toggleash_v6_table_check(table), 0, c.routes, c.needed);
        written(c.name, toggleash_v6_table_write(table, buffer, left - 1), TOGGLEASH_BUFFER_SHORT, 0);
        for (unsigned twice = 0; twice < 2; twice++) {
            memset(buffer, 0xEE, sizeof buffer);
            written(c.name, toggleash_v6_table_write(table, buffer, sizeof buffer), 0, left);
            same(c.name, TOGGLEASH_V6_WRITTEN_BYTES(c.routes), left);
            same(c.name, 0, (uint64_t)memcmp(buffer, list, left));
            same(c.name, 0xEE, buffer[left]);
            same(c.name, 0, toggleash_v6_table_clear(table));
            ran(c.name, toggleash_v6_table_run(table, list, left, reply, sizeof reply), 0, TOGGLEASH_STOP_END, again);
        }
    }
}

/* One byte of kind: where a run on either family's table stops, and that it takes no byte but an end. */
static void families(void) {
    const uint8_t stop[10][2] = {{0, 0}, {3, 2}, {3, 2}, {3, 2}, {3, 2}, {3, 2}, {2, 3}, {2, 3}, {2, 3}, {2, 2}};
    toggleash_table four = toggleash_table_at(words, 1);
    toggleash_v6_table table = toggleash_v6_table_at(words + TOGGLEASH_WORDS(1), 1);
    const uint64_t none[4] = {0, 0, 0, 0};
    uint8_t reply[TOGGLEASH_REPLY_MOST];
    same("clear", 0, toggleash_table_clear(four) + toggleash_v6_table_clear(table));
    ran("no byte, IPv4", toggleash_table_run(four, NULL, 0, NULL, 0), 0, TOGGLEASH_STOP_NO_BYTE, none);
    ran("no byte, IPv6", toggleash_v6_table_run(table, NULL, 0, NULL, 0), 0, TOGGLEASH_STOP_NO_BYTE, none);
    for (unsigned kind = 0; kind < 256; kind++) {
        const uint8_t feed = (uint8_t)kind, *stops = stop[kind < 9 ? kind : 9];
        const uint64_t taken[4] = {kind == TOGGLEASH_KIND_END, 0, 0, 0};
        ran("kind, IPv4", toggleash_table_run(four, &feed, 1, reply, sizeof reply), 0, stops[0], taken);
        ran("kind, IPv6", toggleash_v6_table_run(table, &feed, 1, reply, sizeof reply), 0, stops[1], taken);
    }
}

/* A record is whole from its last byte on, and it wants five free reply bytes. */
static void records(void) {
    static const size_t sizes[3] = {TOGGLEASH_V6_RECORD_MOST, 19, 17};
    const uint64_t none[4] = {0, 0, 0, 0};
    uint8_t feed[TOGGLEASH_V6_RECORD_MOST] = {0}, reply[TOGGLEASH_REPLY_MOST];
    same("clear", 0, toggleash_v6_clear(words, FEW));
    for (uint8_t i = 0; i < 3; i++) {
        feed[0] = (uint8_t)(TOGGLEASH_KIND_V6_ANNOUNCE + i);
        ran("body short", toggleash_v6_run(words, FEW, feed, sizes[i] - 1, reply, 5), 0, TOGGLEASH_STOP_BODY, none);
        ran("reply short", toggleash_v6_run(words, FEW, feed, sizes[i], reply, 4), 0, TOGGLEASH_STOP_REPLY, none);
        const uint64_t taken[4] = {sizes[i], 2, 0, i < 2};
        ran("whole", toggleash_v6_run(words, FEW, feed, sizes[i], reply, 5), 0, TOGGLEASH_STOP_NO_BYTE, taken);
    }
}

/* Every byte of an address counts, each at its own level: 1, 2, .. 16, and a prefix of hop k after k bytes. */
static void levels(void) {
    const toggleash_ipv6 path = six(0x01020304, 0x05060708, 0x090A0B0C, 0x0D0E0F10);
    toggleash_v6_table table = TOGGLEASH_V6_TABLE(words);
    toggleash_ipv6 head = zero;
    same("clear", 0, toggleash_v6_table_clear(table));
    for (uint32_t k = 1; k <= 16; k++) {
        head.bytes[k - 1] = path.bytes[k - 1];
        update("announce a head", toggleash_v6_table_announce(table, head, 8 * k, k, 1, 0), 0, k, 1);
    }
    answer("find the path", toggleash_v6_table_find(table, path), 0, 1, 16, 128, 128);
    head = zero;
    for (uint32_t k = 0; k < 16; k++) {
        toggleash_ipv6 low = path, high = path;
        low.bytes[k] ^= 1;
        high.bytes[k] ^= 0x80;
        answer("off it by a low bit", toggleash_v6_table_find(table, low), 0, k > 0, k, 8 * k, 8 * k + 8);
        answer("off it by a high bit", toggleash_v6_table_find(table, high), 0, k > 0, k, 8 * k, 8 * k + 1);
        total("within a head", toggleash_v6_table_within(table, head, 8 * k), 0, 16 - k + (k > 0));
        head.bytes[k] = path.bytes[k];
        low = head;
        low.bytes[k] ^= 1;
        total("beside a head", toggleash_v6_table_within(table, low, 8 * k + 8), 0, 0);
    }
    total("within the path", toggleash_v6_table_within(table, path, 128), 0, 1);
    counts("check heads", toggleash_v6_table_check(table), 0, 16, 16);
    for (uint32_t k = 16; k >= 1; k--) {
        update("withdraw a head", toggleash_v6_table_withdraw(table, head, 8 * k, 1), 0, k, 1);
        head.bytes[k - 1] = 0;
    }
    counts("check none", toggleash_v6_table_check(table), 0, 0, 1);
}

/* Each argument of an update arrives, at its largest too; the losers wait. */
static void arguments(void) {
    const toggleash_ipv6 net = six(0xFFFEFDFC, 0xFBFAF9F8, 0xF7F6F5F4, 0xF3F2F180);
    uint8_t list[TOGGLEASH_V6_WRITTEN_BYTES(2)], expected[sizeof list];
    bytes_of("06 FFFEFDFCFBFAF9F8F7F6F5F4F3F2F180 79 0102 03 FE"
             "06 FFFEFDFCFBFAF9F8F7F6F5F4F3F2F180 79 FFFF 04 FF  00",
             expected);
    same("clear", 0, toggleash_v6_clear(words, ROOM));
    update("announce", toggleash_v6_announce(words, ROOM, net, 121, TOGGLEASH_MOST_HOP, TOGGLEASH_MOST_FEED, 255), 0, 65535, 128);
    update("announce better", toggleash_v6_announce(words, ROOM, net, 121, 258, 3, 254), 0, 258, 128);
    answer("lookup", toggleash_v6_lookup(words, ROOM, six(0xFFFEFDFC, 0xFBFAF9F8, 0xF7F6F5F4, 0xF3F2F1FF)), 0, 1, 258, 121, 121);
    total("within", toggleash_v6_within(words, ROOM, net, 121), 0, 1);
    written("write out", toggleash_v6_write_out(words, ROOM, list, sizeof list), 0, sizeof list);
    same("list", 0, (uint64_t)memcmp(list, expected, sizeof list));
    update("withdraw, not its own", toggleash_v6_withdraw(words, ROOM, net, 121, 2), TOGGLEASH_NOT_HELD, 0, 0);
    update("withdraw the winner", toggleash_v6_withdraw(words, ROOM, net, 121, 3), 0, 258, 128);
    answer("the other", toggleash_v6_lookup(words, ROOM, net), 0, 1, 65535, 121, 121);
    update("withdraw it", toggleash_v6_withdraw(words, ROOM, net, 121, 4), 0, 65535, 128);
}

/* An address, a length and the refusal for being no prefix. */
typedef struct {
    toggleash_ipv6 address;
    uint32_t length, refusal;
} no_prefix;

/* Prefixes that are none, then what else is wrong, in its order, on words that are no table. */
static void refused(void) {
    const no_prefix none[] = {
        {six(0, 0, 0, 1), 129, TOGGLEASH_LENGTH_OVER_128},
        {zero, 256, TOGGLEASH_LENGTH_OVER_128},
        {zero, UINT32_MAX, TOGGLEASH_LENGTH_OVER_128},
        {six(0x80000000, 0, 0, 0), 0, TOGGLEASH_STRAY_BIT},
        {six(0x00010000, 0, 0, 0), 15, TOGGLEASH_STRAY_BIT},
        {six(0, 0, 0x01000000, 0), 71, TOGGLEASH_STRAY_BIT},
        {six(0, 0, 0x00800000, 0), 72, TOGGLEASH_STRAY_BIT},
        {six(0, 0, 0, 1), 127, TOGGLEASH_STRAY_BIT},
    };
    toggleash_v6_table table = TOGGLEASH_V6_TABLE(words);
    memset(words, 0xEE, sizeof words);
    for (size_t i = 0; i < sizeof none / sizeof *none; i++) {
        const no_prefix p = none[i];
        update("announce no prefix", toggleash_v6_table_announce(table, p.address, p.length, 0, 0, 0), p.refusal, 0, 0);
        update("withdraw no prefix", toggleash_v6_table_withdraw(table, p.address, p.length, 0), p.refusal, 0, 0);
        update("announce no prefix", toggleash_v6_table_announce_local(table, p.address, p.length, 0, 0, 0), p.refusal, 0, 0);
        update("withdraw no prefix", toggleash_v6_table_withdraw_local(table, p.address, p.length, 0), p.refusal, 0, 0);
        total("within no prefix", toggleash_v6_table_within(table, p.address, p.length), p.refusal, 0);
    }
    const toggleash_ipv6 last = six(0, 0, 0, 1);
    update("hop 0", toggleash_v6_table_announce(table, last, 128, 0, 0, 0), TOGGLEASH_HOP_OUT_OF_RANGE, 0, 0);
    update("hop", toggleash_v6_table_announce(table, last, 128, 65536, 5, 0), TOGGLEASH_HOP_OUT_OF_RANGE, 0, 0);
    update("feed 0", toggleash_v6_table_announce(table, last, 128, 1, 0, 0), TOGGLEASH_FEED_OUT_OF_RANGE, 0, 0);
    update("feed", toggleash_v6_table_withdraw(table, last, 128, 4000000000u), TOGGLEASH_FEED_OUT_OF_RANGE, 0, 0);
    update("no table", toggleash_v6_table_announce(table, last, 128, 1, 1, 0), TOGGLEASH_NOT_A_TABLE, 0, 0);
    update("no table", toggleash_v6_table_withdraw(table, last, 128, 1), TOGGLEASH_NOT_A_TABLE, 0, 0);
    update("hop, local", toggleash_v6_table_announce_local(table, last, 128, 65536, 5, 0), TOGGLEASH_HOP_OUT_OF_RANGE, 0, 0);
    update("feed, local", toggleash_v6_table_withdraw_local(table, last, 128, 5), TOGGLEASH_FEED_OUT_OF_RANGE, 0, 0);
    update("no table, local", toggleash_v6_table_announce_local(table, last, 128, 1, 1, 0), TOGGLEASH_NOT_A_TABLE, 0, 0);
    update("no table, local", toggleash_v6_table_withdraw_local(table, last, 128, 1), TOGGLEASH_NOT_A_TABLE, 0, 0);
    uint64_t changed = 0;
    for (size_t i = 0; i < ROOM; i++)
        changed += words[i] != 0xEEEEEEEE;
    same("words of a refused call", 0, changed);
}

/* No words, and words that are no table, in each call. */
static void nothing(void) {
    const uint64_t zeros[4] = {0, 0, 0, 0};
    uint8_t byte = 0xEE;
    same("clear, null", TOGGLEASH_WORD_COUNT, toggleash_v6_clear(NULL, 0));
    counts("check, null", toggleash_v6_check(NULL, 0), 1, 0, 0);
    answer("lookup, null", toggleash_v6_lookup(NULL, 0, zero), 1, 0, 0, 0, 0);
    total("within, null", toggleash_v6_within(NULL, 0, zero, 129), 1, 0);
    update("announce, null", toggleash_v6_announce(NULL, 0, zero, 129, 0, 0, 0), 1, 0, 0);
    update("withdraw, null", toggleash_v6_withdraw(NULL, 0, zero, 129, 0), 1, 0, 0);
    written("write out, null", toggleash_v6_write_out(NULL, 0, NULL, 0), 1, 0);
    ran("run, null", toggleash_v6_run(NULL, 0, NULL, 0, NULL, 0), 1, 0, zeros);
    same("clear, a word short", TOGGLEASH_WORD_COUNT, toggleash_v6_clear(words, ROOM - 1));
    memset(words, 0xEE, sizeof words);
    counts("check, foreign", toggleash_v6_check(words, ROOM), 2, 0, 0);
    answer("lookup, foreign", toggleash_v6_lookup(words, ROOM, zero), 2, 0, 0, 0, 0);
    total("within, foreign", toggleash_v6_within(words, ROOM, zero, 128), 2, 0);
    written("write out, foreign", toggleash_v6_write_out(words, ROOM, &byte, 1), 2, 0);
    ran("run, foreign", toggleash_v6_run(words, ROOM, &byte, 1, &byte, 1), 2, 0, zeros);
    same("byte kept", 0xEE, byte);
    same("clear, foreign", 0, toggleash_v6_clear(words, ROOM));
    written("write out, no room", toggleash_v6_write_out(words, ROOM, NULL, 0), TOGGLEASH_BUFFER_SHORT, 0);
}

/* Words that are no table, of 4 arrays: what cells on a walk of sixteen levels must be, and totals. */
static void foreign(void) {
    uint32_t *cell = words + 3072 + 2048, *totals = words + 3072 + 2304;
    const uint32_t wrong[] = {ends(9, 1, 0), ends(0, 0, 9), leads(9, 1, 4), leads(0, 0, 5), leads(8, 1, 4096), leads(0, 0, 1)};
    memset(words, 0, sizeof words);
    for (size_t i = 0; i < sizeof wrong / sizeof *wrong; i++) {
        *cell = wrong[i];
        answer("foreign cell", toggleash_v6_lookup(words, FEW, zero), TOGGLEASH_NOT_A_TABLE, 0, 0, 0, 0);
        answer("foreign cell not met", toggleash_v6_lookup(words, FEW, six(0x01000000, 0, 0, 0)), 0, 0, 0, 0, 0);
    }
    /* The last of these led back to itself, so this is met at the last level. */
    cell[1] = ends(8, 9, 8);
    answer("a cell of the last level", toggleash_v6_lookup(words, FEW, six(0, 0, 0, 1)), 0, 1, 9, 128, 128);
    answer("a cell of the level above", toggleash_v6_lookup(words, FEW, six(0, 0, 0, 0x0100)), 0, 1, 9, 120, 120);
    totals[2] = totals[511] = 2044;
    total("a total of the last level", toggleash_v6_within(words, FEW, zero, 121), 0, 2044);
    total("the last total", toggleash_v6_within(words, FEW, six(0, 0, 0, 0xFF), 128), 0, 2044);
    totals[2]++;
    total("a total too large", toggleash_v6_within(words, FEW, zero, 121), TOGGLEASH_NOT_A_TABLE, 0);
    *cell = leads(0, 0, 5);
    total("a link past the last array", toggleash_v6_within(words, FEW, zero, 9), TOGGLEASH_NOT_A_TABLE, 0);
}

/* A path of sixteen arrays gained at once, and freed at once, by both calls: every field and every word is the same. */
static void locals(void) {
    const toggleash_ipv6 path = six(0x01020304, 0x05060708, 0x090A0B0C, 0x0D0E0F10), beside = six(0x01020304, 0x80000000, 0, 0);
    toggleash_v6_table whole = TOGGLEASH_V6_TABLE(words), touched = TOGGLEASH_V6_TABLE(others);
    same("clear both", 0, toggleash_v6_table_clear(whole) + toggleash_v6_table_clear(touched));
    for (uint32_t i = 0; i < 9; i++) {
        const uint32_t length = i < 6 ? 128 : 33, hop = i % 3 < 2 ? 7 : 65535, feed = 1 + i % 3;
        const toggleash_ipv6 a = i < 6 ? path : beside;
        toggleash_update u = toggleash_v6_table_announce(whole, a, length, hop, feed, (uint8_t)i);
        update("local announce", toggleash_v6_table_announce_local(touched, a, length, hop, feed, (uint8_t)i), u.refusal, u.hop,
               u.cells);
        same("words of a local announce", 0, (uint64_t)memcmp(words, others, sizeof words));
    }
    same("full", TOGGLEASH_NO_ROOM, toggleash_v6_announce_local(others, ROOM, six(0x02000000, 0, 0, 0), 9, 1, 1, 0).refusal);
    for (uint32_t i = 0; i < 8; i++) {
        const uint32_t length = i < 4 ? 33 : 128, feed = 1 + i % 4;
        const toggleash_ipv6 a = i < 4 ? beside : path;
        toggleash_update u = toggleash_v6_table_withdraw(whole, a, length, feed);
        update("local withdraw", toggleash_v6_table_withdraw_local(touched, a, length, feed), u.refusal, u.hop, u.cells);
        same("words of a local withdraw", 0, (uint64_t)memcmp(words, others, sizeof words));
    }
    counts("all withdrawn", toggleash_v6_table_check(touched), 0, 0, 1);
}

/* A tag of level 9 on the way is wrong: an update below it sees that, one beside it does not and leaves it, and the check does. */
static void local_damage(void) {
    const toggleash_ipv6 path = six(0x01020304, 0x05060708, 0x090A0B0C, 0x0D0E0F10);
    const uint64_t zeros[4] = {0, 0, 0, 0};
    toggleash_v6_table table = TOGGLEASH_V6_TABLE(words);
    uint32_t *tag = words + 10 * 3072; /* a cleared table gives its arrays out in order */
    same("clear", 0, toggleash_v6_table_clear(table));
    update("sixteen arrays", toggleash_v6_table_announce_local(table, path, 128, 1, 1, 0), 0, 1, 1);
    same("its tag", 9 * 8192 + 0x09 * 32 + 9 + 1, *tag);
    *tag += 32;
    memcpy(others, words, sizeof words);
    update("below it", toggleash_v6_table_withdraw_local(table, path, 128, 1), TOGGLEASH_NOT_A_TABLE, 0, 0);
    update("below it", toggleash_v6_table_announce_local(table, path, 128, 2, 1, 0), TOGGLEASH_NOT_A_TABLE, 0, 0);
    same("words of a refused call", 0, (uint64_t)memcmp(words, others, sizeof words));
    update("above it", toggleash_v6_table_announce(table, six(0x01020304, 0x05060708, 0, 0), 64, 2, 1, 0), 2, 0, 0);
    update("above it", toggleash_v6_table_announce_local(table, six(0x01020304, 0x05060708, 0, 0), 64, 2, 1, 0), 0, 2, 1);
    same("words below", 0, (uint64_t)memcmp(words + 9 * 3072, others + 9 * 3072, 8 * 3072 * 4));
    counts("the check", toggleash_v6_table_check(table), TOGGLEASH_NOT_A_TABLE, 0, 0);
    update("announce_local, null", toggleash_v6_announce_local(NULL, 0, path, 129, 0, 0, 0), TOGGLEASH_WORD_COUNT, 0, 0);
    update("withdraw_local, null", toggleash_v6_withdraw_local(NULL, 0, path, 129, 0), TOGGLEASH_WORD_COUNT, 0, 0);
    ran("run_local, null", toggleash_v6_run_local(NULL, 0, NULL, 0, NULL, 0), TOGGLEASH_WORD_COUNT, 0, zeros);
}

/* An IPv4 table is an IPv6 table too; a path of five arrays is deeper than an IPv4 table goes. */
static void depth(void) {
    toggleash_v6_table table = toggleash_v6_table_at(words, 5);
    same("words of 5 arrays", TOGGLEASH_WORDS(5), table.n);
    same("bytes for arrays", 0, toggleash_v6_table_at(words, sizeof words).n);
    same("clear", 0, toggleash_v6_table_clear(table));
    update("announce /33", toggleash_v6_table_announce(table, six(0x20010DB8, 0x80000000, 0, 0), 33, 1, 1, 0), 0, 1, 128);
    counts("an IPv6 table", toggleash_v6_check(words, table.n), 0, 1, 5);
    counts("no IPv4 table", toggleash_check(words, table.n), TOGGLEASH_NOT_A_TABLE, 0, 0);
    update("withdraw /33", toggleash_v6_table_withdraw(table, six(0x20010DB8, 0x80000000, 0, 0), 33, 1), 0, 1, 128);
    update("announce /32", toggleash_announce(words, table.n, 0x20010DB8, 32, 2, 1, 0), 0, 2, 1);
    counts("a table of both", toggleash_check(words, table.n), 0, 1, 4);
    counts("a table of both", toggleash_v6_table_check(table), 0, 1, 4);
    answer("found in both", toggleash_v6_table_find(table, six(0x20010DB8, 1, 2, 3)), 0, 1, 2, 32, 32);
    words[3072 + 2304 + 1]++;
    counts("a total too large", toggleash_v6_table_check(table), TOGGLEASH_NOT_A_TABLE, 0, 0);
}

int main(void) {
    worked_feeds();
    families();
    records();
    levels();
    arguments();
    refused();
    nothing();
    foreign();
    locals();
    local_damage();
    depth();
    return told();
}
