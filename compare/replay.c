/* Prints every field of every answer for records and damaged words that a seed makes, for both families: replay ARRAYS SEED
 * RECORDS. What it prints must not depend on the processor, so two archives are compared by its output (compare/targets). */
#include <inttypes.h>
#include <stdio.h>
#include <stdlib.h>
#include <string.h>
#include "toggleash.h"

#define DAMAGES 2000

/* One lent memory, or bytes, with its length. */
typedef struct {
    uint32_t *at;
    size_t n;
} words;
typedef struct {
    uint8_t *at;
    size_t n;
} bytes;

static uint64_t state;

static uint32_t any(void) {
    state ^= state << 13;
    state ^= state >> 7;
    state ^= state << 17;
    return (uint32_t)(state >> 16);
}

static void *room(size_t count, size_t size) {
    void *at = calloc(count ? count : 1, size);
    if (!at) {
        fputs("replay: no memory\n", stderr);
        exit(2);
    }
    return at;
}

static uint64_t mixed(uint64_t sum, uint64_t value) {
    return (sum ^ value) * 1099511628211u;
}

static uint64_t sum_of_words(words w) {
    uint64_t sum = 0;
    for (size_t i = 0; i < w.n; i++)
        sum = mixed(sum, w.at[i]);
    return sum;
}

static uint64_t sum_of_bytes(const uint8_t *at, uint64_t n) {
    uint64_t sum = 0;
    for (uint64_t i = 0; i < n; i++)
        sum = mixed(sum, at[i]);
    return sum;
}

static void say_update(const char *what, toggleash_update u) {
    printf("%s %" PRIu32 " %" PRIu32 " %" PRIu32 "\n", what, u.refusal, u.hop, u.cells);
}

static void say_answer(const char *what, toggleash_answer a) {
    printf("%s %" PRIu32 " %" PRIu32 " %" PRIu32 " %" PRIu32 " %" PRIu32 "\n", what, a.refusal, a.found, a.hop, a.length,
           a.block);
}

static void say_total(const char *what, toggleash_total t) {
    printf("%s %" PRIu32 " %" PRIu32 "\n", what, t.refusal, t.prefixes);
}

static void say_match(const char *what, toggleash_match m) {
    printf("%s %" PRIu32 " %" PRIu32 " %" PRIu32 " %" PRIu32 "\n", what, m.refusal, m.found, m.hop, m.length);
}

static void say_counts(const char *what, toggleash_counts c) {
    printf("%s %" PRIu32 " %" PRIu32 " %" PRIu32 "\n", what, c.refusal, c.routes, c.arrays);
}

static void say_written(const char *what, toggleash_written w) {
    printf("%s %" PRIu32 " %" PRIu64 "\n", what, w.refusal, w.bytes);
}

static void say_built(const char *what, toggleash_built b) {
    printf("%s %" PRIu32 " %" PRIu64 " %" PRIu64 "\n", what, b.refusal, b.routes, b.markers);
}

/* ---- The families. An address is bytes here, of which IPv4 has the first four. */

typedef toggleash_ipv6 octets;

static uint32_t number(octets a) {
    return (uint32_t)a.bytes[0] << 24 | (uint32_t)a.bytes[1] << 16 | (uint32_t)a.bytes[2] << 8 | a.bytes[3];
}

static toggleash_answer v4_lookup(const uint32_t *at, size_t n, octets a) {
    return toggleash_lookup(at, n, number(a));
}

static toggleash_total v4_within(const uint32_t *at, size_t n, octets a, uint32_t length) {
    return toggleash_within(at, n, number(a), length);
}

static toggleash_update v4_announce(uint32_t *at, size_t n, octets a, uint32_t length, uint32_t hop, uint32_t feed,
                                    uint8_t preference) {
    return toggleash_announce(at, n, number(a), length, hop, feed, preference);
}

static toggleash_update v4_withdraw(uint32_t *at, size_t n, octets a, uint32_t length, uint32_t feed) {
    return toggleash_withdraw(at, n, number(a), length, feed);
}

static toggleash_update v4_announce_local(uint32_t *at, size_t n, octets a, uint32_t length, uint32_t hop, uint32_t feed,
                                          uint8_t preference) {
    return toggleash_announce_local(at, n, number(a), length, hop, feed, preference);
}

static toggleash_update v4_withdraw_local(uint32_t *at, size_t n, octets a, uint32_t length, uint32_t feed) {
    return toggleash_withdraw_local(at, n, number(a), length, feed);
}

/* The calls that come twice: those that test the whole table, and the local ones. */
typedef struct {
    toggleash_update (*announce)(uint32_t *, size_t, octets, uint32_t, uint32_t, uint32_t, uint8_t);
    toggleash_update (*withdraw)(uint32_t *, size_t, octets, uint32_t, uint32_t);
    toggleash_ran (*run)(uint32_t *, size_t, const uint8_t *, size_t, uint8_t *, size_t);
} updates;

/* The bytes of an address, the kinds of records that name a feed and of lookups, and the calls. */
typedef struct {
    size_t bytes;
    uint8_t announces, withdraws, looks_up;
    uint32_t (*clear)(uint32_t *, size_t);
    toggleash_counts (*check)(const uint32_t *, size_t);
    toggleash_answer (*lookup)(const uint32_t *, size_t, octets);
    toggleash_total (*within)(const uint32_t *, size_t, octets, uint32_t);
    toggleash_written (*write_out)(const uint32_t *, size_t, uint8_t *, size_t);
    updates whole, local;
} family;

static const family four = {
    4, TOGGLEASH_KIND_ANNOUNCE_FOR, TOGGLEASH_KIND_WITHDRAW_FOR, TOGGLEASH_KIND_LOOKUP, toggleash_clear, toggleash_check,
    v4_lookup, v4_within, toggleash_write_out, {v4_announce, v4_withdraw, toggleash_run},
    {v4_announce_local, v4_withdraw_local, toggleash_run_local}};
static const family six = {
    16, TOGGLEASH_KIND_V6_ANNOUNCE, TOGGLEASH_KIND_V6_WITHDRAW, TOGGLEASH_KIND_V6_LOOKUP, toggleash_v6_clear,
    toggleash_v6_check, toggleash_v6_lookup, toggleash_v6_within, toggleash_v6_write_out,
    {toggleash_v6_announce, toggleash_v6_withdraw, toggleash_v6_run},
    {toggleash_v6_announce_local, toggleash_v6_withdraw_local, toggleash_v6_run_local}};

/* ---- Records */

/* An address: mostly one of a few networks, so that records meet. */
static octets address(const family *f) {
    octets a = {{0}};
    for (size_t i = 0; i < f->bytes; i++)
        a.bytes[i] = any();
    if (any() % 4 == 0)
        return a;
    a.bytes[0] = 10;
    for (size_t i = 1; i < f->bytes - 2; i++)
        a.bytes[i] &= i == 1 ? 3 : i % 5 == 0;
    a.bytes[f->bytes - 1] &= 0x7F;
    return a;
}

/* The address with all bits after the length 0. */
static octets cut(octets a, uint32_t length) {
    for (uint32_t bit = length; bit < 128; bit++)
        a.bytes[bit / 8] &= ~(0x80 >> bit % 8);
    return a;
}

/* What an update names: its prefix, and the feed with its preference and hop. */
typedef struct {
    octets address;
    uint32_t length, hop, feed;
    uint8_t preference;
} candidate;

static void put(bytes *feed, uint32_t byte) {
    feed->at[feed->n++] = (uint8_t)byte;
}

/* A record's kind and address; the rest is put after it. */
static void add(bytes *feed, const family *f, uint8_t kind, octets a) {
    put(feed, kind);
    memcpy(feed->at + feed->n, a.bytes, f->bytes);
    feed->n += f->bytes;
}

/* Few lengths, hops, feeds and addresses are wrong ones, and few preferences are high ones. */
static candidate any_candidate(const family *f) {
    uint32_t most = 8 * (uint32_t)f->bytes;
    candidate c = {.address = address(f), .length = any() % 64 ? any() % (most + 1) : any() % 256};
    if (c.length <= most && any() % 30)
        c.address = cut(c.address, c.length);
    c.hop = any() % 50 ? 1 + any() % 7 : any() % 65536;
    c.feed = any() % 40 ? 1 + any() % 4 : any() % 256;
    c.preference = any() % 5 ? any() % 3 : any() % 256;
    return c;
}

/* One record by its own call, on the second table by the local one, and added to the feed, by either kind where both can
 * say it. */
static void record(const family *f, words table, words near, bytes *feed) {
    uint32_t choice = any() % 10, plain = any() % 2;
    candidate c = any_candidate(f);
    plain = plain && c.feed == 1 && f == &four;
    if (choice >= 8) {
        c.address = address(f);
        add(feed, f, f->looks_up, c.address);
        say_answer("lookup", f->lookup(table.at, table.n, c.address));
        return;
    }
    if (choice >= 5) {
        add(feed, f, plain ? TOGGLEASH_KIND_WITHDRAW : f->withdraws, c.address);
        put(feed, c.length);
        if (!plain)
            put(feed, c.feed);
        say_update("withdraw", f->whole.withdraw(table.at, table.n, c.address, c.length, c.feed));
        say_update("withdraw_local", f->local.withdraw(near.at, near.n, c.address, c.length, c.feed));
        return;
    }
    if (plain)
        c.preference = 0;
    add(feed, f, plain ? TOGGLEASH_KIND_ANNOUNCE : f->announces, c.address);
    put(feed, c.length), put(feed, c.hop >> 8), put(feed, c.hop);
    if (!plain)
        put(feed, c.feed), put(feed, c.preference);
    say_update("announce", f->whole.announce(table.at, table.n, c.address, c.length, c.hop, c.feed, c.preference));
    say_update("announce_local", f->local.announce(near.at, near.n, c.address, c.length, c.hop, c.feed, c.preference));
}

/* A feed as one run, and the words then. */
static void run(const updates *u, words table, bytes feed, bytes reply) {
    toggleash_ran r = u->run(table.at, table.n, feed.at, feed.n, reply.at, reply.n);
    printf("run %" PRIu32 " %" PRIu32 " %" PRIu64 " %" PRIu64 " %" PRIu64 " %" PRIu64 "\n", r.refusal, r.stop, r.consumed,
           r.written, r.accepted, r.refused);
    printf("replies %016" PRIx64 " words %016" PRIx64 "\n", sum_of_bytes(reply.at, r.written), sum_of_words(table));
}

/* The same table twice: by calls that test it whole, and by the local ones. */
typedef struct {
    words whole, local;
} pair;

/* The records one by one on two tables, and as one run on two others; then the run again on words damaged more and more. */
static void records(const family *f, pair tables, pair others, size_t count) {
    bytes feed = {room((f->bytes + 6) * count + 1, 1), 0}, reply = {room(5 * count, 1), 5 * count};
    for (size_t i = 0; i < count; i++)
        record(f, tables.whole, tables.local, &feed);
    put(&feed, TOGGLEASH_KIND_END);
    printf("words %016" PRIx64 " %016" PRIx64 "\n", sum_of_words(tables.whole), sum_of_words(tables.local));
    run(&f->whole, others.whole, feed, reply);
    run(&f->local, others.local, feed, reply);
    for (size_t i = 0; i < DAMAGES; i++) {
        candidate c = any_candidate(f);
        words near = others.local;
        near.at[any() % near.n] ^= 1u << any() % 32;
        say_update("announce_local, damaged",
                   f->local.announce(near.at, near.n, c.address, c.length, c.hop, c.feed, c.preference));
        c = any_candidate(f);
        say_update("withdraw_local, damaged", f->local.withdraw(near.at, near.n, c.address, c.length, c.feed));
    }
    run(&f->local, others.local, feed, reply);
    free(feed.at);
    free(reply.at);
}

/* The table's list as it is written out. */
static bytes written(const family *f, words table) {
    toggleash_counts counts = f->check(table.at, table.n);
    size_t size = (f->bytes + 6) * (size_t)counts.routes + 1;
    bytes list = {room(size, 1), size};
    say_counts("check", counts);
    say_written("written, short", f->write_out(table.at, table.n, list.at, list.n - 1));
    say_written("written", f->write_out(table.at, table.n, list.at, list.n));
    printf("list %016" PRIx64 "\n", sum_of_bytes(list.at, list.n));
    return list;
}

/* The copy of a list, and what goes before it. */
static words copied(bytes list) {
    toggleash_needed need = toggleash_copy_need(list.at, list.n);
    printf("need %" PRIu32 " %" PRIu64 "\n", need.refusal, need.words);
    words copy = {room((size_t)need.words, sizeof(uint32_t)), (size_t)need.words};
    say_built("built, short", toggleash_copy_build(list.at, list.n, copy.at, copy.n - 1));
    say_built("built", toggleash_copy_build(list.at, list.n, copy.at, copy.n));
    printf("copy %016" PRIx64 "\n", sum_of_words(copy));
    return copy;
}

/* Lookups and counts in a table, after what its words are. */
static void looks(const family *f, words table) {
    candidate c = any_candidate(f);
    say_answer("lookup", f->lookup(table.at, table.n, address(f)));
    say_total("within", f->within(table.at, table.n, c.address, c.length));
}

/* One bit of the words turned, the calls on them, and the bit turned back. */
static void damage(const family *f, words table) {
    uint32_t bit = 1u << any() % 32, *word = &table.at[any() % table.n];
    *word ^= bit;
    say_counts("check, damaged", f->check(table.at, table.n));
    looks(f, table);
    *word ^= bit;
}

static void damage_copy(words copy) {
    uint32_t bit = 1u << any() % 32, *word = &copy.at[any() % copy.n], a = number(address(&four));
    say_match("copy lookup", toggleash_copy_lookup(copy.at, copy.n, a));
    *word ^= bit;
    say_match("copy lookup, damaged", toggleash_copy_lookup(copy.at, copy.n, a));
    *word ^= bit;
}

/* A family's calls on foreign words, on a table of random records, and on what little damage leaves of it. */
static void replay(const family *f, pair tables, pair others, size_t many) {
    words all[4] = {tables.whole, tables.local, others.whole, others.local}, table = tables.whole;
    for (size_t i = 0; i < table.n; i++)
        table.at[i] = any();
    say_counts("check, foreign", f->check(table.at, table.n));
    looks(f, table);
    for (size_t i = 0; i < 4; i++)
        printf("clear %" PRIu32 "\n", f->clear(all[i].at, all[i].n));
    records(f, tables, others, many);
    for (size_t i = 0; i < many; i++)
        looks(f, table);
    for (size_t i = 0; i < DAMAGES; i++)
        damage(f, table);
    bytes list = written(f, table);
    if (f == &four) {
        words copy = copied(list);
        for (size_t i = 0; i < DAMAGES; i++)
            damage_copy(copy);
        free(copy.at);
    }
    free(list.at);
}

static pair two(size_t n) {
    pair tables = {{room(n, sizeof(uint32_t)), n}, {room(n, sizeof(uint32_t)), n}};
    return tables;
}

int main(int count, char **word) {
    if (count != 4) {
        fputs("replay ARRAYS SEED RECORDS\n", stderr);
        return 2;
    }
    size_t n = TOGGLEASH_WORDS(strtoul(word[1], NULL, 10)), many = strtoul(word[3], NULL, 10);
    pair tables = two(n), others = two(n);
    state = strtoull(word[2], NULL, 10) * 0x9E3779B97F4A7C15u + 1;
    replay(&four, tables, others, many);
    replay(&six, tables, others, many);
    return 0;
}
