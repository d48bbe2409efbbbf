/* Two archives of the library in one program, by turns: two OLD.so NEW.so. Prints for each list what a lookup, an update inside a
 * run and the check take with either, the least of the rounds, and the new one's time over the old one's, the median of the rounds;
 * and, where the new one has toggleash_within, its time over that of a lookup. Of the last list there are updates that gain and
 * free arrays too. bench/two builds and runs it. */
#define _GNU_SOURCE
#include <dlfcn.h>
#include <stdio.h>
#include <stdlib.h>
#include <string.h>
#include <time.h>
#define TOGGLEASH_ARCHIVE /* neither archive is linked */
#include "toggleash.h"

#define ARRAYS 4096
#define WORDS TOGGLEASH_WORDS(ARRAYS)
#define ROUNDS 15
#define LOOKUPS 1000000
#define UPDATES 1000000
#define FEW 32 /* prefixes that are taken out and put back, so that what they touch is warm */

typedef struct {
    __typeof__(toggleash_clear) *clear;
    __typeof__(toggleash_check) *check;
    __typeof__(toggleash_lookup) *lookup;
    __typeof__(toggleash_run) *run;
    __typeof__(toggleash_within) *within; /* null in an archive that lacks it */
    uint32_t *words;
} archive;

typedef struct {
    uint32_t address, length;
} prefix;

/* How the lists are made: so many random routes of these lengths, or until no more fit, in so many of the first bytes. */
typedef struct {
    const char *name;
    size_t routes;
    uint32_t least, most, bytes;
} kind;

static const kind kinds[] = {
    {"4,000 routes of 9 to 24 bits", 4000, 9, 24, 256},
    {"3,000 routes of 9 to 32 bits", 3000, 9, 32, 256},
    {"200,000 routes of 8 to 20 bits in 16 first bytes", 200000, 8, 20, 16},
    {"5,600 routes of 1 to 32 bits", 5600, 1, 32, 256},
    {"3,000 routes of 9 to 24 bits in 224 first bytes", 3000, 9, 24, 224},
};
enum { KINDS = sizeof kinds / sizeof *kinds };

static uint64_t state = 88172645463325252u;

static uint32_t any(void) {
    state ^= state << 13;
    state ^= state >> 7;
    state ^= state << 17;
    return (uint32_t)(state >> 16);
}

static void *room(size_t count, size_t size) {
    void *at = calloc(count, size);
    if (!at)
        exit((fputs("two: no memory\n", stderr), 2));
    return at;
}

static double worked(void) {
    struct timespec t;
    clock_gettime(CLOCK_THREAD_CPUTIME_ID, &t);
    return (double)t.tv_sec * 1e9 + (double)t.tv_nsec;
}

static archive opened(const char *name) {
    void *library = dlopen(name, RTLD_NOW | RTLD_LOCAL);
    if (!library)
        exit((fprintf(stderr, "two: %s\n", dlerror()), 2));
    archive a = {.words = room(WORDS, sizeof(uint32_t))};
    *(void **)&a.clear = dlsym(library, "toggleash_clear");
    *(void **)&a.check = dlsym(library, "toggleash_check");
    *(void **)&a.lookup = dlsym(library, "toggleash_lookup");
    *(void **)&a.run = dlsym(library, "toggleash_run");
    *(void **)&a.within = dlsym(library, "toggleash_within");
    return a;
}

/* A record of kind 1 or, without its hop, of kind 2. Gives its size. */
static size_t record(uint8_t *at, uint8_t sort, prefix p, uint8_t hop) {
    const uint8_t bytes[8] = {sort, p.address >> 24, p.address >> 16, p.address >> 8, p.address, p.length, 0, hop};
    size_t size = sort == TOGGLEASH_KIND_ANNOUNCE ? 8 : 6;
    memcpy(at, bytes, size);
    return size;
}

static prefix any_prefix(const kind *k) {
    prefix p = {any(), k->least + any() % (k->most - k->least + 1)};
    p.address = p.address % (k->bytes << 24 ? k->bytes << 24 : UINT32_MAX) & UINT32_MAX << (32 - p.length);
    return p;
}

/* Both tables hold the same routes; those are given that are held, one after another in `held`. */
static size_t fill(archive *two, const kind *k, prefix *held) {
    uint8_t *feed = room(k->routes, 8), *reply = room(k->routes, 5);
    prefix *sent = room(k->routes, sizeof *sent);
    size_t size = 0, count = 0;
    for (size_t i = 0; i < k->routes; i++) {
        sent[i] = any_prefix(k);
        size += record(feed + size, TOGGLEASH_KIND_ANNOUNCE, sent[i], 1);
    }
    for (int i = 0; i < 2; i++) {
        if (two[i].clear(two[i].words, WORDS) || two[i].run(two[i].words, WORDS, feed, size, reply, 5 * k->routes).refusal)
            exit((fputs("two: refused\n", stderr), 2));
    }
    const uint8_t *at = reply;
    for (size_t i = 0; i < k->routes; i++) {
        if (*at == TOGGLEASH_KIND_DONE)
            held[count++] = sent[i];
        at += *at == TOGGLEASH_KIND_DONE ? 5 : 2;
    }
    free(feed), free(reply), free(sent);
    return count;
}

/* Addresses and prefixes to ask for, and the feed of updates. */
static uint32_t addresses[LOOKUPS];
static prefix asked[LOOKUPS];
static uint8_t feed[8 * UPDATES], reply[5 * UPDATES];
static size_t feed_size;
static volatile uint32_t seen;

static double lookups(const archive *a) {
    uint32_t sum = 0;
    double start = worked();
    for (size_t i = 0; i < LOOKUPS; i++)
        sum += a->lookup(a->words, WORDS, addresses[i]).hop;
    seen = sum;
    return (worked() - start) / LOOKUPS;
}

static double withins(const archive *a) {
    uint32_t sum = 0;
    double start = worked();
    for (size_t i = 0; i < LOOKUPS; i++)
        sum += a->within(a->words, WORDS, asked[i].address, asked[i].length).prefixes;
    seen = sum;
    return (worked() - start) / LOOKUPS;
}

/* A run of so many bytes of the feed. */
static double run(const archive *a, size_t size) {
    double start = worked();
    toggleash_ran ran = a->run(a->words, WORDS, feed, size, reply, sizeof reply);
    double time = worked() - start;
    if (ran.refusal || ran.refused || ran.consumed != size)
        exit((fputs("two: an update is refused\n", stderr), 2));
    return time;
}

/* An update of the feed, without what a run takes before its first record: the test of the table. */
static double updates(const archive *a) {
    return (run(a, feed_size) - run(a, 0)) / UPDATES;
}

static double checks(const archive *a) {
    double start = worked();
    seen = a->check(a->words, WORDS).arrays;
    return worked() - start;
}

static double least(double a, double b) {
    return a < b ? a : b;
}

static int by_size(const void *a, const void *b) {
    double x = *(const double *)a, y = *(const double *)b;
    return (x > y) - (x < y);
}

/* The least time of both by turns, each first in every second round, and the median of the rounds' ratios. */
static void compare(const char *what, archive *two, double (*time)(const archive *)) {
    double best[2] = {1e18, 1e18}, ratios[ROUNDS];
    for (int round = 0; round < ROUNDS; round++) {
        double took[2];
        for (int turn = 0; turn < 2; turn++) {
            int i = (round + turn) % 2;
            took[i] = time(&two[i]);
            best[i] = least(best[i], took[i]);
        }
        ratios[round] = took[1] / took[0];
    }
    qsort(ratios, ROUNDS, sizeof *ratios, by_size);
    printf("  %-36s %12.1f ns %12.1f ns  new/old %.2f\n", what, best[0], best[1], ratios[ROUNDS / 2]);
}

/* The same of a lookup and of within, with the new archive. */
static void beside(const char *what, const archive *new) {
    double lookup = 1e18, within = 1e18;
    for (int round = 0; new->within && round < ROUNDS; round++) {
        lookup = least(lookup, lookups(new));
        within = least(within, withins(new));
    }
    if (new->within)
        printf("  %-36s %12.1f ns %12.1f ns  within/lookup %.2f\n", what, lookup, within, within / lookup);
}

/* So few of the prefixes, spread over the list. */
static prefix one_of(const prefix *held, size_t count) {
    return held[any() % FEW * (count / FEW)];
}

/* Routes taken out and put back, as one feed. */
static void flap(const prefix *held, size_t count) {
    feed_size = 0;
    for (size_t i = 0; i < UPDATES / 2; i++) {
        prefix p = one_of(held, count);
        feed_size += record(feed + feed_size, TOGGLEASH_KIND_WITHDRAW, p, 0);
        feed_size += record(feed + feed_size, TOGGLEASH_KIND_ANNOUNCE, p, 1);
    }
}

/* Routes that get another hop and their own again. */
static void rehop(const prefix *held, size_t count) {
    feed_size = 0;
    for (size_t i = 0; i < UPDATES / 2; i++) {
        prefix p = one_of(held, count);
        feed_size += record(feed + feed_size, TOGGLEASH_KIND_ANNOUNCE, p, 2);
        feed_size += record(feed + feed_size, TOGGLEASH_KIND_ANNOUNCE, p, 1);
    }
}

/* A prefix that lacks one array, below that of a held prefix of 17 bits or more, or three, below a first byte that has none. No
 * list but the last has room for them and no route over 24 bits. */
static prefix lacking(const prefix *held, size_t count, int arrays) {
    prefix p = held[any() % count];
    while (p.length < 17)
        p = held[any() % count];
    uint32_t address = arrays == 1 ? p.address >> 16 << 16 | any() % 65536 : any() | 224u << 24;
    uint32_t length = 25 + any() % 8;
    return (prefix){address & UINT32_MAX << (32 - length), length};
}

/* Such prefixes announced and withdrawn again. */
static void gain(archive *two, const prefix *held, size_t count, int arrays) {
    prefix few[FEW];
    for (int i = 0; i < FEW; i++) {
        few[i] = lacking(held, count, arrays);
        uint32_t used = two[1].words[0];
        run(&two[1], record(feed, TOGGLEASH_KIND_ANNOUNCE, few[i], 1));
        if (two[1].words[0] != used + arrays)
            exit((fputs("two: another number of arrays is gained\n", stderr), 2));
        run(&two[1], record(feed, TOGGLEASH_KIND_WITHDRAW, few[i], 0));
    }
    feed_size = 0;
    for (size_t i = 0; i < UPDATES / 2; i++) {
        prefix p = few[any() % FEW];
        feed_size += record(feed + feed_size, TOGGLEASH_KIND_ANNOUNCE, p, 1);
        feed_size += record(feed + feed_size, TOGGLEASH_KIND_WITHDRAW, p, 0);
    }
}

/* Held prefixes and their addresses, or random addresses and prefixes of any length around them. */
static void ask(const prefix *held, size_t count, int of_held) {
    for (size_t i = 0; i < LOOKUPS; i++) {
        prefix p = held[any() % count];
        uint32_t length = of_held ? p.length : any() % 33;
        addresses[i] = of_held ? p.address : any();
        asked[i] = (prefix){length ? addresses[i] & UINT32_MAX << (32 - length) : 0, length};
    }
}

int main(int words, char **word) {
    if (words != 3)
        return fputs("two OLD.so NEW.so\n", stderr), 2;
    archive two[2] = {opened(word[1]), opened(word[2])};
    prefix *held = room(200000, sizeof *held);
    for (size_t i = 0; i < KINDS; i++) {
        size_t count = fill(two, &kinds[i], held);
        toggleash_counts counts = two[1].check(two[1].words, WORDS);
        printf("%s: %u prefixes, %u arrays\n", kinds[i].name, counts.routes, counts.arrays);
        ask(held, count, 0);
        compare("lookup, random addresses", two, lookups);
        beside("within, random prefixes", &two[1]);
        ask(held, count, 1);
        compare("lookup, addresses of held prefixes", two, lookups);
        beside("within, held prefixes", &two[1]);
        rehop(held, count);
        compare("update inside a run, another hop", two, updates);
        flap(held, count);
        compare("the same, withdrawn and announced", two, updates);
        for (int arrays = 1; i == KINDS - 1 && arrays < 4; arrays += 2) {
            gain(two, held, count, arrays);
            compare(arrays == 1 ? "the same, an array gained and freed" : "the same, three gained and freed", two, updates);
        }
        compare("check", two, checks);
    }
    return 0;
}
