/* Lookups beside updates: two tables and a swap. Readers look up in the one table while the writer changes the other; then
 * the writer swaps them, waits until no reader is left in the old one, and brings that up to date too. A reader is never
 * kept waiting, and never sees half a feed. After ./build, from the repository:
 *
 *   cc -Ibindings/c bindings/c/swap.c target/native/$(uname -m)/libtoggleash.a -pthread -o target/swap && target/swap
 *
 * C11 atomics, in sequential order (what atomic_load and atomic_store do by default): a reader says where it is and then
 * looks at `current` again, the writer changes `current` and then looks where the readers are. In any one order of these
 * four the reader goes back, or the writer sees it. With a weaker order both may miss each other. */
#include <pthread.h>
#include <sched.h>
#include <stdalign.h>
#include <stdatomic.h>
#include <stdio.h>
#include <string.h>
#include "toggleash.h"

#define READERS 3
#define CHANGES 1000

enum { NOWHERE = 2 };

typedef struct {
    alignas(64) atomic_uint where; /* the table that the reader is in, or NOWHERE; a cache line for each */
} reader;

typedef struct {
    toggleash_table tables[2];
    atomic_uint current; /* the table to look up in */
    reader readers[READERS];
} pair;

/* The table that this reader may look up in until it leaves. Once for each batch of packets is enough. */
static toggleash_table enter(pair *p, unsigned me) {
    for (;;) {
        unsigned table = atomic_load(&p->current);
        atomic_store(&p->readers[me].where, table);
        if (atomic_load(&p->current) == table)
            return p->tables[table];
    }
}

static void leave(pair *p, unsigned me) {
    atomic_store(&p->readers[me].where, NOWHERE);
}

/* Runs the feed into both tables. For one writer: where there are several, they take turns by a lock of their own. Returns
 * what the run did, which is the same in both, as they hold the same routes. */
static toggleash_ran update(pair *p, const uint8_t *feed, size_t feed_len, uint8_t *reply, size_t reply_len) {
    unsigned old = atomic_load(&p->current);
    toggleash_ran ran = toggleash_table_run(p->tables[1 - old], feed, feed_len, reply, reply_len);
    atomic_store(&p->current, 1 - old);
    for (unsigned i = 0; i < READERS; i++)
        while (atomic_load(&p->readers[i].where) == old)
            sched_yield(); /* the reader may have to go on on this processor */
    toggleash_ran again = toggleash_table_run(p->tables[old], feed, feed_len, reply, reply_len);
    if (memcmp(&ran, &again, sizeof ran) != 0)
        ran.refusal = TOGGLEASH_NOT_A_TABLE; /* not possible while both hold the same routes */
    return ran;
}

/* ---- The trial: each feed gives two prefixes the same hop, so a reader that finds two hops has seen half a feed. It goes
 * on until the readers have seen CHANGES of it. */

static uint32_t words[2][TOGGLEASH_WORDS(8)];
static pair both;
static atomic_uint finished, wrong, changes;

static void *read_on(void *number) {
    unsigned me = *(unsigned *)number;
    uint32_t last = 0;
    while (!atomic_load(&finished)) {
        toggleash_table table = enter(&both, me);
        toggleash_answer one = toggleash_table_find(table, 0x0A010509);
        sched_yield(); /* in the middle, so that the writer has every chance to do harm */
        toggleash_answer two = toggleash_table_find(table, 0xC0000201);
        leave(&both, me);
        if (one.refusal || two.refusal || !one.found || one.hop != two.hop || one.hop < last)
            atomic_fetch_add(&wrong, 1);
        if (one.hop != last)
            atomic_fetch_add(&changes, 1);
        last = one.hop;
    }
    return NULL;
}

/* 10.1.4.0/22 and 192.0.2.0/24 via hop, and between them a hundred routes that come and go. */
static size_t feed_of(uint32_t hop, uint8_t *feed) {
    uint8_t *at = feed, high = (uint8_t)(hop >> 8), low = (uint8_t)hop;
    memcpy(at, (uint8_t[]){TOGGLEASH_KIND_ANNOUNCE, 10, 1, 4, 0, 22, high, low}, 8);
    at += 8;
    for (uint8_t i = 0; i < 100; i++, at += hop % 2 ? 8 : 6)
        memcpy(at, (uint8_t[]){hop % 2 ? TOGGLEASH_KIND_ANNOUNCE : TOGGLEASH_KIND_WITHDRAW, 10, 2, i, 0, 24, 0, 1}, 8);
    memcpy(at, (uint8_t[]){TOGGLEASH_KIND_ANNOUNCE, 192, 0, 2, 0, 24, high, low}, 8);
    at[8] = TOGGLEASH_KIND_END;
    return (size_t)(at + 9 - feed);
}

/* The number of feeds, and how many of them were not taken as a whole. */
static unsigned write_on(unsigned *bad) {
    uint8_t feed[102 * TOGGLEASH_RECORD_MOST + 1], reply[102 * TOGGLEASH_REPLY_MOST];
    uint32_t hop = 1;
    while (atomic_load(&changes) < CHANGES && hop < TOGGLEASH_MOST_HOP) {
        hop++;
        toggleash_ran ran = update(&both, feed, feed_of(hop, feed), reply, sizeof reply);
        *bad += ran.refusal != 0 || ran.stop != TOGGLEASH_STOP_END || ran.accepted + ran.refused != 102;
        sched_yield();
    }
    return hop - 1;
}

int main(void) {
    static const uint8_t first[] = {1, 10, 1, 4, 0, 22, 0, 1, 1, 192, 0, 2, 0, 24, 0, 1, 0};
    uint8_t reply[2 * TOGGLEASH_REPLY_MOST];
    pthread_t threads[READERS];
    unsigned numbers[READERS], bad = 0;
    for (unsigned i = 0; i < 2; i++) {
        both.tables[i] = TOGGLEASH_TABLE(words[i]);
        bad += toggleash_table_clear(both.tables[i]) != 0;
        bad += toggleash_table_run(both.tables[i], first, sizeof first, reply, sizeof reply).accepted != 2;
    }
    for (unsigned i = 0; i < READERS; i++) {
        numbers[i] = i;
        atomic_store(&both.readers[i].where, NOWHERE);
    }
    for (unsigned i = 0; i < READERS; i++)
        if (pthread_create(&threads[i], NULL, read_on, &numbers[i]) != 0)
            return 1;
    unsigned feeds = write_on(&bad);
    atomic_store(&finished, 1);
    for (unsigned i = 0; i < READERS; i++)
        bad += pthread_join(threads[i], NULL) != 0;
    printf("%u feeds, seen to change %u times, %u answers wrong, %u feeds wrong\n", feeds, atomic_load(&changes),
           atomic_load(&wrong), bad);
    return bad != 0 || atomic_load(&wrong) != 0 || atomic_load(&changes) < CHANGES;
}
