/* The C face for any processor. The proved functions of the kit's module take a slice as its start and a length of 64 bits, and
 * every IPv6 address and answer by pointer, whatever the calling convention; this file turns that into the calls of toggleash.h, by
 * the convention of the processor that it is compiled for. ./build compiles it together with the module, so that a call costs
 * next to nothing more. */
#define TOGGLEASH_ARCHIVE
#include "toggleash.h"
#include "slice.h"

/* The layout of an IPv6 address and of each answer. */
LAID_OUT(ipv6, 16, bytes, uint8_t[16]);
LAID_OUT(counts, 12, arrays, uint32_t);
LAID_OUT(answer, 20, block, uint32_t);
LAID_OUT(total, 8, prefixes, uint32_t);
LAID_OUT(match, 16, length, uint32_t);
LAID_OUT(update, 12, cells, uint32_t);
LAID_OUT(written, 16, bytes, uint64_t);
LAID_OUT(ran, 40, refused, uint64_t);
LAID_OUT(needed, 16, words, uint64_t);
LAID_OUT(built, 24, markers, uint64_t);

/* The proved functions, under the names that ./build gives them in the module. */
uint32_t proved_clear(SLICE(words));
void proved_check(toggleash_counts *r, SLICE(words));
void proved_lookup(toggleash_answer *r, SLICE(words), uint32_t address);
void proved_within(toggleash_total *r, SLICE(words), uint32_t address, uint32_t length);
void proved_announce(toggleash_update *r, SLICE(words), uint32_t address, uint32_t length, uint32_t hop, uint32_t feed,
                     uint8_t preference);
void proved_withdraw(toggleash_update *r, SLICE(words), uint32_t address, uint32_t length, uint32_t feed);
void proved_write_out(toggleash_written *r, SLICE(words), SLICE(buffer));
void proved_run(toggleash_ran *r, SLICE(words), SLICE(feed), SLICE(reply));
void proved_announce_local(toggleash_update *r, SLICE(words), uint32_t address, uint32_t length, uint32_t hop, uint32_t feed,
                           uint8_t preference);
void proved_withdraw_local(toggleash_update *r, SLICE(words), uint32_t address, uint32_t length, uint32_t feed);
void proved_run_local(toggleash_ran *r, SLICE(words), SLICE(feed), SLICE(reply));
uint32_t proved_v6_clear(SLICE(words));
void proved_v6_check(toggleash_counts *r, SLICE(words));
void proved_v6_lookup(toggleash_answer *r, SLICE(words), toggleash_ipv6 *address);
void proved_v6_within(toggleash_total *r, SLICE(words), toggleash_ipv6 *address, uint32_t length);
void proved_v6_announce(toggleash_update *r, SLICE(words), toggleash_ipv6 *address, uint32_t length, uint32_t hop,
                        uint32_t feed, uint8_t preference);
void proved_v6_withdraw(toggleash_update *r, SLICE(words), toggleash_ipv6 *address, uint32_t length, uint32_t feed);
void proved_v6_write_out(toggleash_written *r, SLICE(words), SLICE(buffer));
void proved_v6_run(toggleash_ran *r, SLICE(words), SLICE(feed), SLICE(reply));
void proved_v6_announce_local(toggleash_update *r, SLICE(words), toggleash_ipv6 *address, uint32_t length, uint32_t hop,
                              uint32_t feed, uint8_t preference);
void proved_v6_withdraw_local(toggleash_update *r, SLICE(words), toggleash_ipv6 *address, uint32_t length, uint32_t feed);
void proved_v6_run_local(toggleash_ran *r, SLICE(words), SLICE(feed), SLICE(reply));
void proved_copy_need(toggleash_needed *r, SLICE(bytes));
void proved_copy_build(toggleash_built *r, SLICE(bytes), SLICE(words));
void proved_copy_lookup(toggleash_match *r, SLICE(words), uint32_t address);

/* The version is in the name. */
#define JOINED_(start, end) start##end
#define JOINED(start, end) JOINED_(start, end)
uint32_t JOINED(proved_version_, TOGGLEASH_VERSION)(void);

uint32_t JOINED(toggleash_version_, TOGGLEASH_VERSION)(void) {
    return JOINED(proved_version_, TOGGLEASH_VERSION)();
}

uint32_t toggleash_clear(uint32_t *words, size_t n) {
    return proved_clear(OF(words, n));
}

toggleash_counts toggleash_check(const uint32_t *words, size_t n) {
    toggleash_counts r;
    proved_check(&r, OF(words, n));
    return r;
}

toggleash_answer toggleash_lookup(const uint32_t *words, size_t n, uint32_t address) {
    toggleash_answer r;
    proved_lookup(&r, OF(words, n), address);
    return r;
}

toggleash_total toggleash_within(const uint32_t *words, size_t n, uint32_t address, uint32_t length) {
    toggleash_total r;
    proved_within(&r, OF(words, n), address, length);
    return r;
}

toggleash_update toggleash_announce(uint32_t *words, size_t n, uint32_t address, uint32_t length, uint32_t hop,
                                    uint32_t feed, uint8_t preference) {
    toggleash_update r;
    proved_announce(&r, OF(words, n), address, length, hop, feed, preference);
    return r;
}

toggleash_update toggleash_withdraw(uint32_t *words, size_t n, uint32_t address, uint32_t length, uint32_t feed) {
    toggleash_update r;
    proved_withdraw(&r, OF(words, n), address, length, feed);
    return r;
}

toggleash_written toggleash_write_out(const uint32_t *words, size_t n, uint8_t *buffer, size_t room) {
    toggleash_written r;
    proved_write_out(&r, OF(words, n), OF(buffer, room));
    return r;
}

toggleash_ran toggleash_run(uint32_t *words, size_t n, const uint8_t *feed, size_t feed_len, uint8_t *reply,
                            size_t reply_len) {
    toggleash_ran r;
    proved_run(&r, OF(words, n), OF(feed, feed_len), OF(reply, reply_len));
    return r;
}

toggleash_update toggleash_announce_local(uint32_t *words, size_t n, uint32_t address, uint32_t length, uint32_t hop,
                                          uint32_t feed, uint8_t preference) {
    toggleash_update r;
    proved_announce_local(&r, OF(words, n), address, length, hop, feed, preference);
    return r;
}

toggleash_update toggleash_withdraw_local(uint32_t *words, size_t n, uint32_t address, uint32_t length, uint32_t feed) {
    toggleash_update r;
    proved_withdraw_local(&r, OF(words, n), address, length, feed);
    return r;
}

toggleash_ran toggleash_run_local(uint32_t *words, size_t n, const uint8_t *feed, size_t feed_len, uint8_t *reply,
                                  size_t reply_len) {
    toggleash_ran r;
    proved_run_local(&r, OF(words, n), OF(feed, feed_len), OF(reply, reply_len));
    return r;
}

uint32_t toggleash_v6_clear(uint32_t *words, size_t n) {
    return proved_v6_clear(OF(words, n));
}

toggleash_counts toggleash_v6_check(const uint32_t *words, size_t n) {
    toggleash_counts r;
    proved_v6_check(&r, OF(words, n));
    return r;
}

toggleash_answer toggleash_v6_lookup(const uint32_t *words, size_t n, toggleash_ipv6 address) {
    toggleash_answer r;
    proved_v6_lookup(&r, OF(words, n), &address);
    return r;
}

toggleash_total toggleash_v6_within(const uint32_t *words, size_t n, toggleash_ipv6 address, uint32_t length) {
    toggleash_total r;
    proved_v6_within(&r, OF(words, n), &address, length);
    return r;
}

toggleash_update toggleash_v6_announce(uint32_t *words, size_t n, toggleash_ipv6 address, uint32_t length, uint32_t hop,
                                       uint32_t feed, uint8_t preference) {
    toggleash_update r;
    proved_v6_announce(&r, OF(words, n), &address, length, hop, feed, preference);
    return r;
}

toggleash_update toggleash_v6_withdraw(uint32_t *words, size_t n, toggleash_ipv6 address, uint32_t length,
                                       uint32_t feed) {
    toggleash_update r;
    proved_v6_withdraw(&r, OF(words, n), &address, length, feed);
    return r;
}

toggleash_written toggleash_v6_write_out(const uint32_t *words, size_t n, uint8_t *buffer, size_t room) {
    toggleash_written r;
    proved_v6_write_out(&r, OF(words, n), OF(buffer, room));
    return r;
}

toggleash_ran toggleash_v6_run(uint32_t *words, size_t n, const uint8_t *feed, size_t feed_len, uint8_t *reply,
                               size_t reply_len) {
    toggleash_ran r;
    proved_v6_run(&r, OF(words, n), OF(feed, feed_len), OF(reply, reply_len));
    return r;
}

toggleash_update toggleash_v6_announce_local(uint32_t *words, size_t n, toggleash_ipv6 address, uint32_t length,
                                             uint32_t hop, uint32_t feed, uint8_t preference) {
    toggleash_update r;
    proved_v6_announce_local(&r, OF(words, n), &address, length, hop, feed, preference);
    return r;
}

toggleash_update toggleash_v6_withdraw_local(uint32_t *words, size_t n, toggleash_ipv6 address, uint32_t length,
                                             uint32_t feed) {
    toggleash_update r;
    proved_v6_withdraw_local(&r, OF(words, n), &address, length, feed);
    return r;
}

toggleash_ran toggleash_v6_run_local(uint32_t *words, size_t n, const uint8_t *feed, size_t feed_len, uint8_t *reply,
                                     size_t reply_len) {
    toggleash_ran r;
    proved_v6_run_local(&r, OF(words, n), OF(feed, feed_len), OF(reply, reply_len));
    return r;
}

toggleash_needed toggleash_copy_need(const uint8_t *bytes, size_t bytes_len) {
    toggleash_needed r;
    proved_copy_need(&r, OF(bytes, bytes_len));
    return r;
}

toggleash_built toggleash_copy_build(const uint8_t *bytes, size_t bytes_len, uint32_t *words, size_t n) {
    toggleash_built r;
    proved_copy_build(&r, OF(bytes, bytes_len), OF(words, n));
    return r;
}

toggleash_match toggleash_copy_lookup(const uint32_t *words, size_t n, uint32_t address) {
    toggleash_match r;
    proved_copy_lookup(&r, OF(words, n), address);
    return r;
}
