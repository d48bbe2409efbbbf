/* The C face of a front for any processor, as tools/face.c is that of the table: ./build compiles it together with the module that
 * the kit makes of the crate `damper_c`. */
#define TOGGLEASH_ARCHIVE
#include "toggleash_damp.h"
#include "slice.h"

LAID_OUT(front, 12, held_back, uint32_t);
LAID_OUT(update, 12, cells, uint32_t);
LAID_OUT(ran, 40, refused, uint64_t);

/* The proved functions, under the names that ./build gives them in the module. */
uint32_t proved_damp_version_6(void);
uint32_t proved_damp_clear(SLICE(front));
void proved_damp_check(toggleash_front *r, SLICE(front));
void proved_damp_announce(toggleash_update *r, SLICE(front), SLICE(words), uint32_t address, uint32_t length, uint32_t hop,
                          uint32_t feed, uint8_t preference);
void proved_damp_withdraw(toggleash_update *r, SLICE(front), SLICE(words), uint32_t address, uint32_t length, uint32_t feed);
void proved_damp_tick(toggleash_front *r, SLICE(front), SLICE(words));
void proved_damp_run(toggleash_ran *r, SLICE(front), SLICE(words), SLICE(feed), SLICE(reply));
void proved_damp_announce_local(toggleash_update *r, SLICE(front), SLICE(words), uint32_t address, uint32_t length, uint32_t hop,
                                uint32_t feed, uint8_t preference);
void proved_damp_withdraw_local(toggleash_update *r, SLICE(front), SLICE(words), uint32_t address, uint32_t length,
                                uint32_t feed);
void proved_damp_tick_local(toggleash_front *r, SLICE(front), SLICE(words));
void proved_damp_run_local(toggleash_ran *r, SLICE(front), SLICE(words), SLICE(feed), SLICE(reply));

uint32_t toggleash_damp_version_6(void) {
    return proved_damp_version_6();
}

uint32_t toggleash_damp_clear(uint32_t *front, size_t m) {
    return proved_damp_clear(OF(front, m));
}

toggleash_front toggleash_damp_check(const uint32_t *front, size_t m) {
    toggleash_front r;
    proved_damp_check(&r, OF(front, m));
    return r;
}

toggleash_update toggleash_damp_announce(uint32_t *front, size_t m, uint32_t *words, size_t n, uint32_t address,
                                         uint32_t length, uint32_t hop, uint32_t feed, uint8_t preference) {
    toggleash_update r;
    proved_damp_announce(&r, OF(front, m), OF(words, n), address, length, hop, feed, preference);
    return r;
}

toggleash_update toggleash_damp_withdraw(uint32_t *front, size_t m, uint32_t *words, size_t n, uint32_t address,
                                         uint32_t length, uint32_t feed) {
    toggleash_update r;
    proved_damp_withdraw(&r, OF(front, m), OF(words, n), address, length, feed);
    return r;
}

toggleash_front toggleash_damp_tick(uint32_t *front, size_t m, uint32_t *words, size_t n) {
    toggleash_front r;
    proved_damp_tick(&r, OF(front, m), OF(words, n));
    return r;
}

toggleash_ran toggleash_damp_run(uint32_t *front, size_t m, uint32_t *words, size_t n, const uint8_t *feed, size_t feed_len,
                                 uint8_t *reply, size_t reply_len) {
    toggleash_ran r;
    proved_damp_run(&r, OF(front, m), OF(words, n), OF(feed, feed_len), OF(reply, reply_len));
    return r;
}

toggleash_update toggleash_damp_announce_local(uint32_t *front, size_t m, uint32_t *words, size_t n, uint32_t address,
                                               uint32_t length, uint32_t hop, uint32_t feed, uint8_t preference) {
    toggleash_update r;
    proved_damp_announce_local(&r, OF(front, m), OF(words, n), address, length, hop, feed, preference);
    return r;
}

toggleash_update toggleash_damp_withdraw_local(uint32_t *front, size_t m, uint32_t *words, size_t n, uint32_t address,
                                               uint32_t length, uint32_t feed) {
    toggleash_update r;
    proved_damp_withdraw_local(&r, OF(front, m), OF(words, n), address, length, feed);
    return r;
}

toggleash_front toggleash_damp_tick_local(uint32_t *front, size_t m, uint32_t *words, size_t n) {
    toggleash_front r;
    proved_damp_tick_local(&r, OF(front, m), OF(words, n));
    return r;
}

toggleash_ran toggleash_damp_run_local(uint32_t *front, size_t m, uint32_t *words, size_t n, const uint8_t *feed,
                                       size_t feed_len, uint8_t *reply, size_t reply_len) {
    toggleash_ran r;
    proved_damp_run_local(&r, OF(front, m), OF(words, n), OF(feed, feed_len), OF(reply, reply_len));
    return r;
}
