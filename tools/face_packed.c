/* The C face of compressed tables for any processor, as tools/face.c is that of the table: ./build compiles it together with the
 * module that the kit makes of the crate `packing_c`. */
#define TOGGLEASH_ARCHIVE
#include "toggleash_packed.h"
#include "slice.h"

LAID_OUT(needed, 16, words, uint64_t);
LAID_OUT(packed, 16, words, uint64_t);
LAID_OUT(match, 16, length, uint32_t);

/* The proved functions, under the names that ./build gives them in the module. */
uint32_t proved_packed_version_6(void);
void proved_packed_need(toggleash_needed *r, SLICE(words));
void proved_packed_build(toggleash_packed *r, SLICE(words), SLICE(packed));
void proved_packed_lookup(toggleash_match *r, SLICE(packed), uint32_t address);

uint32_t toggleash_packed_version_6(void) {
    return proved_packed_version_6();
}

toggleash_needed toggleash_packed_need(const uint32_t *words, size_t n) {
    toggleash_needed r;
    proved_packed_need(&r, OF(words, n));
    return r;
}

toggleash_packed toggleash_packed_build(const uint32_t *words, size_t n, uint32_t *packed, size_t m) {
    toggleash_packed r;
    proved_packed_build(&r, OF(words, n), OF(packed, m));
    return r;
}

toggleash_match toggleash_packed_lookup(const uint32_t *packed, size_t m, uint32_t address) {
    toggleash_match r;
    proved_packed_lookup(&r, OF(packed, m), address);
    return r;
}
