/* The C face of resolving for any processor, as tools/face.c is that of the table: ./build compiles it together with the module
 * that the kit makes of the crate `resolver_c`. */
#define TOGGLEASH_ARCHIVE
#include "toggleash_resolve.h"
#include "slice.h"

LAID_OUT(route, 16, gateway, uint32_t);
LAID_OUT(hop, 8, gateway, uint32_t);
_Static_assert(_Alignof(toggleash_hop) == 4, "an entry is not aligned as in the module");

/* The proved functions, under the names that ./build gives them in the module. */
uint32_t proved_resolve_version_6(void);
void proved_resolve(toggleash_route *r, SLICE(words), SLICE(entries), uint32_t address);

uint32_t toggleash_resolve_version_6(void) {
    return proved_resolve_version_6();
}

toggleash_route toggleash_resolve(const uint32_t *words, size_t n, const toggleash_hop *entries, size_t count,
                                  uint32_t address) {
    toggleash_route r;
    proved_resolve(&r, OF(words, n), OF(entries, count), address);
    return r;
}
