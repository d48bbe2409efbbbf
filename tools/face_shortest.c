/* The C face of the shortest list for any processor, as tools/face.c is that of the table: ./build compiles it together with the
 * module that the kit makes of the crate `shortener_c`. */
#define TOGGLEASH_ARCHIVE
#include "toggleash_shortest.h"
#include "slice.h"

LAID_OUT(written, 16, bytes, uint64_t);

/* The proved functions, under the names that ./build gives them in the module. */
uint32_t proved_shortest_version_6(void);
void proved_shortest(toggleash_written *r, SLICE(words), SLICE(scratch), SLICE(buffer));

uint32_t toggleash_shortest_version_6(void) {
    return proved_shortest_version_6();
}

toggleash_written toggleash_shortest(const uint32_t *words, size_t n, uint32_t *scratch, size_t s, uint8_t *buffer,
                                     size_t room) {
    toggleash_written r;
    proved_shortest(&r, OF(words, n), OF(scratch, s), OF(buffer, room));
    return r;
}
