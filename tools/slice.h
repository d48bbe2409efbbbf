/* What the C faces share: a slice and an answer as the kit's module has them. Included by the faces, tools/face*.c. */
#ifndef TOGGLEASH_SLICE_H
#define TOGGLEASH_SLICE_H

#include <stddef.h>
#include <stdint.h>

_Static_assert(sizeof(uint32_t) == 4 && _Alignof(uint32_t) == 4, "a word is not 4 bytes");
_Static_assert(sizeof(uint64_t) == 8 && _Alignof(uint64_t) == 8, "a count is not 8 bytes, or not aligned to them");

/* A slice as the module's functions take it: where it starts, and a length of 64 bits, on 32 bits too. */
#define SLICE(name) const void *name, uint64_t name##_length
#define OF(start, length) placed(start), (length)

/* No slice starts at null in the module: another address stands for it, as in the calls that the kit itself exports. */
static inline const void *placed(const void *start) {
    return start ? start : (const void *)4096;
}

/* The layout of an answer: its bytes, and the place of its last field, which has that type. */
#define LAID_OUT(answer, bytes, last, type)                                                          \
    _Static_assert(sizeof(toggleash_##answer) == (bytes) &&                                          \
                       offsetof(toggleash_##answer, last) + sizeof(type) == (bytes),                 \
                   "toggleash_" #answer " is not laid out as in the module")

#endif
