/* Lookup over the library's layout as a C programmer would write it, to measure the library against: once trusting the
 * words, once with the refusals of docs/LAYOUT.md. What is found is kept as length * 65536 + hop, or 0 for none. A link
 * counts from the root, the array of number 1, to the one that it leads to. */
#include <stddef.h>
#include <stdint.h>

/* The words of an array, and where in it the cells are. */
enum { ARRAY_WORDS = 3072, CELLS_AT = 2048 };

typedef struct {
    uint32_t refusal, found, hop, length, block;
} answer;

/* What is found once a cell is met: its best, longer by the bits before the array, here times 65536, or, where that has
 * no hop, what was found already. A processor does not foresee which cells have a best, so this must be a move and no
 * branch: compilers make it one as long as there is but a sum to take or leave. */
static uint32_t newer(uint32_t found, uint32_t best, uint32_t before) {
    return best % 65536 != 0 ? best + before : found;
}

/* The best of a cell with a link, whose length stands one higher in its first bits, and of one without. */
static uint32_t best_above(uint32_t cell) {
    return cell / 4096 - 65536;
}

static uint32_t best_at_end(uint32_t cell) {
    return cell % 4096 / 16 * 65536 + cell / 4096;
}

static answer answered(uint32_t found, uint32_t cell, uint32_t before) {
    found = newer(found, best_at_end(cell), before);
    return (answer){0, found != 0, found % 65536, found / 65536, before / 65536 + cell % 16};
}

answer plain_trusting(const uint32_t *words, size_t n, uint32_t address) {
    const uint32_t *root = words + ARRAY_WORDS, *array = root;
    uint32_t found = 0;
    (void)n;
    for (uint32_t before = 0;; before += 8 * 65536) {
        uint32_t cell = array[CELLS_AT + (address >> 24)];
        if (cell >> 28 == 0)
            return answered(found, cell, before);
        found = newer(found, best_above(cell), before);
        array = root + ARRAY_WORDS * (size_t)(cell % 4096);
        address <<= 8;
    }
}

/* No test that refuses is ever true on a table, whatever its cells hold, so a processor foresees them all. */
answer plain_checking(const uint32_t *words, size_t n, uint32_t address) {
    if (n % ARRAY_WORDS != 0 || n < 6144 || n > 12585984)
        return (answer){1, 0, 0, 0, 0};
    const uint32_t *root = words + ARRAY_WORDS, *array = root;
    size_t arrays = n / ARRAY_WORDS - 1;
    uint32_t found = 0;
    for (uint32_t before = 0; before < 32 * 65536; before += 8 * 65536) {
        uint32_t cell = array[CELLS_AT + (address >> 24)], low = cell % 4096;
        if (cell >> 28 == 0) {
            if (low / 16 > 8 || low % 16 > 8)
                break;
            return answered(found, cell, before);
        }
        if (cell >> 28 > 9 || low >= arrays)
            break;
        found = newer(found, best_above(cell), before);
        array = root + ARRAY_WORDS * (size_t)low;
        address <<= 8;
    }
    return (answer){2, 0, 0, 0, 0};
}

/* The same two for IPv6, whose address is bytes. */
typedef struct {
    uint8_t bytes[16];
} ipv6;

answer plain_trusting_v6(const uint32_t *words, size_t n, ipv6 address) {
    const uint32_t *root = words + ARRAY_WORDS, *array = root;
    uint32_t found = 0;
    (void)n;
    for (uint32_t level = 0;; level++) {
        uint32_t cell = array[CELLS_AT + address.bytes[level]];
        if (cell >> 28 == 0)
            return answered(found, cell, level * 8 * 65536);
        found = newer(found, best_above(cell), level * 8 * 65536);
        array = root + ARRAY_WORDS * (size_t)(cell % 4096);
    }
}

answer plain_checking_v6(const uint32_t *words, size_t n, ipv6 address) {
    if (n % ARRAY_WORDS != 0 || n < 6144 || n > 12585984)
        return (answer){1, 0, 0, 0, 0};
    const uint32_t *root = words + ARRAY_WORDS, *array = root;
    size_t arrays = n / ARRAY_WORDS - 1;
    uint32_t found = 0;
    for (uint32_t level = 0; level < 16; level++) {
        uint32_t cell = array[CELLS_AT + address.bytes[level]], low = cell % 4096;
        if (cell >> 28 == 0) {
            if (low / 16 > 8 || low % 16 > 8)
                break;
            return answered(found, cell, level * 8 * 65536);
        }
        if (cell >> 28 > 9 || low >= arrays)
            break;
        found = newer(found, best_above(cell), level * 8 * 65536);
        array = root + ARRAY_WORDS * (size_t)low;
    }
    return (answer){2, 0, 0, 0, 0};
}
