/* DPDK's rte_fib behind plain calls, as lpm.c has rte_lpm: 24 bits, then 8, with hops of four bytes. Its lookup is a call
 * for several addresses, which may be one. */
#include "eal.h"

#include <rte_fib.h>
#include <rte_memory.h>

/* The most addresses of one call. */
enum { MOST_AT_ONCE = 32 };

static struct rte_fib *table;
static struct rte_fib_conf config;

/* Where there is no route the hop is 0, which counts nothing in a sum. Returns 0 when the table stands. */
int fib_open(uint32_t routes, uint32_t groups) {
    config = (struct rte_fib_conf){.type = RTE_FIB_DIR24_8, .default_nh = 0, .max_routes = routes};
    config.dir24_8.nh_sz = RTE_FIB_DIR24_8_4B;
    config.dir24_8.num_tbl8 = groups;
    if (!dpdk_start())
        return 1;
    table = rte_fib_create("bench", SOCKET_ID_ANY, &config);
    return table == NULL;
}

int fib_add(uint32_t address, uint8_t length, uint32_t hop) {
    return rte_fib_add(table, address, length, hop);
}

/* No call empties a table, so that another takes its place. Returns 0 when that stands. */
int fib_clear(void) {
    rte_fib_free(table);
    table = rte_fib_create("bench", SOCKET_ID_ANY, &config);
    return table == NULL;
}

/* The sum of the hops found, so many addresses a call, at most MOST_AT_ONCE. The addresses are only read. */
uint64_t fib_sum(const uint32_t *addresses, size_t n, uint32_t at_once) {
    uint64_t sum = 0, hops[MOST_AT_ONCE];
    for (size_t i = 0; i < n; i += at_once) {
        size_t count = n - i < at_once ? n - i : at_once;
        rte_fib_lookup_bulk(table, (uint32_t *)addresses + i, hops, count);
        for (size_t j = 0; j < count; j++)
            sum += hops[j];
    }
    return sum;
}
