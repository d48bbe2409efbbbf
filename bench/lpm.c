/* DPDK's rte_lpm behind plain calls, so that the measuring program can load it where it is installed. Its lookup is
 * inline, as in a program that uses it, and so is the loop around it. */
#include "eal.h"

#include <rte_lpm.h>
#include <rte_memory.h>

static struct rte_lpm *table;

/* Returns 0 when the table stands. */
int lpm_open(uint32_t rules, uint32_t groups) {
    struct rte_lpm_config config = {.max_rules = rules, .number_tbl8s = groups, .flags = 0};
    if (!dpdk_start())
        return 1;
    table = rte_lpm_create("bench", SOCKET_ID_ANY, &config);
    return table == NULL;
}

int lpm_add(uint32_t address, uint8_t length, uint32_t hop) {
    return rte_lpm_add(table, address, length, hop);
}

int lpm_delete(uint32_t address, uint8_t length) {
    return rte_lpm_delete(table, address, length);
}

void lpm_clear(void) {
    rte_lpm_delete_all(table);
}

/* The sum of the hops found. */
uint64_t lpm_sum(const uint32_t *addresses, size_t n) {
    uint64_t sum = 0;
    for (size_t i = 0; i < n; i++) {
        uint32_t hop;
        if (rte_lpm_lookup(table, addresses[i], &hop) == 0)
            sum += hop;
    }
    return sum;
}
