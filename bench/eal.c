/* DPDK's start: once for a program, however many of its tables are opened. */
#define _GNU_SOURCE
#include "eal.h"

#include <rte_eal.h>
#include <sched.h>

/* DPDK binds the thread that starts it to one core; the other ways are measured by the same thread, unbound. */
static int start(void) {
    char *words[] = {"bench",     "--no-huge", "--no-pci", "--no-shconf", "--no-telemetry", "--log-level=error",
                     "-m",        "1024",      NULL};
    cpu_set_t cores;
    sched_getaffinity(0, sizeof cores, &cores);
    int started = rte_eal_init(sizeof words / sizeof *words - 1, words);
    sched_setaffinity(0, sizeof cores, &cores);
    return started >= 0;
}

int dpdk_start(void) {
    static int tried, stands;
    if (!tried)
        stands = start();
    tried = 1;
    return stands;
}
