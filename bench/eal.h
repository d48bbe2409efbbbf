/* DPDK's start, which lpm.c and fib.c share. */
#ifndef EAL_H
#define EAL_H

/* Starts DPDK unless it has started; tells whether it stands. */
int dpdk_start(void);

#endif
