/* From hop to interface: which interface the packets for an address leave by. A library above toggleash.h: link with
 * libtoggleash_resolve.a and libtoggleash.a. C11 or C++11 and later.
 *
 *     static const toggleash_hop entries[] = {
 *         {1, 0},               hop 1 is at the end of interface 1
 *         {0, 0xC0000209},      hop 2 is the gateway 192.0.2.9, which is looked up in turn
 *     };
 *     toggleash_route route = toggleash_table_resolve(table, entries, 2, 0x0A010509);
 *
 * Entries. The run has an entry for each hop, the first for hop 1, and at most 256. An interface from 1 to 64 is one; 0
 * means that the gateway is looked up in turn, which may be any address; anything else is out of range. The gateway
 * beside an interface has no meaning. Only the entries that are met are read.
 *
 * Lookups. The address is looked up, the entry of its hop is taken, and its gateway looked up in turn, until an entry has
 * an interface: at most four lookups in all, that of the address counted. A loop of gateways ends so too.
 *
 * Like toggleash_lookup the call does not test the table and changes nothing: it may go on beside other lookups. What
 * toggleash.h says of pointers holds for the entries too. */
#ifndef TOGGLEASH_RESOLVE_H
#define TOGGLEASH_RESOLVE_H

#include "toggleash.h"

#if TOGGLEASH_VERSION != 6
#error "toggleash.h is of another version than toggleash_resolve.h"
#endif

#ifdef __cplusplus
extern "C" {
#endif

/* Refusals beside 1, which comes first, and 2. More than 256 entries are told before any lookup; the others are what is met
 * first on the way: 2 as a lookup gives it, 20, 21 or, after the fourth lookup, 22. */
enum {
    TOGGLEASH_NO_ROUTE = 20,    /* no route matches the address, or a gateway */
    TOGGLEASH_NO_ENTRY = 21,    /* more than 256 entries; or a hop met has no entry, or one out of range */
    TOGGLEASH_NO_INTERFACE = 22 /* no interface after four lookups */
};

/* Limits. */
enum {
    TOGGLEASH_MOST_ENTRIES = 256,
    TOGGLEASH_MOST_INTERFACE = 64,
    TOGGLEASH_MOST_LOOKUPS = 4
};

/* An entry of the run. */
typedef struct {
    uint32_t interface; /* 1 to 64, or 0 for the gateway */
    uint32_t gateway;
} toggleash_hop;

/* The answer. Where the call refused, all fields but the first are 0. */
typedef struct {
    uint32_t refusal;
    uint32_t interface;
    uint32_t has_gateway; /* 1 where a gateway was used */
    uint32_t gateway;     /* the last one used: that of the entry before the one with the interface */
} toggleash_route;

/* The archive's version, kept as that of toggleash.h is: it rises with it. */
uint32_t toggleash_resolve_version_6(void); /* returns 6 */

#if defined(__GNUC__) && !defined(TOGGLEASH_ARCHIVE)
#pragma GCC diagnostic push
#pragma GCC diagnostic ignored "-Wattributes"
static uint32_t (*const toggleash_resolve_version_linked_)(void) TOGGLEASH_KEPT_ = toggleash_resolve_version_6;
#pragma GCC diagnostic pop
#endif

/* The call of the archive. */
TOGGLEASH_ANSWER toggleash_route toggleash_resolve(const uint32_t *words, size_t n, const toggleash_hop *entries,
                                                   size_t count, uint32_t address);

/* The same on a table. */
TOGGLEASH_ANSWER static inline toggleash_route toggleash_table_resolve(toggleash_table table,
                                                                       const toggleash_hop *entries, size_t count,
                                                                       uint32_t address) {
    return toggleash_resolve(table.words, table.n, entries, count, address);
}

/* What a refusal says, for a log. Never null. */
static inline const char *toggleash_resolve_text(uint32_t refusal) {
    switch (refusal) {
    case TOGGLEASH_NO_ROUTE: return "no route matches";
    case TOGGLEASH_NO_ENTRY: return "more than 256 entries, or a hop without an entry, or with one out of range";
    case TOGGLEASH_NO_INTERFACE: return "no interface after four lookups";
    default: return toggleash_refusal_text(refusal);
    }
}

#ifdef __cplusplus
}
#endif

#endif
