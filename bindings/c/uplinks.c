/* Two uplinks: provider A at the end of interface 1, provider B behind the gateway 192.0.2.9, which is on interface 5. The
 * default route is heard from both, A's being preferred. When A goes, packets leave through B's gateway. After ./build, from
 * the repository:
 *   cc -Ibindings/c bindings/c/uplinks.c target/native/$(uname -m)/libtoggleash_resolve.a \
 *       target/native/$(uname -m)/libtoggleash.a -o target/uplinks && target/uplinks */
#include <stdio.h>
#include "toggleash_resolve.h"

enum { HOP_A = 1, HOP_B = 2, HOP_LINK = 3 };
#define GATEWAY_B 0xC0000209u /* 192.0.2.9 */

static uint32_t words[TOGGLEASH_WORDS(7)];

static const toggleash_hop entries[] = {
    {1, 0},         /* hop 1: provider A, at the end of interface 1 */
    {0, GATEWAY_B}, /* hop 2: provider B, by its gateway */
    {5, 0},         /* hop 3: the link on interface 5, which the gateway is on */
};

static uint32_t show(toggleash_table table) {
    toggleash_route route = toggleash_table_resolve(table, entries, sizeof entries / sizeof *entries, 0x08080808);
    if (!route.refusal && route.has_gateway)
        printf("8.8.8.8 leaves by interface %u, to the gateway %u.%u.%u.%u\n", route.interface, route.gateway >> 24,
               route.gateway >> 16 & 255, route.gateway >> 8 & 255, route.gateway & 255);
    else if (!route.refusal)
        printf("8.8.8.8 leaves by interface %u\n", route.interface);
    return route.refusal;
}

int main(void) {
    toggleash_table table = TOGGLEASH_TABLE(words);
    uint32_t refusal = toggleash_table_clear(table);
    if (!refusal) /* 192.0.2.0/24 is on the link itself */
        refusal = toggleash_table_announce_local(table, 0xC0000200, 24, HOP_LINK, 1, 0).refusal;
    if (!refusal)
        refusal = toggleash_table_announce_local(table, 0, 0, HOP_A, 1, 10).refusal;
    if (!refusal)
        refusal = toggleash_table_announce_local(table, 0, 0, HOP_B, 2, 20).refusal;
    if (!refusal)
        refusal = show(table);
    if (!refusal)
        refusal = toggleash_table_withdraw_local(table, 0, 0, 1).refusal; /* provider A is gone */
    if (!refusal)
        refusal = show(table);
    if (refusal)
        fprintf(stderr, "refused %u: %s\n", refusal, toggleash_resolve_text(refusal));
    return refusal != 0;
}
