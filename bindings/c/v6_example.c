/* A caller in C for IPv6. After ./build, from the repository:
 *   cc -Ibindings/c bindings/c/v6_example.c target/native/$(uname -m)/libtoggleash.a -o target/example && target/example */
#include <stdio.h>
#include "toggleash.h"

static uint32_t words[TOGGLEASH_WORDS(16)]; /* a path of 128 bits needs 16 arrays, 204 KB */

int main(void) {
    /* 2001:db8::/32 and 2001:db8::1; of a struct in6_addr the bytes are its s6_addr */
    const toggleash_ipv6 network = {{0x20, 0x01, 0x0D, 0xB8}};
    const toggleash_ipv6 address = {{0x20, 0x01, 0x0D, 0xB8, 0, 0, 0, 0, 0, 0, 0, 0, 0, 0, 0, 1}};
    toggleash_v6_table table = TOGGLEASH_V6_TABLE(words);
    uint32_t refusal = toggleash_v6_table_clear(table);
    if (!refusal) {
        toggleash_update done = toggleash_v6_table_announce_local(table, network, 32, 1, 1, 10); /* feed 1, preference 10 */
        printf("2001:db8::/32 via %u takes %u cell\n", done.hop, done.cells);
        refusal = done.refusal;
    }
    if (!refusal)
        refusal = toggleash_v6_table_announce_local(table, address, 128, 2, 1, 10).refusal;
    if (!refusal) {
        toggleash_answer found = toggleash_v6_table_find(table, address);
        printf("2001:db8::1 goes via %u, length %u, as all that share its first %u bits\n", found.hop, found.length,
               found.block);
        refusal = found.refusal;
    }
    if (!refusal) {
        toggleash_total inside = toggleash_v6_table_within(table, network, 32);
        printf("%u prefixes lie inside 2001:db8::/32\n", inside.prefixes);
        refusal = inside.refusal;
    }
    if (refusal)
        fprintf(stderr, "refused %u: %s\n", refusal, toggleash_refusal_text(refusal));
    return refusal != 0;
}
