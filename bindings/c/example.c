/* A caller in C. After ./build, from the repository:
 *   cc -Ibindings/c bindings/c/example.c target/native/$(uname -m)/libtoggleash.a -o target/example && target/example */
#include <stdio.h>
#include "toggleash.h"

static uint32_t words[TOGGLEASH_WORDS(7)]; /* the router lends them: 7 arrays, 96 KB */

int main(void) {
    toggleash_table table = TOGGLEASH_TABLE(words);
    uint32_t refusal = toggleash_table_clear(table);
    if (!refusal) {
        toggleash_update done = toggleash_table_announce_local(table, 0x0A000000, 8, 1, 1, 10); /* feed 1, preference 10 */
        printf("10.0.0.0/8 via %u takes %u cell\n", done.hop, done.cells);
        refusal = done.refusal;
    }
    if (!refusal) {
        toggleash_update other = toggleash_table_announce_local(table, 0x0A000000, 8, 2, 2, 20); /* the other uplink's */
        printf("10.0.0.0/8 via %u takes %u cells\n", other.hop, other.cells);
        refusal = other.refusal;
    }
    if (!refusal) {
        toggleash_answer found = toggleash_table_find(table, 0x0A010509);
        printf("10.1.5.9 goes via %u, length %u, as all that share its first %u bits\n", found.hop, found.length,
               found.block);
        refusal = found.refusal;
    }
    if (!refusal) {
        toggleash_update gone = toggleash_table_withdraw_local(table, 0x0A000000, 8, 1);
        toggleash_answer found = toggleash_table_find(table, 0x0A010509);
        printf("feed 1 withdraws %u, and 10.1.5.9 goes via %u\n", gone.hop, found.hop);
        refusal = gone.refusal;
    }
    if (refusal)
        fprintf(stderr, "refused %u: %s\n", refusal, toggleash_refusal_text(refusal));
    return refusal != 0;
}
