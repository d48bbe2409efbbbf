/* With MISTAKE 0 this compiles, in C11 and C++17; with each other number it must not (must-not-compile, the script). */
#include "toggleash_damp.h"
#include "toggleash_packed.h"
#include "toggleash_shortest.h"

static uint32_t words[TOGGLEASH_WORDS(1)], odd[TOGGLEASH_WORDS(1) + 1], card[1040], fewer[2048],
    held[TOGGLEASH_FRONT_WORDS];
static uint8_t bytes[TOGGLEASH_WORDS(1)], list[1];

uint32_t lent(uint32_t parameter[TOGGLEASH_WORDS(1)], const uint32_t *constant);

uint32_t lent(uint32_t parameter[TOGGLEASH_WORDS(1)], const uint32_t *constant) {
    toggleash_table table = TOGGLEASH_TABLE(words);
    toggleash_v6_table six = TOGGLEASH_V6_TABLE(words);
    toggleash_ipv6 address = {{0}};
    toggleash_copy copy = TOGGLEASH_COPY(card);
    toggleash_packed_table packed = TOGGLEASH_PACKED_TABLE(fewer);
    toggleash_damper damper = TOGGLEASH_FRONT(held);
    uint32_t *pointer = parameter;
    uint32_t refusal = toggleash_table_clear(table) + toggleash_copy_make(copy, list, sizeof list).refusal;
    refusal += toggleash_table_announce(table, 0, 0, 1, 1, 0).refusal + toggleash_table_withdraw(table, 0, 0, 1).refusal;
    refusal += toggleash_table_announce_local(table, 0, 0, 1, 1, 0).refusal;
    refusal += toggleash_v6_table_clear(six) + toggleash_v6_table_find(six, address).refusal;
    refusal += toggleash_v6_table_withdraw_local(six, address, 0, 1).refusal;
    refusal += toggleash_packed_table_make(packed, table).refusal + toggleash_packed_table_find(packed, 1).refusal;
    refusal += toggleash_table_shortest(table, TOGGLEASH_SCRATCH(odd), list, sizeof list).refusal;
    refusal += toggleash_damper_clear(damper) + toggleash_damper_tick(damper, table).refusal;
    (void)pointer, (void)constant, (void)odd, (void)bytes;
#if MISTAKE == 0
    return refusal;
#elif MISTAKE == 1 /* a copy is no table */
    return refusal + toggleash_table_find(copy, 1).hop;
#elif MISTAKE == 2 /* a table is no copy */
    return refusal + toggleash_copy_find(table, 1).hop;
#elif MISTAKE == 3
    return refusal + toggleash_copy_make(table, list, sizeof list).refusal;
#elif MISTAKE == 4 /* a number of bytes for one of words */
    return refusal + toggleash_table_clear(words, sizeof words);
#elif MISTAKE == 5
    return refusal + toggleash_copy_make(toggleash_copy_at(card, sizeof card), list, sizeof list).refusal;
#elif MISTAKE == 6 /* words without their number */
    return refusal + toggleash_table_clear(words);
#elif MISTAKE == 7 /* a pointer has no number of words */
    return refusal + toggleash_table_clear(TOGGLEASH_TABLE(pointer));
#elif MISTAKE == 8
    return refusal + toggleash_table_clear(TOGGLEASH_TABLE(parameter));
#elif MISTAKE == 9
    return refusal + toggleash_copy_find(TOGGLEASH_COPY(pointer), 1).hop;
#elif MISTAKE == 10 /* no table has so many words */
    return refusal + toggleash_table_clear(TOGGLEASH_TABLE(odd));
#elif MISTAKE == 11 /* other elements */
    return refusal + toggleash_table_clear(TOGGLEASH_TABLE(bytes));
#elif MISTAKE == 12 /* words that cannot be changed */
    return refusal + toggleash_table_clear(TOGGLEASH_TABLE(*(const uint32_t(*)[TOGGLEASH_WORDS(1)])constant));
#elif MISTAKE == 13 /* a refusal that nobody sees */
    toggleash_table_announce(table, 0, 0, 1, 1, 0);
    return refusal;
#elif MISTAKE == 14 /* a candidate without its feed and preference */
    return refusal + toggleash_table_announce(table, 0, 0, 1).refusal;
#elif MISTAKE == 15
    return refusal + toggleash_table_withdraw(table, 0, 0).refusal;
#elif MISTAKE == 16 /* a table of the other family */
    return refusal + toggleash_v6_table_find(table, address).hop;
#elif MISTAKE == 17
    return refusal + toggleash_table_clear(six);
#elif MISTAKE == 18
    return refusal + toggleash_v6_table_find(copy, address).hop;
#elif MISTAKE == 19 /* an address of the other family */
    return refusal + toggleash_table_find(table, address).hop;
#elif MISTAKE == 20
    return refusal + toggleash_v6_table_find(six, 1).hop;
#elif MISTAKE == 21 /* an address by its pointer */
    return refusal + toggleash_v6_table_find(six, address.bytes).hop;
#elif MISTAKE == 22 /* no IPv6 table has so many words either */
    return refusal + toggleash_v6_table_clear(TOGGLEASH_V6_TABLE(odd));
#elif MISTAKE == 23
    return refusal + toggleash_v6_table_clear(TOGGLEASH_V6_TABLE(pointer));
#elif MISTAKE == 24 /* a refusal that nobody sees */
    toggleash_v6_table_clear(six);
    return refusal;
#elif MISTAKE == 25 /* neither a table nor a copy is a compressed table */
    return refusal + toggleash_packed_table_find(table, 1).hop;
#elif MISTAKE == 26
    return refusal + toggleash_packed_table_find(copy, 1).hop;
#elif MISTAKE == 27 /* which is none of them */
    return refusal + toggleash_table_find(packed, 1).hop;
#elif MISTAKE == 28
    return refusal + toggleash_copy_find(packed, 1).hop;
#elif MISTAKE == 29 /* the two the other way round */
    return refusal + toggleash_packed_table_make(table, packed).refusal;
#elif MISTAKE == 30 /* a table of IPv6 */
    return refusal + toggleash_packed_table_make(packed, six).refusal;
#elif MISTAKE == 31 /* a pointer has no number of words */
    return refusal + toggleash_packed_table_make(TOGGLEASH_PACKED_TABLE(pointer), table).refusal;
#elif MISTAKE == 32 /* a number of bytes for one of words */
    return refusal + toggleash_packed_table_find(toggleash_packed_table_at(fewer, sizeof fewer), 1).hop;
#elif MISTAKE == 33 /* a refusal that nobody sees */
    toggleash_packed_table_make(packed, table);
    return refusal;
#elif MISTAKE == 34 /* the table for the scratch */
    return refusal + toggleash_table_shortest(table, table, list, sizeof list).refusal;
#elif MISTAKE == 35 /* a table of IPv6 */
    return refusal + toggleash_table_shortest(six, TOGGLEASH_SCRATCH(odd), list, sizeof list).refusal;
#elif MISTAKE == 36 /* a pointer has no number of words */
    return refusal + toggleash_table_shortest(table, TOGGLEASH_SCRATCH(pointer), list, sizeof list).refusal;
#elif MISTAKE == 37 /* a number of bytes for one of words */
    return refusal + toggleash_table_shortest(table, odd, sizeof odd, list, sizeof list).refusal;
#elif MISTAKE == 38 /* a front is no table, and a table no front */
    return refusal + toggleash_damper_tick(table, damper).refusal;
#elif MISTAKE == 39
    return refusal + toggleash_table_clear(damper);
#elif MISTAKE == 40 /* no front has so many words */
    return refusal + toggleash_damper_clear(TOGGLEASH_FRONT(card));
#elif MISTAKE == 41
    return refusal + toggleash_damper_clear(TOGGLEASH_FRONT(pointer));
#elif MISTAKE == 42 /* there is no front of IPv6 */
    return refusal + toggleash_damper_tick(damper, six).refusal;
#elif MISTAKE == 43 /* a local call's refusal that nobody sees */
    toggleash_table_announce_local(table, 0, 0, 1, 1, 0);
    return refusal;
#elif MISTAKE == 44 /* a table of the other family */
    return refusal + toggleash_v6_table_withdraw_local(table, address, 0, 1).refusal;
#elif MISTAKE == 45
    return refusal + toggleash_table_run_local(six, list, sizeof list, bytes, sizeof bytes).refusal;
#endif
}
