/* Calms candidates from C, or from C++, and compares each field, so that the header and the archive are known to agree; all
 * archives are linked into it. Prints what differs and returns 1 on any difference. */
#include <string.h>
#include "toggleash_damp.h"
#include "fields.h"

#define IP(a, b, c, d) ((uint32_t)(a) << 24 | (uint32_t)(b) << 16 | (uint32_t)(c) << 8 | (uint32_t)(d))

static uint32_t words[TOGGLEASH_WORDS(3)], held[TOGGLEASH_FRONT_WORDS], words_before[TOGGLEASH_WORDS(3)],
    held_before[TOGGLEASH_FRONT_WORDS];

static void front(const char *what, toggleash_front f, uint32_t refusal, uint32_t places, uint32_t held_back) {
    same(what, refusal, f.refusal);
    same(what, places, f.places);
    same(what, held_back, f.held_back);
}

/* A row of the front (docs/LAYOUT.md). */
static void row(const char *what, size_t i, uint32_t address, uint32_t second, uint32_t third, uint32_t kept) {
    same(what, address, held[4 * i]);
    same(what, second, held[4 * i + 1]);
    same(what, third, held[4 * i + 2]);
    same(what, kept, held[4 * i + 3]);
}

/* Announced and withdrawn so many times. */
static void flap(toggleash_damper damper, toggleash_table table, uint32_t times) {
    for (; times > 0; times--) {
        update("announce", toggleash_damper_announce(damper, table, IP(10, 0, 0, 0), 8, 5, 1, 0), 0, 5, 1);
        update("withdraw", toggleash_damper_withdraw(damper, table, IP(10, 0, 0, 0), 8, 1), 0, 5, 1);
    }
}

/* Cases 14.1 and 14.9 of the worked cases, by direct calls. */
static void calmed(toggleash_damper damper, toggleash_table table) {
    flap(damper, table, 3);
    row("3,000", 0, IP(10, 0, 0, 0), 8 * 8 + 1, 2 * 3000, 0);
    front("3,000 is not over", toggleash_damper_check(damper), 0, 1, 0);
    flap(damper, table, 1);
    front("4,000 is", toggleash_damper_check(damper), 0, 1, 1);
    update("nothing kept", toggleash_damper_withdraw(damper, table, IP(10, 0, 0, 0), 8, 1), TOGGLEASH_NOT_HELD, 0, 0);
    update("kept", toggleash_damper_announce(damper, table, IP(10, 0, 0, 0), 8, 6, 1, 9), 0, 6, 0);
    row("kept", 0, IP(10, 0, 0, 0), 8 * 8 + 1, 2 * 4000 + 1, 9 * 65536 + 6);
    front("first tick", toggleash_damper_tick(damper, table), 0, 1, 1);
    front("second tick", toggleash_damper_tick(damper, table), 0, 1, 1);
    update("what is kept", toggleash_damper_withdraw(damper, table, IP(10, 0, 0, 0), 8, 1), 0, 6, 0);
    update("kept again", toggleash_damper_announce(damper, table, IP(10, 0, 0, 0), 8, 7, 1, 0), 0, 7, 0);
    update("another feed's", toggleash_damper_announce(damper, table, IP(10, 0, 0, 0), 8, 8, 2, 1), 0, 8, 1);
    front("third tick", toggleash_damper_tick(damper, table), 0, 1, 1);
    answer("held back", toggleash_table_find(table, IP(10, 0, 0, 1)), 0, 1, 8, 8, 8);
    front("fourth tick", toggleash_damper_tick(damper, table), 0, 1, 0);
    row("let go", 0, IP(10, 0, 0, 0), 8 * 8 + 1, 2 * 500, 0);
    answer("let go", toggleash_table_find(table, IP(10, 0, 0, 1)), 0, 1, 7, 8, 8);
}

/* A feed with ticks, and the same bytes without a front. */
static void fed(toggleash_damper damper, toggleash_table table) {
    static const uint8_t feed[] = {9, 4, 10, 0, 0, 0, 9, 0, 5, 2, 3, 9, 5, 10, 0, 0, 0, 9, 2, 3, 10, 0, 0, 1, 0};
    static const uint8_t replied[] = {16, 0, 0, 0, 0, 16, 0, 5, 0, 128, 16, 0, 0, 0, 0, 16, 0, 5, 0, 128, 18, 0};
    static const uint64_t whole[] = {25, 22, 2, 0}, none[] = {0, 0, 0, 0};
    uint8_t reply[40];
    memset(reply, 0xA5, sizeof reply);
    ran("run", toggleash_damper_run(damper, table, feed, sizeof feed, reply, sizeof reply), 0, TOGGLEASH_STOP_END, whole);
    same("replies", 0, (uint64_t)memcmp(reply, replied, sizeof replied));
    same("bytes past the replies", 0xA5, reply[sizeof replied]);
    front("after the run", toggleash_damper_check(damper), 0, 1, 0);
    ran("a table knows no tick", toggleash_table_run(table, feed, sizeof feed, reply, sizeof reply), 0, TOGGLEASH_STOP_KIND,
        none);
}

/* The same by the local calls: on a table each answers as the one that tests all of it. */
static void locally(toggleash_damper damper, toggleash_table table) {
    static const uint8_t feed[] = {2, 10, 0, 0, 0, 8, 9, 0};
    static const uint64_t whole[] = {8, 10, 1, 0};
    uint8_t reply[10];
    uint32_t i;
    for (i = 0; i < 4; i++) {
        update("local", toggleash_damper_announce_local(damper, table, IP(10, 0, 0, 0), 8, 5, 1, 0), 0, 5, 1);
        update("local", toggleash_damper_withdraw_local(damper, table, IP(10, 0, 0, 0), 8, 1), 0, 5, 1);
    }
    update("kept", toggleash_damper_announce_local(damper, table, IP(10, 0, 0, 0), 8, 6, 1, 0), 0, 6, 0);
    front("first tick", toggleash_damper_tick_local(damper, table), 0, 1, 1);
    front("second tick", toggleash_damper_tick_local(damper, table), 0, 1, 1);
    front("third tick", toggleash_damper_tick_local(damper, table), 0, 1, 0);
    answer("let go", toggleash_table_find(table, IP(10, 0, 0, 1)), 0, 1, 6, 8, 8);
    ran("run", toggleash_damper_run_local(damper, table, feed, sizeof feed, reply, sizeof reply), 0, TOGGLEASH_STOP_END, whole);
    row("after the run", 0, IP(10, 0, 0, 0), 8 * 8 + 1, 2 * 750, 0);
    /* of words that are no table only the local calls know a candidate that is held back */
    held[2] = 2 * 4000 + 1;
    memset(words, 255, sizeof words);
    memset(words_before, 255, sizeof words);
    update("kept", toggleash_damper_announce_local(damper, table, IP(10, 0, 0, 0), 8, 6, 1, 0), 0, 6, 0);
    update("not kept", toggleash_damper_announce(damper, table, IP(10, 0, 0, 0), 8, 6, 1, 0), TOGGLEASH_NOT_A_TABLE, 0, 0);
    update("another's", toggleash_damper_withdraw_local(damper, table, IP(10, 0, 0, 0), 8, 2), TOGGLEASH_NOT_A_TABLE, 0, 0);
    for (i = 0; i < 20; i++) {
        front("kept on", toggleash_damper_tick_local(damper, table), 0, 1, 1);
    }
    row("kept on", 0, IP(10, 0, 0, 0), 8 * 8 + 1, 1, 6);
    same("the words stay", 0, (uint64_t)memcmp(words_before, words, sizeof words));
}

/* The order of refusals, and that both memories stay. */
static void refused(toggleash_damper damper, toggleash_table table, uint32_t last) {
    static const uint64_t none[] = {0, 0, 0, 0};
    static const uint8_t feed[] = {9, 0};
    uint8_t reply[5] = {1, 2, 3, 4, 5};
    memcpy(words_before, words, sizeof words);
    memcpy(held_before, held, sizeof held);
    update("33 bits", toggleash_damper_announce(damper, table, 1, 33, 0, 9, 0), TOGGLEASH_LENGTH_OVER_32, 0, 0);
    update("a stray bit", toggleash_damper_announce(damper, table, 1, 8, 0, 9, 0), TOGGLEASH_STRAY_BIT, 0, 0);
    update("no hop", toggleash_damper_announce(damper, table, 0, 8, 0, 9, 0), TOGGLEASH_HOP_OUT_OF_RANGE, 0, 0);
    update("no feed", toggleash_damper_withdraw(damper, table, 0, 8, 0), TOGGLEASH_FEED_OUT_OF_RANGE, 0, 0);
    update("withdraw", toggleash_damper_withdraw(damper, table, 0, 8, 4), last, 0, 0);
    update("a wrong size", toggleash_damp_withdraw(held, 1024, words, 6145, 1, 33, 9), TOGGLEASH_WORD_COUNT, 0, 0);
    update("a front's", toggleash_damp_withdraw(held, 1023, words, 12288, 0, 8, 4), TOGGLEASH_NOT_A_TABLE, 0, 0);
    front("a wrong size", toggleash_damp_tick(held, 1024, words, 6145), TOGGLEASH_WORD_COUNT, 0, 0);
    front("a front's", toggleash_damp_tick(held, 1025, words, 12288), TOGGLEASH_NOT_A_TABLE, 0, 0);
    front("null", toggleash_damp_check(NULL, 0), TOGGLEASH_NOT_A_TABLE, 0, 0);
    update("33 bits", toggleash_damper_announce_local(damper, table, 1, 33, 0, 9, 0), TOGGLEASH_LENGTH_OVER_32, 0, 0);
    update("no feed", toggleash_damper_withdraw_local(damper, table, 0, 8, 0), TOGGLEASH_FEED_OUT_OF_RANGE, 0, 0);
    update("withdraw", toggleash_damper_withdraw_local(damper, table, 0, 8, 4), last, 0, 0);
    update("a wrong size", toggleash_damp_withdraw_local(held, 1024, words, 6145, 1, 33, 9), TOGGLEASH_WORD_COUNT, 0, 0);
    update("a front's", toggleash_damp_withdraw_local(held, 1023, words, 12288, 0, 8, 4), TOGGLEASH_NOT_A_TABLE, 0, 0);
    front("a wrong size", toggleash_damp_tick_local(held, 1024, words, 6145), TOGGLEASH_WORD_COUNT, 0, 0);
    front("a front's", toggleash_damp_tick_local(held, 1025, words, 12288), TOGGLEASH_NOT_A_TABLE, 0, 0);
    ran("a front's", toggleash_damp_run_local(held, 1023, words, 12288, feed, sizeof feed, reply, sizeof reply),
        TOGGLEASH_NOT_A_TABLE, 0, none);
    same("clear", TOGGLEASH_NOT_A_TABLE, toggleash_damp_clear(held, 1023));
    if (last == TOGGLEASH_NOT_A_TABLE) {
        front("tick", toggleash_damper_tick(damper, table), last, 0, 0);
        ran("run", toggleash_damper_run(damper, table, feed, sizeof feed, reply, sizeof reply), last, 0, none);
    }
    same("the reply stays", 5, reply[4]);
    same("the words stay", 0, (uint64_t)memcmp(words_before, words, sizeof words));
    same("the front stays", 0, (uint64_t)memcmp(held_before, held, sizeof held));
}

int main(void) {
    toggleash_table table = TOGGLEASH_TABLE(words);
    toggleash_damper damper = TOGGLEASH_FRONT(held);
    front("words of 0 are a front", toggleash_damper_check(damper), 0, 0, 0);
    memset(held, 255, sizeof held);
    front("no front", toggleash_damper_check(toggleash_damper_at(held)), TOGGLEASH_NOT_A_TABLE, 0, 0);
    same("clear", 0, toggleash_table_clear(table));
    refused(damper, table, TOGGLEASH_NOT_A_TABLE);
    same("clear", 0, toggleash_damper_clear(damper));
    front("cleared", toggleash_damper_check(damper), 0, 0, 0);
    refused(damper, table, TOGGLEASH_NOT_HELD);
    calmed(damper, table);
    refused(damper, table, TOGGLEASH_NOT_HELD);
    same("clear", 0, toggleash_damper_clear(damper));
    same("clear", 0, toggleash_table_clear(table));
    fed(damper, table);
    same("clear", 0, toggleash_damper_clear(damper));
    same("clear", 0, toggleash_table_clear(table));
    locally(damper, table);
    same("clear", 0, toggleash_damper_clear(damper));
    memset(words, 255, sizeof words);
    refused(damper, table, TOGGLEASH_NOT_A_TABLE);
    same("version", TOGGLEASH_VERSION, toggleash_damp_version_6());
    same("text", 0, (uint64_t)(strstr(toggleash_damp_text(2), "front") == NULL));
    same("text of 1", 0, (uint64_t)strcmp(toggleash_damp_text(1), toggleash_refusal_text(1)));
    return told();
}
