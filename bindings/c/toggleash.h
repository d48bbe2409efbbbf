/* Toggleash: a route table of IPv4 or IPv6 in 32-bit words that the caller lends. Every call checks its input and either
 * answers or refuses with a number; a refused call has changed nothing lent. Link with libtoggleash.a. C11 or C++11 and
 * later.
 *
 *     static uint32_t words[TOGGLEASH_WORDS(7)];
 *     toggleash_table table = TOGGLEASH_TABLE(words);
 *
 *     if (toggleash_table_clear(table)) ..
 *
 * Words. A table of A arrays, A from 1 to 4,096, takes 3,072 * (A + 1) words of 32 bits: TOGGLEASH_WORDS(A). The words
 * are the whole state: there is nothing to open or close, and they can be moved, or copied to where they go on as a
 * table of their own. They are in the byte order of the machine: to hand routes to another machine write them out,
 * which gives bytes that are the same everywhere. Start with toggleash_table_clear.
 *
 * Families. A table is of IPv4 or of IPv6; the words are as many for both. A call on an IPv6 table has v6 in its name:
 *
 *     toggleash_v6_table table = TOGGLEASH_V6_TABLE(words);
 *
 *     if (toggleash_v6_table_clear(table)) ..
 *
 * It does what the IPv4 call does, with addresses of 16 bytes and lengths to 128. The words do not say of which family they
 * are: an IPv4 table is an IPv6 table too, and an IPv6 table is one of IPv4 as long as no prefix in it is over 32 bits long
 * (docs/LAYOUT.md). So a call may not notice that it is handed the other family's words; the types below do.
 *
 * Tables and copies. A line card that only looks up can have a copy of an IPv4 route list, in words of its own that are
 * no table: make it from the bytes that were written out, in as many words as toggleash_copy_need tells or more. The
 * structs toggleash_table, toggleash_v6_table and toggleash_copy say where the words are and how many, so that one kind
 * cannot be handed in for another, nor a size in bytes for a number of words.
 *
 * Addresses, hops. An IPv4 address is a number, a.b.c.d being a * 2^24 + b * 2^16 + c * 2^8 + d. An IPv6 address is its 16
 * bytes in network order, as in the s6_addr of a struct in6_addr, and is passed by value: toggleash_ipv6. A hop is from 1
 * to 65,535, and what it stands for is the caller's matter.
 *
 * Candidates. A prefix holds up to four, one for each feed 1 to 4, each with a hop and a preference from 0 to 255. The
 * feed's number tells from which side a candidate was heard; the records of one run may name several. The candidate with
 * the lowest preference wins, at equal preference that of the lowest feed. The winners are the routes that lookups and
 * copies know; the others wait until those go or get worse. A caller that hears each prefix from one side alone gives
 * feed 1 and preference 0 throughout, which is what records of kinds 1 and 2 mean.
 *
 * Feeds. What the bytes of a feed, of its replies and of a written list are: docs/FEED.md.
 *
 * Pointers. Each pointer must lead to as many elements as the length beside it says, for as long as the call lasts.
 * Words must be aligned as uint32_t is, also where they are a part of other memory: where a processor cannot read a word
 * at every address, as most MIPS cannot, each such read is a trap. With length 0 a pointer is never followed and may be
 * null. With any other length it must not be null: that, and a length larger than what is lent, no call can notice, but
 * for a number of words that is refused with 1, where no word is read. The parts lent to one call must not overlap. What
 * is lent through a pointer to const is not changed.
 *
 * Threads. Calls on the same words may go on at once only where none of them changes words: check, find, within and
 * write do not, clear, announce, withdraw, run, the local calls and make do. bindings/c/swap.c looks up beside updates,
 * with two tables.
 *
 * Which update. announce, withdraw and run test the whole table before they change a word, a run once: they are for words
 * that come from elsewhere, or that something else may have written to. The test takes milliseconds at 4,096 arrays.
 * announce_local, withdraw_local and run_local test what they touch, and no more, which takes less than a microsecond an
 * update however large the table is (docs/MEASURED.md). On a table they answer the same and leave the same words, which are
 * a table again. So check once, where the words come from elsewhere, and take the local calls from then on; words that were
 * cleared need no check:
 *
 *     if (toggleash_table_check(table).refusal) ..
 *     toggleash_update done = toggleash_table_announce_local(table, 0x0A000000, 8, 1, 1, 10);
 *
 * On words that are no table the local calls are safe too. They refuse with 2 where what they touch is not as in a table;
 * else they may answer, and change nothing but the arrays on the prefix's path, those gained or freed for it, and the
 * header. They do not see damage elsewhere: where words may be damaged, check.
 */
#ifndef TOGGLEASH_H
#define TOGGLEASH_H

#include <stddef.h>
#include <stdint.h>

#ifdef __cplusplus
extern "C" {
#endif

/* ---- Numbers */

/* Refusals: the field `refusal` is 0 where the call answered. Else it is one of these, and all other fields are 0.
 * Where several apply, the first in this order is given: 1, 3, 4, 5, 10, 2, 7, 8 or 9. There is no 6. */
enum {
    TOGGLEASH_WORD_COUNT = 1,   /* the number of words is not a multiple of 3,072 from 6,144 to 12,585,984 */
    TOGGLEASH_NOT_A_TABLE = 2,  /* the words are not a table. A lookup does not test that; it gives 2 where a cell on its
                                   walk has a length over 8, no link and a block over 8, or a link to an array that the
                                   words do not have, as any link has at the last of the four levels, for IPv6 of the
                                   sixteen (docs/LAYOUT.md).
                                   Nor does toggleash_within; it gives 2 where its walk meets a link to an array that the
                                   words do not have, or a total over 511 for each array of the words.
                                   Nor do the local calls; they give 2 where the path to the prefix's array, or an array
                                   that they would gain, is not as in a table (docs/LAYOUT.md).
                                   From toggleash_copy_need and making a copy: the bytes are not one whole written-out
                                   list, of any room, in records of kind 4 or of kind 1 alone. From a lookup in a copy:
                                   the words are fewer than 1,024, its walk meets a hash table that does not lie inside
                                   them, or it ends with a best match that no copy has (docs/COPY.md) */
    TOGGLEASH_LENGTH_OVER_32 = 3,
    TOGGLEASH_LENGTH_OVER_128 = 3, /* what 3 means from an IPv6 call */
    TOGGLEASH_STRAY_BIT = 4,    /* a bit of the address after the first `length` is set */
    TOGGLEASH_HOP_OUT_OF_RANGE = 5, /* the hop is 0 or over 65,535 */
    TOGGLEASH_NOT_HELD = 7,     /* the feed has no candidate for this prefix that could be withdrawn */
    TOGGLEASH_NO_ROOM = 8,      /* the prefix has no candidate, and the prefixes with it need more arrays than the words
                                   have */
    TOGGLEASH_BUFFER_SHORT = 9, /* the buffer is too short for the written list; from making a copy: the words are fewer
                                   than it needs */
    TOGGLEASH_FEED_OUT_OF_RANGE = 10 /* the feed is not 1 to 4 */
};

/* Why a run stopped. */
enum {
    TOGGLEASH_STOP_END = 0,     /* an end record */
    TOGGLEASH_STOP_NO_BYTE = 1, /* no byte of the feed left */
    TOGGLEASH_STOP_KIND = 2,    /* a kind that the table's family has not: not 0 to 5, for IPv6 not 0 and not 6 to 8 */
    TOGGLEASH_STOP_BODY = 3,    /* a record whose body is short */
    TOGGLEASH_STOP_REPLY = 4    /* fewer than TOGGLEASH_REPLY_MOST reply bytes free */
};

/* The first byte of a record, and of a reply. 0 and the replies are of both families. */
enum {
    TOGGLEASH_KIND_END = 0,
    TOGGLEASH_KIND_ANNOUNCE = 1,     /* address 4 bytes, length 1, hop 2; the feed is 1 and the preference 0 */
    TOGGLEASH_KIND_WITHDRAW = 2,     /* address 4, length 1; the feed is 1 */
    TOGGLEASH_KIND_LOOKUP = 3,       /* address 4 */
    TOGGLEASH_KIND_ANNOUNCE_FOR = 4, /* as kind 1, then a byte for the feed and one for the preference */
    TOGGLEASH_KIND_WITHDRAW_FOR = 5, /* as kind 2, then a byte for the feed */
    TOGGLEASH_KIND_V6_ANNOUNCE = 6,  /* address 16, length 1, hop 2, feed 1, preference 1 */
    TOGGLEASH_KIND_V6_WITHDRAW = 7,  /* address 16, length 1, feed 1 */
    TOGGLEASH_KIND_V6_LOOKUP = 8,    /* address 16 */
    TOGGLEASH_KIND_DONE = 16,        /* hop 2, cells 2 */
    TOGGLEASH_KIND_FOUND = 17,       /* hop 2, length 1, block 1 */
    TOGGLEASH_KIND_NONE = 18,        /* block 1 */
    TOGGLEASH_KIND_REFUSED = 19      /* refusal 1 */
};

/* Limits. */
enum {
    TOGGLEASH_MOST_ARRAYS = 4096,
    TOGGLEASH_LEAST_WORDS = 6144,
    TOGGLEASH_MOST_WORDS = 12585984,
    TOGGLEASH_COPY_LEAST_WORDS = 1024, /* a copy of no route */
    TOGGLEASH_MOST_LENGTH = 32,
    TOGGLEASH_V6_MOST_LENGTH = 128,
    TOGGLEASH_MOST_HOP = 65535,
    TOGGLEASH_MOST_FEED = 4,
    TOGGLEASH_MOST_CELLS = 256,
    TOGGLEASH_RECORD_MOST = 10,        /* bytes of the longest record of a feed */
    TOGGLEASH_V6_RECORD_MOST = 22,
    TOGGLEASH_REPLY_MOST = 5           /* bytes of the longest reply: so many a record are always enough */
};

/* The words of a table of so many arrays, of either family. */
#define TOGGLEASH_WORDS(arrays) ((size_t)3072 * ((size_t)(arrays) + 1))

/* The bytes of a written-out list of so many candidates, the check's `routes`. */
#define TOGGLEASH_WRITTEN_BYTES(routes) ((size_t)10 * (size_t)(routes) + 1)
#define TOGGLEASH_V6_WRITTEN_BYTES(routes) ((size_t)22 * (size_t)(routes) + 1)

/* ---- The version
 *
 * It rises with any change that a caller would not notice else, and the archive has it as the name of a function. Each
 * file that includes this header keeps a pointer to that function, four or eight bytes: so a program whose header and
 * archive are of two versions does not link, `undefined reference to toggleash_version_..`. */
#define TOGGLEASH_VERSION 6
uint32_t toggleash_version_6(void); /* returns 6 */

#if defined(__GNUC__) && !defined(TOGGLEASH_ARCHIVE) /* which the archive's own files define */
#if defined(__has_attribute)
#if __has_attribute(retain) && defined(__ELF__)
#define TOGGLEASH_KEPT_ __attribute__((used, retain)) /* by the linker too, where it drops what is not used */
#endif
#endif
#ifndef TOGGLEASH_KEPT_
#define TOGGLEASH_KEPT_ __attribute__((used))
#endif
#pragma GCC diagnostic push
#pragma GCC diagnostic ignored "-Wattributes" /* a compiler may know the word and not its assembler */
static uint32_t (*const toggleash_version_linked_)(void) TOGGLEASH_KEPT_ = toggleash_version_6;
#pragma GCC diagnostic pop
#endif

/* An answer that is thrown away is a refusal not seen. */
#if defined(__GNUC__)
#define TOGGLEASH_ANSWER __attribute__((warn_unused_result))
#elif defined(__cplusplus) && __cplusplus >= 201703L || defined(__STDC_VERSION__) && __STDC_VERSION__ >= 202311L
#define TOGGLEASH_ANSWER [[nodiscard]]
#else
#define TOGGLEASH_ANSWER
#endif

/* ---- An IPv6 address, by value, in network order: the highest byte first */
typedef struct {
    uint8_t bytes[16];
} toggleash_ipv6;

/* ---- Answers, of both families alike */

/* What the check counts. */
typedef struct {
    uint32_t refusal; /* 0, 1 or 2 */
    uint32_t routes;  /* candidates held */
    uint32_t arrays;  /* arrays that their prefixes need, the first one included */
} toggleash_counts;

/* What a lookup finds. The block is how many of the address's first bits the answer may be remembered for: while the table
 * stays as it is, all addresses that share them get the same route, or all get none. It is the smallest such number. */
typedef struct {
    uint32_t refusal; /* 0, 1 or 2 */
    uint32_t found;   /* 1: a route matches; 0: none does, and hop and length are 0 */
    uint32_t hop;     /* hop of the longest match */
    uint32_t length;  /* its length, 0 to 32, for IPv6 to 128 */
    uint32_t block;   /* 0 to 32, for IPv6 to 128, where none is found too; in a table never below the length */
} toggleash_answer;

/* What lies inside a prefix. */
typedef struct {
    uint32_t refusal;  /* 0, 1, 2, 3 or 4 */
    uint32_t prefixes; /* prefixes with a candidate inside it, itself included; each once, however many candidates it has */
} toggleash_total;

/* What a lookup in a copy finds, which tells no block. */
typedef struct {
    uint32_t refusal; /* 0 or 2 */
    uint32_t found;   /* 1: a route matches; 0: none does, and hop and length are 0 */
    uint32_t hop;     /* hop of the longest match */
    uint32_t length;  /* its length, 0 to 32 */
} toggleash_match;

/* What an update did. */
typedef struct {
    uint32_t refusal;
    uint32_t hop;   /* the hop announced, or the one that the withdrawn candidate had, whichever wins */
    uint32_t cells; /* cells of the prefix's array that it covers and no longer prefix of that array does, 0 to 256; 0 where
                       the prefix has the same winning hop as before */
} toggleash_update;

/* What writing out wrote. */
typedef struct {
    uint32_t refusal; /* 0, 1, 2 or 9 */
    uint64_t bytes;   /* 10 for each candidate, for IPv6 22, and 1 */
} toggleash_written;

/* What a run did. */
typedef struct {
    uint32_t refusal;  /* 0, 1 or 2; from a local run 0 or 1 */
    uint32_t stop;     /* TOGGLEASH_STOP_END .. TOGGLEASH_STOP_REPLY */
    uint64_t consumed; /* feed bytes taken; a record that stops the run is not, the end is */
    uint64_t written;  /* reply bytes written */
    uint64_t accepted; /* updates accepted */
    uint64_t refused;  /* records refused */
} toggleash_ran;

/* What a copy needs. Of a long list that may be more than a machine of 32 bits can lend: see that words is at most
 * SIZE_MAX / 4 before you ask for the memory. */
typedef struct {
    uint32_t refusal; /* 0 or 2 */
    uint64_t words;   /* 8 * (routes + markers) + 1,024 */
} toggleash_needed;

/* What making a copy counts. */
typedef struct {
    uint32_t refusal; /* 0, 2 or 9 */
    uint64_t routes;  /* routes of the list, one for each prefix, the default route included */
    uint64_t markers; /* distinct entries beside the routes, which lead a search to longer ones */
} toggleash_built;

/* ---- The calls of the archive, with words as a pointer and their number
 *
 * For other languages, and for words that are const. In C and C++ the calls on structs below are safer: here nothing
 * sees that n is a number of words and not of bytes, nor that the words are meant as a table and not as a copy. */

/* Makes the words the table of no route, whatever they hold. Returns 0, or 1. */
TOGGLEASH_ANSWER uint32_t toggleash_clear(uint32_t *words, size_t n);

/* Tests whether the words are a table and counts. Refuses with 1 or 2. */
TOGGLEASH_ANSWER toggleash_counts toggleash_check(const uint32_t *words, size_t n);

/* Finds the longest match and the block. Refuses with 1. Does not test the table: on words that are none it reads inside
 * them and gives what its walk gives, or 2. */
TOGGLEASH_ANSWER toggleash_answer toggleash_lookup(const uint32_t *words, size_t n, uint32_t address);

/* Counts the prefixes that lie inside this one, itself included, which need not be held; inside 0.0.0.0/0 lie all. The totals
 * are kept in the table, so that this takes about the time of a lookup however many there are. Refuses with 1, 3 or 4. Does
 * not test the table: on words that are none it reads inside them and gives what its walk gives, or 2. Any length may be
 * given. */
TOGGLEASH_ANSWER toggleash_total toggleash_within(const uint32_t *words, size_t n, uint32_t address, uint32_t length);

/* Gives a feed this candidate for a prefix, in place of the one that it had. For a prefix that has a candidate, of any feed,
 * there is always room. Refuses with 1, 3, 4, 5, 10, 2 or 8. Any length, hop and feed may be given. */
TOGGLEASH_ANSWER toggleash_update toggleash_announce(uint32_t *words, size_t n, uint32_t address, uint32_t length,
                                                     uint32_t hop, uint32_t feed, uint8_t preference);

/* Removes a feed's candidate for a prefix. Refuses with 1, 3, 4, 10, 2 or 7. Any length and feed may be given. */
TOGGLEASH_ANSWER toggleash_update toggleash_withdraw(uint32_t *words, size_t n, uint32_t address, uint32_t length,
                                                     uint32_t feed);

/* Writes the candidates as a feed of announcements, of kind 4, and an end to the front of the buffer; the rest stays. Refuses
 * with 1, 2 or 9. TOGGLEASH_WRITTEN_BYTES(routes), by the check, are enough and no fewer. A buffer of 0 bytes is always
 * refused. */
TOGGLEASH_ANSWER toggleash_written toggleash_write_out(const uint32_t *words, size_t n, uint8_t *buffer, size_t room);

/* Takes the records of a feed in order and writes a reply to each but the end; reply bytes past `written` stay. Refuses
 * with 1 or 2, before any record. A refused record is replied to and the run goes on. Feed and reply may have 0 bytes. */
TOGGLEASH_ANSWER toggleash_ran toggleash_run(uint32_t *words, size_t n, const uint8_t *feed, size_t feed_len,
                                             uint8_t *reply, size_t reply_len);

/* As toggleash_announce and toggleash_withdraw, testing what they touch and no more (Which update, above): on a table the
 * answer and the words are the same. Refuse with 1, 3, 4, 5 or 10 as those do, then with 2 where what they touch is not as in
 * a table, then with 7 or 8. */
TOGGLEASH_ANSWER toggleash_update toggleash_announce_local(uint32_t *words, size_t n, uint32_t address, uint32_t length,
                                                           uint32_t hop, uint32_t feed, uint8_t preference);
TOGGLEASH_ANSWER toggleash_update toggleash_withdraw_local(uint32_t *words, size_t n, uint32_t address, uint32_t length,
                                                           uint32_t feed);

/* As toggleash_run, without its test: each record is answered as by its local call, or as by toggleash_lookup, and one that
 * is refused with 2 is replied to as any other refused one. Refuses with 1, before any record. */
TOGGLEASH_ANSWER toggleash_ran toggleash_run_local(uint32_t *words, size_t n, const uint8_t *feed, size_t feed_len,
                                                   uint8_t *reply, size_t reply_len);

/* Counts the words that a copy of a written-out list's winners needs. Refuses with 2 exactly where the bytes, all of them, are
 * not a list in the form that toggleash_write_out writes: records of candidates in order, the end, nothing after it. How many
 * arrays a table would need for it is not asked: a full internet table has a copy. A list of kind 1 records, one for each
 * prefix, is taken too; one of both kinds is not. 0 bytes, which may be null, are no list; the empty list is one byte 0. */
TOGGLEASH_ANSWER toggleash_needed toggleash_copy_need(const uint8_t *bytes, size_t bytes_len);

/* Makes the words a copy of the list's winners, whatever they hold; words past those needed stay. Refuses with 2 as
 * toggleash_copy_need does, then with 9; a refused build has changed no word. The bytes are not needed afterwards. Any
 * number of words may be lent: neither this call nor the next refuses with 1. */
TOGGLEASH_ANSWER toggleash_built toggleash_copy_build(const uint8_t *bytes, size_t bytes_len, uint32_t *words, size_t n);

/* Finds the longest match in a copy. n may be any number from the need on, whatever stands in the words past it. Does
 * not test the copy: on words that are none it reads inside them and gives what its walk gives (docs/COPY.md), or 2.
 * With fewer than 1,024 words, null and 0 too, it always gives 2. */
TOGGLEASH_ANSWER toggleash_match toggleash_copy_lookup(const uint32_t *words, size_t n, uint32_t address);

/* The calls on IPv6 tables. Each is as the one above without v6 in its name, but that it refuses with 3 a length over 128,
 * writes out records of kind 6, of 22 bytes, and takes feeds of kinds 0 and 6 to 8. */
TOGGLEASH_ANSWER uint32_t toggleash_v6_clear(uint32_t *words, size_t n);
TOGGLEASH_ANSWER toggleash_counts toggleash_v6_check(const uint32_t *words, size_t n);
TOGGLEASH_ANSWER toggleash_answer toggleash_v6_lookup(const uint32_t *words, size_t n, toggleash_ipv6 address);
TOGGLEASH_ANSWER toggleash_total toggleash_v6_within(const uint32_t *words, size_t n, toggleash_ipv6 address,
                                                     uint32_t length);
TOGGLEASH_ANSWER toggleash_update toggleash_v6_announce(uint32_t *words, size_t n, toggleash_ipv6 address, uint32_t length,
                                                        uint32_t hop, uint32_t feed, uint8_t preference);
TOGGLEASH_ANSWER toggleash_update toggleash_v6_withdraw(uint32_t *words, size_t n, toggleash_ipv6 address, uint32_t length,
                                                        uint32_t feed);
TOGGLEASH_ANSWER toggleash_written toggleash_v6_write_out(const uint32_t *words, size_t n, uint8_t *buffer, size_t room);
TOGGLEASH_ANSWER toggleash_ran toggleash_v6_run(uint32_t *words, size_t n, const uint8_t *feed, size_t feed_len,
                                                uint8_t *reply, size_t reply_len);
TOGGLEASH_ANSWER toggleash_update toggleash_v6_announce_local(uint32_t *words, size_t n, toggleash_ipv6 address,
                                                              uint32_t length, uint32_t hop, uint32_t feed,
                                                              uint8_t preference);
TOGGLEASH_ANSWER toggleash_update toggleash_v6_withdraw_local(uint32_t *words, size_t n, toggleash_ipv6 address,
                                                              uint32_t length, uint32_t feed);
TOGGLEASH_ANSWER toggleash_ran toggleash_v6_run_local(uint32_t *words, size_t n, const uint8_t *feed, size_t feed_len,
                                                      uint8_t *reply, size_t reply_len);

/* ---- Tables and copies */

/* Words that are an IPv4 table, or are to become one by toggleash_table_clear, and their number. */
typedef struct {
    uint32_t *words;
    size_t n;
} toggleash_table;

/* Words that are an IPv6 table, or are to become one by toggleash_v6_table_clear, and their number. */
typedef struct {
    uint32_t *words;
    size_t n;
} toggleash_v6_table;

/* Words that are a copy of a route list, or are to become one by toggleash_copy_make, and their number. */
typedef struct {
    uint32_t *words;
    size_t n;
} toggleash_copy;

/* TOGGLEASH_TABLE(array), TOGGLEASH_V6_TABLE(array) and TOGGLEASH_COPY(array) make one of an array of uint32_t. Anything
 * else does not compile: a pointer, an array of other elements, and for a table an array of a number of words that no
 * table has. Where p points to a whole array, `uint32_t (*p)[TOGGLEASH_WORDS(7)]`, it is TOGGLEASH_TABLE(*p). */
#define TOGGLEASH_FITS_(n) ((n) % 3072 == 0 && (n) >= TOGGLEASH_LEAST_WORDS && (n) <= TOGGLEASH_MOST_WORDS)

#ifdef __cplusplus
extern "C++" {
template <typename table, size_t n> constexpr table toggleash_table_of_(uint32_t (&words)[n]) {
    static_assert(TOGGLEASH_FITS_(n), "a table has TOGGLEASH_WORDS(arrays) words");
    return table{words, n};
}
template <size_t n> constexpr toggleash_copy toggleash_copy_of_(uint32_t (&words)[n]) {
    return toggleash_copy{words, n};
}
}
#define TOGGLEASH_TABLE(array) (toggleash_table_of_<toggleash_table>(array))
#define TOGGLEASH_V6_TABLE(array) (toggleash_table_of_<toggleash_v6_table>(array))
#define TOGGLEASH_COPY(array) (toggleash_copy_of_(array))
#else
/* The address of an array is a pointer to an array of so many elements, that of a pointer is not; the length of the type
 * is one off, and so the type another, where the array is not `right`. */
#define TOGGLEASH_LENGTH_(array) (sizeof(array) / sizeof((array)[0]))
#define TOGGLEASH_ARRAY_(array, right)                                                                                   \
    _Generic(&(array), uint32_t(*)[TOGGLEASH_LENGTH_(array) + !(right)]: TOGGLEASH_LENGTH_(array))
#define TOGGLEASH_TABLE_(table, array)                                                                                   \
    ((table){(array), TOGGLEASH_ARRAY_(array, TOGGLEASH_FITS_(TOGGLEASH_LENGTH_(array)))})
#define TOGGLEASH_TABLE(array) TOGGLEASH_TABLE_(toggleash_table, array)
#define TOGGLEASH_V6_TABLE(array) TOGGLEASH_TABLE_(toggleash_v6_table, array)
#define TOGGLEASH_COPY(array) ((toggleash_copy){(array), TOGGLEASH_ARRAY_(array, 1)})
#endif

/* A table in lent memory whose size is known at run time only: TOGGLEASH_WORDS(arrays) words. The number is one of
 * arrays, so that a size in bytes, which is over 4,096 for every table, is refused with 1 in each call. */
static inline toggleash_table toggleash_table_at(uint32_t *words, uint32_t arrays) {
    toggleash_table table;
    table.words = words;
    table.n = arrays <= TOGGLEASH_MOST_ARRAYS ? TOGGLEASH_WORDS(arrays) : 0;
    return table;
}

static inline toggleash_v6_table toggleash_v6_table_at(uint32_t *words, uint32_t arrays) {
    toggleash_v6_table table;
    table.words = words;
    table.n = toggleash_table_at(words, arrays).n;
    return table;
}

/* A copy in lent memory of as many words as toggleash_copy_need told. */
static inline toggleash_copy toggleash_copy_at(uint32_t *words, toggleash_needed need) {
    toggleash_copy copy;
    copy.words = words;
    copy.n = (size_t)need.words;
    return copy;
}

/* ---- The calls on tables and copies: as those of the archive. `find` is its lookup, `write` its write_out, `make` its
 * build. */

TOGGLEASH_ANSWER static inline uint32_t toggleash_table_clear(toggleash_table table) {
    return toggleash_clear(table.words, table.n);
}

TOGGLEASH_ANSWER static inline toggleash_counts toggleash_table_check(toggleash_table table) {
    return toggleash_check(table.words, table.n);
}

TOGGLEASH_ANSWER static inline toggleash_answer toggleash_table_find(toggleash_table table, uint32_t address) {
    return toggleash_lookup(table.words, table.n, address);
}

TOGGLEASH_ANSWER static inline toggleash_total toggleash_table_within(toggleash_table table, uint32_t address,
                                                                      uint32_t length) {
    return toggleash_within(table.words, table.n, address, length);
}

TOGGLEASH_ANSWER static inline toggleash_update toggleash_table_announce(toggleash_table table, uint32_t address,
                                                                         uint32_t length, uint32_t hop, uint32_t feed,
                                                                         uint8_t preference) {
    return toggleash_announce(table.words, table.n, address, length, hop, feed, preference);
}

TOGGLEASH_ANSWER static inline toggleash_update toggleash_table_withdraw(toggleash_table table, uint32_t address,
                                                                         uint32_t length, uint32_t feed) {
    return toggleash_withdraw(table.words, table.n, address, length, feed);
}

TOGGLEASH_ANSWER static inline toggleash_written toggleash_table_write(toggleash_table table, uint8_t *buffer,
                                                                       size_t room) {
    return toggleash_write_out(table.words, table.n, buffer, room);
}

TOGGLEASH_ANSWER static inline toggleash_ran toggleash_table_run(toggleash_table table, const uint8_t *feed,
                                                                 size_t feed_len, uint8_t *reply, size_t reply_len) {
    return toggleash_run(table.words, table.n, feed, feed_len, reply, reply_len);
}

TOGGLEASH_ANSWER static inline toggleash_update toggleash_table_announce_local(toggleash_table table, uint32_t address,
                                                                               uint32_t length, uint32_t hop,
                                                                               uint32_t feed, uint8_t preference) {
    return toggleash_announce_local(table.words, table.n, address, length, hop, feed, preference);
}

TOGGLEASH_ANSWER static inline toggleash_update toggleash_table_withdraw_local(toggleash_table table, uint32_t address,
                                                                               uint32_t length, uint32_t feed) {
    return toggleash_withdraw_local(table.words, table.n, address, length, feed);
}

TOGGLEASH_ANSWER static inline toggleash_ran toggleash_table_run_local(toggleash_table table, const uint8_t *feed,
                                                                       size_t feed_len, uint8_t *reply,
                                                                       size_t reply_len) {
    return toggleash_run_local(table.words, table.n, feed, feed_len, reply, reply_len);
}

TOGGLEASH_ANSWER static inline uint32_t toggleash_v6_table_clear(toggleash_v6_table table) {
    return toggleash_v6_clear(table.words, table.n);
}

TOGGLEASH_ANSWER static inline toggleash_counts toggleash_v6_table_check(toggleash_v6_table table) {
    return toggleash_v6_check(table.words, table.n);
}

TOGGLEASH_ANSWER static inline toggleash_answer toggleash_v6_table_find(toggleash_v6_table table, toggleash_ipv6 address) {
    return toggleash_v6_lookup(table.words, table.n, address);
}

TOGGLEASH_ANSWER static inline toggleash_total toggleash_v6_table_within(toggleash_v6_table table, toggleash_ipv6 address,
                                                                         uint32_t length) {
    return toggleash_v6_within(table.words, table.n, address, length);
}

TOGGLEASH_ANSWER static inline toggleash_update toggleash_v6_table_announce(toggleash_v6_table table,
                                                                            toggleash_ipv6 address, uint32_t length,
                                                                            uint32_t hop, uint32_t feed,
                                                                            uint8_t preference) {
    return toggleash_v6_announce(table.words, table.n, address, length, hop, feed, preference);
}

TOGGLEASH_ANSWER static inline toggleash_update toggleash_v6_table_withdraw(toggleash_v6_table table,
                                                                            toggleash_ipv6 address, uint32_t length,
                                                                            uint32_t feed) {
    return toggleash_v6_withdraw(table.words, table.n, address, length, feed);
}

TOGGLEASH_ANSWER static inline toggleash_written toggleash_v6_table_write(toggleash_v6_table table, uint8_t *buffer,
                                                                          size_t room) {
    return toggleash_v6_write_out(table.words, table.n, buffer, room);
}

TOGGLEASH_ANSWER static inline toggleash_ran toggleash_v6_table_run(toggleash_v6_table table, const uint8_t *feed,
                                                                    size_t feed_len, uint8_t *reply, size_t reply_len) {
    return toggleash_v6_run(table.words, table.n, feed, feed_len, reply, reply_len);
}

TOGGLEASH_ANSWER static inline toggleash_update toggleash_v6_table_announce_local(toggleash_v6_table table,
                                                                                  toggleash_ipv6 address,
                                                                                  uint32_t length, uint32_t hop,
                                                                                  uint32_t feed, uint8_t preference) {
    return toggleash_v6_announce_local(table.words, table.n, address, length, hop, feed, preference);
}

TOGGLEASH_ANSWER static inline toggleash_update toggleash_v6_table_withdraw_local(toggleash_v6_table table,
                                                                                  toggleash_ipv6 address,
                                                                                  uint32_t length, uint32_t feed) {
    return toggleash_v6_withdraw_local(table.words, table.n, address, length, feed);
}

TOGGLEASH_ANSWER static inline toggleash_ran toggleash_v6_table_run_local(toggleash_v6_table table, const uint8_t *feed,
                                                                          size_t feed_len, uint8_t *reply,
                                                                          size_t reply_len) {
    return toggleash_v6_run_local(table.words, table.n, feed, feed_len, reply, reply_len);
}

TOGGLEASH_ANSWER static inline toggleash_built toggleash_copy_make(toggleash_copy copy, const uint8_t *bytes,
                                                                   size_t bytes_len) {
    return toggleash_copy_build(bytes, bytes_len, copy.words, copy.n);
}

TOGGLEASH_ANSWER static inline toggleash_match toggleash_copy_find(toggleash_copy copy, uint32_t address) {
    return toggleash_copy_lookup(copy.words, copy.n, address);
}

/* ---- In words */

/* What a refusal says, for a log. Never null. */
static inline const char *toggleash_refusal_text(uint32_t refusal) {
    switch (refusal) {
    case 0: return "answered";
    case TOGGLEASH_WORD_COUNT: return "the number of words is not a multiple of 3,072 from 6,144 to 12,585,984";
    case TOGGLEASH_NOT_A_TABLE: return "the words are not a table or not a copy, or the bytes not a list";
    case TOGGLEASH_LENGTH_OVER_32: return "the length is over 32, or of a prefix of IPv6 over 128";
    case TOGGLEASH_STRAY_BIT: return "a bit after the length is set";
    case TOGGLEASH_HOP_OUT_OF_RANGE: return "the hop is 0 or over 65,535";
    case TOGGLEASH_NOT_HELD: return "the feed has no candidate for the prefix";
    case TOGGLEASH_NO_ROOM: return "the table has no room for the prefix";
    case TOGGLEASH_BUFFER_SHORT: return "the buffer is too short for the written list, or the words for the copy";
    case TOGGLEASH_FEED_OUT_OF_RANGE: return "the feed is not 1 to 4";
    default: return "no refusal has this number";
    }
}

/* What a stop says. Never null. */
static inline const char *toggleash_stop_text(uint32_t stop) {
    switch (stop) {
    case TOGGLEASH_STOP_END: return "end";
    case TOGGLEASH_STOP_NO_BYTE: return "no byte left";
    case TOGGLEASH_STOP_KIND: return "the next record's kind is not 0 to 5, or for IPv6 not 0 and not 6 to 8";
    case TOGGLEASH_STOP_BODY: return "the next record's body is short";
    case TOGGLEASH_STOP_REPLY: return "fewer than 5 reply bytes are free";
    default: return "no stop has this number";
    }
}

#ifdef __cplusplus
}
#endif

#endif
