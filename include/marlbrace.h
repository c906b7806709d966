/*
 * Marlbrace: up to 64 sets of IP networks in one pool of words that the caller lends. Nothing else is kept, nothing is allocated, and every call is proved
 * safe for any memory. bin/archive proves the calls and writes target/archive/libmarlbrace.a, x86-64 code for Linux.
 *
 * A network is a family (4 or 6), an address in two words and a length; an IPv4 address stands in the low word. Bits past the length are cleared.
 *
 * Lengths are in elements. No pointer may be null or unaligned, also where its length is 0, and what is lent for writing must not overlap anything else.
 * A refused call changes nothing that was lent, but for marlbrace_lines.
 */
#ifndef MARLBRACE_H
#define MARLBRACE_H

#include <stddef.h>
#include <stdint.h>

#ifdef __cplusplus
extern "C" {
#endif

/* Why a call is refused: docs/REFUSALS.md. Where several apply it is the smallest. */
enum marlbrace_refusal {
    MARLBRACE_GRANTED = 0,
    MARLBRACE_BAD_SETUP = 1,
    MARLBRACE_DAMAGED = 2,
    MARLBRACE_NO_SET = 3,
    MARLBRACE_BAD_TEXT = 4,
    MARLBRACE_BAD_FILE = 5,
    MARLBRACE_WRONG_FAMILY = 6,
    MARLBRACE_BAD_NETWORK = 7,
    MARLBRACE_OCCUPIED = 8,
    MARLBRACE_OVER_LIMIT = 9,
    MARLBRACE_NO_ROOM = 10,
    MARLBRACE_SHORT_BUFFER = 11,
    MARLBRACE_BAD_RANGE = 12,
    MARLBRACE_BAD_SHARE = 13,
    MARLBRACE_NOT_PUBLIC = 14
};

/* An answer is one number. Its parts: */
static inline enum marlbrace_refusal marlbrace_refused(uint64_t answer) { return (enum marlbrace_refusal)(answer >> 32 & 0xffff); }
static inline uint32_t marlbrace_value(uint64_t answer) { return (uint32_t)answer; }         /* 0 where it is refused */
static inline int marlbrace_yes(uint64_t answer) { return (int)(answer >> 48 & 1); }          /* 0 where it is refused */
static inline int marlbrace_trimmed(uint64_t answer) { return (int)(answer >> 49 & 1); }      /* a set bit past the network's length was cut */

/* The pool. */
uint64_t marlbrace_words(uint32_t sets, uint32_t nodes);   /* value: the words that a pool needs */
uint64_t marlbrace_layout(uint32_t *pool, size_t pool_len, uint8_t family, uint32_t sets, uint32_t nodes, const uint32_t *shares, size_t shares_len,
                          const uint32_t *limits, size_t limits_len);
/* The same of a pool with indexed sets: words is told how many they are, layout which, set s by bit s. An indexed set takes 256 words more, by the first eight
 * bits of a network: its lookups of eight bits or more begin there, and answer as they do without. */
uint64_t marlbrace_words_indexed(uint32_t sets, uint32_t nodes, uint32_t indexed);
uint64_t marlbrace_layout_indexed(uint32_t *pool, size_t pool_len, uint8_t family, uint32_t sets, uint32_t nodes, const uint32_t *shares, size_t shares_len,
                                  const uint32_t *limits, size_t limits_len, uint64_t indexed);
/* The same with every choice. Form 0 is the first, as above: a node for each leading string of bits. Form 1, the second, keeps only members and the branch
 * points where members part: a list of m members, if it has any, takes 2 m - 1 nodes. A pool in it needs as many words, and no set of it is indexed. What is
 * granted in the first form is granted in the second, with the same lists and lookups; only nodes are counted otherwise. */
uint64_t marlbrace_layout_form(uint32_t *pool, size_t pool_len, uint8_t family, uint32_t form, uint32_t sets, uint32_t nodes, const uint32_t *shares,
                               size_t shares_len, const uint32_t *limits, size_t limits_len, uint64_t indexed);
uint64_t marlbrace_free(const uint32_t *pool, size_t pool_len);                      /* value: free nodes */
uint64_t marlbrace_held(const uint32_t *pool, size_t pool_len, uint32_t set);        /* value: nodes of the set */
uint64_t marlbrace_networks(const uint32_t *pool, size_t pool_len, uint32_t set);    /* value: networks of the set */
uint64_t marlbrace_share(const uint32_t *pool, size_t pool_len, uint32_t set);       /* value: its share */
uint64_t marlbrace_limit(const uint32_t *pool, size_t pool_len, uint32_t set);       /* value: its limit */

/* Changes. The value is the nodes of the set that changed; add and remove say whether a bit was cut. Combinations write a third set, which must be empty. */
uint64_t marlbrace_add(uint32_t *pool, size_t pool_len, uint32_t set, uint8_t family, uint64_t hi, uint64_t lo, uint8_t len);
uint64_t marlbrace_remove(uint32_t *pool, size_t pool_len, uint32_t set, uint8_t family, uint64_t hi, uint64_t lo, uint8_t len);
uint64_t marlbrace_simplify(uint32_t *pool, size_t pool_len, uint32_t set);
uint64_t marlbrace_merge(uint32_t *pool, size_t pool_len, uint32_t to, uint32_t first, uint32_t second);
uint64_t marlbrace_intersect(uint32_t *pool, size_t pool_len, uint32_t to, uint32_t first, uint32_t second);
uint64_t marlbrace_exclude(uint32_t *pool, size_t pool_len, uint32_t to, uint32_t first, uint32_t second);         /* simplified */
uint64_t marlbrace_exclude_apart(uint32_t *pool, size_t pool_len, uint32_t to, uint32_t first, uint32_t second);   /* members apart; of nothing: a copy */
uint64_t marlbrace_replan(uint32_t *pool, size_t pool_len, uint32_t set, uint32_t share, uint32_t limit);
uint64_t marlbrace_make_public(uint32_t *pool, size_t pool_len, uint32_t set);
uint64_t marlbrace_load(uint32_t *pool, size_t pool_len, uint32_t set, const uint8_t *file, size_t file_len);
/* The networks of a set file, all or none; a range, by its first and its last address. */
uint64_t marlbrace_add_file(uint32_t *pool, size_t pool_len, uint32_t set, const uint8_t *file, size_t file_len);
uint64_t marlbrace_remove_file(uint32_t *pool, size_t pool_len, uint32_t set, const uint8_t *file, size_t file_len);
uint64_t marlbrace_add_range(uint32_t *pool, size_t pool_len, uint32_t set, uint8_t family, uint64_t first_hi, uint64_t first_lo, uint64_t last_hi,
                             uint64_t last_lo);
/* Lines of text into set 0, up to the first that is refused: counts[0] is that line, or the one behind the last; counts[1] how many were trimmed. */
uint64_t marlbrace_lines(uint32_t *pool, size_t pool_len, const uint8_t *text, size_t text_len, uint64_t counts[2]);

/* Lookups: yes where a member contains the whole network, and the value is the nodes that were read. A row is high word, low word, length. */
uint64_t marlbrace_contains(const uint32_t *pool, size_t pool_len, uint32_t set, uint8_t family, uint64_t hi, uint64_t lo, uint8_t len);
/* Many queries in one call, each a row as list writes it: answers[i] is what contains answers to query i, so that it has its own refusal where it is no
 * network or its path is damaged. */
uint64_t marlbrace_contains_all(const uint32_t *pool, size_t pool_len, uint32_t set, uint8_t family, const uint64_t *queries, size_t queries_len,
                                uint64_t *answers, size_t answers_len);
uint64_t marlbrace_supernet(const uint32_t *pool, size_t pool_len, uint32_t set, uint8_t family, uint64_t hi, uint64_t lo, uint8_t len, uint64_t row[3]);
uint64_t marlbrace_is_empty(const uint32_t *pool, size_t pool_len, uint32_t set);
uint64_t marlbrace_equal(const uint32_t *pool, size_t pool_len, uint32_t first, uint32_t second);

/* Networks in list order: yes where there is one, in the row. list writes three numbers for each, and its value is how many networks. */
uint64_t marlbrace_first(const uint32_t *pool, size_t pool_len, uint32_t set, uint64_t row[3]);
uint64_t marlbrace_next(const uint32_t *pool, size_t pool_len, uint32_t set, uint8_t family, uint64_t hi, uint64_t lo, uint8_t len, uint64_t row[3]);
uint64_t marlbrace_nth(const uint32_t *pool, size_t pool_len, uint32_t set, uint32_t place, uint64_t row[3]);
uint64_t marlbrace_last(const uint32_t *pool, size_t pool_len, uint32_t set, uint64_t row[3]);
uint64_t marlbrace_list(const uint32_t *pool, size_t pool_len, uint32_t set, uint64_t *rows, size_t rows_len);
/* value: ranges, four numbers for each, those of its first and its last address */
uint64_t marlbrace_ranges(const uint32_t *pool, size_t pool_len, uint32_t set, uint64_t *rows, size_t rows_len);
uint64_t marlbrace_save(const uint32_t *pool, size_t pool_len, uint32_t set, uint8_t *out, size_t out_len);   /* value: bytes of the set file */

/* Two set files, without a pool: yes where they cover different addresses, the smallest in the row. The value is the file that holds it, 1 or 2; or 3 where
 * they cover the same, and 4 where the second is also the shortest list that does. */
uint64_t marlbrace_compare(const uint8_t *first, size_t first_len, const uint8_t *second, size_t second_len, uint64_t row[3]);

/* The right set file of what is left of a file's entries, without a pool: its family and its whole entries from byte 16 on, whatever else its header says.
 * The value is the bytes of the result, which are never more than the file has; counts: entries read, trimmed, dropped for a length out of range, dropped as
 * covered by others. */
uint64_t marlbrace_salvage(const uint8_t *file, size_t file_len, uint8_t *out, size_t out_len, uint64_t counts[4]);

/* Text, without a pool. read_line, of IPv4, _six, of IPv6, and _either: yes, the row, and the family as the value; write_line, of either: the bytes as the
 * value, no zero at their end. */
uint64_t marlbrace_read_line(const uint8_t *line, size_t line_len, uint64_t row[3]);
uint64_t marlbrace_read_line_six(const uint8_t *line, size_t line_len, uint64_t row[3]);
uint64_t marlbrace_read_line_either(const uint8_t *line, size_t line_len, uint64_t row[3]);
uint64_t marlbrace_write_line(uint8_t family, uint64_t hi, uint64_t lo, uint8_t len, uint8_t *out, size_t out_len);

#ifdef __cplusplus
}
#endif

#endif
