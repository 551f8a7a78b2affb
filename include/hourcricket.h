/* Hourcricket for C: time series judged by rules in Finite LTL or LTLf. `tools/build` makes the library to link,
   target/staticlib/libcalls.a.

   Every call ends, for whatever it is given, and answers by a number:
     0 done, or no; 1 yes (in hourcricket_read: text over 1,024 bytes)
     2 a byte with which no text goes on; 3 the text ends too early; 4 too deep; 5 too many formulas
     6 no rule; 7 the printed text is too long or too deep; 8 a lent slice is below its size; 9 the tables are too large; 10 bad tables or walk
     12 no profile has this number (hourcricket_read alone; where a rule comes in as bytes such a number makes it no rule)
   Where more than one refusal is due, each call's comment has them in the order in which they are given.

   A slice is a pointer and the number of its elements; one that a call fills may be longer than asked for. What a call is not said to write
   stays as it was. No pointer may be null, also not that of a slice of no elements; memory that a call writes may not overlap anything else
   that is handed to it. A call needs less than 1 MB of stack, hourcricket_read the most; none keeps anything, so that threads may call at
   once.

   A date is a byte, flag a its lowest bit and h its highest; a series may have no dates. How a rule's text is written stands in README.md,
   "Writing a rule".

   A profile says what a rule means. Finite: the place after the last date counts, where no flag stands; U, R, F, G look at it too, and so do
   X and N at the last date; a series with no dates is judged like any other. Last: only dates count; at the last date N holds and X does
   not, and a series with no dates is always answered no. README.md, "Two profiles", has examples.

   A rule is its profile's number, its count of formulas, at most 64 and under the profile last 63, and 192 bytes, three for each of 64
   entries: the kind (0 flag, 1 negated flag, 2 true, 3 false, 4 and, 5 or, 6 next, 7 weak next, 8 until, 9 release), then two operands (a
   flag, or numbers of earlier formulas), each 0 where there is none. Entries from the count on are false. Any other profile, count or
   bytes, also more or fewer of them, are no rule. The same count and bytes under another profile are another rule, or none, and
   no call can tell that another profile was meant: keep the three together.

   Tables are the counts of states and edges, the row starts, the accept bytes and the edges: row q has the edges from starts[q] on, below
   starts[q + 1]; an edge has the flags that must be present in bits 0 to 7, those that must be absent in 8 to 15, its target from 16 on.
   They are good whoever made them if there are 1 to 128 states, the slices are long enough for the counts, the starts begin with 0, do not
   fall and end with the edge count, at most 8,192, accept bytes are 0 or 1, no edge wants a flag both ways, and each target is a state. */
#ifndef HOURCRICKET_H
#define HOURCRICKET_H

#include <stddef.h>
#include <stdint.h>

/* Sizes of what is lent, in elements. */
#define HOURCRICKET_RULE_BYTES 192
#define HOURCRICKET_TEXT_BYTES 1024
#define HOURCRICKET_MASKS 128
#define HOURCRICKET_STARTS 129
#define HOURCRICKET_ACCEPTS 128
#define HOURCRICKET_EDGES 8192
#define HOURCRICKET_FIT_DATES 127

/* The profiles. */
#define HOURCRICKET_PROFILE_FINITE 0
#define HOURCRICKET_PROFILE_LAST 1

/* What a refused text wanted at its place: the start of an operand; an operator, or ) where a parenthesis is open; the > of ->.
   Nothing: the refusal does not say it. */
#define HOURCRICKET_WANTED_NOTHING 0
#define HOURCRICKET_WANTED_OPERAND 1
#define HOURCRICKET_WANTED_OPERATOR 2
#define HOURCRICKET_WANTED_ARROW 3

#ifdef __cplusplus
extern "C" {
#endif

/* Whether the profile, the count and the bytes are those of a rule: 1 yes, 0 no, also for a number that no profile has. */
uint8_t hourcricket_is_rule(uint8_t profile, size_t count, const uint8_t *bytes, size_t bytes_length);

/* Reads a text as a rule of the profile. 0: the rule is the profile with *count and the first 192 bytes. 12, for a number that no profile
   has; 8, for fewer than 192 bytes; 1; of 2, 3 and 4 the one at the smallest place; 5. But for 8, with which nothing is written, *place then
   has the place in the text, counted from 0: 0 for 12, 1,024 for 1, that of the byte for 2, of the token's first byte for 4, the text's
   length for 3 and 5; and *wanted has what was wanted there for 2 and 3, otherwise HOURCRICKET_WANTED_NOTHING. Nothing else is written; with
   0 *place and *wanted stay as they were. */
uint8_t hourcricket_read(uint8_t profile, const uint8_t *text, size_t text_length, size_t *count, uint8_t *bytes, size_t bytes_length,
                         size_t *place, uint8_t *wanted);

/* Prints a rule. 0: the text is at the front of out, without a zero byte behind it, and its length in *length. 6; 8, for fewer than 1,024
   bytes; 7: nothing is written. */
uint8_t hourcricket_print(uint8_t profile, size_t count, const uint8_t *bytes, size_t bytes_length, uint8_t *out, size_t out_length,
                          size_t *length);

/* Whether the rule holds on the series, without tables: 1 yes, 0 no; 6. */
uint8_t hourcricket_judge_plain(uint8_t profile, size_t count, const uint8_t *bytes, size_t bytes_length, const uint8_t *series,
                                size_t dates);

/* Builds a rule's tables. 0: they are in the slices, entries that they do not use are 0 up to 128 masks, 129 starts, 128 accept bytes and
   8,192 edges, and *states and *edge_count have the counts. 6; 8, for a slice below its size: nothing is written. 9: the slices are 0 up to
   these sizes, the counts stay. Mask q has bit k where state q wants formula k to hold, and under the profile last bit 63 where a date has
   to follow; no other call needs the masks. */
uint8_t hourcricket_build(uint8_t profile, size_t count, const uint8_t *bytes, size_t bytes_length, uint64_t *masks, size_t masks_length,
                          uint16_t *starts, size_t starts_length, uint8_t *accepts, size_t accepts_length, uint32_t *edges,
                          size_t edges_length, size_t *states, size_t *edge_count);

/* The tables' answer for the series, that of a walk along all its dates: 1 yes, 0 no; 10, for bad tables. */
uint8_t hourcricket_judge_tables(size_t states, size_t edge_count, const uint16_t *starts, size_t starts_length, const uint8_t *accepts,
                                 size_t accepts_length, const uint32_t *edges, size_t edges_length, const uint8_t *series, size_t dates);

/* Begins a walk, a set of states: state q is bit q of *low, or bit q - 64 of *high. It has state 0 alone. */
void hourcricket_walk_begin(uint64_t *low, uint64_t *high);

/* Moves a walk by one date. 0: the states that it is in now are in *low and *high. 10, also for a walk with a state that the tables do not
   have: the walk stays. */
uint8_t hourcricket_walk_step(size_t states, size_t edge_count, const uint16_t *starts, size_t starts_length, const uint8_t *accepts,
                              size_t accepts_length, const uint32_t *edges, size_t edges_length, uint64_t *low, uint64_t *high,
                              uint8_t date);

/* Whether the walk has a state that accepts, so that the series up to here is accepted: 1 yes, 0 no; 10 as above. */
uint8_t hourcricket_walk_answer(size_t states, size_t edge_count, const uint16_t *starts, size_t starts_length, const uint8_t *accepts,
                                size_t accepts_length, const uint32_t *edges, size_t edges_length, uint64_t low, uint64_t high);

/* Whether the walk has no state left: 1 yes, 0 no; 10 as above. After a yes it stays so under these tables, and its answer is no, whatever
   dates come. */
uint8_t hourcricket_walk_closed(size_t states, size_t edge_count, const uint16_t *starts, size_t starts_length, const uint8_t *accepts,
                                size_t accepts_length, const uint32_t *edges, size_t edges_length, uint64_t low, uint64_t high);

/* Searches for a series that the tables accept. 1: a shortest, of these the first in byte order, is at the front of out, and *dates has
   its number of dates, 0 to 127. 0, where there is none; 8, for fewer than 127 bytes; 10: nothing is written. */
uint8_t hourcricket_fit(size_t states, size_t edge_count, const uint16_t *starts, size_t starts_length, const uint8_t *accepts,
                        size_t accepts_length, const uint32_t *edges, size_t edges_length, uint8_t *out, size_t out_length,
                        size_t *dates);

#ifdef __cplusplus
}
#endif

#endif
