/* What the programs of this folder share: the decoders under their C names, what they are held against, and the making
 * of heard bits.
 *
 * The coded bits heard are 2(n + 6) bytes, X and Y of each step, counted from -128; 0 is a bit not heard. A train is n
 * bytes of 0 or 1, first bit first. */
#ifndef SEARCH_H
#define SEARCH_H

#include <stddef.h>
#include <stdint.h>

#define MOST 3472 /* bits of a train */
#define STEPS (MOST + 6)
#define SMALL 12 /* bits of a train for brute force */
#define REFUSED 0xffffffffu
#define COUNT(list) (sizeof(list) / sizeof *(list))

/* The cost of the least train, which goes to train; the first n + 6 words are zero after. REFUSED, with nothing
 * changed, unless n <= MOST, heard_len == 2(n + 6), train_len >= n and words_len >= n + 6. */
typedef uint32_t search_call(uint32_t n, const uint8_t *heard, size_t heard_len, uint8_t *train, size_t train_len,
                             uint64_t *words, size_t words_len);

/* 1 if the train is confirmed, 0 if not. REFUSED unless n <= MOST, heard_len == 2(n + 6), train_len >= n and the first
 * n bytes of the train are 0 or 1. */
typedef uint32_t mark_call(uint32_t n, const uint8_t *heard, size_t heard_len, const uint8_t *train, size_t train_len);

search_call gauge_search, shape_search, ordinary_search; /* proved; the same shape in Rust; ordinary Rust */
mark_call gauge_mark, shape_mark, ordinary_mark;

/* reference.c */
int64_t reference_cost(uint32_t n, const uint8_t *heard, const uint8_t *train);
int64_t reference_search(uint32_t n, const uint8_t *heard, uint8_t *train);
uint32_t reference_mark(uint32_t n, const uint8_t *heard, const uint8_t *train);
/* How far apart two reached states lie at most, over all steps: in the search, or in the mark's pass of a train, where
 * a bit costs twice as much and 1 more if it was heard and agrees with the train's own. */
int64_t reference_spread(uint32_t n, const uint8_t *heard, const uint8_t *train);

/* brute.c: the first looks at all trains of n <= SMALL bits and gives the least; the others speak of the same heard
 * bits. The margin is by how much the nearest rival is above the limit: a train is confirmed when it is above 0. */
uint32_t brute_search(uint32_t n, const uint8_t *heard);
int64_t brute_cost(uint32_t train);
int64_t brute_margin(uint32_t train);
uint32_t brute_equals(uint32_t train);

/* hearing.c; a bit of soft byte s costs the greater of 0 and s if it is 0, of 0 and -s if it is 1 */
void seed(uint64_t number);
uint32_t below(uint32_t bound);
void random_train(uint32_t n, uint8_t *train);
void hear(uint32_t n, const uint8_t *train, int level, int noise, int limit, uint8_t *heard);
void drop(uint32_t n, uint32_t a, const char *kept, uint8_t *heard);
void some_heard(uint32_t n, const uint8_t *sent, uint8_t *heard);
void signs(uint32_t n, int size, uint8_t *heard); /* all of one size, with random signs */

#endif
