/* Holds the proved search and mark, and the two yardsticks in Rust, against brute force over all trains of at most 12
 * bits and against reference.c on long ones; then tries calls that must be refused.
 *
 *     check SMALL LONG DEAR  how many small, how many long and how many dear cases
 *
 * Dear ones have soft bytes of one size with random signs, and a cost that sixteen bits do not hold. Of soft bytes of -80
 * to 80 it is also seen how far apart two reached states lie.
 *
 * Train, cost, mark, words and the rest of every buffer are compared; the exit status is 1 if anything differs. */
#include "search.h"
#include <stdio.h>
#include <stdlib.h>
#include <string.h>

#define SPARE 3

struct decoder {
    const char *name;
    search_call *search;
    mark_call *mark;
};

static const struct decoder decoders[] = {
    {"proved", gauge_search, gauge_mark},
    {"same shape", shape_search, shape_mark},
    {"ordinary", ordinary_search, ordinary_mark},
};

static unsigned differences, searches, marks;

static void expect(int holds, const char *who, const char *what, uint32_t n)
{
    if (!holds && differences++ < 20)
        printf("%s: %s differs at n = %u\n", who, what, n);
}

static int all_zero(const uint64_t *words, uint32_t count)
{
    while (count > 0 && words[count - 1] == 0)
        count--;
    return count == 0;
}

/* A search with buffers that hold random numbers before and may be longer than needed. */
static void try_search(const struct decoder *d, uint32_t n, const uint8_t *heard, const uint8_t *want, int64_t cost)
{
    static uint8_t lent[2 * STEPS], train[MOST + SPARE], old_train[MOST + SPARE];
    static uint64_t words[STEPS + SPARE], old_words[STEPS + SPARE];
    uint32_t train_len = n + below(SPARE + 1), words_len = n + 6 + below(SPARE + 1);

    for (uint32_t k = 0; k < n + SPARE; k++)
        old_train[k] = train[k] = below(256);
    for (uint32_t k = 0; k < n + 6 + SPARE; k++)
        old_words[k] = words[k] = (uint64_t)below(REFUSED) << 32 | below(REFUSED);
    memcpy(lent, heard, 2 * (n + 6));
    expect(d->search(n, lent, 2 * (n + 6), train, train_len, words, words_len) == cost, d->name, "cost", n);
    expect(memcmp(train, want, n) == 0, d->name, "train", n);
    expect(all_zero(words, n + 6), d->name, "a word", n);
    expect(memcmp(lent, heard, 2 * (n + 6)) == 0, d->name, "a heard byte", n);
    expect(memcmp(train + n, old_train + n, SPARE) == 0, d->name, "a byte past the train", n);
    expect(memcmp(words + n + 6, old_words + n + 6, 8 * SPARE) == 0, d->name, "a word past the needed ones", n);
    searches++;
}

static void try_mark(const struct decoder *d, uint32_t n, const uint8_t *heard, const uint8_t *train, uint32_t want)
{
    static uint8_t lent[2 * STEPS], own[MOST + SPARE];

    memcpy(lent, heard, 2 * (n + 6));
    memcpy(own, train, n);
    memset(own + n, 2, SPARE);
    expect(d->mark(n, lent, 2 * (n + 6), own, n + below(SPARE + 1)) == want, d->name, "mark", n);
    expect(memcmp(lent, heard, 2 * (n + 6)) == 0 && memcmp(own, train, n) == 0, d->name, "a byte lent to the mark", n);
    marks++;
}

/* How far apart two reached states lay where the soft bytes were of -80 to 80. */
static int64_t search_spread, mark_spread;

static void see_spread(uint32_t n, const uint8_t *heard, const uint8_t *train)
{
    for (uint32_t k = 0; k < 2 * (n + 6); k++)
        if (heard[k] != 0 && (heard[k] < 48 || heard[k] > 208))
            return;
    int64_t search = reference_spread(n, heard, NULL), mark = reference_spread(n, heard, train);
    search_spread = search > search_spread ? search : search_spread;
    mark_spread = mark > mark_spread ? mark : mark_spread;
    expect(search < 1024 && mark < 2048, "reference", "the spread", n);
}

/* Small cases, and how many of them were difficult. */
static unsigned tied, confirmed, at_limit, not_enough;

static uint8_t *bits_of(uint32_t n, uint32_t v, uint8_t *train)
{
    for (uint32_t t = 0; t < n; t++)
        train[t] = v >> t & 1;
    return train;
}

static void count_small(uint32_t best)
{
    uint32_t equals = brute_equals(best);
    int64_t margin = brute_margin(best);
    tied += equals > 0;
    confirmed += margin > 0;
    at_limit += margin == 0;
    not_enough += equals == 0 && margin <= 0;
}

static void small_case(uint32_t number)
{
    uint8_t heard[2 * (SMALL + 6)], train[SMALL], found[SMALL];
    uint32_t n = number % (SMALL + 1);
    random_train(n, train);
    some_heard(n, train, heard);
    uint32_t best = brute_search(n, heard), near = best ^ (n > 0 ? 1u << below(n) : 0), any = below(1u << n);
    uint32_t tried[] = {best, near, any};
    count_small(best);
    expect(reference_search(n, heard, found) == brute_cost(best), "reference", "cost", n);
    expect(memcmp(found, bits_of(n, best, train), n) == 0, "reference", "train", n);
    for (size_t d = 0; d < COUNT(decoders); d++)
        try_search(&decoders[d], n, heard, train, brute_cost(best));
    for (size_t k = 0; k < COUNT(tried); k++) {
        uint32_t mark = brute_margin(tried[k]) > 0;
        expect(reference_mark(n, heard, bits_of(n, tried[k], train)) == mark, "reference", "mark", n);
        see_spread(n, heard, train);
        for (size_t d = 0; d < COUNT(decoders); d++)
            try_mark(&decoders[d], n, heard, train, mark);
    }
}

/* Long cases: every second one as a receiver hears it at rate 3/4, from clean to hopeless. */
static unsigned long_right, long_confirmed;

static uint32_t long_length(uint32_t number)
{
    static const uint32_t some[] = {72, 432, 3456, 3471, MOST};
    return number % 2 ? some[below(COUNT(some))] : 72 + below(number % 8 ? 1000 : MOST - 71);
}

static void long_case(uint32_t number)
{
    static uint8_t sent[MOST], heard[2 * STEPS], train[MOST], near[MOST];
    const uint8_t *tried[] = {train, sent, near};
    uint32_t n = long_length(number / 2);
    random_train(n, sent);
    some_heard(n, sent, heard);
    if (number % 2) {
        hear(n, sent, 24, below(20), 80, heard);
        drop(n, below(n - 71), "111001", heard);
    }
    int64_t cost = reference_search(n, heard, train);
    memcpy(near, train, n);
    near[below(n)] ^= 1;
    long_right += memcmp(train, sent, n) == 0;
    long_confirmed += reference_mark(n, heard, train);
    for (size_t d = 0; d < COUNT(decoders); d++)
        try_search(&decoders[d], n, heard, train, cost);
    for (size_t k = 0; k < COUNT(tried); k++) {
        uint32_t mark = reference_mark(n, heard, tried[k]);
        see_spread(n, heard, tried[k]);
        for (size_t d = 0; d < COUNT(decoders); d++)
            try_mark(&decoders[d], n, heard, tried[k], mark);
    }
}

/* Trains heard clearly at full size, and others that differ from them in their first six bits: here the states lie as far
 * apart as they can, by eleven coded bits, at the sixth step. */
static void wide_cases(void)
{
    uint8_t heard[2 * (72 + 6)], sent[72], other[72];
    for (uint32_t first = 0; first < 64; first++) {
        random_train(72, sent);
        hear(72, sent, 80, 0, 80, heard);
        for (uint32_t t = 0; t < 72; t++)
            other[t] = sent[t] ^ (t < 6 ? first >> t & 1 : 0);
        see_spread(72, heard, other);
        for (size_t d = 0; d < COUNT(decoders); d++) {
            try_search(&decoders[d], 72, heard, sent, 0);
            try_mark(&decoders[d], 72, heard, sent, 1);
            try_mark(&decoders[d], 72, heard, other, first == 0);
        }
    }
}

/* Dear cases: nothing was sent, and all bits but P1's twelve are heard at full size. */
static unsigned dear;
static int64_t dearest;

static void dear_case(uint32_t number)
{
    static uint8_t heard[2 * STEPS], train[MOST];
    uint32_t n = number % 3 ? 3456 : MOST - below(100);
    signs(n, number % 4 ? 80 : 127, heard);
    drop(n, below(n - 71), "1", heard);
    int64_t cost = reference_search(n, heard, train);
    uint32_t mark = reference_mark(n, heard, train);
    dear += cost > 65535;
    dearest = cost > dearest ? cost : dearest;
    see_spread(n, heard, train);
    for (size_t d = 0; d < COUNT(decoders); d++) {
        try_search(&decoders[d], n, heard, train, cost);
        try_mark(&decoders[d], n, heard, train, mark);
    }
}

/* Calls with one thing wrong: refused, and nothing changed. */
static void misuse(const struct decoder *d)
{
    static const uint32_t wrong[][4] = { /* n and the three lengths */
        {8, 27, 8, 14}, {8, 29, 8, 14}, {8, 0, 8, 14}, {8, 28, 7, 14}, {8, 28, 0, 14}, {8, 28, 8, 13}, {8, 28, 8, 0},
        {0, 11, 4, 10}, {0, 12, 4, 5}, {MOST, 2 * STEPS - 1, MOST, STEPS}, {MOST, 2 * STEPS, MOST - 1, STEPS},
        {MOST, 2 * STEPS, MOST, STEPS - 1}, {MOST + 1, 2 * STEPS + 2, MOST + 1, STEPS + 1}, {1u << 31, 12, 8, 14},
        {0x7fffffff, 10, 8, 14}, {0x7ffffffa, 0, 8, 14}, {0xfffffffa, 0, 8, 14}, {0xffffffff, 10, 8, 14},
    };
    static uint8_t heard[2 * STEPS + 2], train[MOST + 1], ones[8 * (STEPS + 1)];
    static uint64_t words[STEPS + 1];

    memset(heard, 130, sizeof heard);
    memset(train, 1, sizeof train);
    memset(words, 1, sizeof words);
    memset(ones, 1, sizeof ones);
    for (size_t k = 0; k < COUNT(wrong); k++) {
        const uint32_t *w = wrong[k], n = w[0];
        int words_alone = n <= MOST && w[1] == 2 * (n + 6) && w[2] >= n;
        expect(d->search(n, heard, w[1], train, w[2], words, w[3]) == REFUSED, d->name, "a refusal", n);
        expect((d->mark(n, heard, w[1], train, w[2]) == REFUSED) != words_alone, d->name, "a refusal of the mark", n);
        expect(memcmp(train, ones, sizeof train) == 0, d->name, "a byte after a refusal", n);
        expect(memcmp(words, ones, sizeof words) == 0, d->name, "a word after a refusal", n);
    }
    for (uint32_t k = 0; k < 9; k++) { /* no bit at place k of eight: refused, unless that is past the train */
        train[k] = k % 2 ? 2 : 255;
        expect((d->mark(8, heard, 28, train, 9) == REFUSED) == (k < 8), d->name, "a refusal of the mark", 8);
        train[k] = 1;
    }
}

int main(int argc, char **argv)
{
    uint32_t count[3] = {0};

    for (int k = 1; k < argc && k <= 3; k++)
        count[k - 1] = strtoul(argv[k], NULL, 10);
    seed(3);
    for (uint32_t k = 0; k < count[0]; k++)
        small_case(k);
    printf("%u small cases against brute force: %u have equals, %u are confirmed, %u are at the limit, %u are the only "
           "least train and still not confirmed\n", count[0], tied, confirmed, at_limit, not_enough);
    for (uint32_t k = 0; k < count[1]; k++)
        long_case(k);
    printf("%u long cases against the reference: %u come back as sent, %u are confirmed\n", count[1], long_right,
           long_confirmed);
    for (uint32_t k = 0; k < count[2]; k++)
        dear_case(k);
    printf("%u dear cases against the reference: %u cost more than 65535, the dearest %lld\n", count[2], dear,
           (long long)dearest);
    expect(count[2] == 0 || dear > 0, "reference", "a dear case", 3456);
    wide_cases();
    expect(search_spread == 11 * 80 && mark_spread == 11 * 161, "reference", "the largest spread", 72);
    printf("soft bytes of -80 to 80: two reached states lie at most %lld apart in the search, %lld in the mark\n",
           (long long)search_spread, (long long)mark_spread);
    for (size_t d = 0; d < COUNT(decoders); d++)
        misuse(&decoders[d]);
    printf("%u searches, %u marks and calls to be refused, by three decoders: %u differences\n", searches, marks,
           differences);
    return differences != 0;
}
