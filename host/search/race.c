/* Runs the decoders on the same trains of 3,456 bits, heard with noise at rate 3/4 (P1 at 72).
 *
 *     race agree                     that all find trains of the same cost and give the same marks
 *     race run WHO COUNT [mark]      COUNT searches, each with its mark if asked for: to count the instructions
 *     race times                     each decoder's nanoseconds per step, search alone and with the mark
 *
 * WHO is proved, shape, ordinary or osmo; osmo is osmo_conv_decode of libosmocore, which has no mark. */
#include "search.h"
#include <osmocom/core/conv.h>
#include <stdio.h>
#include <stdlib.h>
#include <string.h>
#include <time.h>

#define BITS 3456
#define PASS (BITS + 6) /* steps of one pass */
#define TRAINS 2
#define ROUNDS 200

static struct {
    uint8_t sent[BITS], heard[2 * PASS];
    sbit_t soft[2 * PASS]; /* the same for osmo: above 0 speaks for a 0, and 0 is a bit not heard */
} trains[TRAINS];

static uint8_t found[BITS];
static uint64_t words[PASS];

static struct decoder {
    const char *name;
    search_call *search; /* osmo has none of these */
    mark_call *mark;
    uint64_t alone, both; /* least nanoseconds for all trains */
} decoders[] = {
    {"proved", gauge_search, gauge_mark, -1, -1},
    {"shape", shape_search, shape_mark, -1, -1},
    {"ordinary", ordinary_search, ordinary_mark, -1, -1},
    {"osmo", NULL, NULL, -1, -1},
};

/* osmo's states have the newest bit at 1, and its outputs X at 2 and Y at 1. */
static uint8_t next_output[64][2], next_state[64][2];
static const struct osmo_conv_code code = {
    .N = 2, .K = 7, .len = BITS, .term = CONV_TERM_FLUSH, .next_output = next_output, .next_state = next_state,
};

static void make_code(void)
{
    for (uint32_t past = 0; past < 128; past++) {
        uint32_t x = past ^ past >> 2 ^ past >> 3 ^ past >> 5 ^ past >> 6;
        uint32_t y = past ^ past >> 1 ^ past >> 2 ^ past >> 3 ^ past >> 6;
        next_output[past / 2][past % 2] = x % 2 * 2 + y % 2;
        next_state[past / 2][past % 2] = past % 64;
    }
}

static void make_trains(void)
{
    seed(1);
    for (int k = 0; k < TRAINS; k++) {
        random_train(BITS, trains[k].sent);
        hear(BITS, trains[k].sent, 24, 9, 80, trains[k].heard);
        drop(BITS, 72, "111001", trains[k].heard);
        for (int m = 0; m < 2 * PASS; m++)
            trains[k].soft[m] = trains[k].heard[m] == 0 ? 0 : 128 - trains[k].heard[m];
    }
}

static uint32_t search(const struct decoder *d, int k)
{
    if (d->search == NULL)
        return osmo_conv_decode(&code, trains[k].soft, found);
    return d->search(BITS, trains[k].heard, sizeof trains[k].heard, found, BITS, words, PASS);
}

static uint32_t mark(const struct decoder *d, int k)
{
    return d->mark == NULL ? 0 : d->mark(BITS, trains[k].heard, sizeof trains[k].heard, found, BITS);
}

static int agree(void)
{
    uint8_t want[BITS];
    int good = 1, right = 0, confirmed = 0;
    for (int k = 0; k < TRAINS; k++) {
        int64_t cost = reference_search(BITS, trains[k].heard, want);
        uint32_t marked = reference_mark(BITS, trains[k].heard, want);
        for (struct decoder *d = decoders; d < decoders + COUNT(decoders); d++) {
            uint32_t got = search(d, k);
            good &= reference_cost(BITS, trains[k].heard, found) == cost;
            good &= d->search == NULL || (got == cost && memcmp(found, want, BITS) == 0 && mark(d, k) == marked);
        }
        right += memcmp(want, trains[k].sent, BITS) == 0;
        confirmed += marked;
    }
    printf("%d noisy trains for the race: %d come back as sent, %d are confirmed; the decoders %s\n", TRAINS, right,
           confirmed, good ? "agree" : "DIFFER");
    return !good;
}

static void run(const char *name, uint32_t count, int with_mark)
{
    uint32_t sum = 0;
    for (struct decoder *d = decoders; d < decoders + COUNT(decoders); d++)
        for (uint32_t k = 0; k < count && strcmp(d->name, name) == 0; k++) {
            sum += search(d, k % TRAINS);
            sum += with_mark ? mark(d, k % TRAINS) : 0;
        }
    printf("%u\n", sum);
}

static uint64_t now(void)
{
    struct timespec t;
    clock_gettime(CLOCK_MONOTONIC, &t);
    return t.tv_sec * 1000000000ull + t.tv_nsec;
}

static uint64_t time_of(const struct decoder *d, int with_mark)
{
    uint64_t start = now();
    for (int k = 0; k < TRAINS; k++) {
        search(d, k);
        if (with_mark)
            mark(d, k);
    }
    return now() - start;
}

/* Rounds of all decoders in turn, so that what else the machine does falls on all alike; the least time counts. */
static void times(void)
{
    for (int round = 0; round < ROUNDS; round++)
        for (struct decoder *d = decoders; d < decoders + COUNT(decoders); d++) {
            uint64_t alone = time_of(d, 0), both = d->mark != NULL ? time_of(d, 1) : 0;
            d->alone = alone < d->alone ? alone : d->alone;
            d->both = both < d->both ? both : d->both;
        }
    for (struct decoder *d = decoders; d < decoders + COUNT(decoders); d++)
        printf("%s %.2f %.2f\n", d->name, d->alone / (TRAINS * (double)PASS), d->both / (TRAINS * (double)PASS));
}

int main(int argc, char **argv)
{
    make_code();
    make_trains();
    if (argc == 2 && strcmp(argv[1], "agree") == 0)
        return agree();
    if (argc >= 4 && strcmp(argv[1], "run") == 0)
        run(argv[2], strtoul(argv[3], NULL, 10), argc == 5);
    else if (argc == 2 && strcmp(argv[1], "times") == 0)
        times();
    return 0;
}
