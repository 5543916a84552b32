/* An independent decoder, to hold the others against: plain and slow, straight from the definitions.
 *
 * A state is the last six bits, the newest at 1. Each state that is reached sends its cost on to the states that can
 * follow it; costs are 64-bit numbers, and whether a state is reached is a flag of its own. A survivor is a list of
 * cells. The mark is a search over two layers: the train itself, and the trains that have already left it. */
#include "search.h"
#include <string.h>

struct state {
    int reached;
    int64_t cost;
    int cell;
};

static struct cell {
    int before;
    uint8_t bit;
} cells[64 * STEPS + 1];

/* Whether the count of ones at some lags of the past is odd; the bit at lag k is worth 1 << k. */
static int coded(unsigned past, int y)
{
    return (past ^ (y ? past >> 1 : past >> 5) ^ past >> 2 ^ past >> 3 ^ past >> 6) & 1;
}

static int64_t cost_of(uint8_t heard, int bit)
{
    int soft = heard - 128;
    if (heard == 0)
        return 0;
    return bit == 0 ? (soft > 0 ? soft : 0) : (soft < 0 ? -soft : 0);
}

static int64_t pair_cost(const uint8_t *pair, unsigned past)
{
    return cost_of(pair[0], coded(past, 0)) + cost_of(pair[1], coded(past, 1));
}

/* The heard bits of a pair in which two pasts differ. */
static int differing(const uint8_t *pair, unsigned past, unsigned other)
{
    return (pair[0] != 0 && coded(past, 0) != coded(other, 0)) + (pair[1] != 0 && coded(past, 1) != coded(other, 1));
}

int64_t reference_cost(uint32_t n, const uint8_t *heard, const uint8_t *train)
{
    int64_t cost = 0;
    unsigned past = 0;
    for (uint32_t t = 0; t < n + 6; t++) {
        past = (past << 1 | (t < n ? train[t] : 0)) & 127;
        cost += pair_cost(heard + 2 * t, past);
    }
    return cost;
}

/* A way into a state, taken if it is the first or cheaper than the one before. The two come in the order of the states
 * that they leave, so of equals the one with 0 at the bit that now drops out of sight stays: there they differ last. */
static int arrive(struct state *to, int64_t cost)
{
    if (to->reached && to->cost <= cost)
        return 0;
    to->reached = 1;
    to->cost = cost;
    return 1;
}

int64_t reference_search(uint32_t n, const uint8_t *heard, uint8_t *train)
{
    struct state old[64], new[64] = {[0] = {.reached = 1}};
    int count = 1; /* cells so far; cell 0 stands before the first bit */
    for (uint32_t t = 0; t < n + 6; t++) {
        memcpy(old, new, sizeof old);
        memset(new, 0, sizeof new);
        for (unsigned from = 0; from < 64; from++)
            for (unsigned bit = 0; bit < (t < n ? 2 : 1) && old[from].reached; bit++) {
                unsigned past = from << 1 | bit;
                if (arrive(&new[past % 64], old[from].cost + pair_cost(heard + 2 * t, past)))
                    new[past % 64].cell = old[from].cell;
            }
        for (unsigned to = 0; to < 64; to++) {
            cells[count] = (struct cell){new[to].cell, to & 1};
            new[to].cell = count++;
        }
    }
    int cell = new[0].cell;
    for (uint32_t t = n + 6; t-- > 0; cell = cells[cell].before)
        if (t < n)
            train[t] = cells[cell].bit;
    return new[0].cost;
}

/* The least of twice the cost less the heard bits that differ, over the trains that have left this one, must be above
 * twice the cost of this one. */
uint32_t reference_mark(uint32_t n, const uint8_t *heard, const uint8_t *train)
{
    struct state old[64], new[64] = {0};
    unsigned own = 0;
    int64_t twice = 0;
    for (uint32_t t = 0; t < n + 6; t++) {
        const uint8_t *pair = heard + 2 * t;
        unsigned before = own;
        own = (own << 1 | (t < n ? train[t] : 0)) & 127;
        memcpy(old, new, sizeof old);
        memset(new, 0, sizeof new);
        for (unsigned past = 0; past < 128; past++) {
            if (t >= n && past % 2 == 1)
                continue;
            int64_t more = 2 * pair_cost(pair, past) - differing(pair, past, own);
            if (old[past / 2].reached)
                arrive(&new[past % 64], old[past / 2].cost + more);
            if (past / 2 == before % 64 && past % 2 != own % 2)
                arrive(&new[past % 64], twice + more);
        }
        twice += 2 * pair_cost(pair, own);
    }
    return !new[0].reached || twice < new[0].cost;
}

int64_t reference_spread(uint32_t n, const uint8_t *heard, const uint8_t *train)
{
    struct state old[64], new[64] = {[0] = {.reached = 1}};
    unsigned own = 0;
    int64_t widest = 0;
    for (uint32_t t = 0; t < n + 6; t++) {
        const uint8_t *pair = heard + 2 * t;
        int64_t least = INT64_MAX, most = 0;
        own = (own << 1 | (train != NULL && t < n ? train[t] : 0)) & 127;
        memcpy(old, new, sizeof old);
        memset(new, 0, sizeof new);
        for (unsigned past = 0; past < 128; past++) {
            int64_t cost = pair_cost(pair, past);
            if (train != NULL)
                cost = 2 * cost + (pair[0] != 0) + (pair[1] != 0) - differing(pair, past, own);
            if (old[past / 2].reached && (t < n || past % 2 == 0))
                arrive(&new[past % 64], old[past / 2].cost + cost);
        }
        for (unsigned s = 0; s < 64; s++)
            if (new[s].reached) {
                least = new[s].cost < least ? new[s].cost : least;
                most = new[s].cost > most ? new[s].cost : most;
            }
        widest = most - least > widest ? most - least : widest;
    }
    return widest;
}
