/* Brute force over all trains of at most 12 bits, by the definitions.
 *
 * A train is a number, its first bit the lowest, and so are its coded bits X and Y. Of two trains the one with 0 at the
 * last place where they differ is then the lesser number. */
#include "search.h"

static struct {
    uint32_t n, heard_x, heard_y;
    int64_t cost[1 << SMALL];
} all;

static uint32_t x_of(uint32_t v)
{
    return v ^ v << 2 ^ v << 3 ^ v << 5 ^ v << 6;
}

static uint32_t y_of(uint32_t v)
{
    return v ^ v << 1 ^ v << 2 ^ v << 3 ^ v << 6;
}

static int64_t bit_cost(uint8_t heard, uint32_t bit)
{
    int for_1 = heard == 0 ? 0 : heard - 128;
    int against = bit ? -for_1 : for_1;
    return against > 0 ? against : 0;
}

static int64_t cost(uint32_t v, const uint8_t *heard)
{
    int64_t sum = 0;
    for (uint32_t t = 0; t < all.n + 6; t++)
        sum += bit_cost(heard[2 * t], x_of(v) >> t & 1) + bit_cost(heard[2 * t + 1], y_of(v) >> t & 1);
    return sum;
}

uint32_t brute_search(uint32_t n, const uint8_t *heard)
{
    uint32_t best = 0;
    all.n = n;
    all.heard_x = all.heard_y = 0;
    for (uint32_t t = 0; t < n + 6; t++) {
        all.heard_x |= (uint32_t)(heard[2 * t] != 0) << t;
        all.heard_y |= (uint32_t)(heard[2 * t + 1] != 0) << t;
    }
    for (uint32_t v = 0; v < 1u << n; v++) {
        all.cost[v] = cost(v, heard);
        if (all.cost[v] < all.cost[best])
            best = v;
    }
    return best;
}

int64_t brute_cost(uint32_t train)
{
    return all.cost[train];
}

int64_t brute_margin(uint32_t train)
{
    int64_t least = INT64_MAX;
    for (uint32_t v = 0; v < 1u << all.n; v++) {
        int differing = __builtin_popcount((x_of(v) ^ x_of(train)) & all.heard_x) +
                        __builtin_popcount((y_of(v) ^ y_of(train)) & all.heard_y);
        int64_t margin = 2 * all.cost[v] - (2 * all.cost[train] + differing);
        if (v != train && margin < least)
            least = margin;
    }
    return least;
}

uint32_t brute_equals(uint32_t train)
{
    uint32_t equals = 0;
    for (uint32_t v = 0; v < 1u << all.n; v++)
        equals += v != train && all.cost[v] == all.cost[train];
    return equals;
}
