/* Heard bits of random trains: soft bytes with noise, of which P1 and P2 may drop some. */
#include "search.h"
#include <string.h>

static uint64_t state = 1;

void seed(uint64_t number)
{
    state = number * 2 + 1;
}

/* A random number below bound (xorshift, high half). */
uint32_t below(uint32_t bound)
{
    state ^= state >> 12;
    state ^= state << 25;
    state ^= state >> 27;
    return (state * 0x2545f4914f6cdd1d >> 32) * bound >> 32;
}

void random_train(uint32_t n, uint8_t *train)
{
    for (uint32_t t = 0; t < n; t++)
        train[t] = below(2);
}

/* About normal: four times even between -size and size. */
static int noise_of(int size)
{
    int sum = -4 * size;
    for (int k = 0; k < 4; k++)
        sum += below(2 * size + 1);
    return sum;
}

static uint8_t soft(int bit, int level, int noise, int limit)
{
    int value = (bit ? level : -level) + noise_of(noise);
    return 128 + (value > limit ? limit : value < -limit ? -limit : value);
}

/* All coded bits of the train, each heard with this level and noise, held to -limit .. limit. */
void hear(uint32_t n, const uint8_t *train, int level, int noise, int limit, uint8_t *heard)
{
    uint32_t past = 0; /* the bit at lag k is worth 64 >> k */
    for (uint32_t t = 0; t < n + 6; t++) {
        past = past >> 1 | (t < n ? train[t] : 0) << 6;
        heard[2 * t] = soft(__builtin_parity(past & 0133), level, noise, limit);
        heard[2 * t + 1] = soft(__builtin_parity(past & 0171), level, noise, limit);
    }
}

/* Of the coded bits P1 at place a drops twelve (X7 and Y13 of six times 13 steps); the kept X then go out at the even
 * places and the kept Y at the odd ones, and P2 keeps the places of each period that `kept` shows as '1'. */
void drop(uint32_t n, uint32_t a, const char *kept, uint8_t *heard)
{
    size_t period = strlen(kept), place[2] = {0, 1};
    for (uint32_t t = 0; t < n + 6; t++)
        for (uint32_t y = 0; y < 2; y++) {
            int by_p1 = a <= t && t < a + 78 && (t - a) % 13 == (y ? 12 : 6);
            if (by_p1 || kept[place[y] % period] != '1')
                heard[2 * t + y] = 0;
            if (!by_p1)
                place[y] += 2;
        }
}

void signs(uint32_t n, int size, uint8_t *heard)
{
    for (uint32_t k = 0; k < 2 * (n + 6); k++)
        heard[k] = below(2) ? 128 + size : 128 - size;
}

/* Clear and strong, but of a train with six more bits before its first one: no train of n bits fits the first steps. */
static void late(uint32_t n, const uint8_t *sent, uint8_t *heard)
{
    static uint8_t longer[MOST + 6], coded[2 * (STEPS + 6)];
    random_train(6, longer);
    memcpy(longer + 6, sent, n);
    hear(n + 6, longer, 127, 0, 127, coded);
    memcpy(heard, coded + 12, 2 * (n + 6));
}

/* Heard bits of all kinds: of a sent train with noise, or of none; all there, or some not heard. */
void some_heard(uint32_t n, const uint8_t *sent, uint8_t *heard)
{
    static const char *kept[] = {"1", "111001", "111111111011111101"};
    static const int levels[] = {1, 1, 1, 2, 4, 24, 80}, noises[] = {0, 1, 1, 2, 9, 40};
    uint32_t kind = below(14), lost = below(4), size = 2 * (n + 6);
    uint32_t level = below(COUNT(levels)), noise = below(COUNT(noises)), a = below(n + 1), rate = below(COUNT(kept));

    hear(n, sent, levels[level], noises[noise], kind % 2 ? 80 : 127, heard);
    for (uint32_t k = 0; k < size; k++)
        switch (kind) {
        case 0: heard[k] = 127 + below(3); break;             /* -1, 0, 1: ties */
        case 1: heard[k] = 127 + 2 * below(2); break;         /* -1, 1 */
        case 2: heard[k] = below(256); break;                 /* anything */
        case 3: heard[k] = below(2) ? 1 : 255; break;         /* the ends */
        case 4: heard[k] = below(10) ? 128 : heard[k]; break; /* mostly heard as 0 */
        case 5: heard[k] = below(10) ? 0 : heard[k]; break;   /* mostly not heard */
        case 6: heard[k] = lost % 2 ? 128 : 0; break;         /* nothing but one of the two */
        }
    if (kind == 7)
        late(n, sent, heard);
    if (lost == 1)
        drop(n, a, kept[rate], heard);
    for (uint32_t k = 0; k < size && lost == 2; k++)
        heard[k] = below(3) ? heard[k] : 0;
    for (uint32_t k = below(size), end = k + below(size - k); k < end && lost == 3; k++)
        heard[k] = 0;
}
