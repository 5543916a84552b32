/* The calls of libjuzambore.a (`host/libraries.sh juzambore`).
 *
 * Every input of any length is accepted. Each call tests what it is given and answers bad input with its refusal number
 * (0: done); it then changes no lent byte or word and reports zero for everything else. A lent buffer that is longer
 * than the call needs is unchanged past the needed length. Lent buffers must not overlap.
 *
 * A train is a list of 1 to 16 PDUs, each with its mode and its length in information bits. `modes` and `lengths` point
 * to SIXTEEN numbers ALWAYS, whatever `count` says; those past the count are not read. N, symbols and n are sums over
 * the PDUs. `a` is where P1 begins, counted from the train's first bit.
 *
 * A train has a kind: 0 is data, any other number is BCH. A BCH is one PDU of 120 bits in mode 1 with a = 0; its first
 * four bits are the frame counter, highest bit first, and are not scrambled. */
#ifndef JUZAMBORE_H
#define JUZAMBORE_H

#include <stddef.h>
#include <stdint.h>

/* A refusal number, and the point of a carrier; +0 and +0 where the call is refused. */
typedef struct {
    uint32_t refusal;
    float i;
    float q;
} juzambore_point;

/* What a decode reports: a refusal number, the train's symbols and sent bits, its rounded cost, 1 where it is confirmed,
 * else 0, and how many comparisons of two partial trains the search for it takes: 64 x (N - 6) + 63. All are zero but the
 * refusal where the call is refused. */
typedef struct {
    uint32_t refusal;
    uint32_t symbols;
    uint32_t n;
    uint32_t cost;
    uint32_t confirmed;
    uint32_t comparisons;
} juzambore_answer;

/* The sent bits of a train, one to a byte. Refusals 11, 1 to 8; of a BCH 12 too. */
uint32_t juzambore_encode(uint32_t kind, uint32_t count, const uint32_t modes[16], const uint32_t lengths[16],
                          uint32_t counter, uint32_t a,
                          const uint8_t *octets, size_t octets_len,
                          uint8_t *sent, size_t sent_len);

/* The ideal readings of sent bits, 48 to a symbol on each axis. Refusals 11, 1, 3, 4, 5, 7, 8, 9. */
uint32_t juzambore_ideal(uint32_t count, const uint32_t modes[16], const uint32_t lengths[16],
                         const uint8_t *sent, size_t sent_len,
                         int16_t *i, size_t i_len,
                         int16_t *q, size_t q_len);

/* The point of one group value, its earliest bit the highest. Refusals 1 and 9. */
juzambore_point juzambore_mapped(uint32_t mode, uint32_t group);

/* The soft bytes of readings, one for each sent bit. Refusals 11, 1, 3, 4, 5, 7, 8. */
uint32_t juzambore_soften(uint32_t count, const uint32_t modes[16], const uint32_t lengths[16],
                          const int16_t *i, size_t i_len,
                          const int16_t *q, size_t q_len,
                          int8_t *soft, size_t soft_len);

/* The train of least cost, from soft bytes. It needs N / 8 octets out and N + 6 working words, which are zero after
 * success; what they held before does not matter. The counter of a BCH comes from the train that is found: the caller's
 * is not read. Refusals 11, 1 to 9; of a BCH 12 too, and not 2. */
juzambore_answer juzambore_decode_soft(uint32_t kind, uint32_t count,
                                       const uint32_t modes[16], const uint32_t lengths[16],
                                       uint32_t counter, uint32_t a,
                                       const int8_t *soft, size_t soft_len,
                                       uint8_t *octets, size_t octets_len,
                                       uint64_t *words, size_t words_len);

/* The same from readings: the soft bytes are made and decoded. Refusals 11, 1 to 8; of a BCH 12 too, and not 2. */
juzambore_answer juzambore_decode_readings(uint32_t kind, uint32_t count,
                                           const uint32_t modes[16], const uint32_t lengths[16],
                                           uint32_t counter, uint32_t a,
                                           const int16_t *i, size_t i_len,
                                           const int16_t *q, size_t q_len,
                                           uint8_t *octets, size_t octets_len,
                                           uint64_t *words, size_t words_len);

#endif
