/* Packets through the C interface: a sender encodes a block of 23 packets by the
 * house code of case L, a link loses six of them, and the collector gets them back.
 * Then a packet arrives with a false bit, and its lane is found.
 *
 * The sender fills the 12 packets that hold the message, marks the 11 parity packets
 * lost, and mends: that is all of encoding. The code's least distance is 7, so that
 * any six packets may be lost.
 *
 *   packaging/build library
 *   cc -Iinclude -o target/packets examples/packets.c target/staticlib/libcapi.a
 *   target/packets
 */
#include "parity.h"
#include <stdio.h>
#include <string.h>

#define PACKETS 23
/* The words of a packet: 128 bytes. */
#define LENGTH 16

static uint64_t words[PARITY_WORDS];
static uint64_t sent[PACKETS * LENGTH];
static uint64_t block[PACKETS * LENGTH];
static uint64_t odd[LENGTH];
static uint64_t values[PARITY_VALUES_MOST];
static uint8_t lost[PACKETS];

static int refused(const char *call, uint32_t number)
{
    fprintf(stderr, "%s is refused %u\n", call, (unsigned)number);
    return 1;
}

/* Mends the packets; whether so many are recovered, none is left, and so many lanes are odd. */
static int mends(const char *what, uint64_t *packets, size_t n, size_t m,
                 uint64_t recovered, uint64_t lanes)
{
    uint32_t number = parity_mend_packets(words, PARITY_WORDS, n, m, 0, lost, sizeof lost,
                                          packets, PACKETS * LENGTH, odd, LENGTH,
                                          values, PARITY_VALUES_MOST);
    if (number != PARITY_ANSWER)
        return !refused(what, number);
    printf("%s: %u packets recovered, %u left, %u odd lanes\n", what,
           (unsigned)values[0], (unsigned)values[2], (unsigned)values[4]);
    return values[0] == recovered && values[2] == 0 && values[4] == lanes;
}

/* The text in the packets that hold the message; the others are to be mended. */
static void fill(size_t n, const uint8_t *set)
{
    static const char text[] = "The link loses packets, not bits. ";
    size_t b, i, at = 0;

    for (b = 0; b < n; b++) {
        lost[b] = !set[b];
        for (i = 0; set[b] && i < LENGTH * sizeof sent[0]; i++)
            ((char *)(sent + b * LENGTH))[i] = text[at++ % (sizeof text - 1)];
    }
}

/* What was sent arrives, but for six packets. */
static void receive(void)
{
    static const size_t missing[6] = {0, 1, 7, 12, 13, 22};
    size_t i;

    memcpy(block, sent, sizeof sent);
    memset(lost, 0, sizeof lost);
    for (i = 0; i < 6; i++) {
        lost[missing[i]] = 1;
        memset(block + missing[i] * LENGTH, 0xAA, LENGTH * sizeof block[0]);
    }
}

int main(void)
{
    uint8_t set[PACKETS];
    uint32_t number;
    size_t n, m;

    number = parity_house_code(PARITY_HOUSE_CIRCULANT, words, PARITY_WORDS,
                               values, PARITY_VALUES_MOST);
    if (number != PARITY_ANSWER)
        return refused("copying the house code", number);
    n = (size_t)values[0];
    m = (size_t)values[1];
    if (n != PACKETS)
        return 1;
    number = parity_message_bits(words, PARITY_WORDS, n, m, 0, set, sizeof set,
                                 values, PARITY_VALUES_MOST);
    if (number != PARITY_ANSWER)
        return refused("asking for the message bits", number);

    fill(n, set);
    if (!mends("encoded", sent, n, m, 11, 0))
        return 1;

    receive();
    if (!mends("mended", block, n, m, 6, 0) || memcmp(block, sent, sizeof sent) != 0)
        return 1;

    receive();
    block[5 * LENGTH + 3] ^= 1u << 17;
    return !mends("with a false bit", block, n, m, 6, 1) || odd[3] != 1u << 17;
}
