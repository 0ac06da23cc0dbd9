/* Case C of the specification through the C interface. First parity_mend_block, which
 * recovers the three erased bits of 2,2,2,1,1,1,1 in its second stage (a collector calls
 * parity_determine: the same word, sooner). Then the same by hand: the given matrix leaves all three;
 * orthogonalised, it recovers them and the added bit. Last a word with a false bit,
 * which is refused, and what the refusal says.
 *
 *   packaging/build library
 *   cc -Iinclude -o target/example examples/example.c target/staticlib/libcapi.a
 *   target/example
 *
 * or, where the library is installed,
 *
 *   cc -o example example.c $(pkg-config --cflags --libs parity)
 */
#include "parity.h"
#include <stdio.h>

static const uint32_t record[] = {
    0x10000307u,
    0x20000004u, 0x30000000u, 0x30000001u, 0x30000002u, 0x30000003u,
    0x20000004u, 0x30000000u, 0x30000001u, 0x30000004u, 0x30000005u,
    0x20000003u, 0x30000000u, 0x30000002u, 0x30000006u,
    0xF0000000u,
};

static uint64_t words[PARITY_WORDS];

static int refused(const char *call, uint32_t number)
{
    fprintf(stderr, "%s is refused %u: %s\n", call, (unsigned)number, parity_refusal_text(number));
    return 1;
}

static void show(const char *matrix, const uint64_t *values)
{
    printf("%s: %u sent and %u added recovered, %u sent and %u added left", matrix,
           (unsigned)values[0], (unsigned)values[1], (unsigned)values[2], (unsigned)values[3]);
}

int main(void)
{
    uint64_t values[PARITY_VALUES_MOST];
    uint8_t received[7] = {2, 2, 2, 1, 1, 1, 1};
    uint8_t given[7] = {2, 2, 2, 1, 1, 1, 1};
    uint8_t word[8] = {2, 2, 2, 1, 1, 1, 1, 2};
    const uint8_t expected[8] = {0, 0, 1, 1, 1, 1, 1, 0};
    uint32_t number;
    size_t n, m, k, b;

    number = parity_load(record, sizeof record / sizeof record[0], words, PARITY_WORDS,
                         values, PARITY_VALUES_MOST);
    if (number != PARITY_ANSWER)
        return refused("loading", number);
    n = (size_t)values[0];
    m = (size_t)values[1];

    number = parity_mend_block(words, PARITY_WORDS, n, m, 0, received, sizeof received,
                               values, PARITY_VALUES_MOST);
    if (number != PARITY_ANSWER)
        return refused("mending", number);
    printf("mended in stage %u, %u recovered:", (unsigned)values[0], (unsigned)values[1]);
    for (b = 0; b < sizeof received; b++)
        printf(" %u", (unsigned)received[b]);
    printf("\n");
    if (values[0] != PARITY_STAGE_EXTENDED || values[1] != 4)
        return 1;
    for (b = 0; b < sizeof received; b++)
        if (received[b] != expected[b])
            return 1;

    number = parity_peel(words, PARITY_WORDS, n, m, 0, given, sizeof given,
                         values, PARITY_VALUES_MOST);
    if (number != PARITY_ANSWER)
        return refused("peeling", number);
    show("given", values);
    printf("\n");
    if (values[0] != 0 || values[1] != 0 || values[2] != 3 || values[3] != 0)
        return 1;

    number = parity_orthogonalise(words, PARITY_WORDS, n, m, 0, values, PARITY_VALUES_MOST);
    if (number != PARITY_ANSWER)
        return refused("orthogonalising", number);
    k = (size_t)values[2];
    printf("orthogonalised: %u split, sum %u\n", (unsigned)values[0], (unsigned)values[1]);
    if (n + k != sizeof word)
        return 1;

    number = parity_peel(words, PARITY_WORDS, n, m, k, word, sizeof word,
                         values, PARITY_VALUES_MOST);
    if (number != PARITY_ANSWER)
        return refused("peeling", number);
    show("extended", values);
    printf(":");
    for (b = 0; b < sizeof word; b++)
        printf(" %u", (unsigned)word[b]);
    printf("\n");
    for (b = 0; b < sizeof word; b++)
        if (word[b] != expected[b])
            return 1;

    word[3] = 1 - word[3];
    number = parity_peel(words, PARITY_WORDS, n, m, k, word, sizeof word,
                         values, PARITY_VALUES_MOST);
    printf("a false bit: refused %u, %s\n", (unsigned)number, parity_refusal_text(number));
    return number != PARITY_CONTRADICTION;
}
