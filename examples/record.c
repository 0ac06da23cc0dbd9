/* Mends words with the matrix of a record file, as `parity convert` and `parity extend`
 * write them. The file has the record's words of 32 bits, each as four bytes, the highest
 * first. A word is a line of n characters, 0, 1 or ? for lost; what is mended goes to
 * standard output in the same form, a ? where the checks do not determine the bit.
 *
 *   cc -Iinclude -o target/record examples/record.c target/staticlib/libcapi.a
 *   target/record FILE.rec <words
 *
 * Status: 0 if every word was mended, 1 if the file or a word was refused.
 */
#include "parity.h"
#include <stdio.h>
#include <string.h>

#define BITS_MOST (PARITY_SENT_MOST + PARITY_ADDED_MOST)

static uint64_t words[PARITY_WORDS];
static uint32_t record[PARITY_RECORD_MOST];

/* The words of a file; one more than any record has if it has more, or no whole number of them. */
static size_t read_record(FILE *file)
{
    unsigned char bytes[4];
    size_t length = 0, got;

    while ((got = fread(bytes, 1, 4, file)) == 4) {
        if (length == PARITY_RECORD_MOST)
            return PARITY_RECORD_MOST + 1;
        record[length++] = (uint32_t)bytes[0] << 24 | (uint32_t)bytes[1] << 16
                         | (uint32_t)bytes[2] << 8 | (uint32_t)bytes[3];
    }
    return got == 0 ? length : PARITY_RECORD_MOST + 1;
}

/* A line of n characters as bytes: the sent bits, then k added bits, which are lost. */
static int take_line(const char *line, uint8_t *word, size_t n, size_t k)
{
    size_t b;

    if (strlen(line) != n || strspn(line, "01?") != n)
        return 0;
    for (b = 0; b < n; b++)
        word[b] = line[b] == '?' ? 2 : (uint8_t)(line[b] - '0');
    for (b = n; b < n + k; b++)
        word[b] = 2;
    return 1;
}

static int mend(char *line, size_t n, size_t m, size_t k)
{
    uint64_t values[PARITY_VALUES_MOST];
    uint8_t word[BITS_MOST];
    uint32_t number;
    size_t b;

    line[strcspn(line, "\r\n")] = 0;
    if (!take_line(line, word, n, k)) {
        fprintf(stderr, "not a word of %u characters 0, 1 and ?: %s\n", (unsigned)n, line);
        return 0;
    }
    number = parity_determine(words, PARITY_WORDS, n, m, k, word, n + k,
                              values, PARITY_VALUES_MOST);
    if (number != PARITY_ANSWER) {
        fprintf(stderr, "refused %u: %s\n", (unsigned)number, line);
        return 0;
    }
    for (b = 0; b < n; b++)
        putchar("01?"[word[b]]);
    putchar('\n');
    return 1;
}

int main(int count, char **names)
{
    uint64_t values[PARITY_VALUES_MOST];
    char line[BITS_MOST];
    uint32_t number;
    size_t length;
    int mended = 1;
    FILE *file;

    if (count != 2 || (file = fopen(names[1], "rb")) == NULL) {
        fprintf(stderr, "usage: record FILE.rec <words\n");
        return 1;
    }
    length = read_record(file);
    fclose(file);
    if (length > PARITY_RECORD_MOST) {
        fprintf(stderr, "no record: too long, or not words of four bytes\n");
        return 1;
    }
    number = parity_load(record, length, words, PARITY_WORDS, values, PARITY_VALUES_MOST);
    if (number != PARITY_ANSWER) {
        fprintf(stderr, "the record is refused %u, at word %u\n", (unsigned)number, (unsigned)values[0]);
        return 1;
    }
    while (fgets(line, sizeof line, stdin) != NULL)
        mended &= mend(line, (size_t)values[0], (size_t)values[1], (size_t)values[2]);
    return mended ? 0 : 1;
}
