/* Parity checks for lossy sample streams: the C interface, version 1.0.0.
 *
 * First its use, in order; then what holds for every call; then the calls.
 *
 * 1. COMPILE. Where the library is installed (`./install`):
 *
 *   cc program.c $(pkg-config --cflags --libs parity)
 *
 * In the repository, where `packaging/build library` writes target/staticlib/libcapi.a:
 *
 *   cc -Iinclude program.c target/staticlib/libcapi.a
 *
 * 2. LOAD. A matrix lives in memory of the caller, with n, m and k beside it. It
 * comes from a record, or by its name from parity_house_code.
 *
 *   static uint64_t words[PARITY_WORDS];
 *   uint64_t values[PARITY_VALUES_MOST];
 *   uint32_t number;
 *   size_t n, m, k;
 *
 *   number = parity_load(record, record_len, words, PARITY_WORDS,
 *                        values, PARITY_VALUES_MOST);
 *   if (number != PARITY_ANSWER)
 *       return refused(number);
 *   n = values[0], m = values[1], k = values[2];
 *
 * A record file has these words as four bytes each, the highest first:
 * examples/record.c reads one.
 *
 * Or set it yourself: with all words zero, bit b is put into check c by
 *
 *   words[8 * c + b / 64] |= (uint64_t)1 << (b % 64);
 *
 * with your n and m, and k = 0. Every call looks whether it accepts the matrix.
 *
 * 3. MEND. A received word is a byte for each bit: 0, 1 or PARITY_ERASED. It has
 * n+k bytes; added bits, where there are any, are erased.
 *
 *   number = parity_determine(words, PARITY_WORDS, n, m, k, word, n + k,
 *                             values, PARITY_VALUES_MOST);
 *
 * Afterwards each bit that the checks determine is 0 or 1, and every other one is
 * PARITY_ERASED still: values[2] tells how many sent bits are. If every received
 * bit is right, every rebuilt bit is right. A false bit is refused where some check
 * shows it; one that no check shows can make rebuilt bits false.
 *
 * parity_mend_block leaves the same word for a matrix with k = 0, tells by which
 * stage, and takes 3 to 100 times as long where its second stage runs. Where a
 * lost packet takes the same bit of many words, one call of parity_mend_packets
 * mends them all.
 *
 * 4. LOOK AT THE NUMBER. What does not fit is refused, by a number above 0.
 *
 *   fprintf(stderr, "refused %u: %s\n", (unsigned)number, parity_refusal_text(number));
 *
 * PARITY_CONTRADICTION says that some bit arrived false: no codeword agrees with
 * the word, which is left as it was. Any other number is a fault of the program,
 * or of the record that it was given; where it carries a place or a length, that
 * is values[0].
 *
 * VERSIONS. PARITY_VERSION is that of this header and of the library beside it.
 * Its first number grows with every change that a compiled program could notice: a
 * function, macro or cause that is gone or means something else, another
 * parameter, another answer or refusal for the same arguments. The shared
 * library's name has this number. The second grows where something is added, and
 * all that was there stays. The third grows where neither is so: speed, words of
 * a text or a comment.
 *
 * THE MATRIX. There are n sent bits (1 to 120), m given checks (0 to 120) and
 * k added bits (0 to 392), each with one added check. Bits are numbered from 0:
 * the sent bits 0 to n-1, then the added bits n to n+k-1. Checks are numbered
 * from 0: the given checks, then the added ones. The matrix is lent as exactly
 * PARITY_WORDS words of 64 bits: check c has words 8c to 8c+7, and bit b of the
 * code is bit b mod 64 of the (b div 64)th of them, bit 0 being the lowest.
 *
 * Rule A, for added check m+j (0 <= j < k): it contains exactly three bits,
 * namely n+j and two bits below n+j, and any two of these three share no other
 * check.
 *
 * SLICES. A slice is a pointer to its first element and then its number of
 * elements. A pointer is never NULL and is aligned for its elements, also when
 * the number is 0. A slice that a call may write (no `const`) overlaps no other
 * slice of the same call. A slice may have any length and n, m, k, u, v, t, name
 * and rounds any value: what does not fit is refused.
 *
 * RESULTS. Every call returns 0 for an answer, or the number of the refusal. The
 * values that the answer or the refusal carries fill the first elements of
 * `values` as far as it reaches; its other elements are left as they were. A
 * length of PARITY_VALUES_MOST holds the values of every call. Below, the number
 * of values that an answer carries stands before them; a refusal carries the one
 * value named with it, or none where none is named, and PARITY_FULL of
 * parity_orthogonalise three or five. What is none is not carried: the places of
 * `values` where it would stand are left as they were.
 *
 * REFUSALS. A call refuses for the first of its causes that holds, in the order
 * 1, 2, 3, 4, 13, 15, 16, 22, then the rest by number, which is also that of the
 * refusals named with each call; parity_join looks at each cause in both matrices
 * before the next. A refusal leaves every lent element as it was,
 * except for `values` and for PARITY_FULL of parity_orthogonalise.
 *
 * EMBEDDING. A call takes no memory from the heap and makes no system call. It
 * keeps no state: what it answers depends on its arguments alone, so that any
 * number of threads may call at once, each on slices that no other call writes.
 * No call was seen to need more than PARITY_STACK_MOST bytes of stack: that is a
 * tested figure, not a proved one. Every call ends, which is proved. The
 * archive's objects call nothing outside themselves but memset and its like.
 */
#ifndef PARITY_H
#define PARITY_H

#include <stddef.h>
#include <stdint.h>

#ifdef __cplusplus
extern "C" {
#endif

/* The version of this header and of the library beside it. */
#define PARITY_VERSION "1.0.0"
#define PARITY_VERSION_MAJOR 1
#define PARITY_VERSION_MINOR 0
#define PARITY_VERSION_PATCH 0

/* The number of words of every matrix slice. */
#define PARITY_WORDS 4096
/* The largest number of sent bits, of given checks and of added bits. */
#define PARITY_SENT_MOST 120
#define PARITY_CHECKS_MOST 120
#define PARITY_ADDED_MOST 392
/* The most words that parity_write uses. */
#define PARITY_RECORD_MOST 14914
/* The largest sets that parity_stopping_sets lists. */
#define PARITY_SET_SIZE_MOST 4

/* The most rounds of parity_min_sum, and the number of bytes and of floats that it
 * needs for its messages. */
#define PARITY_ROUNDS_MOST 512
#define PARITY_MESSAGES 65536
/* The most other bits of a check in parity_min_sum_range. */
#define PARITY_OTHERS_MOST 511

/* The most values that a call carries. */
#define PARITY_VALUES_MOST 5
/* The most bytes of stack that a call needs: tested on thousands of inputs of every
 * kind with this library, not proved. */
#define PARITY_STACK_MOST 65536

/* Bytes of a word beside 0 and 1: an erased bit, and in parity_min_sum a soft one. */
#define PARITY_ERASED 2
#define PARITY_SOFT 3

/* The stages of parity_mend_block: peeling, peeling with the orthogonalised copy,
 * elimination. */
#define PARITY_STAGE_PEELING 1
#define PARITY_STAGE_EXTENDED 2
#define PARITY_STAGE_ELIMINATION 3

/* An answer. */
#define PARITY_ANSWER 0
/* The matrix slice is not PARITY_WORDS words. */
#define PARITY_MATRIX_LENGTH 1
/* n, m or k is outside its range. */
#define PARITY_RANGE 2
/* A one at bit n+k or above, or at check m+k or above. */
#define PARITY_ONE_OUTSIDE 3
/* Rule A is broken. */
#define PARITY_RULE_A 4
/* Faulty record word; values: its place from 0. */
#define PARITY_FAULTY_WORD 5
/* The lent record is too short to write; values: the words needed. */
#define PARITY_RECORD_SHORT 6
/* u = v, or either at n+k or above. */
#define PARITY_PAIR 7
/* The share is below two; values: the share. */
#define PARITY_SHARE 8
/* k = 392 and a pair with share two or more is to be split; values: none from
 * parity_split; the splits made, the sum and k from parity_orthogonalise, and the
 * lowest and the highest check that held the pair of the final split. */
#define PARITY_FULL 9
/* A word, message or set of wrong length. */
#define PARITY_LENGTH 10
/* A byte outside the values named; values: its lowest place from 0. */
#define PARITY_BYTE 11
/* Contradiction: checks that cannot be made even. */
#define PARITY_CONTRADICTION 12
/* k is above 0 in rank, encoding, message bits, mending a block or joining. */
#define PARITY_EXTENDED 13
/* 14 is the program mend's own, and no call returns it. */
/* k = 0: there is nothing to take back. */
#define PARITY_NOTHING_TO_TAKE_BACK 15
/* The matrix with the newest added bit taken back would break rule A; from
 * parity_write: no splits made the matrix. */
#define PARITY_CANNOT_TAKE_BACK 16
/* No house code has the name. */
#define PARITY_UNKNOWN_NAME 17
/* A set size outside 1 to PARITY_SET_SIZE_MOST. */
#define PARITY_SET_SIZE 18
/* The slice for the sets is too short; values: the places needed. */
#define PARITY_SETS_SHORT 19
/* Two matrices to be joined have different n. */
#define PARITY_DIFFERENT_LENGTHS 20
/* Joined, two matrices have more than PARITY_CHECKS_MOST checks. */
#define PARITY_TOO_MANY_CHECKS 21
/* The number of rounds is outside 1 to PARITY_ROUNDS_MOST. */
#define PARITY_ROUNDS 22
/* A soft float that is not finite or above 1,048,576 in magnitude; values: its
 * lowest place from 0. */
#define PARITY_FLOAT 23
/* A low above its high; values: its lowest place from 0. */
#define PARITY_LOW_ABOVE_HIGH 24

/* The names of the house codes: the circulant of 23 bits, and the Hamming checks
 * for lengths 3, 7, 15 and 31. */
#define PARITY_HOUSE_CIRCULANT 0
#define PARITY_HOUSE_HAMMING_3 1
#define PARITY_HOUSE_HAMMING_7 2
#define PARITY_HOUSE_HAMMING_15 3
#define PARITY_HOUSE_HAMMING_31 4

/* The specification's words for a number that a call returned, in a text that stays. */
static inline const char *parity_refusal_text(uint32_t number)
{
    switch (number) {
    case PARITY_ANSWER: return "answer";
    case PARITY_MATRIX_LENGTH: return "matrix slice is not 4,096 words";
    case PARITY_RANGE: return "n, m or k outside its range";
    case PARITY_ONE_OUTSIDE: return "a one at bit n+k or above, or check m+k or above";
    case PARITY_RULE_A: return "rule A broken";
    case PARITY_FAULTY_WORD: return "faulty record word";
    case PARITY_RECORD_SHORT: return "lent record too short to write";
    case PARITY_PAIR: return "u = v, or either at n+k or above";
    case PARITY_SHARE: return "share below two";
    case PARITY_FULL: return "k = 392 and a pair with share two or more is to be split";
    case PARITY_LENGTH: return "a word, message or set of wrong length";
    case PARITY_BYTE: return "a byte outside the values named";
    case PARITY_CONTRADICTION: return "contradiction: checks that cannot be made even";
    case PARITY_EXTENDED: return "k above 0";
    case PARITY_NOTHING_TO_TAKE_BACK: return "k = 0: nothing to take back";
    case PARITY_CANNOT_TAKE_BACK: return "taken back, the matrix would break rule A; or no splits made it";
    case PARITY_UNKNOWN_NAME: return "no house code has the name";
    case PARITY_SET_SIZE: return "a set size outside 1 to 4";
    case PARITY_SETS_SHORT: return "slice for the sets too short";
    case PARITY_DIFFERENT_LENGTHS: return "two matrices to be joined have different n";
    case PARITY_TOO_MANY_CHECKS: return "joined, two matrices have more than 120 checks";
    case PARITY_ROUNDS: return "rounds outside 1 to 512";
    case PARITY_FLOAT: return "a soft float that is not finite or above 1,048,576 in magnitude";
    case PARITY_LOW_ABOVE_HIGH: return "a low above its high";
    default: return "no call returns this number";
    }
}

/* Loads a record of any form.
 *
 * record: read. Words of 32 bits; bits 28 to 31 are a word's kind and unnamed
 *   bits are zero. The first word's kind says the form.
 *   First form. Kind 1, only first: bits 8-15 m, bits 0-7 n. Kind 2, opens the
 *   next check: bits 0-7 its number of ones, 0 to n. Kind 3, that many after it:
 *   bits 0-7 a bit number below n, rising within the check. Kind 15, after m
 *   checks, is the last word.
 *   Second form. Kind 4, only first, laid out as kind 1. A kind 2 word holds
 *   besides, in bits 8-15, the number of the check that it opens, from 0. Kinds
 *   3 and 15 as in the first form.
 *   Third form. Kind 5, only first, laid out as kind 1. Kinds 2, 3 and 15 as in
 *   the second form. Before the last word come kind 6 words, one for each split,
 *   in order: bits 0-8 its lower bit, bits 9-17 its higher bit. They are
 *   performed as by parity_split.
 * words: all PARITY_WORDS are written.
 * Values of the answer, 3: n, m, and k, which is the number of splits.
 * Refusals: 1; 5 with the place of the first faulty word, where a missing word
 *   is faulty at the place where it should be and a word after the last one is
 *   faulty. A first word with n outside 1 to 120 or m above 120 is refused 5 at
 *   place 0. A wrong check number is refused 5 at the place of its kind 2 word, a
 *   lower bit that is not below the higher, or a split that parity_split would
 *   refuse, at that of its kind 6 word.
 */
uint32_t parity_load(const uint32_t *record, size_t record_len,
                     uint64_t *words, size_t words_len,
                     uint64_t *values, size_t values_len);

/* Writes a matrix as a record: of the second form where k = 0, and else of the
 * third, with the checks before the splits and the splits (parity_load has the
 * layouts). A record that was loaded is written as it was if it is of the second
 * form, or of the third with splits; else as its second form, which has as many
 * words.
 *
 * words: read.
 * record: its first elements are written, the others are left.
 * Values of the answer, 1: the number of words used, at most PARITY_RECORD_MOST.
 * Refusals: 1, 2, 3, 4; 16, never for a matrix that splits have made from one
 *   with k = 0; 6 with the number of words needed.
 */
uint32_t parity_write(const uint64_t *words, size_t words_len,
                      size_t n, size_t m, size_t k,
                      uint32_t *record, size_t record_len,
                      uint64_t *values, size_t values_len);

/* The share of two different bits: the number of checks that contain both.
 *
 * words: read.
 * u, v: bits below n+k, in either order.
 * Values of the answer, 1 if the share is 0, else 3: the share, the lowest and the
 *   highest check that contain both bits.
 * Refusals: 1, 2, 3, 4, 7.
 */
uint32_t parity_share(const uint64_t *words, size_t words_len,
                      size_t n, size_t m, size_t k,
                      size_t u, size_t v,
                      uint64_t *values, size_t values_len);

/* The cycle count: the sum, over all pairs of the n+k bits, of
 * share * (share-1) / 2.
 *
 * words: read.
 * Values of the answer, 1: the cycle count.
 * Refusals: 1, 2, 3, 4.
 */
uint32_t parity_count(const uint64_t *words, size_t words_len,
                      size_t n, size_t m, size_t k,
                      uint64_t *values, size_t values_len);

/* Splits a pair with share two or more: in every check that contains both, u and
 * v are removed and the new bit n+k is put in; then check m+k is added, which
 * contains u, v and n+k; k grows by one.
 *
 * words: read, and written by an answer.
 * u, v: bits below n+k, in either order.
 * Values of the answer, 4: the share that the pair had, the new k, the lowest and
 *   the highest check that contained both bits.
 * Refusals: 1, 2, 3, 4, 7; 8 with the share; 9.
 */
uint32_t parity_split(uint64_t *words, size_t words_len,
                      size_t n, size_t m, size_t k,
                      size_t u, size_t v,
                      uint64_t *values, size_t values_len);

/* Takes back the newest split: the newest added bit n+k-1 and its check m+k-1
 * are removed, and in every other check that contains this bit the two lower
 * bits of its own check are put in its place; k falls by one. After a split that
 * was made this gives the same words and k as before it, and carries its share.
 *
 * words: read, and written by an answer; refusal 16 writes them too, and leaves
 *   them as they were.
 * Values of the answer, 2: the number of those other checks, the new k.
 * Refusals: 1, 2, 3, 4; 15 if k = 0; 16, never for a matrix that splits have made
 *   from one with k = 0.
 */
uint32_t parity_take_back(uint64_t *words, size_t words_len,
                          size_t n, size_t m, size_t k,
                          uint64_t *values, size_t values_len);

/* Splits until no pair has share two or more, taking each time the largest
 * share, then the smallest lower bit, then the smallest higher bit.
 *
 * words: read, and written by an answer and by refusal 9.
 * Values of the answer, 3 if it made no split, else 5: the number of splits made,
 *   the sum of s(s-1)/2 over their shares s, k, the lowest and the highest check
 *   that held the pair of the final split.
 * Refusals: 1, 2, 3, 4; 9 with the same three or five values, and then the matrix
 *   stands after the splits made.
 */
uint32_t parity_orthogonalise(uint64_t *words, size_t words_len,
                              size_t n, size_t m, size_t k,
                              uint64_t *values, size_t values_len);

/* Whether a word is a codeword: it has no 2 and gives each check an even number
 * of ones.
 *
 * words: read.
 * word: read. n+k bytes of 0, 1 or 2 (erased).
 * Values of the answer, 1: 1 for yes, 0 for no.
 * Refusals: 1, 2, 3, 4, 10; 11 with the place in `word`.
 */
uint32_t parity_verify(const uint64_t *words, size_t words_len,
                       size_t n, size_t m, size_t k,
                       const uint8_t *word, size_t word_len,
                       uint64_t *values, size_t values_len);

/* Extends the sent bits by the added ones: each added bit is the sum modulo 2 of
 * the two lower bits of its added check.
 *
 * words: read.
 * sent: read. n bytes of 0 or 1; they need not be a codeword.
 * word: n+k bytes, all written by an answer: the sent bits, then the added ones.
 * Values of the answer: none.
 * Refusals: 1, 2, 3, 4; 10 for either slice; 11 with the place in `sent`.
 */
uint32_t parity_extend(const uint64_t *words, size_t words_len,
                       size_t n, size_t m, size_t k,
                       const uint8_t *sent, size_t sent_len,
                       uint8_t *word, size_t word_len,
                       uint64_t *values, size_t values_len);

/* Whether a set of bits is a stopping set: no check contains exactly one of
 * them. The empty set is one.
 *
 * words: read.
 * set: read. n+k bytes, 1 for a bit of the set and 0 for another.
 * Values of the answer, 1: 1 for yes, 0 for no.
 * Refusals: 1, 2, 3, 4, 10; 11 with the place in `set`.
 */
uint32_t parity_is_stopping(const uint64_t *words, size_t words_len,
                            size_t n, size_t m, size_t k,
                            const uint8_t *set, size_t set_len,
                            uint64_t *values, size_t values_len);

/* Solves, as long as one exists, a check with exactly one erased bit. What is
 * left is the residue, the union of all stopping sets inside the erased bits.
 *
 * words: read.
 * word: n+k bytes of 0, 1 or 2 (erased). An answer writes the recovered bits;
 *   the residue keeps 2.
 * Values of the answer, 4: the number of sent bits recovered, of added bits
 *   recovered, of sent bits left, of added bits left. A bit is left if its byte
 *   is 2 afterwards, and recovered if it was 2 before and isn't afterwards.
 * Refusals: 1, 2, 3, 4, 10; 11 with the place in `word`; 12 if no values of the
 *   erased bits outside the residue make every check without a residue bit even.
 */
uint32_t parity_peel(const uint64_t *words, size_t words_len,
                     size_t n, size_t m, size_t k,
                     uint8_t *word, size_t word_len,
                     uint64_t *values, size_t values_len);

/* Everything the checks determine. A codeword agrees with the word if it has the
 * word's value at every bit that is not erased. Each erased bit at which all
 * codewords that agree have one value is written, and the others keep 2: no
 * decoder can recover more. What parity_peel recovers is among it.
 *
 * words: read.
 * word: n+k bytes of 0, 1 or 2 (erased). An answer writes the bits that are
 *   determined.
 * Values of the answer, 4: as parity_peel's, peeled and eliminated bits together.
 * Refusals: 1, 2, 3, 4, 10; 11 with the place in `word`; 12 exactly when no
 *   codeword agrees. That may be so where parity_peel answers, and is so wherever
 *   parity_peel is refused 12.
 */
uint32_t parity_determine(const uint64_t *words, size_t words_len,
                          size_t n, size_t m, size_t k,
                          uint8_t *word, size_t word_len,
                          uint64_t *values, size_t values_len);

/* Packets, beyond the papers: one pattern of losses, many words. If bit b of the code
 * travels in packet b, a lost packet erases bit b of all words at once. A packet has
 * L words of 64 bits, where L is odd_len:
 *
 *                  word 0               word 1              ..  word L-1
 *   packet 0       packets[0]           packets[1]          ..  packets[L-1]
 *   packet 1       packets[L]           packets[L+1]        ..  packets[2*L-1]
 *   ..
 *   packet n+k-1   packets[(n+k-1)*L]   ..                  ..  packets[(n+k)*L-1]
 *   odd lanes      odd[0]               odd[1]              ..  odd[L-1]
 *
 * Lane i, for i < 64*L, is bit i mod 64 of word i div 64 of every packet: a column of
 * the picture, one bit wide. It is a word of n+k bits of its own, erased where the
 * packet is lost. One call is a call of parity_determine for each lane. Where that
 * would answer, the lane holds its bits afterwards; where it would be refused 12, the
 * lane is left as it was, and is odd. Which packets are recovered depends on the losses
 * alone: with L = 0 the call tells what a pattern of losses would leave. A sender makes
 * parity packets by marking them lost (parity_message_bits tells which they are).
 *
 * words: read.
 * lost: n+k bytes, 1 where the packet is lost and 0 elsewhere. An answer leaves 1
 *   where a packet is still lost: some codeword that is zero in every packet that
 *   arrived has a one there. Such packets are left as they were.
 * packets: (n+k)*L words; what a lost packet holds has no influence. An answer writes
 *   the packets that are lost no more, in the lanes that are not odd.
 * odd: L words, whatever they hold. An answer sets bit i mod 64 of word i div 64 where
 *   lane i is odd, and clears the others.
 * Values of the answer, 5: the sent packets recovered, the added packets recovered,
 *   the sent packets left, the added packets left; the odd lanes.
 * Refusals: 1, 2, 3, 4; 10 where lost or packets has another length, or L is above
 *   2^57; 11 with the place in `lost` of a byte above 1.
 */
uint32_t parity_mend_packets(const uint64_t *words, size_t words_len,
                             size_t n, size_t m, size_t k,
                             uint8_t *lost, size_t lost_len,
                             uint64_t *packets, size_t packets_len,
                             uint64_t *odd, size_t odd_len,
                             uint64_t *values, size_t values_len);

/* One door for sample blocks: mends a received word with a matrix with k = 0, and
 * leaves it as parity_determine does. In up to three stages: (1) it peels; if sent
 * bits remain, (2) it orthogonalises a copy of its own and peels the received word
 * with that, all added bits erased; if bits remain, (3) it eliminates on the given
 * matrix. Where the copy's orthogonalise is refused 9, stage 3 follows at once, and
 * the copy's peeling counts 0.
 *
 * words: read.
 * word: n bytes of 0, 1 or 2 (erased). An answer writes the bits at which all
 *   codewords that agree have one value; the others keep 2.
 * Values of the answer, 2: the last stage to run (PARITY_STAGE_.., 1, 2 or 3); how
 *   many bits the two peelings recovered together, at most 632, a bit that both
 *   recovered being counted twice. Where the stage is 1 or 2, no bit remains erased
 *   (proved); where it is 3, bits may remain, and this call does not tell how many.
 * Refusals: 1, 2, 3, 4, 13, 10; 11 with the place in `word`; 12 exactly when no
 *   codeword agrees.
 */
uint32_t parity_mend_block(const uint64_t *words, size_t words_len,
                           size_t n, size_t m, size_t k,
                           uint8_t *word, size_t word_len,
                           uint64_t *values, size_t values_len);

/* The rank r of a matrix with k = 0: the number of its parity bits. A bit is a
 * parity bit if its column is not a sum modulo 2 of some columns of lower bits.
 *
 * words: read.
 * Values of the answer, 1: r.
 * Refusals: 1, 2, 3, 4, 13.
 */
uint32_t parity_rank(const uint64_t *words, size_t words_len,
                     size_t n, size_t m, size_t k,
                     uint64_t *values, size_t values_len);

/* Encodes a message with a matrix with k = 0: the one codeword whose bits other
 * than parity bits, rising, hold the message. Parity bits are chosen from bit 0
 * upwards, so that with checks [A|I] the message does not stand first: see
 * parity_message_bits.
 *
 * words: read.
 * message: read. n-r bytes of 0 or 1, for the rank r.
 * word: n bytes, all written by an answer.
 * Values of the answer: none.
 * Refusals: 1, 2, 3, 4, 13; 10 for either slice; 11 with the place in `message`.
 */
uint32_t parity_encode(const uint64_t *words, size_t words_len,
                       size_t n, size_t m, size_t k,
                       const uint8_t *message, size_t message_len,
                       uint8_t *word, size_t word_len,
                       uint64_t *values, size_t values_len);

/* Which bits of a matrix with k = 0 hold the message, and which are parity bits.
 * (Beyond documents 01 and 02.) Parity bits are chosen from bit 0 upwards, and bit 0
 * is a parity bit if any check contains it: so with checks [A|I] the message does not
 * stand first; with [I|A] it stands last. The zeros are as many as parity_rank
 * answers. Of a word that parity_encode writes, the bytes at the ones, rising, are the
 * message: so a receiver takes the message out of a mended word.
 *
 * words: read.
 * set: n bytes, whatever they hold, all written by an answer: 0 for a parity bit, 1
 *   for a bit that holds the message.
 * Values of the answer: none.
 * Refusals: 1, 2, 3, 4, 13, 10.
 */
uint32_t parity_message_bits(const uint64_t *words, size_t words_len,
                             size_t n, size_t m, size_t k,
                             uint8_t *set, size_t set_len,
                             uint64_t *values, size_t values_len);

/* Copies a house code into a matrix with k = 0. PARITY_HOUSE_CIRCULANT: check c
 * contains (c+e) mod 23 for e in 0, 1, 2, 3, 4, 7, 10, 12. The others, the
 * Hamming checks: check c contains bit b exactly when bit c of b+1 is one.
 *
 * name: the number of the code, one of PARITY_HOUSE_.. above.
 * words: all PARITY_WORDS are written.
 * Values of the answer, 2: n, m.
 * Refusals: 1; 17 for any other name.
 */
uint32_t parity_house_code(size_t name,
                           uint64_t *words, size_t words_len,
                           uint64_t *values, size_t values_len);

/* The small stopping sets: every stopping set (parity_is_stopping) of exactly t
 * sent bits, each once, members rising, sets in dictionary order.
 *
 * Where everything else is received, parity_peel recovers none of the t bits of
 * such a set, and at least one of any other t sent bits. All m+k checks count, but
 * no added bit is a member. So with k above 0 this is not the list of the losses
 * that defeat peeling where all added bits are erased too: no set with added bits
 * is listed, nor a set of which an added check contains exactly one bit.
 *
 * words: read.
 * t: the size of the sets, 1 to PARITY_SET_SIZE_MOST.
 * sets: an answer writes the sets one after the other, t places each, from the
 *   first place on; the further places are left. A length of 0 asks how many
 *   places are needed.
 * Values of the answer, 1: the number of sets (not of places).
 * Refusals: 1, 2, 3, 4; 18 for any other t; 19 with the number of places needed,
 *   which is t times the number of sets.
 */
uint32_t parity_stopping_sets(const uint64_t *words, size_t words_len,
                              size_t n, size_t m, size_t k,
                              size_t t,
                              uint16_t *sets, size_t sets_len,
                              uint64_t *values, size_t values_len);

/* Joins two matrices with k = 0 over the same n bits into a third: the first's
 * checks, then those of the second that equal no earlier check of the result, in
 * order. Two checks are equal if they contain the same bits. Equal checks of the
 * first stay. The result has the same n, and k = 0. Its codewords are exactly
 * those of both; of one with bits erased, peeling with it leaves no bit that either
 * would have recovered.
 *
 * words1, words2: read. They may be the same slice.
 * words3: all PARITY_WORDS are written by an answer.
 * Values of the answer, 1: the number of checks.
 * Refusals, each over both matrices before the next: 1 for any of the three
 *   slices, 2, 3, 4, 13; 20 if n1 and n2 differ; 21 if more than
 *   PARITY_CHECKS_MOST checks result.
 */
uint32_t parity_join(const uint64_t *words1, size_t words1_len,
                     size_t n1, size_t m1, size_t k1,
                     const uint64_t *words2, size_t words2_len,
                     size_t n2, size_t m2, size_t k2,
                     uint64_t *words3, size_t words3_len,
                     uint64_t *values, size_t values_len);

/* Decodes a word of sure, soft and erased bits by min-sum rounds, each all checks
 * and then all bits. A bit's byte is 0 or 1 (sure), 2 (erased) or 3 (soft); a soft
 * bit has a float, whose sign favours 0 when positive, in the same place of
 * `floats`. Before the first round bits send their channel value. To each of its
 * bits a check sends: erased if another of its bits is erased; sure with their
 * parity if all others are sure; else the least magnitude among the soft ones, its
 * sign turned once for each sure 1 and each negative value. A bit sends each of
 * its checks the first sure value among the channel and the other checks by rising
 * number, else the soft ones added in that order, the whole sum cut to magnitude
 * 1,048,576, else erased. The result of a bit is found likewise from all its
 * checks. Zero counts as positive, and leaves as plus zero. A word of sure and
 * erased bits, got from a codeword, ends after 512 rounds as parity_peel ends.
 *
 * words: read.
 * rounds: 1 to PARITY_ROUNDS_MOST.
 * word: n+k bytes of 0, 1, 2 or 3. An answer writes each bit's result.
 * floats: n+k floats. Where `word` has another byte than 3 their value has no
 *   influence on any answer or refusal. An answer writes all of them: plus zero
 *   unless the result is soft. None is infinite or not a number.
 * message_bytes, message_floats: PARITY_MESSAGES each, whatever they hold. An
 *   answer leaves them zero.
 * The floats of the proved definitions have one NaN without its bits: that a
 *   refusal leaves a NaN as a NaN is proved, and that it leaves its payload bits is
 *   shown by the tests from outside.
 * Values of the answer: none.
 * Refusals: 1, 2, 3, 4, 22; 10 for any of the four slices; 11 with the place in
 *   `word`; 23 with the place in `floats`.
 */
uint32_t parity_min_sum(const uint64_t *words, size_t words_len,
                        size_t n, size_t m, size_t k, size_t rounds,
                        uint8_t *word, size_t word_len,
                        float *floats, size_t floats_len,
                        uint8_t *message_bytes, size_t message_bytes_len,
                        float *message_floats, size_t message_floats_len,
                        uint64_t *values, size_t values_len);

/* The range of one check's min-sum answer, where each of its other bits has a soft
 * value known within a range: what the check sends (see parity_min_sum) lies
 * between the two ends for every choice of floats inside the ranges, and each end
 * is sent for some choice. A zero of either sign is the same value, and an end that
 * is zero is plus zero. With no other bits the check sends sure 0.
 *
 * lows, highs: read. One float of each for every other bit, 0 to
 *   PARITY_OTHERS_MOST.
 * ends: a range puts its low and its high into the first two elements, as far as
 *   the slice reaches; all others are left as they were, and all of them with
 *   sure 0 and a refusal. As in parity_min_sum, that a NaN is left as a NaN is
 *   proved, and that its payload bits are left is shown by the tests from outside.
 * Values of the answer (1): 0 for sure 0, 3 for a range.
 * Refusals: 10 if the lengths of `lows` and `highs` differ or pass
 *   PARITY_OTHERS_MOST; 23 with the place in `lows`, else that in `highs`; 24.
 */
uint32_t parity_min_sum_range(const float *lows, size_t lows_len,
                              const float *highs, size_t highs_len,
                              float *ends, size_t ends_len,
                              uint64_t *values, size_t values_len);

#ifdef __cplusplus
}
#endif

#endif
