//! What `--help` prints.

pub const PROGRAM: &str = "\
parity: looks at a parity-check matrix, converts it, encodes and mends words
with it and draws what it recovers. Every answer is one of the proved library's
calls.

  parity convert IN OUT       alist, 0/1 text and record, in any direction
  parity inspect FILE         weights, rank, rate, cycles, stopping sets
  parity same A B             whether two matrices have the same code
  parity extend FILE OUT      orthogonalised, with its splits, as a record
  parity encode FILE          messages to codewords
  parity message FILE         codewords back to messages
  parity verify FILE          whether words are codewords
  parity erase --rate P       a lossy link for words
  parity mend FILE            mends words with erased bits
  parity explain FILE         why each erased bit is recovered or not
  parity soft FILE            min-sum rounds on words of soft bits
  parity curve FILE.. --out SVG  what is left of words over losses or noise
  parity report FILE --out HTML  all of this about a matrix on one page
  parity COMMAND --help       the options of a command
  parity --version

encode to soft read lines from standard input and answer each on standard
output, so that they can be put together:

  parity encode L | parity erase --rate 0.2 | parity mend L | parity message L

A file's format is that of its extension: .alist, .txt (0/1 text, a line for
each check) or .rec (record, words of 4 bytes, the highest byte first). --from
alist, text or record names the format of a file with another extension. As a
matrix - is standard input, and as an output standard output. A matrix has 1 to
120 bits and 0 to 120 checks. A record may carry splits.

An output that is an input or the other output, by any path or link, is refused
as a wrong argument. A file is written whole, or else the old one stays.

Exit status: 0 done; 1 a file or stream that cannot be read, written or taken,
one line on standard error says why; 2 wrong arguments; 3 and 4 as the commands
say; 5 as explain says.
";

pub const CONVERT: &str = "\
parity convert IN OUT [--from FORMAT] [--to FORMAT] [--given]

Reads the matrix IN and writes it as OUT. FORMAT is alist, text or record;
without it the extension decides: .alist, .txt or .rec. A record is written in
its second form, and with splits in its third; the other formats cannot hold
splits, nor text a matrix without checks. OUT must be another file than IN.

  --given    takes the splits of a record back, and writes the checks that it
             had before them

Exit status: 0 written; 1 IN cannot be read or taken, or OUT not written: one
line on standard error with the file and the line; 2 wrong arguments. Where IN
is not taken nothing is written.
";

pub const INSPECT: &str = "\
parity inspect FILE [--json] [--from FORMAT]

Says of the matrix: n, m, ones, the weights of its checks and of its bits, rank,
rate, which bits hold the message, cycle count, and the stopping sets of 1 to 4
sent bits, how many and the first five. It remarks on what is likely a mistake:
rate 0, more checks than rank, bits in no check, checks that are empty or repeat
an earlier one. Then, of the matrix orthogonalised: the splits made, their sum,
k, the cycles left and the ones. Bits and checks are counted from 0. Of a record
with splits the first part is about the checks before its splits;
orthogonalising goes on from them.

  --json     the same in one line of JSON, with the weight of each check and bit

Exit status: 0 done; 1 FILE cannot be read or taken; 2 wrong arguments.
";

pub const SAME: &str = "\
parity same A B [--from FORMAT]

Says whether the codewords of the matrix A are those of B. Where they are not it
shows a word that is a codeword of one and none of the other. Of a record with
splits the checks before its splits count, which have the same code.

Exit status: 0 the same code; 1 A or B cannot be read or taken; 2 wrong
arguments; 3 not the same code.
";

pub const EXTEND: &str = "\
parity extend FILE OUT [--from FORMAT]

Orthogonalises the matrix, and writes it with its splits as a record of the
third form (of the second form where there is nothing to split). No other format
holds splits, so that OUT may not end in .alist or .txt. Prints the splits made,
their sum, k and the cycles left, on standard error where OUT is -. OUT must be
another file than FILE.

Exit status: 0 written; 1 FILE cannot be read or taken, or OUT not written; 2
wrong arguments; 3 written, but k is 392, the most, and cycles are left.
";

pub const ENCODE: &str = "\
parity encode FILE [--from FORMAT]

Reads messages from standard input, a line of n - r digits for each, where r is
the rank, and writes the codeword that holds each, n digits. Which bits hold the
message, inspect says; blanks, tabs and commas between digits do not matter. A
line that is no message comes out as it was, and a line on standard error says
why: ten of them are named, and the further ones counted.

Exit status: 0 done; 1 FILE or a stream cannot be read, written or taken; 2
wrong arguments; 4 some line is no message.
";

pub const MESSAGE: &str = "\
parity message FILE [--from FORMAT]

Reads words of n bits from standard input, a line for each, of 0, 1 and ? (or .)
for an erased bit, and writes the n - r bits of each that hold the message; an
erased one as ?. Nothing is mended: that is mend's part. Of a word that
contradicts the checks the message is not known, and written as ? alone. A line
that is no word comes out as it was, and a line on standard error says why.

Exit status: 0 done; 1 FILE or a stream cannot be read, written or taken; 2
wrong arguments; 3 some word contradicts the checks; 4 some line is no word.
";

pub const VERIFY: &str = "\
parity verify FILE [--from FORMAT]

Reads words of n digits from standard input, a line for each, and writes yes for
a codeword and no for another word. A line that is no word comes out as it was,
and a line on standard error says why.

Exit status: 0 all are codewords; 1 FILE or a stream cannot be read, written or
taken; 2 wrong arguments; 3 some word is none; 4 some line is no word.
";

pub const ERASE: &str = "\
parity erase --rate P [--seed S]
parity erase --burst L --gap G [--seed S]

A lossy link: reads words of any length from standard input, a line for each,
and writes them with some bits erased, as ?. What is erased already stays so. A
line that is no word comes out as it was, and a line on standard error says why.

  --rate P   each bit is lost with chance P, 0 to 1
  --burst L  L bits in a row are lost, also across lines
  --gap G    G bits on average stand between two bursts, at least one
  --seed S   other losses for another number (1)

Exit status: 0 done; 1 a stream cannot be read or written; 2 wrong arguments; 4
some line is no word.
";

pub const MEND: &str = "\
parity mend FILE [--by WAY] [--from FORMAT]

Reads words from standard input, a line for each, of 0, 1 and ? (or .) for an
erased bit, and writes each line mended to standard output, in order. Bits that
are left keep their mark, and blanks, tabs and commas between bits stay. WAY is

  given      peeling with the given matrix
  extended   peeling with the orthogonalised matrix
  determine  all that the checks determine together (default)
  block      the same words in up to three stages, the library's one door;
             slower where bits are left after peeling

Of a record with splits the given matrix is that before the splits, and the
orthogonalised one has them. The end of the input brings one line on standard
error: words, bits erased, recovered and left, contradictions. A word that
contradicts the checks comes out as it was. So does a line that is no word, for
which a line with its number goes to standard error: ten of them are named, and
the further ones counted.

Exit status: 0 done; 1 FILE or a stream cannot be read, written or taken; 2
wrong arguments; 3 some word contradicts the checks; 4 some line is no word.
";

pub const EXPLAIN: &str = "\
parity explain FILE [--by given|extended] [--json] [--from FORMAT]

Reads words from standard input as mend does, and says of each erased bit why it
has its value, or none:

  turn 3: check 5, with bits 1 2    the check had this bit alone erased then
  the sum of checks 0 4, with ..    the sum has this bit and received bits alone
  unknown: a codeword ..            its ones are erased bits, so that either
                                    value of the bit agrees with the checks

Of a word that contradicts the checks it shows a sum of checks without an erased
bit that is odd. Each of these is checked again before it is printed, and all of
them together must leave the word that the library's determine leaves. With --by
extended the checks and the added bits (from n on) of the orthogonalised matrix
are used. Bits and checks are counted from 0.

  --json     an object for each line, on a line of its own

Exit status: 0 done; 1 FILE or a stream cannot be read, written or taken; 2
wrong arguments; 3 some word contradicts the checks; 4 some line is no word; 5
what was found and the library's answer do not go together, a fault of this
program: one line says where, and the program ends there.
";

pub const SOFT: &str = "\
parity soft FILE [--by given|extended] [--rounds R] [--hard] [--from FORMAT]

Reads words from standard input, a line of n values for each, with blanks, tabs
or commas between: 0 or 1 for a sure bit, ? for an erased one, and any other
decimal number for a soft one, which favours 0 when positive (0.0, 1.0 and -1
are soft). A line of 0, 1 and ? needs no blanks. Each word goes through min-sum
rounds, and its n results are written in the same form; floats read back to the
same bits.

  --by extended  with the orthogonalised matrix, its added bits erased (given)
  --rounds R     1 to 512 rounds (50)
  --hard         results as 0, 1 and ? without blanks; a soft zero as ?

A line that is no word comes out as it was, and a line on standard error says
why: also one with a number that is not finite or above 1048576 in magnitude.
Places in a line are counted from 0.

Exit status: 0 done; 1 FILE or a stream cannot be read, written or taken; 2
wrong arguments; 4 some line is no word.
";

pub const CURVE: &str = "\
parity curve FILE.. --out SVG [--channel erasure|awgn] [--rounds R] [--bits]
                    [--blocks] [--csv CSV] [--words N] [--errors E] [--seed S]
                    [--from FORMAT]

Draws the share of sent bits left over the erasure rate, 0.02 to 1 in steps of
0.02, by peeling with the given matrix, by peeling with the orthogonalised one
and by all that the checks determine, with a line at the channel's limit, one
minus the rate of the code. Up to 6 matrices stand in one picture, each in its
colour. Random codewords are sent, N at each rate; all cores are used, and the
numbers do not depend on how many there are.

With --channel awgn it draws the bit error rate, and below it the word error
rate, over Eb/N0, 0 to 8 dB in steps of 0.5, by R min-sum rounds with the given
matrix and with the orthogonalised one, and, where the rank is at most 11, by
the best decision on each bit that there is. A bit that is not decided counts as
wrong.

  --out SVG  the picture
  --csv CSV  the numbers behind it, of bits and of words
  --bits     draws the share of sent bits left, or the bit error rate
  --blocks   draws the share of words that are not wholly recovered, or the
             word error rate; with --bits both stand in one picture
  --rounds R 1 to 512 rounds, with --channel awgn (50)
  --words N  words at each point, 1 to 100000000 (10000)
  --errors E a point ends early, with the hundred of words after which every way
             has left E words, 1 to 100000000
  --seed S   other words for another number (1)

Bars are Wilson's intervals of 95 %. An arrow down stands at the upper end of
one where nothing was left. Points that fewer than 10 words made are hollow, and
their lines faint; the axis ends where nothing more is known.

SVG and CSV must be two files, and neither may be a FILE.

Exit status: 0 written; 1 a FILE cannot be read or taken, or a file not written;
2 wrong arguments.
";

pub const REPORT: &str = "\
parity report FILE --out HTML [--words N] [--errors E] [--seed S]
                   [--from FORMAT]

Writes one page about the matrix, which needs no network, no script and no other
file: what inspect says, the matrix as dots before and after orthogonalising,
small stopping sets as marked columns, the Tanner graph where n is at most 40,
and the curves of bits and of words over the erasure rate. Where there is no
stopping set of 1 to 4 bits it shows the smallest that searches by peeling find.
Of a record with splits the page is about the checks before its splits, and
orthogonalising goes on from them, as inspect has it.

  --out HTML the page
  --words N  words at each erasure rate, 1 to 100000000 (1000)
  --errors E a rate ends early, as with curve
  --seed S   other words for another number (1)

The page is the same for any number of cores. HTML must be another file than
FILE.

Exit status: 0 written; 1 FILE cannot be read or taken, or HTML not written; 2
wrong arguments.
";
