/* Yultarvas from C: words, points and samples of motor current traces. These are the calls of the static
 * library libyultarvas.a, every function of which is proved against its contract. `bash tools/native.sh
 * yultarvas` builds it, for x86-64 Linux.
 *
 * Answers. Each call answers YULTARVAS_OK or the number of the refusal, and on a refusal writes nothing.
 * Where more than one number would fit, the first of those that stand behind 'Refused:' is answered. The
 * answer of yultarvas_write_page carries a block beside the number, and yultarvas_outside answers a section.
 *
 * Slices. A slice is a pointer and its length in elements, in this order; the length is at most PTRDIFF_MAX
 * bytes. A block of 24 stands at a slice's start; of a longer slice the rest is neither read nor written. A
 * slice of length 0 is never looked at, so (NULL, 0) is an empty slice. Every other pointer is not null and
 * is aligned for its type, and what a call writes overlaps nothing else that the call is lent. The library
 * cannot check that, and no proof covers it.
 *
 * Threads. No call keeps anything between calls and none writes to memory but what it is lent and its own
 * stack, so any number of threads may call at once, as long as they do not lend the same memory for writing.
 * No call allocates or locks; of the host it uses memcpy, memmove and memset alone.
 *
 * Stack. yultarvas_encode, yultarvas_encode_with, yultarvas_encode_at_scale, the same three of the even
 * profile (yultarvas_even_encode, yultarvas_even_encode_with, yultarvas_even_encode_at_scale) and
 * yultarvas_write_page take up to 137 KB of stack (136,152 bytes on x86-64), the other calls up to 20 KB. No
 * theorem bounds the stack: tools/stack.sh measures it. Have YULTARVAS_STACK bytes left.
 *
 * Memory. Code and constants take 82 KB on x86-64 (tools/rom.sh measures them), and nothing of the library
 * can be written.
 *
 * Doubles. The contracts are over IEEE 754 doubles, rounded to nearest with ties to even, subnormal numbers
 * kept. That is how a thread starts; a host that has set another rounding mode or flush-to-zero (as a program
 * linked with -ffast-math does) gets other answers with no refusal. yultarvas_environment_now tells. */
#ifndef YULTARVAS_H
#define YULTARVAS_H

#include <stddef.h>
#include <stdint.h>

#ifdef __cplusplus
extern "C" {
#endif

/* The version of this header and of the calls that it declares. */
#define YULTARVAS_VERSION_MAJOR 0
#define YULTARVAS_VERSION_MINOR 7
#define YULTARVAS_VERSION_PATCH 0
#define YULTARVAS_VERSION "0.7.0"

/* Samples of a block, coordinates of a point; the most blocks of a page; the most counts of a page; the most
 * bytes of a page's text; the most cells of a page's summary. */
#define YULTARVAS_BLOCK 24
#define YULTARVAS_PAGE_BLOCKS 64
#define YULTARVAS_PAGE_COUNTS 1536
#define YULTARVAS_PAGE_TEXT 1189
#define YULTARVAS_PAGE_SUMMARY 260

/* Bytes of stack that a thread should have left for any one call: more than twice what was measured. */
#define YULTARVAS_STACK 327680

/* What a call answers. A later version may have further numbers, so let a switch have a default. */
enum yultarvas_number {
    YULTARVAS_OK = 0,
    YULTARVAS_NOT_FINITE = 1,      /* a sample is NaN or infinite */
    YULTARVAS_TOO_LARGE = 2,       /* a sample's magnitude exceeds 1e290; one of a page, 32767 */
    YULTARVAS_BAD_SCALE = 3,       /* the scale is not a finite number above 0; a num, not from 1 to 65535 */
    YULTARVAS_FAR_QUOTIENT = 4,    /* a sample over the scale exceeds 1e6 in magnitude */
    YULTARVAS_MIXED_PARITY = 5,    /* no word: the point's coordinates are not all even or all odd */
    YULTARVAS_BAD_SETTING = 7,     /* the setting of the shrinks is 0 */
    YULTARVAS_NO_ROOM = 8,         /* a slice is too short */
    YULTARVAS_NO_PAGE = 9,         /* the text is no page; or there are too many blocks for one */
    YULTARVAS_NO_CODEWORD = 10,    /* no word: the coordinates that are 2 or 3 modulo 4 are no codeword */
    YULTARVAS_OUTSIDE = 11,        /* no word: a section is outside its bound; yultarvas_outside says which */
    YULTARVAS_WRONG_SUM = 12,      /* no word: the sum of the coordinates' quarters is odd and they are even,
                                      or even and they are odd */
    YULTARVAS_ALL_ODD = 13,        /* not in the even profile: a word whose p is 1, or a point whose
                                      coordinates are all odd */
    YULTARVAS_DISAGREES = 14       /* the summary and the page disagree */
};

/* What yultarvas_environment answers. */
enum yultarvas_environment_answer {
    YULTARVAS_ENVIRONMENT_OK = 0,
    YULTARVAS_OTHER_ROUNDING = 1,  /* sums are not rounded to nearest, ties to even */
    YULTARVAS_NO_SUBNORMALS = 2    /* a subnormal number is taken for 0 */
};

/* ---- words and points */

/* The point of a word, in natural order, into point. Bits 47 and up are ignored. Refused: 8. */
uint32_t yultarvas_decode(uint64_t word, int32_t *point, size_t point_len);

/* The word of a point, with gain 0, into word. Refused: 8; then 5, 10, 11, 12, which say why no word decodes
 * to the point: yultarvas_why_no_word has each in a sentence, and yultarvas_outside the section of 11. */
uint32_t yultarvas_encode_point(const int32_t *point, size_t point_len, uint64_t *word);

/* The section that is outside its bound, where that is why the point has no word: 1, 2 or 3, the lowest one
 * where there are several. 0 where yultarvas_encode_point does not answer 11. The sections have the
 * coordinates
 *   1  0, 1, 2, 3, 4, 7, 10, 12
 *   2  6, 11, 13, 14, 16, 17, 18, 19
 *   3  5, 8, 9, 15, 20, 21, 22, 23. */
uint32_t yultarvas_outside(const int32_t *point, size_t point_len);

/* Whether a number that yultarvas_encode_point answered says that no word decodes to the point. 13
 * does not: yultarvas_even_encode_point answers it for every point whose coordinates are all odd, and such a
 * point may have a word. */
static inline int yultarvas_no_word(uint32_t number) {
    return number == YULTARVAS_MIXED_PARITY || number == YULTARVAS_NO_CODEWORD || number == YULTARVAS_OUTSIDE
           || number == YULTARVAS_WRONG_SUM;
}

/* That in a sentence for the bench, with the section that yultarvas_outside answers. 13 has a sentence too,
 * since the bench shows what yultarvas_even_encode_point answers in the same place; every other number has an
 * empty text. The Rust crate has the same sentences. */
static inline const char *yultarvas_why_no_word(uint32_t number, uint32_t section) {
    switch (number) {
    case YULTARVAS_MIXED_PARITY: return "the point has no word: its coordinates are not all even or all odd";
    case YULTARVAS_NO_CODEWORD:
        return "the point has no word: the coordinates that are 2 or 3 modulo 4 are no codeword; "
               "some coordinates would have to change by 2";
    case YULTARVAS_OUTSIDE:
        switch (section) {
        case 1:
            return "the point has no word: section 1 (coordinates 0, 1, 2, 3, 4, 7, 10, 12) is outside its "
                   "bound; it needs smaller values";
        case 2:
            return "the point has no word: section 2 (coordinates 6, 11, 13, 14, 16, 17, 18, 19) is outside "
                   "its bound; it needs smaller values";
        default:
            return "the point has no word: section 3 (coordinates 5, 8, 9, 15, 20, 21, 22, 23) is outside "
                   "its bound; it needs smaller values";
        }
    case YULTARVAS_WRONG_SUM:
        return "the point has no word: the sum of its coordinates' quarters, each rounded down, is odd "
               "where they are even, or even where they are odd; changing one by 4 mends it";
    case YULTARVAS_ALL_ODD:
        return "the even profile has no odd points: a word's p is 1, or a point's coordinates are all odd";
    default: return "";
    }
}

/* ---- samples to codes: the word, its point and the score */

/* At the scale that the samples give: what a recorder calls. Samples that are all zero have word 0 and the
 * score minus infinity. Refused: 8, 1, 2. */
uint32_t yultarvas_encode(const double *samples, size_t samples_len, uint64_t *word, int32_t *point,
                          size_t point_len, double *score);

/* The same at a setting, the number of shrinks that the search tries; all from 8 up are the same, and
 * yultarvas_encode uses 8. Refused: 8, 7, 1, 2. */
uint32_t yultarvas_encode_with(const double *samples, size_t samples_len, uint32_t setting, uint64_t *word,
                               int32_t *point, size_t point_len, double *score);

/* At a scale and a setting. Refused: 8, 7, 3, 1, 2, 4. */
uint32_t yultarvas_encode_at_scale(const double *samples, size_t samples_len, double scale, uint32_t setting,
                                   uint64_t *word, int32_t *point, size_t point_len, double *score);

/* ---- a scale and a score by themselves */

/* The largest magnitude of the samples into largest, and the lower of the two scales that yultarvas_encode
 * tries into scale; +0.0 in each where all samples are zero. Refused: 8, 1, 2. */
uint32_t yultarvas_lower_scale(const double *samples, size_t samples_len, double *largest, double *scale);

/* The score of samples at a point, samples times point over the root of point times point, into score; minus
 * infinity at the origin. Refused: 8, 1, 2. */
uint32_t yultarvas_t_of(const double *samples, size_t samples_len, const int32_t *point, size_t point_len,
                        double *score);

/* ---- pages */

/* The counts of a page, 24 per block, into counts, and how many blocks it has into blocks. A count is the
 * coordinate times num / 256, to the nearest whole number, and a half to the even one (since 0.5.0; before,
 * away from zero). YULTARVAS_PAGE_COUNTS places hold any page. Refused: 9, 8. */
uint32_t yultarvas_read_page(const uint8_t *text, size_t text_len, int32_t *counts, size_t counts_len,
                             size_t *blocks);

/* The num of a page into num, its words into words, and how many there are into count. YULTARVAS_PAGE_BLOCKS
 * places hold any page. Refused: 9, 8. */
uint32_t yultarvas_parse_page(const uint8_t *text, size_t text_len, uint32_t *num, uint64_t *words,
                              size_t words_len, size_t *count);

/* The text of the page of num and of count blocks, 24 whole samples each, into text, and its length into
 * length: yultarvas_read_page and yultarvas_parse_page accept it, with the same num and the same words. Each
 * block is coded by yultarvas_encode_at_scale at the scale num / 256 and the setting 8. Samples behind
 * 24 * count are not looked at. YULTARVAS_PAGE_TEXT places hold any page; no 0 byte is put behind the text.
 *
 * The answer has the number in its low 32 bits, and above them a block: with 2 and 4 the lowest block that
 * has them, else 0. Refused: 3 for num 0 or above 65535, 9 for more than 64 blocks, 8 for fewer than 24
 * samples a block, 2 for a sample beyond 32767 in magnitude in any block, 4 likewise, 8 for the text. */
uint64_t yultarvas_write_page(uint32_t num, size_t count, const int32_t *samples, size_t samples_len,
                              uint8_t *text, size_t text_len, size_t *length);

/* The two parts of that answer. */
static inline uint32_t yultarvas_number_of(uint64_t answer) {
    return (uint32_t)(answer & 0xffffffff);
}
static inline size_t yultarvas_block_of(uint64_t answer) {
    return (size_t)(answer >> 32);
}

/* ---- a summary beside a page
 *
 * A summary has rows of 4 cells: first the page's row, then one for each block. A block's row has the sum of
 * squares of the coordinates of its point, the largest coordinate, the smallest one, and the parity p, which
 * is bit 0 of the word. The page's row has the total of those sums, the largest and the smallest coordinate
 * over all blocks, and how many blocks have p = 1; of a page with no blocks it is all zeros. Neither num nor
 * bit 47 of a word changes anything in it.
 *
 * So the summary of a page with n blocks has 4 (n + 1) cells. It stands at a slice's start; cells behind it
 * are neither read nor written. YULTARVAS_PAGE_SUMMARY cells hold that of any page. */

/* The summary of a page into rows, and how many blocks the page has into blocks. Refused: 9, 8. */
uint32_t yultarvas_summarise(const uint8_t *text, size_t text_len, int32_t *rows, size_t rows_len,
                             size_t *blocks);

/* Whether rows begin with the summary of the page: YULTARVAS_OK where they do. Refused: 9; 8 for fewer cells
 * than the summary has; 14 where a cell is another. */
uint32_t yultarvas_check_summary(const uint8_t *text, size_t text_len, const int32_t *rows, size_t rows_len);

/* Brings the summary of a page up to date for one word more, of which the low 48 bits count: what is left in
 * rows is the summary of the page with that word behind the others, and how many blocks that page has is put
 * into blocks. The page's row and the new block's row are written, and no other cell. Refused: 9 for a text
 * that is no page or a page of 64 blocks; 8 for fewer cells than the longer summary has, 4 (n + 2) for a page
 * of n blocks; 14 where rows do not begin with the page's summary.
 *
 * The text is not changed. The longer page's text is the caller's to make, with one more in its count line
 * and a word line more (yultarvas_parse_page gives num and the words), and it is what the next call takes.
 * With the text of before, this call and yultarvas_check_summary then answer 14, unless the word's point is
 * all zeros, which can leave the page's row as it was. */
uint32_t yultarvas_add_word(const uint8_t *text, size_t text_len, uint64_t word, int32_t *rows,
                            size_t rows_len, size_t *blocks);

/* ---- the even profile
 *
 * For a channel whose readers know even points alone: words whose p, bit 0, is 0, and points whose
 * coordinates are all even. A word or a point that the profile accepts is answered as by the call that has no
 * `even_` in its name. An odd word, one whose p is 1, is refused with 13, and so is a point whose coordinates
 * are all odd.
 *
 * The calls for samples search the even points alone, so that 13 never comes up in them. Where the full
 * coder's point is odd, theirs is another one. At a scale, where the full coder's point is even, they give
 * the same code; at the scale that the samples give it can be another, also where both points are even. */

/* Whether the profile has a word: YULTARVAS_OK where its p is 0. No other bit counts. Refused: 13. */
uint32_t yultarvas_even_check(uint64_t word);

/* The point of a word, as yultarvas_decode gives it. Refused: 8, 13. */
uint32_t yultarvas_even_decode(uint64_t word, int32_t *point, size_t point_len);

/* The word of a point, as yultarvas_encode_point gives it. Refused: 8; 5; 13 where all 24 coordinates are
 * odd, whether or not the point has a word; 10, 11, 12. yultarvas_outside has the section of 11. It does not
 * know the profile, so it may answer a section where this call answers 13. */
uint32_t yultarvas_even_encode_point(const int32_t *point, size_t point_len, uint64_t *word);

/* The code of samples at the scale that they give. Samples that are all zero have word 0 and the score minus
 * infinity. Refused: 8, 1, 2. */
uint32_t yultarvas_even_encode(const double *samples, size_t samples_len, uint64_t *word, int32_t *point,
                               size_t point_len, double *score);

/* The same at a setting, as yultarvas_encode_with takes it. Refused: 8, 7, 1, 2. */
uint32_t yultarvas_even_encode_with(const double *samples, size_t samples_len, uint32_t setting,
                                    uint64_t *word, int32_t *point, size_t point_len, double *score);

/* At a scale and a setting. Refused: 8, 7, 3, 1, 2, 4. */
uint32_t yultarvas_even_encode_at_scale(const double *samples, size_t samples_len, double scale,
                                        uint32_t setting, uint64_t *word, int32_t *point, size_t point_len,
                                        double *score);

/* The counts of a page that has no odd word, as yultarvas_read_page gives them. A page with any odd word is
 * refused whole, and counts and blocks stay as they were. Refused: 9, 13, 8. */
uint32_t yultarvas_even_read_page(const uint8_t *text, size_t text_len, int32_t *counts, size_t counts_len,
                                  size_t *blocks);

/* ---- the environment */

/* Three sums of doubles, at one = 1.0 and least = 2^-1074, the least double above 0. The proof is over
 * doubles of which the answer is always YULTARVAS_ENVIRONMENT_OK; on a thread that rounds otherwise, or
 * flushes, the same sums come out otherwise. The operands are arguments so that no compiler works the sums
 * out beforehand. */
uint32_t yultarvas_environment(double one, double least);

/* How the calling thread stands: to be asked once at start-up, and after code that may have changed it. */
static inline uint32_t yultarvas_environment_now(void) {
    return yultarvas_environment(1.0, 4.9406564584124654e-324);
}

#ifdef __cplusplus
}
#endif

#endif
