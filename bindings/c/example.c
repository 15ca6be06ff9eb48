/* Each call from C: prints what was asked, and fails where an answer is not the one that is known. */
#include "yultarvas.h"
#include <inttypes.h>
#include <math.h>
#include <stdio.h>
#include <string.h>

static int failures = 0;

static void expect(const char *what, int holds) {
    printf("%s: %s\n", what, holds ? "ok" : "WRONG");
    if (!holds) failures++;
}

static uint64_t bits(double x) {
    uint64_t b;
    memcpy(&b, &x, sizeof b);
    return b;
}

static const char *const text = "format=tetra-page\nnum=128\ncount=1\nword=000000000001\n";

static void words_and_points(void) {
    int32_t point[30]; /* of which a call uses 24 */
    uint64_t word = 7;
    for (int i = 0; i < 30; i++) point[i] = 9;
    expect("decode", yultarvas_decode(1, point, 30) == YULTARVAS_OK && point[0] == 1 && point[23] == -3
                         && point[24] == 9);
    expect("encode_point", yultarvas_encode_point(point, 30, &word) == YULTARVAS_OK && word == 1);
    expect("outside, a point that has a word", yultarvas_outside(point, 30) == 0);
    point[0] = 2;
    expect("encode_point, both parities",
           yultarvas_encode_point(point, 24, &word) == YULTARVAS_MIXED_PARITY && word == 1);
    expect("why_no_word, other numbers", yultarvas_why_no_word(YULTARVAS_OK, 0)[0] == 0
                                             && yultarvas_why_no_word(YULTARVAS_NO_ROOM, 0)[0] == 0);
    expect("no_word", yultarvas_no_word(YULTARVAS_MIXED_PARITY) && !yultarvas_no_word(YULTARVAS_OK)
                          && !yultarvas_no_word(YULTARVAS_NO_ROOM));
}

/* Why a point has no word. */
static void no_words(void) {
    int32_t point[YULTARVAS_BLOCK] = {2};
    uint64_t word = 7;
    expect("encode_point, no codeword", yultarvas_encode_point(point, 24, &word) == YULTARVAS_NO_CODEWORD
                                            && yultarvas_outside(point, 24) == 0);
    point[0] = 4;
    expect("encode_point, wrong sum", yultarvas_encode_point(point, 24, &word) == YULTARVAS_WRONG_SUM
                                          && yultarvas_outside(point, 24) == 0);
    point[0] = INT32_MIN; /* the sum is even, the first section far outside */
    expect("encode_point, outside", yultarvas_encode_point(point, 24, &word) == YULTARVAS_OUTSIDE
                                        && yultarvas_outside(point, 24) == 1);
    point[0] = 0;
    point[6] = point[15] = 12; /* sections 2 and 3 */
    expect("the lowest section", yultarvas_encode_point(point, 24, &word) == YULTARVAS_OUTSIDE
                                     && yultarvas_outside(point, 24) == 2);
    point[6] = 4;
    expect("the third section", yultarvas_encode_point(point, 24, &word) == YULTARVAS_OUTSIDE
                                    && yultarvas_outside(point, 24) == 3);
    printf("%s\n", yultarvas_why_no_word(YULTARVAS_OUTSIDE, yultarvas_outside(point, 24)));
    expect("why_no_word",
           strstr(yultarvas_why_no_word(YULTARVAS_OUTSIDE, 3), "section 3 (coordinates 5, 8, 9") != NULL);
    expect("outside, short", yultarvas_outside(point, 23) == 0);
    expect("word as it was", word == 7);
}

static void samples(void) {
    double x[YULTARVAS_BLOCK] = {4.1, 3.9}, score = 7.0, largest = 7.0, scale = 7.0;
    int32_t point[30], again[YULTARVAS_BLOCK];
    uint64_t word = 7;
    point[24] = 9;
    expect("encode_at_scale",
           yultarvas_encode_at_scale(x, 24, 1.0, 8, &word, point, 30, &score) == YULTARVAS_OK
               && word == 0x3800 && point[0] == 4 && point[1] == 4 && point[2] == 0 && point[24] == 9
               && bits(score) == 0x4016a09e667f3bcc);
    expect("encode_at_scale, scale 0",
           yultarvas_encode_at_scale(x, 24, 0.0, 8, &word, point, 30, &score) == YULTARVAS_BAD_SCALE
               && word == 0x3800);
    expect("encode, short",
           yultarvas_encode(x, 23, &word, point, 30, &score) == YULTARVAS_NO_ROOM && word == 0x3800);
    expect("encode", yultarvas_encode(x, 24, &word, point, 30, &score) == YULTARVAS_OK
                         && word == 0x04501a0e2e5a && point[0] == 8 && point[1] == 6
                         && bits(score) == 0x4013dea4b20153b5);
    printf("word=%012" PRIx64 " score=%.17g\n", word, score);
    expect("decode again",
           yultarvas_decode(word, again, 24) == YULTARVAS_OK && memcmp(again, point, sizeof again) == 0);
    expect("t_of",
           yultarvas_t_of(x, 24, point, 30, &largest) == YULTARVAS_OK && bits(largest) == bits(score));
    expect("encode_with, setting 0",
           yultarvas_encode_with(x, 24, 0, &word, point, 30, &score) == YULTARVAS_BAD_SETTING
               && word == 0x04501a0e2e5a);
    word = 7;
    expect("encode_with", yultarvas_encode_with(x, 24, 8, &word, point, 30, &score) == YULTARVAS_OK
                              && word == 0x04501a0e2e5a);
    expect("lower_scale", yultarvas_lower_scale(x, 24, &largest, &scale) == YULTARVAS_OK && largest == 4.1
                              && 0.0 < scale && scale < 1.0);
    double zeros[YULTARVAS_BLOCK] = {0};
    expect("encode, zeros", yultarvas_encode(zeros, 24, &word, point, 24, &score) == YULTARVAS_OK && word == 0
                                && score == -INFINITY);
}

static void pages(void) {
    int32_t counts[YULTARVAS_PAGE_COUNTS];
    uint64_t words[YULTARVAS_PAGE_BLOCKS];
    size_t blocks = 7;
    uint32_t num = 7;
    const uint8_t *t = (const uint8_t *)text;
    expect("read_page", yultarvas_read_page(t, strlen(text), counts, 24, &blocks) == YULTARVAS_OK
                            && blocks == 1 && counts[0] == 0 && counts[23] == -2);
    expect("read_page, cut off",
           yultarvas_read_page(t, strlen(text) - 1, counts, 24, &blocks) == YULTARVAS_NO_PAGE && blocks == 1);
    expect("parse_page",
           yultarvas_parse_page(t, strlen(text), &num, words, YULTARVAS_PAGE_BLOCKS, &blocks) == YULTARVAS_OK
               && num == 128 && blocks == 1 && words[0] == 1);
}

/* A page of one block, which is read again; and refusals, the block of one among them. */
static void written(void) {
    int32_t samples[3 * YULTARVAS_BLOCK] = {4, 4};
    uint8_t page[YULTARVAS_PAGE_TEXT];
    size_t length = 7, blocks = 7;
    uint64_t words[YULTARVAS_PAGE_BLOCKS];
    uint32_t num = 7;
    const char *one = "format=tetra-page\nnum=256\ncount=1\nword=000000003800\n";
    memset(page, 'x', sizeof page);
    expect("write_page, one byte less",
           yultarvas_write_page(256, 1, samples, 24, page, 51, &length) == YULTARVAS_NO_ROOM && length == 7
               && page[0] == 'x');
    expect("write_page", yultarvas_write_page(256, 1, samples, 24, page, 52, &length) == YULTARVAS_OK
                             && length == 52 && memcmp(page, one, 52) == 0 && page[52] == 'x');
    expect("parse_page again",
           yultarvas_parse_page(page, length, &num, words, YULTARVAS_PAGE_BLOCKS, &blocks) == YULTARVAS_OK
               && num == 256 && blocks == 1 && words[0] == 0x3800);
    samples[0] = 32767; /* too far for num 1, in block 0 */
    samples[71] = -32768; /* too large, in block 2 */
    uint64_t answer = yultarvas_write_page(1, 3, samples, 72, page, sizeof page, &length);
    expect("write_page, a sample too large",
           yultarvas_number_of(answer) == YULTARVAS_TOO_LARGE && yultarvas_block_of(answer) == 2);
    samples[71] = 0;
    expect("write_page, a quotient too far",
           yultarvas_write_page(1, 3, samples, 72, page, sizeof page, &length) == YULTARVAS_FAR_QUOTIENT);
    expect("write_page, num 0",
           yultarvas_write_page(0, 65, NULL, 0, NULL, 0, &length) == YULTARVAS_BAD_SCALE);
    expect("write_page, 65 blocks",
           yultarvas_write_page(1, 65, NULL, 0, NULL, 0, &length) == YULTARVAS_NO_PAGE);
    expect("write_page, 23 samples",
           yultarvas_write_page(1, 1, samples, 23, NULL, 0, &length) == YULTARVAS_NO_ROOM && length == 52
               && memcmp(page, one, 52) == 0);
    expect("write_page, no block",
           yultarvas_write_page(256, 0, NULL, 0, page, sizeof page, &length) == YULTARVAS_OK && length == 34
               && memcmp(page, "format=tetra-page\nnum=256\ncount=0\n", 34) == 0);
}

/* The summary beside the page: made, checked, and brought up to date for a word more. */
static void summaries(void) {
    static const int32_t one[8] = {32, 1, -3, 1, 32, 1, -3, 1};
    static const int32_t two[12] = {64, 4, -3, 1, 32, 1, -3, 1, 32, 4, 0, 0};
    const char *longer = "format=tetra-page\nnum=128\ncount=2\nword=000000000001\nword=000000003800\n";
    const uint8_t *t = (const uint8_t *)text, *u = (const uint8_t *)longer;
    size_t n = strlen(text), m = strlen(longer), blocks = 7;
    int32_t rows[14]; /* of which the summaries use 8, then 12 */
    for (int i = 0; i < 14; i++) rows[i] = 9;
    expect("summarise, one cell less", yultarvas_summarise(t, n, rows, 7, &blocks) == YULTARVAS_NO_ROOM
                                           && blocks == 7 && rows[0] == 9);
    expect("summarise", yultarvas_summarise(t, n, rows, 14, &blocks) == YULTARVAS_OK && blocks == 1
                            && memcmp(rows, one, sizeof one) == 0 && rows[8] == 9);
    expect("check_summary", yultarvas_check_summary(t, n, rows, 14) == YULTARVAS_OK);
    expect("check_summary, one cell less", yultarvas_check_summary(t, n, rows, 7) == YULTARVAS_NO_ROOM);
    expect("add_word, one cell less",
           yultarvas_add_word(t, n, 0x3800, rows, 11, &blocks) == YULTARVAS_NO_ROOM && blocks == 1
               && memcmp(rows, one, sizeof one) == 0 && rows[8] == 9);
    rows[4] = 33;
    expect("check_summary, a cell that is another",
           yultarvas_check_summary(t, n, rows, 14) == YULTARVAS_DISAGREES);
    expect("add_word, a cell that is another",
           yultarvas_add_word(t, n, 0x3800, rows, 14, &blocks) == YULTARVAS_DISAGREES && blocks == 1
               && rows[0] == 32 && rows[4] == 33 && rows[8] == 9);
    rows[4] = 32;
    expect("add_word", yultarvas_add_word(t, n, 0x3800, rows, 14, &blocks) == YULTARVAS_OK && blocks == 2
                           && memcmp(rows, two, sizeof two) == 0 && rows[12] == 9);
    printf("squares=%" PRId32 " largest=%" PRId32 " smallest=%" PRId32 " odd=%" PRId32 "\n", rows[0], rows[1],
           rows[2], rows[3]);
    expect("check_summary, the longer page", yultarvas_check_summary(u, m, rows, 12) == YULTARVAS_OK);
    expect("check_summary, the page of before",
           yultarvas_check_summary(t, n, rows, 14) == YULTARVAS_DISAGREES);
}

/* The even profile: what it accepts it answers as the full coder, and what is odd it refuses with 13. */
static void even_profile(void) {
    int32_t point[30], counts[YULTARVAS_BLOCK] = {9}; /* of point, a call uses 24 */
    uint64_t word = 7;
    size_t blocks = 7;
    for (int i = 0; i < 30; i++) point[i] = 9;
    expect("even_check", yultarvas_even_check(0x3800) == YULTARVAS_OK
                             && yultarvas_even_check(UINT64_C(1) << 47) == YULTARVAS_OK
                             && yultarvas_even_check(1) == YULTARVAS_ALL_ODD);
    expect("even_decode, an odd word",
           yultarvas_even_decode(1, point, 30) == YULTARVAS_ALL_ODD && point[0] == 9 && point[23] == 9);
    expect("even_decode, an odd word and a short slice",
           yultarvas_even_decode(1, point, 23) == YULTARVAS_NO_ROOM && point[0] == 9);
    expect("even_decode", yultarvas_even_decode(0x3800, point, 30) == YULTARVAS_OK && point[0] == 4
                              && point[1] == 4 && point[2] == 0 && point[23] == 0 && point[24] == 9);
    expect("even_encode_point",
           yultarvas_even_encode_point(point, 30, &word) == YULTARVAS_OK && word == 0x3800);
    point[1] = 0;
    expect("even_encode_point, wrong sum",
           yultarvas_even_encode_point(point, 24, &word) == YULTARVAS_WRONG_SUM && word == 0x3800);
    point[0] = 12;
    expect("even_encode_point, outside", yultarvas_even_encode_point(point, 24, &word) == YULTARVAS_OUTSIDE
                                             && yultarvas_outside(point, 24) == 1 && word == 0x3800);
    point[0] = 2;
    expect("even_encode_point, no codeword",
           yultarvas_even_encode_point(point, 24, &word) == YULTARVAS_NO_CODEWORD && word == 0x3800);
    point[0] = 1;
    expect("even_encode_point, both parities",
           yultarvas_even_encode_point(point, 24, &word) == YULTARVAS_MIXED_PARITY && word == 0x3800);
    for (int i = 0; i < 24; i++) point[i] = 1;
    expect("even_encode_point, all odd",
           yultarvas_even_encode_point(point, 24, &word) == YULTARVAS_ALL_ODD && word == 0x3800);
    printf("%s\n", yultarvas_why_no_word(YULTARVAS_ALL_ODD, 0));
    expect("why_no_word, all odd",
           strstr(yultarvas_why_no_word(YULTARVAS_ALL_ODD, 0), "the even profile has no odd points") != NULL
               && !yultarvas_no_word(YULTARVAS_ALL_ODD));
    const uint8_t *odd = (const uint8_t *)text;
    const uint8_t *even = (const uint8_t *)"format=tetra-page\nnum=128\ncount=1\nword=000000003800\n";
    size_t n = strlen(text); /* of both pages */
    expect("even_read_page, an odd word",
           yultarvas_even_read_page(odd, n, counts, 24, &blocks) == YULTARVAS_ALL_ODD && blocks == 7
               && counts[0] == 9);
    expect("even_read_page, an odd word and no room",
           yultarvas_even_read_page(odd, n, NULL, 0, &blocks) == YULTARVAS_ALL_ODD && blocks == 7);
    expect("even_read_page, an odd word, cut off",
           yultarvas_even_read_page(odd, n - 1, counts, 24, &blocks) == YULTARVAS_NO_PAGE && blocks == 7);
    expect("even_read_page, one place less",
           yultarvas_even_read_page(even, n, counts, 23, &blocks) == YULTARVAS_NO_ROOM && blocks == 7
               && counts[0] == 9);
    expect("even_read_page", yultarvas_even_read_page(even, n, counts, 24, &blocks) == YULTARVAS_OK
                                 && blocks == 1 && counts[0] == 2 && counts[1] == 2 && counts[23] == 0);
}

/* Samples in the even profile. The first ones are an odd point, which it does not search; of the last ones
 * the full coder has another point, although that is even. */
static void even_samples(void) {
    double x[YULTARVAS_BLOCK], score = 7.0;
    int32_t point[30];
    uint64_t word = 7;
    for (int i = 0; i < 24; i++) x[i] = i < 23 ? 1.0 : -3.0;
    point[0] = point[24] = 9;
    expect("even_encode_at_scale, setting 0",
           yultarvas_even_encode_at_scale(x, 24, 0.0, 0, &word, point, 30, &score) == YULTARVAS_BAD_SETTING
               && word == 7 && point[0] == 9 && score == 7.0);
    expect("even_encode_at_scale, where the full coder's point is odd",
           yultarvas_encode_at_scale(x, 24, 1.0, 8, &word, point, 30, &score) == YULTARVAS_OK && word == 1
               && yultarvas_even_encode_at_scale(x, 24, 1.0, 8, &word, point, 30, &score) == YULTARVAS_OK
               && word == 0 && point[0] == 0 && point[23] == 0 && point[24] == 9 && score == -INFINITY);
    for (int i = 0; i < 24; i++) x[i] = i == 0 ? 4.1 : i == 1 ? 3.9 : 0.0;
    expect("even_encode_at_scale, where it is even",
           yultarvas_even_encode_at_scale(x, 24, 1.0, 8, &word, point, 30, &score) == YULTARVAS_OK
               && word == 0x3800 && point[0] == 4 && point[1] == 4 && point[2] == 0 && point[24] == 9
               && bits(score) == 0x4016a09e667f3bcc);
    for (int i = 0; i < 24; i++) x[i] = 0.5;
    expect("even_encode, short",
           yultarvas_even_encode(x, 24, &word, point, 23, &score) == YULTARVAS_NO_ROOM && word == 0x3800);
    expect("even_encode", yultarvas_even_encode(x, 24, &word, point, 30, &score) == YULTARVAS_OK
                              && word == 0x407407080e00 && point[0] == 4 && point[23] == 4
                              && bits(score) == 0x4003988e1409212f);
    printf("word=%012" PRIx64 " score=%.17g\n", word, score);
    expect("even_encode_with, setting 0",
           yultarvas_even_encode_with(x, 24, 0, &word, point, 30, &score) == YULTARVAS_BAD_SETTING
               && word == 0x407407080e00);
    word = 7;
    expect("even_encode_with", yultarvas_even_encode_with(x, 24, 8, &word, point, 30, &score) == YULTARVAS_OK
                                   && word == 0x407407080e00);
}

/* (NULL, 0) is an empty slice, for each slice that a call takes. */
static void nothing(void) {
    const uint8_t *empty = (const uint8_t *)"format=tetra-page\nnum=1\ncount=0\n";
    size_t n = strlen((const char *)empty), blocks = 7;
    uint32_t num = 7;
    uint64_t word = 7;
    double x[YULTARVAS_BLOCK] = {1.0}, score = 7.0, scale = 7.0;
    int32_t point[YULTARVAS_BLOCK] = {0};
    expect("decode into nothing", yultarvas_decode(1, NULL, 0) == YULTARVAS_NO_ROOM);
    expect("encode_point of nothing", yultarvas_encode_point(NULL, 0, &word) == YULTARVAS_NO_ROOM);
    expect("outside of nothing", yultarvas_outside(NULL, 0) == 0);
    expect("encode of nothing", yultarvas_encode(NULL, 0, &word, point, 24, &score) == YULTARVAS_NO_ROOM);
    expect("encode into nothing", yultarvas_encode(x, 24, &word, NULL, 0, &score) == YULTARVAS_NO_ROOM);
    expect("encode_with of nothing",
           yultarvas_encode_with(NULL, 0, 8, &word, NULL, 0, &score) == YULTARVAS_NO_ROOM);
    expect("encode_at_scale of nothing",
           yultarvas_encode_at_scale(NULL, 0, 1.0, 8, &word, NULL, 0, &score) == YULTARVAS_NO_ROOM);
    expect("lower_scale of nothing", yultarvas_lower_scale(NULL, 0, &score, &scale) == YULTARVAS_NO_ROOM);
    expect("t_of of nothing", yultarvas_t_of(NULL, 0, NULL, 0, &score) == YULTARVAS_NO_ROOM);
    expect("even_decode into nothing", yultarvas_even_decode(1, NULL, 0) == YULTARVAS_NO_ROOM);
    expect("even_encode_point of nothing", yultarvas_even_encode_point(NULL, 0, &word) == YULTARVAS_NO_ROOM);
    expect("even_encode of nothing",
           yultarvas_even_encode(NULL, 0, &word, point, 24, &score) == YULTARVAS_NO_ROOM);
    expect("even_encode into nothing",
           yultarvas_even_encode(x, 24, &word, NULL, 0, &score) == YULTARVAS_NO_ROOM);
    expect("even_encode_with of nothing",
           yultarvas_even_encode_with(NULL, 0, 8, &word, NULL, 0, &score) == YULTARVAS_NO_ROOM);
    expect("even_encode_at_scale of nothing",
           yultarvas_even_encode_at_scale(NULL, 0, 1.0, 8, &word, NULL, 0, &score) == YULTARVAS_NO_ROOM);
    expect("word and score as they were", word == 7 && score == 7.0 && scale == 7.0);
    expect("read_page of nothing",
           yultarvas_read_page(NULL, 0, NULL, 0, &blocks) == YULTARVAS_NO_PAGE && blocks == 7);
    expect("even_read_page of nothing",
           yultarvas_even_read_page(NULL, 0, NULL, 0, &blocks) == YULTARVAS_NO_PAGE && blocks == 7);
    expect("parse_page of nothing", yultarvas_parse_page(NULL, 0, &num, NULL, 0, &blocks) == YULTARVAS_NO_PAGE
                                        && blocks == 7 && num == 7);
    expect("summarise of nothing",
           yultarvas_summarise(NULL, 0, NULL, 0, &blocks) == YULTARVAS_NO_PAGE && blocks == 7);
    expect("check_summary of nothing", yultarvas_check_summary(NULL, 0, NULL, 0) == YULTARVAS_NO_PAGE);
    expect("add_word to nothing",
           yultarvas_add_word(NULL, 0, 1, NULL, 0, &blocks) == YULTARVAS_NO_PAGE && blocks == 7);
    expect("an empty page's summary into nothing",
           yultarvas_summarise(empty, n, NULL, 0, &blocks) == YULTARVAS_NO_ROOM && blocks == 7);
    expect("an empty page and no summary",
           yultarvas_check_summary(empty, n, NULL, 0) == YULTARVAS_NO_ROOM
               && yultarvas_add_word(empty, n, 1, NULL, 0, &blocks) == YULTARVAS_NO_ROOM && blocks == 7);
    expect("an empty page into nothing",
           yultarvas_read_page(empty, n, NULL, 0, &blocks) == YULTARVAS_OK && blocks == 0);
    expect("an empty page into nothing, in the even profile",
           yultarvas_even_read_page(empty, n, NULL, 0, &blocks) == YULTARVAS_OK && blocks == 0);
    expect("its words",
           yultarvas_parse_page(empty, n, &num, NULL, 0, &blocks) == YULTARVAS_OK && blocks == 0 && num == 1);
}

static void version(void) {
    char numbers[32];
    snprintf(numbers, sizeof numbers, "%d.%d.%d", YULTARVAS_VERSION_MAJOR, YULTARVAS_VERSION_MINOR,
             YULTARVAS_VERSION_PATCH);
    expect("version", strcmp(numbers, YULTARVAS_VERSION) == 0);
}

int main(void) {
    if (yultarvas_environment_now() != YULTARVAS_ENVIRONMENT_OK) {
        fprintf(stderr, "this thread does not round as the library wants it\n");
        return 1;
    }
    words_and_points();
    no_words();
    samples();
    pages();
    written();
    summaries();
    even_profile();
    even_samples();
    nothing();
    version();
    return failures != 0;
}
