/* How much stack each call takes, and the smallest thread in which all of them run. A thread's stack is
 * filled with a pattern first; the deepest byte that is changed afterwards says how far the call reached
 * below its caller's frame. */
#define _GNU_SOURCE
#include "yultarvas.h"
#include <pthread.h>
#include <stdio.h>
#include <stdlib.h>
#include <string.h>
#include <sys/mman.h>
#include <sys/wait.h>
#include <unistd.h>

enum { ROOM = 1 << 20, ROUNDS = 400, SHAPES = 6, PATTERN = 0xa5 };

static double x[YULTARVAS_BLOCK], score, largest, scale;
static int32_t point[YULTARVAS_BLOCK], counts[YULTARVAS_PAGE_COUNTS];
static uint64_t word, words[YULTARVAS_PAGE_BLOCKS];
static size_t blocks;
static uint32_t num, setting;
static char page[2048];
static int32_t samples[YULTARVAS_PAGE_COUNTS];
static size_t count, length;
static uint8_t text[YULTARVAS_PAGE_TEXT];
static char shorter[2048];
static int32_t rows[YULTARVAS_PAGE_SUMMARY], rows_shorter[YULTARVAS_PAGE_SUMMARY];
static uint64_t even_word;
static int32_t even_point[YULTARVAS_BLOCK];
static char even_page[2048];

static uint64_t state = 1;
static uint64_t random_bits(void) { /* xorshift64 */
    state ^= state << 13;
    state ^= state >> 7;
    return state ^= state << 17;
}
static double unit(void) { return (double)(random_bits() >> 11) / 9007199254740992.0 - 0.5; }

/* A page of 1 to 64 blocks of whole samples at num / 256: noise, a wave, quotients near whole numbers, spikes,
 * zeros, and samples of the largest magnitude. None is farther out than its num allows. */
static void draw_page(int shape) {
    double quotient = 256.0 / num, most = 1e6 * num / 256;
    if (most > 32767) most = 32767;
    count = 1 + (size_t)(random_bits() % YULTARVAS_PAGE_BLOCKS);
    for (size_t i = 0; i < count * YULTARVAS_BLOCK; i++) {
        double u = unit(), y;
        switch (shape) {
        case 0: y = 40 * u / quotient; break;
        case 1: y = ((double)(i % 8) - 3.5 + u) / quotient; break;
        case 2: y = (double)(int)(u * 8) / quotient; break;
        case 3: y = i % 7 == 0 ? 2 * most * u : u; break;
        case 4: y = 0; break;
        default: y = u < 0 ? -most : most; break;
        }
        samples[i] = (int32_t)(y < -most ? -most : y > most ? most : y);
    }
}

/* A wrong answer ends the program. */
static void must(uint32_t number) {
    if (number != YULTARVAS_OK) abort();
}

/* Blocks of several shapes: noise, a wave, whole numbers, spikes, subnormal and huge samples. */
static void draw(int shape) {
    for (int i = 0; i < YULTARVAS_BLOCK; i++) {
        double u = unit();
        switch (shape) {
        case 0: x[i] = u; break;
        case 1: x[i] = (i % 8 - 3.5) + 0.01 * u; break;
        case 2: x[i] = (double)(int)(u * 8); break;
        case 3: x[i] = i % 7 == 0 ? 100 * u : 0.001 * u; break;
        case 4: x[i] = 1e-320 * u; break;
        default: x[i] = 1e290 * u; break;
        }
    }
    setting = 1 + (uint32_t)(random_bits() % 8);
    word = random_bits();
    even_word = word & ~UINT64_C(1);
    num = 1 + (uint32_t)(random_bits() % 65535);
    int at = sprintf(page, "format=tetra-page\nnum=%u\ncount=64\n", (unsigned)num);
    memcpy(even_page, page, sizeof page);
    for (int i = 0; i < YULTARVAS_PAGE_BLOCKS; i++) { /* the even page has the same words, but for their p */
        unsigned long long drawn = random_bits() >> 16;
        sprintf(even_page + at, "word=%012llx\n", drawn & ~1ull);
        at += sprintf(page + at, "word=%012llx\n", drawn);
    }
    memcpy(shorter, page, sizeof page); /* the same page without its last word */
    shorter[at - 18] = 0;
    memcpy(strstr(shorter, "count=64"), "count=63", 8);
    must(yultarvas_summarise((uint8_t *)shorter, strlen(shorter), rows_shorter, YULTARVAS_PAGE_SUMMARY,
                             &blocks));
    draw_page(shape);
}

/* ---- the calls, each on what was drawn */
static void decode(void) { must(yultarvas_decode(word, point, YULTARVAS_BLOCK)); }
static void encode_point(void) { must(yultarvas_encode_point(point, YULTARVAS_BLOCK, &word)); }
static void outside(void) { must(yultarvas_outside(point, YULTARVAS_BLOCK)); }
static void encode(void) {
    must(yultarvas_encode(x, YULTARVAS_BLOCK, &word, point, YULTARVAS_BLOCK, &score));
}
static void encode_with(void) {
    must(yultarvas_encode_with(x, YULTARVAS_BLOCK, setting, &word, point, YULTARVAS_BLOCK, &score));
}
static void encode_at_scale(void) {
    must(
        yultarvas_encode_at_scale(x, YULTARVAS_BLOCK, scale, setting, &word, point, YULTARVAS_BLOCK, &score));
}
static void lower_scale(void) { must(yultarvas_lower_scale(x, YULTARVAS_BLOCK, &largest, &scale)); }
static void t_of(void) { must(yultarvas_t_of(x, YULTARVAS_BLOCK, point, YULTARVAS_BLOCK, &score)); }
static void read_page(void) {
    must(yultarvas_read_page((uint8_t *)page, strlen(page), counts, YULTARVAS_PAGE_COUNTS, &blocks));
}
static void parse_page(void) {
    must(yultarvas_parse_page((uint8_t *)page, strlen(page), &num, words, YULTARVAS_PAGE_BLOCKS, &blocks));
}
static void write_page(void) {
    must(yultarvas_number_of(yultarvas_write_page(num, count, samples, YULTARVAS_PAGE_COUNTS, text,
                                                  YULTARVAS_PAGE_TEXT, &length)));
}
static void summarise(void) {
    must(yultarvas_summarise((uint8_t *)page, strlen(page), rows, YULTARVAS_PAGE_SUMMARY, &blocks));
}
static void check_summary(void) {
    must(yultarvas_check_summary((uint8_t *)page, strlen(page), rows, YULTARVAS_PAGE_SUMMARY));
}
static void add_word(void) {
    memcpy(rows, rows_shorter, sizeof rows);
    must(yultarvas_add_word((uint8_t *)shorter, strlen(shorter), word, rows, YULTARVAS_PAGE_SUMMARY,
                            &blocks));
}
static void even_check(void) { must(yultarvas_even_check(even_word)); }
static void even_decode(void) { must(yultarvas_even_decode(even_word, even_point, YULTARVAS_BLOCK)); }
static void even_encode_point(void) {
    must(yultarvas_even_encode_point(even_point, YULTARVAS_BLOCK, &even_word));
}
static void even_encode(void) {
    must(yultarvas_even_encode(x, YULTARVAS_BLOCK, &word, point, YULTARVAS_BLOCK, &score));
}
static void even_encode_with(void) {
    must(yultarvas_even_encode_with(x, YULTARVAS_BLOCK, setting, &word, point, YULTARVAS_BLOCK, &score));
}
static void even_encode_at_scale(void) {
    must(yultarvas_even_encode_at_scale(x, YULTARVAS_BLOCK, scale, setting, &word, point, YULTARVAS_BLOCK,
                                        &score));
}
static void even_read_page(void) {
    must(yultarvas_even_read_page((uint8_t *)even_page, strlen(even_page), counts, YULTARVAS_PAGE_COUNTS,
                                  &blocks));
}
static void environment(void) { must(yultarvas_environment_now()); }

/* decode leaves the point that encode_point and outside take, lower_scale the scale that encode_at_scale and
 * even_encode_at_scale take, summarise the rows that check_summary takes, even_decode the point that
 * even_encode_point takes. */
static const struct {
    const char *name;
    void (*call)(void);
} calls[] = {
    {"decode", decode},
    {"encode_point", encode_point},
    {"outside", outside},
    {"encode", encode},
    {"encode_with", encode_with},
    {"lower_scale", lower_scale},
    {"encode_at_scale", encode_at_scale},
    {"t_of", t_of},
    {"read_page", read_page},
    {"parse_page", parse_page},
    {"write_page", write_page},
    {"summarise", summarise},
    {"check_summary", check_summary},
    {"add_word", add_word},
    {"even_check", even_check},
    {"even_decode", even_decode},
    {"even_encode_point", even_encode_point},
    {"even_encode", even_encode},
    {"even_encode_with", even_encode_with},
    {"even_encode_at_scale", even_encode_at_scale},
    {"even_read_page", even_read_page},
    {"environment", environment},
};
enum { CALLS = sizeof calls / sizeof calls[0] };

/* The frame that a call is made from. */
static char *frame;
static void *run(void *call) {
    frame = __builtin_frame_address(0);
    (*(void (**)(void))call)();
    return NULL;
}

static size_t depth(unsigned char *room, void (*call)(void)) {
    pthread_attr_t attributes;
    pthread_t thread;
    memset(room, PATTERN, ROOM);
    if (pthread_attr_init(&attributes) || pthread_attr_setstack(&attributes, room, ROOM)
        || pthread_create(&thread, &attributes, run, &call))
        abort();
    pthread_join(thread, NULL);
    unsigned char *low = room;
    while (*low == PATTERN) low++;
    return (size_t)((unsigned char *)frame - low);
}

/* Whether a thread of this many bytes of stack can make every call. A child process dies in its place. */
static int works(size_t bytes) {
    pid_t child = fork();
    if (child == 0) {
        for (int i = 0; i < CALLS; i++) {
            pthread_attr_t attributes;
            pthread_t thread;
            void (*call)(void) = calls[i].call;
            if (pthread_attr_init(&attributes) || pthread_attr_setstacksize(&attributes, bytes)
                || pthread_create(&thread, &attributes, run, &call))
                _exit(1);
            pthread_join(thread, NULL);
        }
        _exit(0);
    }
    int status;
    return waitpid(child, &status, 0) == child && WIFEXITED(status) && WEXITSTATUS(status) == 0;
}

int main(void) {
    unsigned char *room =
        mmap(NULL, ROOM, PROT_READ | PROT_WRITE, MAP_PRIVATE | MAP_ANONYMOUS | MAP_STACK, -1, 0);
    size_t most[CALLS] = {0}, all = 0;
    if (room == MAP_FAILED) abort();
    for (int round = 0; round < ROUNDS; round++) {
        draw(round % SHAPES);
        for (int i = 0; i < CALLS; i++) {
            size_t d = depth(room, calls[i].call);
            if (most[i] < d) most[i] = d;
        }
    }
    for (int i = 0; i < CALLS; i++) {
        printf("%-20s %7zu bytes\n", calls[i].name, most[i]);
        if (all < most[i]) all = most[i];
    }
    size_t kib = 4;
    while (kib < ROOM / 1024 && !works(kib * 1024)) kib += 4;
    printf("most: %zu bytes, over %d blocks and %d pages of %d shapes each; smallest thread that makes every "
           "call: %zu KiB\n",
           all, ROUNDS, ROUNDS, SHAPES, kib);
    return 2 * all > YULTARVAS_STACK; /* the header's figure is to be twice the measured one or more */
}
