/* yultarvas_environment_now on threads that were set otherwise: each rounding mode of C, and flush-to-zero by
 * the processor's own register. It has to say no to each, and yes again once the thread is set back. What a
 * flushed subnormal block then gives is printed beside it. */
#include "yultarvas.h"
#include <fenv.h>
#include <inttypes.h>
#include <stdio.h>
#if defined(__x86_64__)
#include <xmmintrin.h>
#endif

static int failures = 0;

static void expect(const char *what, uint32_t wanted) {
    uint32_t got = yultarvas_environment_now();
    printf("%s: %" PRIu32 " %s\n", what, got, got == wanted ? "ok" : "WRONG");
    if (got != wanted) failures++;
}

/* Bits of the register that says how doubles are worked out: set, or cleared. */
#if defined(__aarch64__)
static const char *const names[] = {"flush-to-zero (FPCR.FZ)"};
static const uint64_t masks[] = {1u << 24};
static uint64_t control(void) {
    uint64_t r;
    __asm__ volatile("mrs %0, fpcr" : "=r"(r));
    return r;
}
static void set_control(uint64_t r) { __asm__ volatile("msr fpcr, %0" : : "r"(r)); }
#elif defined(__x86_64__)
static const char *const names[] = {"flush-to-zero (MXCSR.FTZ)", "subnormals are zeros (MXCSR.DAZ)", "both"};
static const uint64_t masks[] = {1u << 15, 1u << 6, 1u << 15 | 1u << 6};
static uint64_t control(void) { return _mm_getcsr(); }
static void set_control(uint64_t r) { _mm_setcsr((unsigned)r); }
#else
#error "this test knows the processors x86-64 and aarch64"
#endif

/* The word of a block of subnormal samples. */
static uint64_t subnormal_word(void) {
    double x[YULTARVAS_BLOCK], score;
    int32_t point[YULTARVAS_BLOCK];
    uint64_t word = 0;
    for (int i = 0; i < YULTARVAS_BLOCK; i++) x[i] = 4.9406564584124654e-324 * (double)(i + 1);
    yultarvas_encode(x, YULTARVAS_BLOCK, &word, point, YULTARVAS_BLOCK, &score);
    return word;
}

int main(void) {
    expect("as a thread starts", YULTARVAS_ENVIRONMENT_OK);
    const int modes[] = {FE_UPWARD, FE_DOWNWARD, FE_TOWARDZERO};
    const char *const words[] = {"upward", "downward", "toward zero"};
    for (int i = 0; i < 3; i++) {
        if (fesetround(modes[i]) != 0) failures++;
        expect(words[i], YULTARVAS_OTHER_ROUNDING);
        fesetround(FE_TONEAREST);
        expect("to nearest again", YULTARVAS_ENVIRONMENT_OK);
    }
    uint64_t kept = control(), word = subnormal_word();
    for (size_t i = 0; i < sizeof masks / sizeof masks[0]; i++) {
        set_control(kept | masks[i]);
        expect(names[i], YULTARVAS_NO_SUBNORMALS);
        uint64_t flushed = subnormal_word();
        set_control(kept);
        printf("  subnormal samples: word %012" PRIx64 " there, %012" PRIx64 " here\n", flushed, word);
        expect("set back", YULTARVAS_ENVIRONMENT_OK);
    }
    return failures != 0;
}
