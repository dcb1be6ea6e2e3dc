/* A small program over the library: P8 and P9 of docs/RULES.md, a bank of two pairs, and a line of 32-bit floats. What it has to print stands in example.txt,
   worked out from the rules. */
#include "isferghul.h"
#include <stdio.h>
#include <stdlib.h>

#define SAMPLES 4
#define TAPS 4
#define BAND 3
#define SCRATCH 8
/* of the 5/3 bank */
#define SIX 6
#define SIX_BAND 5
#define SIX_SCRATCH 14
/* of the 32-bit floats */
#define FIVE 5
#define FIVE_BAND 4
#define FIVE_SCRATCH 10
#define FIVE_JOINED 6

/* Ends the program where a call did not do what is expected of it. */
static void must_be(uint64_t number, uint64_t expected, const char *what) {
    if (number == expected) return;
    printf("%s: number %llu\n", what, (unsigned long long)number);
    exit(1);
}

static void print(const char *what, const double *list, size_t count) {
    size_t i;
    printf("%s", what);
    for (i = 0; i < count; i++) printf(" %g", list[i]);
    printf("\n");
}

static void print_f32(const char *what, const float *list, size_t count) {
    size_t i;
    printf("%s, 32 bits", what);
    for (i = 0; i < count; i++) printf(" %g", list[i]);
    printf("\n");
}

/* The 5/3 bank, filled with zeros to six taps: a line is split by one pair and joined by the other, which gives 16 times the line. */
static void by_two_pairs(void) {
    const double low[SIX] = {-1, 2, 6, 2, -1, 0}, high[SIX] = {0, 0, -1, 2, -1, 0};
    const double lowback[SIX] = {0, 1, 2, 1, 0, 0}, highback[SIX] = {0, -1, -2, 6, -2, -1};
    const double line[SIX] = {5, 0, 3, -4, 9, 2};
    double approx[SIX_BAND], detail[SIX_BAND], scratch[SIX_SCRATCH], joined[SIX] = {0, 0, 0, 0, 0, 0};
    size_t carried[2];

    printf("lists of 5, 3, 3 and 5 taps: number %lu\n", (unsigned long)isferghul_two_pairs(5, 3, 3, 5));
    must_be(isferghul_two_pairs(SIX, SIX, SIX, SIX), 0, "two pairs");
    must_be(isferghul_analyse(ISFERGHUL_MIRROR101, low, SIX, high, SIX, line, SIX, approx, SIX_BAND, detail, SIX_BAND, scratch, SIX_SCRATCH, carried), 0, "analyse by one pair");
    print("approximations by one pair", approx, SIX_BAND);
    print("details by one pair", detail, SIX_BAND);
    must_be(isferghul_synthesise(lowback, SIX, highback, SIX, approx, SIX_BAND, detail, SIX_BAND, joined, SIX, carried), 0, "synthesise by the other");
    print("joined by the other", joined, SIX);
}

/* Five samples there and back, and with a kernel, in floats of 32 bits. Lengths have no width: they are asked of the same calls. */
static void of_32_bits(void) {
    const float low[TAPS] = {3, 6, 2, -1}, line[FIVE] = {1, 2, 3, 4, 5}, kernel[3] = {1, 10, 100};
    float high[TAPS], approx[FIVE_BAND], detail[FIVE_BAND], scratch[FIVE_SCRATCH], joined[FIVE_JOINED] = {0, 0, 0, 0, 0, 0}, out[FIVE];
    size_t carried[2];

    must_be(isferghul_band_length(FIVE, TAPS, carried), 0, "band length of 5");
    printf("band length of 5 samples %lu\n", (unsigned long)carried[0]);
    must_be(isferghul_line_length(FIVE_BAND, TAPS, carried), 0, "line length of 4");
    printf("line length of 4 pairs %lu\n", (unsigned long)carried[0]);
    must_be(isferghul_mirror_f32(low, TAPS, high, TAPS), 0, "mirror, 32 bits");
    print_f32("high taps", high, TAPS);
    must_be(isferghul_analyse_f32(ISFERGHUL_ZEROS, low, TAPS, high, TAPS, line, FIVE, approx, FIVE_BAND, detail, FIVE_BAND, scratch, FIVE_SCRATCH, carried), 0, "analyse, 32 bits");
    print_f32("approximations", approx, FIVE_BAND);
    print_f32("details", detail, FIVE_BAND);
    must_be(isferghul_synthesise_f32(low, TAPS, high, TAPS, approx, FIVE_BAND, detail, FIVE_BAND, joined, FIVE_JOINED, carried), 0, "synthesise, 32 bits");
    print_f32("joined", joined, FIVE_JOINED);
    must_be(isferghul_convolve_f32(ISFERGHUL_ZEROS, line, FIVE, out, FIVE, scratch, FIVE_SCRATCH, kernel, 3, 0, carried), 0, "convolve, 32 bits");
    print_f32("convolved", out, FIVE);
}

int main(void) {
    const double low[TAPS] = {3, 6, 2, -1}, line[SAMPLES] = {10, 20, 30, 40};
    const double ramp[SAMPLES] = {1, 2, 3, 4}, kernel[3] = {1, 10, 100};
    double high[TAPS], approx[BAND], detail[BAND], scratch[SCRATCH], joined[SAMPLES] = {0, 0, 0, 0}, out[SAMPLES];
    size_t carried[2];
    uint64_t number;

    /* how much to lend */
    must_be(isferghul_band_length(SAMPLES, TAPS, carried), 0, "band length");
    printf("band length %lu\n", (unsigned long)carried[0]);
    must_be(isferghul_analysis_scratch(SAMPLES, TAPS, carried), 0, "analysis scratch");
    printf("analysis scratch %lu\n", (unsigned long)carried[0]);
    must_be(isferghul_line_length(BAND, TAPS, carried), 0, "line length");
    printf("line length %lu\n", (unsigned long)carried[0]);
    must_be(isferghul_convolution_scratch(SAMPLES, 3, 0, carried), 0, "convolution scratch");
    printf("convolution scratch %lu\n", (unsigned long)carried[0]);

    /* one line into two bands, and back */
    must_be(isferghul_mirror(low, TAPS, high, TAPS), 0, "mirror");
    print("high taps", high, TAPS);
    must_be(isferghul_analyse(ISFERGHUL_CLAMP, low, TAPS, high, TAPS, line, SAMPLES, approx, BAND, detail, BAND, scratch, SCRATCH, carried), 0, "analyse");
    print("approximations", approx, BAND);
    print("details", detail, BAND);
    must_be(isferghul_synthesise(low, TAPS, high, TAPS, approx, BAND, detail, BAND, joined, SAMPLES, carried), 0, "synthesise");
    print("joined", joined, SAMPLES);

    /* a kernel about its centre */
    must_be(isferghul_convolve(ISFERGHUL_ZEROS, ramp, SAMPLES, out, SAMPLES, scratch, SCRATCH, kernel, 3, 0, carried), 0, "convolve");
    print("convolved", out, SAMPLES);

    /* a centre outside the kernel is refused */
    number = isferghul_convolve(ISFERGHUL_ZEROS, ramp, SAMPLES, out, SAMPLES, scratch, SCRATCH, kernel, 3, 3, carried);
    printf("centre 3: number %lu, carries %lu and %lu\n", (unsigned long)number, (unsigned long)carried[0], (unsigned long)carried[1]);
    print("still", out, SAMPLES);

    by_two_pairs();
    of_32_bits();
    return 0;
}
