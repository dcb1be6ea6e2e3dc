/* Isferghul: a wavelet filter bank for lines and planes of 64-bit floats, and for lines of 32-bit floats. Link with libisferghul.a (x86-64, from v2 on), which tools/archive makes.
 *
 * Every function answers for every input and always returns. It gives a number back: 0 is done, 27 is the other answer of comparing, any other is a refusal:
 *
 *    1  fewer samples than taps (carries samples, taps)       9  some level of several has fewer samples than taps
 *    2  a band's length is wrong (its length)                10  a length is wrong, or a plane's scratch too short (need, have)
 *    3  the bands' lengths differ (both)                     11  past a limit: 1,048,576 numbers in a line or on a side of a plane or of a band
 *    4  the output's length, or a side, is wrong                 compared, 16,777,216 in either, 64 kernel taps, a 32-bit centre
 *       (have, need)                                         12  tap lists odd, empty, over 64 or unequal
 *    5  the scratch is too short (need, have)                13  a Reflect101 pad over n - 2, with n above 1
 *    6  line and output differ in length (both)              22  no such level (the level)
 *    7  nothing to work on                                   23  no such place of the level (the place)
 *    8  the centre lies outside the kernel (its size, taps)  25  the divisor is not a positive whole number of at most 2^53
 *                                                            26  no border has this number (the number)
 *
 *   27  no refusal: two bands differ (column, row of the first place that does)
 *
 * What an answer carries goes to carried[0] and carried[1]; words that carry nothing stay as they were. On a refusal nothing else that was lent changes.
 *
 * A list is a pointer and how many numbers it has. No pointer is null, not even beside 0; buffers that are written overlap with no other.
 * Each product is rounded, then each sum, and each quotient; no two are fused.
 */
#ifndef ISFERGHUL_H
#define ISFERGHUL_H

#include <stddef.h>
#include <stdint.h>

#ifdef __cplusplus
extern "C" {
#endif

/* What stands left and right of a line. Reflect repeats the reversed line, so past one length it is no mirror; the two mirrors
   turn at each end, which Mirror repeats and Mirror101 does not, however far. */
enum isferghul_border {
    ISFERGHUL_CLAMP = 0,
    ISFERGHUL_WRAP = 1,
    ISFERGHUL_REFLECT = 2,
    ISFERGHUL_ZEROS = 3,
    ISFERGHUL_REFLECT101 = 4,
    ISFERGHUL_MIRROR = 5,
    ISFERGHUL_MIRROR101 = 6
};

/* How long each band of n samples by f taps is: carried[0] on 0. Refuses by 12, 11, 1. */
uint64_t isferghul_band_length(size_t n, size_t f, size_t carried[2]);

/* How many places m pairs by f taps give: carried[0] on 0. Refuses by 12, 11, 7. */
uint64_t isferghul_line_length(size_t m, size_t f, size_t carried[2]);

/* How much scratch analysis of n samples by f taps needs: carried[0] on 0. Refuses by 12, 11, 1. */
uint64_t isferghul_analysis_scratch(size_t n, size_t f, size_t carried[2]);

/* How much scratch convolution of n samples with f taps about a centre needs: carried[0] on 0. Refuses by 11, 7. */
uint64_t isferghul_convolution_scratch(size_t n, size_t f, int64_t centre, size_t carried[2]);

/* The high taps that the mirror rule makes of the low ones: high tap j is low tap f-1-j, its sign turned at odd j. Refuses by 12. */
uint64_t isferghul_mirror(const double *low, size_t lows, double *high, size_t highs);

/* A bank has a pair of tap lists for the way there, low and high, and one for the way back, lowback and highback: the same pair, or one of its own, as the
   biorthogonal banks have. The calls that split a line or a plane take the first pair, those that join take the second in their low and high. All four lists
   have one length, an even one from 2 to 64; fill shorter ones with zeros first. No call sees all four, so this one tells whether lists of such lengths make a
   bank: ask it once, before the first split. Refuses by 12. */
uint64_t isferghul_two_pairs(size_t lows, size_t highs, size_t lowbacks, size_t highbacks);

/* Both bands of a line. The scratch then begins with the padded line and is as it was beyond it. Refuses by 26, 12, 11, 1, 2, 2, 5. */
uint64_t isferghul_analyse(size_t border, const double *low, size_t lows, const double *high, size_t highs,
                           const double *line, size_t samples, double *approx, size_t approxes, double *detail, size_t details,
                           double *scratch, size_t scratches, size_t carried[2]);

/* Both bands joined onto what the output holds: clear it first to have the line alone. Low and high are the way back's: the pair that split the line, or
   a pair of its own (isferghul_two_pairs). Refuses by 12, 11, 3, 7, 4. */
uint64_t isferghul_synthesise(const double *low, size_t lows, const double *high, size_t highs,
                              const double *approx, size_t approxes, const double *detail, size_t details,
                              double *out, size_t outs, size_t carried[2]);

/* The same by a second engine, which is written from the rules alone and shares no loop with the first: it builds no padded line and needs no scratch. Wherever
   both are done every number is the same, bit for bit, one NaN as any other; compare the two where no mistake is to go unseen. Refuses as above, never by 5. */
uint64_t isferghul_analyse_directly(size_t border, const double *low, size_t lows, const double *high, size_t highs,
                                    const double *line, size_t samples, double *approx, size_t approxes, double *detail, size_t details,
                                    size_t carried[2]);
uint64_t isferghul_synthesise_directly(const double *low, size_t lows, const double *high, size_t highs,
                                       const double *approx, size_t approxes, const double *detail, size_t details,
                                       double *out, size_t places, size_t carried[2]);

/* A line with a kernel about its centre; an empty kernel copies and leaves the scratch alone. Else the scratch then begins
   with the padded line and is as it was beyond it. Refuses by 26, 11, 6, 7, 5, 8, 13. */
uint64_t isferghul_convolve(size_t border, const double *line, size_t samples, double *out, size_t outs, double *scratch, size_t scratches,
                            const double *kernel, size_t taps, int64_t centre, size_t carried[2]);

/* Lines of 32-bit floats, for half the bytes of every list: the same four calls, told _f32, with the same rules, refusals and order of sums, each product and
   each sum rounded to 32 bits. Lengths count numbers, whatever their width: isferghul_band_length, isferghul_line_length, isferghul_analysis_scratch,
   isferghul_convolution_scratch and isferghul_two_pairs answer for these lines too. Levels and planes have 64-bit floats alone. */
uint64_t isferghul_mirror_f32(const float *low, size_t lows, float *high, size_t highs);

uint64_t isferghul_analyse_f32(size_t border, const float *low, size_t lows, const float *high, size_t highs,
                               const float *line, size_t samples, float *approx, size_t approxes, float *detail, size_t details,
                               float *scratch, size_t scratches, size_t carried[2]);

uint64_t isferghul_synthesise_f32(const float *low, size_t lows, const float *high, size_t highs,
                                  const float *approx, size_t approxes, const float *detail, size_t details,
                                  float *out, size_t outs, size_t carried[2]);

uint64_t isferghul_convolve_f32(size_t border, const float *line, size_t samples, float *out, size_t outs, float *scratch, size_t scratches,
                                const float *kernel, size_t taps, int64_t centre, size_t carried[2]);

/* Several levels. Each splits the approximations of the one before: (n + f - 1) / 2 details and as many approximations come of n samples by f taps.
   The packed buffer holds details 1, details 2 and so on, then the last approximations. Levels 0 and 1 mean one level. */

/* How long the packed buffer is: carried[0] on 0. Refuses by 12, 11, 1 for one level or 9 for more. */
uint64_t isferghul_packed_length(size_t n, size_t f, size_t levels, size_t carried[2]);

/* How much scratch analysis over levels needs: carried[0] on 0. Refuses by 12, 11, 1 or 9. */
uint64_t isferghul_levels_scratch(size_t n, size_t f, size_t levels, size_t carried[2]);

/* How long each of the two work buffers of restoring has to be at least, and how long the restored line is: carried[0] on 0. Refuses by 12, 11, 1 or 9. */
uint64_t isferghul_restoring_length(size_t n, size_t f, size_t levels, size_t carried[2]);

/* The most levels that n samples by f taps allow: carried[0] on 0. Refuses by 12, 11, 1. */
uint64_t isferghul_most_levels(size_t n, size_t f, size_t carried[2]);

/* Where a level's details stand in the packed buffer: on 0 they are packed + carried[0], carried[1] numbers. Level 0 names the last approximations.
   Refuses by 12, 11, 1 or 9, 22. */
uint64_t isferghul_level_part(size_t n, size_t f, size_t levels, size_t level, size_t carried[2]);

/* A line over levels, into the packed buffer. The scratch then holds each level's padded line written over the one before, from its front, and is
   as it was beyond the first. Refuses by 26, 12, 11, 1 or 9, 10, 5. */
uint64_t isferghul_analyse_levels(size_t border, const double *low, size_t lows, const double *high, size_t highs,
                                  const double *line, size_t samples, size_t levels, double *packed, size_t packeds,
                                  double *scratch, size_t scratches, size_t carried[2]);

/* The line back from the packed buffer of n samples, joined between two work buffers by turns, from the deepest level up. On 0 carried[0] says in
   which buffer the line stands, from its front: 1, the first, for an odd number of levels, 2, the second, for an even one; and carried[1] how long
   it is, n, or n + 1 for an odd n. Both buffers are as they were beyond that length. Low and high are the way back's: the pair of the analysis, or a pair
   of its own (isferghul_two_pairs). Refuses by 12, 11, 1 or 9, 10, 5 for the first, 5 for the second. */
uint64_t isferghul_restore_levels(const double *low, size_t lows, const double *high, size_t highs,
                                  const double *packed, size_t packeds, size_t n, size_t levels,
                                  double *first, size_t firsts, double *second, size_t seconds, size_t carried[2]);

/* The same, with each joined line divided by s, place by place, before it is trimmed and joined again. Every sample comes back as it was through any number
   of levels, zero as +0, and behind an odd line the border's next sample, where samples and low taps are whole numbers, the taps times those any even distance
   but zero away sum to zero, the high taps are isferghul_mirror's, s is the sum of the low taps' squares (2 for the taps 1 1), and 2 * A * T * T is at most 2^53
   for every level's line, A being its largest size, 1 at least, and T the sum of the low taps' sizes.
   Refuses by 12, 25 for s, 11, 1 or 9, 10, 5 for the first, 5 for the second. */
uint64_t isferghul_restore_divided(const double *low, size_t lows, const double *high, size_t highs, double s,
                                   const double *packed, size_t packeds, size_t n, size_t levels,
                                   double *first, size_t firsts, double *second, size_t seconds, size_t carried[2]);

/* One place of a level of the packed buffer, to value[0] on 0; on a refusal value[0] stays. Level 0 names the last approximations.
   Refuses by 12, 11, 1 or 9, 10, 22, 23. */
uint64_t isferghul_read_place(const double *packed, size_t packeds, size_t n, size_t f, size_t levels, size_t level, size_t place,
                              double value[1], size_t carried[2]);

/* Planes of width by height numbers, stored row by row. Rows are split first, then columns: LL and LH come from the row approximations, HL and HH from
   the row details, the second letter naming the taps of the columns. A band has m(width) columns of m(height) places each, m(n) being (n + f - 1) / 2;
   it is stored column by column: place r of column c is at c * m(height) + r. */

/* How many columns each band has, m(width): carried[0] on 0. Refuses by 12, 7, 11. */
uint64_t isferghul_plane_band_width(size_t width, size_t height, size_t f, size_t carried[2]);

/* How many places each column of a band has, m(height): carried[0] on 0. Refuses by 12, 7, 11. */
uint64_t isferghul_plane_band_height(size_t width, size_t height, size_t f, size_t carried[2]);

/* How long each band is, m(width) * m(height): carried[0] on 0. Refuses by 12, 7, 11. */
uint64_t isferghul_plane_band_length(size_t width, size_t height, size_t f, size_t carried[2]);

/* How much scratch analysis and synthesis of a plane need: carried[0] on 0. Refuses by 12, 7, 11. */
uint64_t isferghul_plane_scratch(size_t width, size_t height, size_t f, size_t carried[2]);

/* The four bands of a plane. What the scratch then holds within its need is not said; beyond it is as it was.
   Refuses by 26, 12, 7, 11, 10 for the plane, 10 for the scratch, 1 for the width, 1 for the height, 2 for LL, LH, HL and HH in turn. */
uint64_t isferghul_analyse_plane(size_t border, const double *low, size_t lows, const double *high, size_t highs,
                                 const double *plane, size_t planes, size_t width, size_t height,
                                 double *ll, size_t lls, double *lh, size_t lhs, double *hl, size_t hls, double *hh, size_t hhs,
                                 double *scratch, size_t scratches, size_t carried[2]);

/* The plane that four bands give; unlike a line's, its joins start from +0, so what the plane held is gone. Both sides are even: an odd one is refused
   by 4, whose need is one more. What the scratch then holds within its need is not said; beyond it is as it was. Low and high are the way back's: the pair of
   the analysis, or a pair of its own (isferghul_two_pairs).
   Refuses by 12, 7, 11, 10 for the plane, 10 for the scratch, 2 for LL, LH, HL and HH in turn, 4 for the height, 4 for the width. */
uint64_t isferghul_synthesise_plane(const double *low, size_t lows, const double *high, size_t highs,
                                    const double *ll, size_t lls, const double *lh, size_t lhs, const double *hl, size_t hls, const double *hh, size_t hhs,
                                    size_t width, size_t height, double *plane, size_t planes, double *scratch, size_t scratches, size_t carried[2]);

/* Two bands of width columns of height places each, compared bit by bit in stored order, where a NaN is a NaN: 0 if they are equal, 27 if not, with the
   first place that differs in carried[0], its column, and carried[1], its row. Refuses by 7, 11, 10 for the first, 10 for the second. */
uint64_t isferghul_compare_bands(const double *first, size_t firsts, const double *second, size_t seconds,
                                 size_t width, size_t height, size_t carried[2]);

#ifdef __cplusplus
}
#endif

#endif
