/* What host.c and large.c share: guard words, a float's bits, and planes of many numbers. */
#ifndef HOST_H
#define HOST_H

#include <stdint.h>
#include <string.h>

#define GUARD UINT64_C(0xA5A5A5A5A5A5A5A5)
#define GUARDS 8
/* The same in bytes. */
#define GUARD_BYTE 0xA5
#define GUARD_BYTES 64
/* A plane's four bands, and what they are joined to. */
#define DIGESTS 5

void stop(const char *why);

static inline uint64_t word_at(const double *x, size_t i) {
    uint64_t word;
    memcpy(&word, x + i, sizeof word);
    return word;
}

static inline uint64_t one_nan(uint64_t word) {
    return (word & UINT64_C(0x7FFFFFFFFFFFFFFF)) > UINT64_C(0x7FF0000000000000) ? UINT64_C(0x7FF8000000000000) : word;
}

/* Of a 32-bit float. */
static inline uint64_t one_nan_f32(uint64_t word) {
    return (word & UINT64_C(0x7FFFFFFF)) > UINT64_C(0x7F800000) ? UINT64_C(0x7FC00000) : word;
}

/* Analyses a plane that the block fills over and over, then joins its bands onto the same buffer. On 0 the digests are those of
   LL, LH, HL, HH and of what was joined. The flags are those of a result (protocol.py). */
uint64_t large_plane(size_t border, size_t width, size_t height, const double *low, const double *high, size_t f,
                     const double *block, size_t blocks, double digests[DIGESTS], size_t carried[2], uint64_t *flags);

#endif
