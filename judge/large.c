/* Planes of many numbers there and back, told by a block and by digests. */
#include "host.h"
#include "isferghul.h"
#include <stdlib.h>

enum { LL, LH, HL, HH, PLANE, SCRATCH, BUFFERS };

/* A lent buffer, guard words in front of it and behind it. */
struct buffer {
    double *at;
    size_t count;
};

struct large {
    size_t width, height, f;
    const double *low, *high;
    struct buffer b[BUFFERS];
};

static size_t band(size_t n, size_t f) { return (n + f - 1) / 2; }

static size_t padded(size_t n, size_t f) { return 2 * band(n, f) + f - 2; }

static size_t count_of(const struct large *p, int buffer) {
    size_t longer = p->width > p->height ? p->width : p->height;
    switch (buffer) {
    case PLANE: return p->width * p->height;
    case SCRATCH: return 4 * band(p->width, p->f) * p->height + padded(longer, p->f);
    default: return band(p->width, p->f) * band(p->height, p->f);
    }
}

static void set_guards(double *at) {
    const uint64_t guard = GUARD;
    for (size_t g = 0; g < GUARDS; g++) memcpy(at + g, &guard, sizeof guard);
}

/* Filled by the block from one of its places on. */
static struct buffer filled(size_t count, const double *block, size_t blocks, size_t from) {
    double *room = malloc((count + 2 * GUARDS) * sizeof *room);
    if (!room) stop("no memory");
    struct buffer b = {room + GUARDS, count};
    set_guards(room);
    for (size_t i = 0; i < count; i++) memcpy(b.at + i, block + (from + i) % blocks, sizeof *block);
    set_guards(b.at + count);
    return b;
}

static int guards_changed(const struct buffer *b) {
    for (size_t g = 0; g < GUARDS; g++)
        if (word_at(b->at - GUARDS, g) != GUARD || word_at(b->at + b->count, g) != GUARD) return 1;
    return 0;
}

/* Of a buffer's bits, in their order, every NaN as one; below the exponent of a NaN. */
static uint64_t digest(const struct buffer *b) {
    uint64_t mixed = 0;
    for (size_t i = 0; i < b->count; i++) {
        mixed = (mixed ^ one_nan(word_at(b->at, i))) * UINT64_C(0x9E3779B97F4A7C15);
        mixed ^= mixed >> 32;
    }
    return mixed >> 2;
}

/* The digests of the bands and of the plane. */
static void digest_all(const struct large *p, uint64_t told[DIGESTS]) {
    for (int i = 0; i < DIGESTS; i++) told[i] = digest(&p->b[i]);
}

static uint64_t split(const struct large *p, size_t border, size_t carried[2]) {
    const struct buffer *b = p->b;
    return isferghul_analyse_plane(border, p->low, p->f, p->high, p->f, b[PLANE].at, b[PLANE].count, p->width, p->height, b[LL].at, b[LL].count,
                                   b[LH].at, b[LH].count, b[HL].at, b[HL].count, b[HH].at, b[HH].count, b[SCRATCH].at, b[SCRATCH].count, carried);
}

static uint64_t join(const struct large *p, size_t carried[2]) {
    const struct buffer *b = p->b;
    return isferghul_synthesise_plane(p->low, p->f, p->high, p->f, b[LL].at, b[LL].count, b[LH].at, b[LH].count, b[HL].at, b[HL].count,
                                      b[HH].at, b[HH].count, p->width, p->height, b[PLANE].at, b[PLANE].count, b[SCRATCH].at, b[SCRATCH].count, carried);
}

uint64_t large_plane(size_t border, size_t width, size_t height, const double *low, const double *high, size_t f,
                     const double *block, size_t blocks, double digests[DIGESTS], size_t carried[2], uint64_t *flags) {
    struct large p = {width, height, f, low, high, {{0, 0}}};
    for (int i = 0; i < BUFFERS; i++) p.b[i] = filled(count_of(&p, i), block, blocks, i == PLANE ? 0 : (size_t)i + 1);
    uint64_t given = digest(&p.b[PLANE]), there[DIGESTS], back[DIGESTS];
    uint64_t number = split(&p, border, carried);
    digest_all(&p, there);
    if (number == 0) number = join(&p, carried);
    digest_all(&p, back);
    if (there[PLANE] != given || memcmp(there, back, 4 * sizeof *there) != 0) *flags |= 2;
    if (number == 0) memcpy(digests, back, sizeof back);
    for (int i = 0; i < BUFFERS; i++) {
        if (guards_changed(&p.b[i])) *flags |= 1;
        free(p.b[i].at - GUARDS);
    }
    return number;
}
