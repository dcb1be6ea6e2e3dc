/* host: reads cases from stdin, calls the library on each, writes the results to stdout (protocol.py says which words, and makes operations.h).
   Every list lies between guard words, so that a write outside it shows. */
#include "isferghul.h"
#include "host.h"
#include "operations.h"
#include <stdio.h>
#include <stdlib.h>
#include <string.h>

#define PATTERN UINT64_C(0xCCCCCCCCCCCCCCCC)
#define LISTS 8
#define SCALARS 5

/* Words that grow. */
struct words {
    uint64_t *at;
    size_t count, room;
};

/* A list as the case gives it, and the place where the library sees it: floats of so many bytes, each by the low bytes of its word. */
struct list {
    const uint64_t *given;
    void *seen;
    size_t count, bytes;
};

void stop(const char *why) {
    fprintf(stderr, "host: %s\n", why);
    exit(2);
}

static void reserve(struct words *w, size_t more) {
    if (w->room - w->count >= more) return;
    w->room = 2 * (w->count + more);
    w->at = realloc(w->at, w->room * sizeof *w->at);
    if (!w->at) stop("no memory");
}

static void put(struct words *w, uint64_t word) {
    reserve(w, 1);
    w->at[w->count++] = word;
}

static void read_all(struct words *w) {
    for (;;) {
        reserve(w, 1 << 16);
        size_t got = fread(w->at + w->count, sizeof *w->at, w->room - w->count, stdin);
        w->count += got;
        if (got == 0) break;
    }
    if (ferror(stdin)) stop("stdin cannot be read");
}

static uint64_t next(const struct words *in, size_t *at) {
    if (*at >= in->count) stop("a case ends early");
    return in->at[(*at)++];
}

/* A float that is told by its bits. */
static double float_of(uint64_t word) {
    double x;
    memcpy(&x, &word, sizeof x);
    return x;
}

/* The bits of one of its floats. */
static uint64_t word_of(const struct list *l, size_t i) {
    uint32_t narrow;
    if (l->bytes == sizeof(double)) return word_at(l->seen, i);
    memcpy(&narrow, (const float *)l->seen + i, sizeof narrow);
    return narrow;
}

/* Its floats, as the case gives them. */
static void fill(const struct list *l) {
    if (l->count && l->bytes == sizeof(double)) memcpy(l->seen, l->given, l->count * sizeof(double));
    if (l->bytes == sizeof(float))
        for (size_t i = 0; i < l->count; i++) memcpy((float *)l->seen + i, l->given + i, sizeof(float));
}

/* Lays the lists out among guard bytes, some in front of each and behind it. */
static void lay_out(struct words *arena, struct list *list, int lists) {
    size_t need = GUARD_BYTES;
    for (int i = 0; i < lists; i++) need += list[i].count * list[i].bytes + GUARD_BYTES;
    arena->count = 0;
    reserve(arena, need / sizeof *arena->at + 1);
    memset(arena->at, GUARD_BYTE, need);
    char *at = (char *)arena->at + GUARD_BYTES;
    for (int i = 0; i < lists; i++) {
        list[i].seen = at;
        fill(&list[i]);
        at += list[i].count * list[i].bytes + GUARD_BYTES;
    }
}

/* The places up to the last one whose bits changed. */
static size_t reach(const struct list *l) {
    size_t n = l->count;
    while (n > 0 && word_of(l, n - 1) == l->given[n - 1]) n--;
    return n;
}

static int guards_changed(const struct list *list, int lists) {
    for (int i = 0; i < lists; i++) {
        const unsigned char *front = list[i].seen, *behind = front + list[i].count * list[i].bytes;
        for (int g = 0; g < GUARD_BYTES; g++)
            if (front[g - GUARD_BYTES] != GUARD_BYTE || behind[g] != GUARD_BYTE) return 1;
    }
    return 0;
}

static uint64_t call_planes(uint64_t op, const uint64_t *s, const struct list *l, size_t carried[2]) {
    switch (op) {
    case PLANE_BAND_WIDTH: return isferghul_plane_band_width(s[0], s[1], s[2], carried);
    case PLANE_BAND_HEIGHT: return isferghul_plane_band_height(s[0], s[1], s[2], carried);
    case PLANE_BAND_LENGTH: return isferghul_plane_band_length(s[0], s[1], s[2], carried);
    case PLANE_SCRATCH: return isferghul_plane_scratch(s[0], s[1], s[2], carried);
    case ANALYSE_PLANE: return isferghul_analyse_plane(s[0], l[0].seen, l[0].count, l[1].seen, l[1].count, l[2].seen, l[2].count, s[1], s[2],
                                            l[3].seen, l[3].count, l[4].seen, l[4].count, l[5].seen, l[5].count, l[6].seen, l[6].count,
                                            l[7].seen, l[7].count, carried);
    case SYNTHESISE_PLANE: return isferghul_synthesise_plane(l[0].seen, l[0].count, l[1].seen, l[1].count, l[2].seen, l[2].count, l[3].seen, l[3].count,
                                               l[4].seen, l[4].count, l[5].seen, l[5].count, s[0], s[1],
                                               l[6].seen, l[6].count, l[7].seen, l[7].count, carried);
    default: return isferghul_compare_bands(l[0].seen, l[0].count, l[1].seen, l[1].count, s[0], s[1], carried);
    }
}

static uint64_t call_levels(uint64_t op, const uint64_t *s, const struct list *l, size_t carried[2]) {
    switch (op) {
    case PACKED_LENGTH: return isferghul_packed_length(s[0], s[1], s[2], carried);
    case LEVELS_SCRATCH: return isferghul_levels_scratch(s[0], s[1], s[2], carried);
    case RESTORING_LENGTH: return isferghul_restoring_length(s[0], s[1], s[2], carried);
    case MOST_LEVELS: return isferghul_most_levels(s[0], s[1], carried);
    case LEVEL_PART: return isferghul_level_part(s[0], s[1], s[2], s[3], carried);
    case ANALYSE_LEVELS: return isferghul_analyse_levels(s[0], l[0].seen, l[0].count, l[1].seen, l[1].count, l[2].seen, l[2].count, s[1],
                                             l[3].seen, l[3].count, l[4].seen, l[4].count, carried);
    case RESTORE_DIVIDED: return isferghul_restore_divided(l[0].seen, l[0].count, l[1].seen, l[1].count, float_of(s[2]), l[2].seen, l[2].count, s[0], s[1],
                                              l[3].seen, l[3].count, l[4].seen, l[4].count, carried);
    case RESTORE_LEVELS: return isferghul_restore_levels(l[0].seen, l[0].count, l[1].seen, l[1].count, l[2].seen, l[2].count, s[0], s[1],
                                             l[3].seen, l[3].count, l[4].seen, l[4].count, carried);
    default:
        if (l[1].count != 1) stop("a place is read to one number");
        return isferghul_read_place(l[0].seen, l[0].count, s[0], s[1], s[2], s[3], s[4], l[1].seen, carried);
    }
}

static uint64_t call_narrow(uint64_t op, const uint64_t *s, const struct list *l, size_t carried[2]) {
    switch (op) {
    case ANALYSE_F32: return isferghul_analyse_f32(s[0], l[0].seen, l[0].count, l[1].seen, l[1].count, l[2].seen, l[2].count,
                                         l[3].seen, l[3].count, l[4].seen, l[4].count, l[5].seen, l[5].count, carried);
    case SYNTHESISE_F32: return isferghul_synthesise_f32(l[0].seen, l[0].count, l[1].seen, l[1].count, l[2].seen, l[2].count,
                                            l[3].seen, l[3].count, l[4].seen, l[4].count, carried);
    case CONVOLVE_F32: return isferghul_convolve_f32(s[0], l[0].seen, l[0].count, l[1].seen, l[1].count, l[2].seen, l[2].count,
                                          l[3].seen, l[3].count, (int64_t)s[1], carried);
    default: return isferghul_mirror_f32(l[0].seen, l[0].count, l[1].seen, l[1].count);
    }
}

/* Without a padded line. */
static uint64_t call_direct(uint64_t op, const uint64_t *s, const struct list *l, size_t carried[2]) {
    switch (op) {
    case ANALYSE_DIRECTLY: return isferghul_analyse_directly(s[0], l[0].seen, l[0].count, l[1].seen, l[1].count, l[2].seen, l[2].count,
                                              l[3].seen, l[3].count, l[4].seen, l[4].count, carried);
    default: return isferghul_synthesise_directly(l[0].seen, l[0].count, l[1].seen, l[1].count, l[2].seen, l[2].count,
                                                 l[3].seen, l[3].count, l[4].seen, l[4].count, carried);
    }
}

static uint64_t call(uint64_t op, const uint64_t *s, const struct list *l, size_t carried[2]) {
    if (op == RESTORE_DIVIDED) return call_levels(op, s, l, carried);
    if (op >= ANALYSE_DIRECTLY) return call_direct(op, s, l, carried);
    if (op >= ANALYSE_F32) return call_narrow(op, s, l, carried);
    switch (op) {
    case ANALYSE: return isferghul_analyse(s[0], l[0].seen, l[0].count, l[1].seen, l[1].count, l[2].seen, l[2].count,
                                     l[3].seen, l[3].count, l[4].seen, l[4].count, l[5].seen, l[5].count, carried);
    case SYNTHESISE: return isferghul_synthesise(l[0].seen, l[0].count, l[1].seen, l[1].count, l[2].seen, l[2].count,
                                        l[3].seen, l[3].count, l[4].seen, l[4].count, carried);
    case CONVOLVE: return isferghul_convolve(s[0], l[0].seen, l[0].count, l[1].seen, l[1].count, l[2].seen, l[2].count,
                                      l[3].seen, l[3].count, (int64_t)s[1], carried);
    case BAND_LENGTH: return isferghul_band_length(s[0], s[1], carried);
    case LINE_LENGTH: return isferghul_line_length(s[0], s[1], carried);
    case ANALYSIS_SCRATCH: return isferghul_analysis_scratch(s[0], s[1], carried);
    case CONVOLUTION_SCRATCH: return isferghul_convolution_scratch(s[0], s[1], (int64_t)s[2], carried);
    case MIRROR: return isferghul_mirror(l[0].seen, l[0].count, l[1].seen, l[1].count);
    case TWO_PAIRS: return isferghul_two_pairs(s[0], s[1], s[2], s[3]);
    default: return op < PLANE_BAND_WIDTH ? call_levels(op, s, l, carried) : call_planes(op, s, l, carried);
    }
}

/* A plane that the case tells by a block; the flags are those of the large lists. */
static uint64_t call_large(const uint64_t *s, const struct list *l, size_t carried[2], uint64_t *flags) {
    if (l[0].count != l[1].count || l[2].count == 0 || l[3].count != DIGESTS) stop("a large plane has as many high taps as low ones, a block and five digests");
    return large_plane(s[0], s[1], s[2], l[0].seen, l[1].seen, l[0].count, l[2].seen, l[2].count, l[3].seen, carried, flags);
}

static uint64_t flags_of(const struct list *l, int lists, int lent) {
    uint64_t flags = guards_changed(l, lists) ? 1 : 0;
    for (int i = 0; i < lists; i++)
        if (!(lent >> i & 1) && reach(&l[i]) != 0) flags |= 2;
    return flags;
}

static void put_lent(struct words *out, const struct list *l) {
    put(out, reach(l));
    for (size_t i = 0; i < l->count; i++) put(out, l->bytes == sizeof(float) ? one_nan_f32(word_of(l, i)) : one_nan(word_of(l, i)));
}

/* Runs the case at *at; its result goes behind what out holds. */
static void run(const struct words *in, size_t *at, struct words *arena, struct words *out) {
    uint64_t scalars[SCALARS] = {0};
    struct list list[LISTS];
    uint64_t op = next(in, at);
    if (op > OPERATIONS || shapes[op].bytes == 0) stop("no such operation");
    int lists = shapes[op].lists, lent = shapes[op].lent;
    for (int i = 0; i < shapes[op].scalars; i++) scalars[i] = next(in, at);
    for (int i = 0; i < lists; i++) {
        list[i].bytes = (size_t)shapes[op].bytes;
        list[i].count = next(in, at);
        if (list[i].count > in->count - *at) stop("a list ends early");
        list[i].given = in->at + *at;
        *at += list[i].count;
    }
    lay_out(arena, list, lists);
    size_t carried[2] = {PATTERN, PATTERN};
    uint64_t flags = 0;
    put(out, op == LARGE_PLANE ? call_large(scalars, list, carried, &flags) : call(op, scalars, list, carried));
    put(out, carried[0]);
    put(out, carried[1]);
    put(out, flags | flags_of(list, lists, lent));
    for (int i = 0; i < lists; i++)
        if (lent >> i & 1) put_lent(out, &list[i]);
}

int main(void) {
    struct words in = {0, 0, 0}, arena = {0, 0, 0}, out = {0, 0, 0};
    read_all(&in);
    for (size_t at = 0; at < in.count;) run(&in, &at, &arena, &out);
    if (out.count && fwrite(out.at, sizeof *out.at, out.count, stdout) != out.count) stop("stdout cannot be written");
    return fflush(stdout) == 0 ? 0 : 2;
}
