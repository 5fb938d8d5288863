/* Every stroke of seeded sheets on seeded pages through the C header, against the same formula in C, bit by bit. */
#include "../include/kuzpalen.h"
#include <math.h>
#include <stdio.h>
#include <string.h>

#define SHEETS 400
#define PAGES 30

static uint64_t state = 20261116u;

static uint64_t next(void) {
    state ^= state >> 12;
    state ^= state << 25;
    state ^= state >> 27;
    return state * 0x2545F4914F6CDD1Du;
}

static uint64_t below(uint64_t n) { return next() % n; }

static uint64_t bits(double x) {
    uint64_t b;
    memcpy(&b, &x, sizeof b);
    return b;
}

static double from_bits(uint64_t b) {
    double x;
    memcpy(&x, &b, sizeof x);
    return x;
}

/* Two statements, so that no compiler joins the two roundings. */
static double plotted(int64_t z, double pitch, double margin) {
    volatile double product = (double)z * pitch;
    return product + margin;
}

static int64_t half(int64_t w) { return w % 2 == 0 ? w / 2 : (w / 2) % 2 == 0 ? w / 2 : w / 2 + 1; }

static kuzpalen_record table[KUZPALEN_CELLS];
static int32_t positions[2 * KUZPALEN_CELLS];
static size_t n;
static int64_t least;

/* A run over at most 16 children, each a step or a run of steps. */
static void some_plan(void) {
    size_t width = below(8) == 0 ? KUZPALEN_WIDEST : 12, runs = 1 + below(15), c = 0;
    memset(table, 0, sizeof table);
    table[c++] = (kuzpalen_record){KUZPALEN_NO_PARENT, 2, 0, (uint16_t)(1 + below(width)), (uint8_t)(1 + below(15)), 0, 0};
    for (size_t r = 0; r < runs; r++) {
        uint16_t parent = (uint16_t)c;
        size_t steps = below(8);
        table[c++] = (kuzpalen_record){0, steps == 0 ? 1 : 2, (uint8_t)next(), (uint16_t)(1 + below(width)), (uint8_t)(1 + below(15)), 0, 0};
        for (size_t s = 0; s < steps; s++)
            table[c++] = (kuzpalen_record){parent, 1, (uint8_t)next(), (uint16_t)(1 + below(width)), (uint8_t)(1 + below(15)), 0, 0};
    }
    n = c;
}

/* Ours, or anybody's. */
static int some_positions(void) {
    static uint32_t scratch[KUZPALEN_SCRATCH];
    if (kuzpalen_layout(table, n, (uint32_t)below(40), scratch, KUZPALEN_SCRATCH, positions, 2 * KUZPALEN_CELLS).number != 0)
        return 0;
    if (below(2) == 0)
        for (size_t i = 0; i < 2 * n; i++)
            positions[i] = (int32_t)below(2 * KUZPALEN_FARTHEST + 1) - KUZPALEN_FARTHEST;
    least = positions[0];
    for (size_t c = 0; c < n; c++)
        if (positions[2 * c] < least)
            least = positions[2 * c];
    return 1;
}

static kuzpalen_stroke_answer stroke(kuzpalen_page g, uint8_t what, int64_t x, int64_t y) {
    kuzpalen_stroke_answer r = {0, 0, what, plotted(x - least, g.pitch, g.margin_x), plotted(y, g.pitch, g.margin_y)};
    return r;
}

static kuzpalen_stroke_answer expected(kuzpalen_page g, size_t s) {
    kuzpalen_stroke_answer lift = {0, 0, KUZPALEN_STROKE_LIFT, 0.0, 0.0};
    if (s < 6 * n) {
        const kuzpalen_record *a = table + s / 6;
        int64_t x = positions[2 * (s / 6)], y = positions[2 * (s / 6) + 1], right = x + a->width, lower = y + a->depth;
        switch (s % 6) {
        case 0: return stroke(g, KUZPALEN_STROKE_MOVE, x, y);
        case 1: return stroke(g, KUZPALEN_STROKE_LINE, right, y);
        case 2: return stroke(g, KUZPALEN_STROKE_LINE, right, lower);
        case 3: return stroke(g, KUZPALEN_STROKE_LINE, x, lower);
        case 4: return stroke(g, KUZPALEN_STROKE_LINE, x, y);
        default: return lift;
        }
    }
    size_t c = 1 + (s - 6 * n) / 3, p = table[c].parent;
    switch ((s - 6 * n) % 3) {
    case 0: return stroke(g, KUZPALEN_STROKE_MOVE, positions[2 * p] + half(table[p].width), positions[2 * p + 1] + table[p].depth);
    case 1: return stroke(g, KUZPALEN_STROKE_LINE, positions[2 * c] + half(table[c].width), positions[2 * c + 1]);
    default: return lift;
    }
}

static int same(kuzpalen_stroke_answer a, kuzpalen_stroke_answer b) {
    return a.number == b.number && a.cell == b.cell && a.what == b.what && bits(a.x) == bits(b.x) && bits(a.y) == bits(b.y);
}

static double fair_pitch(void) {
    static const double edges[4] = {0.25, 16.0, 0.7, 1.0 / 3.0};
    return below(4) == 0 ? edges[below(4)] : 0.25 + (double)(next() >> 11) / 9007199254740992.0 * 15.75;
}

static double fair_margin(void) {
    static const double edges[5] = {0.0, -0.0, 100.0, 5e-324, 0.3};
    return below(4) == 0 ? edges[below(5)] : (double)(next() >> 11) / 9007199254740992.0 * 100.0;
}

/* One float that question 17 refuses, in each place. */
static int refusals_good(void) {
    const double pitches[8] = {from_bits(bits(0.25) - 1), from_bits(bits(16.0) + 1), 0.0, -0.0, -1.0, INFINITY, -INFINITY, NAN};
    const double margins[6] = {from_bits(bits(100.0) + 1), -5e-324, -1.0, INFINITY, -INFINITY, NAN};
    kuzpalen_page good = {1.0, 0.0, 0.0};
    for (int i = 0; i < 8; i++) {
        kuzpalen_page g = good;
        g.pitch = pitches[i];
        if (kuzpalen_stroke(table, n, positions, 2 * n, g, 0).number != 17)
            return 0;
    }
    for (int i = 0; i < 6; i++) {
        kuzpalen_page g = good, h = good;
        g.margin_x = margins[i];
        h.margin_y = margins[i];
        if (kuzpalen_stroke(table, n, positions, 2 * n, g, 0).number != 17 || kuzpalen_stroke(table, n, positions, 2 * n, h, 9 * n).number != 17)
            return 0;
    }
    return kuzpalen_stroke(table, n, positions, 2 * n, good, 9 * n - 3).number == 18 && kuzpalen_stroke(table, n, positions, 2 * n, good, SIZE_MAX).number == 18
        && kuzpalen_stroke(table, n, positions, 2 * n - 1, good, 0).number == 1 && kuzpalen_stroke(table, 0, positions, 0, good, 0).number == 4;
}

int main(void) {
    unsigned long count = 0;
    for (int i = 0; i < SHEETS; i++) {
        some_plan();
        if (!some_positions())
            continue;
        if (!refusals_good()) {
            printf("strokes from C: DIFFERENCE in a refusal, sheet %d\n", i);
            return 1;
        }
        for (int j = 0; j < PAGES; j++) {
            kuzpalen_page g = {fair_pitch(), fair_margin(), fair_margin()};
            for (size_t s = 0; s < 9 * n - 3; s += 1 + below(5), count++)
                if (!same(kuzpalen_stroke(table, n, positions, 2 * n, g, s), expected(g, s))) {
                    printf("strokes from C: DIFFERENCE in stroke %zu, sheet %d, page %a %a %a\n", s, i, g.pitch, g.margin_x, g.margin_y);
                    return 1;
                }
        }
    }
    printf("%lu strokes from C: no difference\n", count);
    return count > 100000 ? 0 : 1;
}
