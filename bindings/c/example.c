/*
 * Reads a card end to end: fit, measure, margin check, and then score, refine, unmask and read, in
 * one call and call by call.
 *
 * The card has 4 hues, 8 by 8 grid modules with a chroma cell each, and 4 ring modules, which carry
 * chroma since the cell size is 1. Its raw colours stand for what a camera saw: the colours that
 * were drawn, under uneven, tinted light with some flare. The bits read are compared with those
 * drawn, and the program exits with 0 when all are equal.
 */
#include "inks.h"

#include <stdio.h>
#include <stdlib.h>

enum {
    SIDE = 8,
    SIZE = 1,
    VERSION = 1,
    MASK = 3,
    GRID = SIDE * SIDE,
    RING = 4,
    MODULES = GRID + RING,
    CELLS = GRID,
    SYMBOLS = CELLS + RING,
    SCORES = 2 * SYMBOLS, /* log2(HUES) a symbol */
    BITS = MODULES + SCORES,
    REFERENCES = 32,
    WINDOW = (SIDE + 12) * (SIDE + 12)
};

/* Where the modules and cells are, and what was drawn there. */
static int32_t xs[MODULES], ys[MODULES];
static uint16_t cxs[CELLS], cys[CELLS];
static uint8_t bits[BITS], levels[MODULES];
static size_t hues[SYMBOLS];

/* What the stage is handed. */
static float palette[PALETTE], flat[8 * REFERENCES];
static float raw[3 * MODULES], craw[3 * CELLS];

/* What it is lent. */
static float luma[MODULES], colours[3 * MODULES], chroma[SCORES];
static float fit_scratch[4 * REFERENCES], window[WINDOW];
static uint8_t luma_bits[MODULES], chroma_bits[SCORES], kept[REFERENCES];

/* Ends the program where a call was refused. */
static void accept(const char *call, uint32_t number) {
    if (number != PURDOLVE_ACCEPTED) {
        fprintf(stderr, "%s: refused %u\n", call, (unsigned)number);
        exit(1);
    }
}

static purdolve_linear ink(size_t level, size_t hue) {
    return purdolve_srgb8_to_linear(purdolve_from_hex(INKS[level * HUES + hue]));
}

/* What the camera sees of a colour at (x, y). */
static void see(float *seen, float x, float y, purdolve_linear c) {
    float light = 0.4f + 0.03f * x + 0.02f * y;
    seen[0] = 1.1f * light * c.r + 0.02f;
    seen[1] = light * c.g + 0.02f;
    seen[2] = 0.8f * light * c.b + 0.02f;
}

/* The grid modules row by row, each with its cell, then the ring modules. */
static void make_layout(void) {
    for (size_t i = 0; i < GRID; i++) {
        xs[i] = (int32_t)(i % SIDE);
        ys[i] = (int32_t)(i / SIDE);
        cxs[i] = (uint16_t)xs[i];
        cys[i] = (uint16_t)ys[i];
    }
    for (size_t i = GRID; i < MODULES; i++) {
        xs[i] = -2;
        ys[i] = (int32_t)(2 * (i - GRID));
    }
}

/* Bits without a pattern, drawn, and seen by the camera. */
static void make_card(void) {
    for (uint32_t i = 0; i < BITS; i++) {
        bits[i] = (uint8_t)((i * i + 1) * 2654435761u >> 31);
    }
    accept("draw", purdolve_draw(bits, BITS, SIDE, HUES, SIZE, xs, MODULES, ys, MODULES, GRID, cxs,
                                 CELLS, cys, CELLS, MASK, levels, MODULES, hues, SYMBOLS));
    for (size_t i = 0; i < MODULES; i++) {
        /* Module i and symbol i are one place: grid module and cell, or ring module. */
        purdolve_linear drawn = ink(levels[i], hues[i]);
        see(raw + 3 * i, (float)xs[i] + 0.5f, (float)ys[i] + 0.5f, drawn);
    }
    for (size_t i = 0; i < 3 * CELLS; i++) {
        craw[i] = raw[i];
    }
}

/* References above and below the grid, of every ink in turn. */
static void make_references(void) {
    for (size_t i = 0; i < REFERENCES; i++) {
        float *r = flat + 8 * i;
        purdolve_linear nominal = ink(i / HUES % 2, (i + i / COLOURS) % HUES);
        r[0] = (float)(i % 16) * 0.5f + 0.5f;
        r[1] = i < 16 ? -1.5f : SIDE + 1.5f;
        see(r + 2, r[0], r[1], nominal);
        r[5] = nominal.r;
        r[6] = nominal.g;
        r[7] = nominal.b;
    }
}

/* The model and the noise record from the references. */
static purdolve_illumination_model fit(void) {
    purdolve_modelled fitted =
        purdolve_fit_flat(flat, 8 * REFERENCES, SIDE, VERSION, kept, REFERENCES, fit_scratch,
                          4 * REFERENCES);
    accept("fit", fitted.number);
    printf("fit: %zu terms, %u kept, %u rejected\n", fitted.model.terms,
           (unsigned)fitted.model.kept, (unsigned)fitted.model.rejected);
    return fitted.model;
}

static purdolve_channel_stats measure(purdolve_illumination_model model) {
    purdolve_measure_answer measured = purdolve_measure_flat(
        flat, 8 * REFERENCES, SIDE, model, palette, PALETTE, HUES, fit_scratch, 4 * REFERENCES);
    accept("measure", measured.number);
    purdolve_flag_answer margin = purdolve_margin(measured.noise, palette, PALETTE, HUES);
    accept("margin", margin.number);
    printf("margin: %s\n", margin.yes ? "yes" : "no");
    return measured.noise;
}

/* Reads the card in one call. */
static void read_card(purdolve_illumination_model model, purdolve_channel_stats noise) {
    purdolve_score_answer answer = purdolve_read_bits(
        SIDE, HUES, SIZE, xs, MODULES, ys, MODULES, GRID, raw, 3 * MODULES, cxs, CELLS, cys, CELLS,
        craw, 3 * CELLS, palette, PALETTE, MASK, model, noise, luma, MODULES, colours, 3 * MODULES,
        chroma, SCORES, window, WINDOW, luma_bits, MODULES, chroma_bits, SCORES);
    accept("read", answer.number);
    printf("too dark to correct: %zu modules, %zu cells\n", answer.held_modules, answer.held_cells);
}

/* The same call by call, as a reader that hands the scores to an error corrector makes them. */
static void score_card(purdolve_illumination_model model, purdolve_channel_stats noise) {
    accept("score", purdolve_score(SIDE, HUES, SIZE, xs, MODULES, ys, MODULES, GRID, raw,
                                   3 * MODULES, cxs, CELLS, cys, CELLS, craw, 3 * CELLS, palette,
                                   PALETTE, model, noise, luma, MODULES, colours, 3 * MODULES,
                                   chroma, SCORES)
                        .number);
    accept("refine",
           purdolve_add_local_luma(luma, MODULES, SIDE, HUES, xs, MODULES, ys, MODULES, GRID,
                                   colours, 3 * MODULES, palette, PALETTE, noise, window, WINDOW));
    accept("unmask",
           purdolve_unmask_luma(luma, MODULES, SIDE, xs, MODULES, ys, MODULES, GRID, MASK));
    accept("read", purdolve_read_list(luma, MODULES, luma_bits, MODULES));
    accept("read", purdolve_read_list(chroma, SCORES, chroma_bits, SCORES));
}

/* How many of the bits read differ from those drawn. */
static int wrong(void) {
    int count = 0;
    for (size_t i = 0; i < BITS; i++) {
        uint8_t bit = i < MODULES ? luma_bits[i] : chroma_bits[i - MODULES];
        count += bit != bits[i];
    }
    return count;
}

int main(void) {
    make_palette(palette);
    make_layout();
    make_card();
    make_references();
    purdolve_illumination_model model = fit();
    purdolve_channel_stats noise = measure(model);
    read_card(model, noise);
    int together = wrong();
    score_card(model, noise);
    int apart = wrong();
    printf("%d bits read, %d wrong; call by call %d wrong\n", (int)BITS, together, apart);
    return together != 0 || apart != 0;
}
