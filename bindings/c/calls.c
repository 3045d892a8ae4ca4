/*
 * Calls every function of the library once at least and compares known answers, so that a prototype
 * that does not match the library is seen; then meets each refusal, and looks that what was lent is
 * as it was. Exits with 0 when all is as expected.
 */
#include "purdolve.h"

#include <math.h>
#include <stdio.h>
#include <string.h>

static int checked, failed;

#define CHECK(test)                                                                                \
    do {                                                                                           \
        checked++;                                                                                 \
        if (!(test)) {                                                                             \
            failed++;                                                                              \
            printf("line %d: %s\n", __LINE__, #test);                                              \
        }                                                                                          \
    } while (0)

static uint32_t bits_of(float x) {
    uint32_t bits;
    memcpy(&bits, &x, sizeof bits);
    return bits;
}

static bool near(double x, double y) {
    return fabs(x - y) < 1e-6;
}

static void floats(void) {
    CHECK(purdolve_abs(-2.0f) == 2.0f);
    CHECK(purdolve_abs_f64(-2.5) == 2.5);
    CHECK(purdolve_max(1.0f, 2.0f) == 2.0f && purdolve_max(NAN, 2.0f) == 2.0f);
    CHECK(purdolve_min(1.0f, 2.0f) == 1.0f && purdolve_min(NAN, 2.0f) == 2.0f);
    CHECK(purdolve_clamp(5.0f, 0.0f, 1.0f) == 1.0f && isnan(purdolve_clamp(NAN, 0.0f, 1.0f)));
    CHECK(purdolve_widen(0.5f) == 0.5);
    CHECK(purdolve_narrow(0.1) == 0.1f && purdolve_narrow(1e300) == INFINITY);
    CHECK(purdolve_sqrt(2.25f) == 1.5f && isnan(purdolve_sqrt(-1.0f)));
    CHECK(purdolve_cbrt(27.0f) == 3.0f && purdolve_cbrt(-8.0f) == -2.0f);
}

static void systems(void) {
    double a[4] = {2, 0, 0, 4}, b[2] = {2, 8}, x[3] = {7, 7, 7};
    purdolve_solve_answer s = purdolve_solve(a, 4, b, 2, x, 3, 2);
    CHECK(s.number == 0 && s.solved && x[0] == 1 && x[1] == 2 && x[2] == 7);
    double zero[4] = {0};
    s = purdolve_solve(zero, 4, b, 2, x, 3, 2);
    CHECK(s.number == 0 && !s.solved && x[0] == 1);
    CHECK(purdolve_solve(a, 4, b, 2, x, 3, 3).number == PURDOLVE_REFUSED_LENGTH);
    CHECK(purdolve_solve(a, 4, b, 2, x, 3, 0).number == PURDOLVE_REFUSED_COUNT);
    CHECK(purdolve_solve(a, 4, b, 2, x, 3, (size_t)1 << 32).number == PURDOLVE_REFUSED_LENGTH);

    double rows[4] = {1, 0, 0, 1}, targets[2] = {3, 4}, y[2] = {0, 0};
    s = purdolve_least_squares(rows, 4, targets, 2, 2, x, 3);
    CHECK(s.number == 0 && s.solved && near(x[0], 3) && near(x[1], 4));
    CHECK(!purdolve_least_squares(rows, 4, targets, 1, 2, y, 2).solved && y[0] == 0);
    CHECK(purdolve_least_squares(rows, 4, targets, 2, 0, y, 2).number == PURDOLVE_REFUSED_COUNT);
    CHECK(purdolve_least_squares(rows, 3, targets, 2, 2, y, 2).number == PURDOLVE_REFUSED_LENGTH);

    double ata[324] = {0}, atb[2] = {0};
    CHECK(purdolve_add_row(ata, atb, 2, rows, 2, 3, 2) == 0);
    CHECK(purdolve_add_row(ata, atb, 2, rows + 2, 2, 4, 2) == 0);
    CHECK(purdolve_add_row(ata, atb, 2, rows, 2, 3, 3) == PURDOLVE_REFUSED_LENGTH);
    CHECK(purdolve_add_row(ata, atb, 2, rows, 2, 3, 0) == PURDOLVE_REFUSED_COUNT);
    s = purdolve_finish(ata, atb, 2, y, 2, 2);
    CHECK(s.number == 0 && s.solved && y[0] == x[0] && y[1] == x[1]);
    CHECK(purdolve_finish(ata, atb, 2, y, 2, 3).number == PURDOLVE_REFUSED_LENGTH);
}

static void orders(void) {
    float four[4] = {4, 1, 3, 2}, three[1] = {3}, ones[3] = {1, 1, 1};
    float scratch[7] = {9, 9, 9, 9, 9, 9, 9};
    CHECK(purdolve_median(four, 4) == 2.5f);
    CHECK(purdolve_median(three, 1) == 3.0f && purdolve_median(three, 0) == 0.0f);
    purdolve_float_answer m = purdolve_mad_sigma(ones, 3, scratch, 5);
    CHECK(m.number == PURDOLVE_REFUSED_LENGTH && m.value == 0 && scratch[0] == 9);
    m = purdolve_mad_sigma(ones, 3, scratch, 7);
    CHECK(m.number == 0 && m.value == 0 && scratch[0] == 0 && scratch[5] == 0 && scratch[6] == 9);
    float spread[5] = {1, 2, 3, 4, 5}, room[10];
    CHECK(purdolve_mad_sigma(spread, 5, room, 10).value == 1.4826f);
}

static void colours(void) {
    purdolve_srgb8 c = purdolve_from_hex(0xFF123456);
    purdolve_srgb8 white = {255, 255, 255};
    CHECK(c.r == 0x12 && c.g == 0x34 && c.b == 0x56 && purdolve_to_hex(c) == 0x123456);
    CHECK(fabsf(purdolve_rec709_luma(white) - 255) < 1e-3f);
    CHECK(purdolve_srgb_to_linear(0) == 0 && purdolve_srgb_to_linear(255) == 1);
    CHECK(bits_of(purdolve_srgb_to_linear(9)) == 0x3B33070A);
    purdolve_linear one = purdolve_srgb8_to_linear(white), grey = {-1, 0.5f, 2};
    CHECK(one.r == 1 && one.g == 1 && one.b == 1);
    purdolve_lab lab = purdolve_srgb8_to_lab(white);
    CHECK(lab.l == 100 && lab.a == 0 && lab.b == 0);
    lab = purdolve_linear_to_lab(one);
    CHECK(lab.l == 100 && lab.a == 0 && lab.b == 0);
    purdolve_xyz xyz = purdolve_linear_to_xyz(one);
    CHECK(bits_of(xyz.x) == 0x3F735201 && bits_of(xyz.y) == 0x3F800001);
    CHECK(bits_of(xyz.z) == 0x3F8B5EC8);
    xyz = purdolve_lab_to_xyz(lab);
    CHECK(xyz.x == 0.95047f && xyz.y == 1 && xyz.z == 1.08883f);
    lab = purdolve_xyz_to_lab(xyz);
    CHECK(lab.l == 100 && lab.a == 0 && lab.b == 0);
    purdolve_linear back = purdolve_xyz_to_linear(xyz);
    CHECK(near(back.r, 1) && near(back.g, 1) && near(back.b, 1));
    back = purdolve_lab_to_linear((purdolve_lab){0, 0, 0});
    CHECK(back.r == 0 && back.g == 0 && back.b == 0);
    back = purdolve_clamped(grey);
    CHECK(back.r == 0 && back.g == 0.5f && back.b == 1);
    CHECK(purdolve_in_gamut(back) && !purdolve_in_gamut(grey));
    CHECK(bits_of(purdolve_luminance((purdolve_linear){1, 0, 0})) == 0x3E59B3D0);
    purdolve_lab p = {50, 3, 4}, q = {0, 0, 0};
    CHECK(purdolve_chroma(p) == 5 && purdolve_ab_distance(p, q) == 5);
    CHECK(purdolve_palette_len(4).value == 8 && purdolve_palette_len(3).number == 3);
    CHECK(!purdolve_palette_is_empty(4).yes && purdolve_palette_is_empty(0).number == 3);
    purdolve_number_answer i = purdolve_palette_index(true, 6, 4);
    CHECK(i.number == 0 && i.value == 6 && purdolve_palette_index(true, 6, 5).number == 3);
}

/* At each cell the two calls undo each other, and a shift of the cell is a further rotation. */
static void rotations(void) {
    for (size_t hues = 1; hues <= 16; hues *= 2)
        for (size_t h = 0; h < hues; h++)
            for (uint16_t c = 0; c < 1024; c += 93) {
                size_t drawn = purdolve_chroma_mask_apply(h, c, 5, hues).value;
                CHECK(purdolve_chroma_mask_remove(drawn, c, 5, hues).value == h);
                CHECK(purdolve_chroma_mask_apply(purdolve_chroma_mask_remove(h, c, 5, hues).value,
                                                 c, 5, hues)
                          .value == h);
                CHECK(purdolve_chroma_mask_apply(drawn, 0, 7, hues).value ==
                      purdolve_chroma_mask_apply(h, c, 12, hues).value);
            }
}

static void symbols(void) {
    CHECK(purdolve_gray(2) == 3 && purdolve_gray_inverse(3) == 2);
    CHECK(purdolve_gray_inverse(purdolve_gray(SIZE_MAX)) == SIZE_MAX);
    CHECK(purdolve_chroma_symbol_to_hue(3, 4).value == 2);
    CHECK(purdolve_chroma_symbol_to_hue(3, 6).number == PURDOLVE_REFUSED_HUES);
    CHECK(purdolve_hue_to_chroma_symbol(2, 4).value == 3);
    CHECK(purdolve_luma_mask(0, 0, 0) && !purdolve_luma_mask(0, 1, 0));
    CHECK(purdolve_luma_mask(8, 0, 0));
    CHECK(purdolve_chroma_rotation(1, 2, 4).value == 3);
    CHECK(purdolve_chroma_rotation(1024, 2, 4).number == PURDOLVE_REFUSED_PLACE);
    CHECK(purdolve_chroma_mask_apply(3, 1, 0, 4).value == 0);
    CHECK(purdolve_chroma_mask_apply(SIZE_MAX, 1, 0, 4).value == 0);
    CHECK(purdolve_chroma_mask_remove(0, 1, 0, 4).value == 3);

    const float ll[4] = {0, -1, -4, -9};
    float out[3] = {7, 7, 7};
    CHECK(purdolve_chroma_bit_llrs(ll, 3, false, 0, 0, 4, out, 3) == PURDOLVE_REFUSED_LENGTH);
    CHECK(purdolve_chroma_bit_llrs(ll, 4, true, 1024, 0, 4, out, 3) == PURDOLVE_REFUSED_PLACE);
    CHECK(out[0] == 7 && out[1] == 7);
    CHECK(purdolve_chroma_bit_llrs(ll, 4, false, 1024, 0, 4, out, 3) == 0);
    CHECK(out[0] == 4 && out[1] == 1 && out[2] == 7);
    CHECK(purdolve_chroma_bit_llrs(ll, 4, true, 1, 0, 4, out, 3) == 0);
    CHECK(out[0] == -1 && out[1] == 4 && out[2] == 7);

    const uint8_t bits[2] = {1, 0};
    CHECK(purdolve_symbol_of_bits(bits, 2, 4).value == 2);
    CHECK(purdolve_symbol_of_bits(bits, 1, 4).number == PURDOLVE_REFUSED_LENGTH);
    CHECK(purdolve_cell_hue(3, 1, 0, 4).value == 3);
    CHECK(purdolve_ring_hue(3, 4).value == 2);
    CHECK(purdolve_grid_level(1, 0, 0, 0) == 0 && purdolve_grid_level(1, 0, 1, 0) == 1);
    CHECK(purdolve_ring_level(7) == 1 && purdolve_ring_level(0) == 0);
    CHECK(purdolve_read(-1) == 1 && purdolve_read(1) == 0 && purdolve_read(NAN) == 2 &&
          purdolve_read(-0.0f) == 2);
}

/* Document 01's case: side 21, one hue, a black and a white module, mask 0. */
static const float PALETTE[10] = {0, 100, 0, 0, 0, 0, 0, 100, 0, 0};
static const int32_t XS[2] = {0, 1}, YS[2] = {0, 0};
static const float RAW[6] = {0, 0, 0, 1, 1, 1};
static const uint16_t CELL[1] = {0};

static const purdolve_channel_stats NOISE = {20, 80, 6, 6, 0, 0, 0};

static void figures(void) {
    purdolve_noise_answer n = purdolve_nominal(PALETTE, 10, 1);
    CHECK(n.number == 0 && n.noise.l0 == 0 && n.noise.l1 == 100 && n.noise.sigma_l == 6);
    CHECK(n.noise.sigma_ab == 6 && n.noise.sigma_ab_dark == 0 && n.noise.samples == 0);
    CHECK(purdolve_nominal(PALETTE, 9, 1).number == PURDOLVE_REFUSED_LENGTH);
    CHECK(purdolve_luma_llr(NOISE, 50).value == 0 && purdolve_luma_llr(NOISE, 44).value == 10);
    CHECK(purdolve_luma_llr(NOISE, 20).value == 20 && isnan(purdolve_luma_llr(NOISE, NAN).value));
    purdolve_channel_stats levels = {0, 100, 6, 6, 2, 4, 0};
    CHECK(purdolve_sigma_ab_at(levels, 50).value == 3);
    levels.sigma_ab_dark = 0.5f;
    CHECK(purdolve_sigma_ab_at(levels, 50).number == PURDOLVE_REFUSED_SIGMA);
    levels.l0 = NAN;
    CHECK(purdolve_luma_llr(levels, 50).number == PURDOLVE_REFUSED_NUMBER);
    purdolve_lab black = {0, 0, 0};
    CHECK(purdolve_reliability(n.noise, black, PALETTE, 10, 1).value == 1);
    CHECK(purdolve_reliability(n.noise, black, PALETTE, 10, 7).number == PURDOLVE_REFUSED_HUES);
    float out[2] = {7, 7};
    CHECK(purdolve_hue_log_likelihoods(n.noise, (purdolve_lab){0, 6, 6}, PALETTE, 10, 1, out, 2) ==
          0);
    CHECK(out[0] == -1 && out[1] == 7);
    purdolve_flag_answer yes = purdolve_margin(n.noise, PALETTE, 10, 1);
    CHECK(yes.number == 0 && yes.yes);
    purdolve_channel_stats coarse = {47, 53, 6, 6, 0, 0, 0};
    yes = purdolve_margin(coarse, PALETTE, 10, 1);
    CHECK(yes.number == 0 && !yes.yes);
    yes = purdolve_margin_at(false, n.noise, PALETTE, 10, 1);
    CHECK(yes.number == 0 && yes.yes);
    purdolve_channel_stats between = {44, 56, 8, 6, 0, 0, 0}; /* 12 * (100 - 8) / 128 is 8.625 */
    CHECK(!purdolve_margin_at(true, between, PALETTE, 10, 1).yes);
    between.l1 = 58; /* 14 * (102 - 8) / 128 is 10.28125 */
    CHECK(purdolve_margin_at(true, between, PALETTE, 10, 1).yes);
    yes = purdolve_margin_at(false, between, PALETTE, 10, 1);
    CHECK(yes.number == 0 && !yes.yes);
    between.sigma_l = 0.5f;
    CHECK(purdolve_margin_at(true, between, PALETTE, 10, 1).number == PURDOLVE_REFUSED_SIGMA);
}

static void counts(void) {
    purdolve_channel_stats noise = purdolve_nominal(PALETTE, 10, 1).noise;
    uint32_t out[4] = {7, 7, 7, 7};
    CHECK(purdolve_colour_counts(noise, PALETTE, 10, 3, out, 4) == PURDOLVE_REFUSED_HUES);
    CHECK(purdolve_colour_counts(noise, PALETTE, 10, 1, out, 2) == PURDOLVE_REFUSED_LENGTH);
    CHECK(purdolve_colour_counts(noise, PALETTE, 9, 1, out, 4) == PURDOLVE_REFUSED_LENGTH);
    noise.sigma_l = 0.5f;
    CHECK(purdolve_colour_counts(noise, PALETTE, 10, 1, out, 4) == PURDOLVE_REFUSED_SIGMA);
    noise.l0 = NAN;
    CHECK(purdolve_colour_counts(noise, PALETTE, 10, 1, out, 4) == PURDOLVE_REFUSED_NUMBER);
    CHECK(out[0] == 7 && out[1] == 7 && out[2] == 7);
    noise = purdolve_nominal(PALETTE, 10, 1).noise;
    CHECK(purdolve_colour_counts(noise, PALETTE, 10, 1, out, 4) == 0);
    CHECK(out[0] == 12708 && out[1] == 20060 && out[2] == 0 && out[3] == 7);
    noise.l1 = noise.l0;
    CHECK(purdolve_colour_counts(noise, PALETTE, 10, 1, out, 4) == 0);
    CHECK(out[0] == 0 && out[1] == 0 && out[2] == 32768);
}

static void models(void) {
    purdolve_modelled m = purdolve_identity(21);
    CHECK(m.number == 0 && m.model.terms == 4 && m.model.side == 21 && m.model.kept == 0);
    CHECK(m.model.affine_r[0] == 1 && m.model.affine_b[2] == 1 && m.model.gain_g[0] == 1);
    CHECK(purdolve_identity(0).number == PURDOLVE_REFUSED_SIDE);
    CHECK(purdolve_identity(1025).number == PURDOLVE_REFUSED_SIDE);
    purdolve_linear c = {0.5f, 0.25f, 0.125f};
    purdolve_linear_answer corrected = purdolve_correct(&m.model, 3.5f, 4.5f, c);
    CHECK(corrected.number == 0 && corrected.colour.r == 0.5f && corrected.colour.g == 0.25f);
    CHECK(corrected.colour.b == 0.125f);
    CHECK(!corrected.held_r && !corrected.held_g && !corrected.held_b);
    c.g = 2e6f;
    CHECK(purdolve_correct(&m.model, 3.5f, 4.5f, c).number == PURDOLVE_REFUSED_NUMBER);
    c.g = 0;
    m.model.terms = 5;
    corrected = purdolve_correct(&m.model, 3.5f, 4.5f, c);
    CHECK(corrected.number == PURDOLVE_REFUSED_MODEL && corrected.colour.r == 0);
    CHECK(!corrected.held_r && !corrected.held_g && !corrected.held_b);

    float flat[8] = {0}, scratch[5] = {9, 9, 9, 9, 9};
    uint8_t kept[2] = {7, 7};
    m = purdolve_fit_flat(flat, 8, 21, 10, kept, 2, scratch, 5);
    CHECK(m.number == 0 && m.model.terms == 9 && m.model.kept == 0 && m.model.gain_r[0] == 1);
    CHECK(scratch[0] == 0 && scratch[3] == 0 && scratch[4] == 9 && kept[0] == 0 && kept[1] == 7);
    m = purdolve_fit_flat(flat, 0, 21, 9, kept, 0, scratch, 0);
    CHECK(m.number == 0 && m.model.terms == 4);
    CHECK(purdolve_fit_flat(flat, 7, 21, 1, kept, 2, scratch, 4).number == PURDOLVE_REFUSED_LENGTH);
    CHECK(purdolve_fit_flat(flat, 8, 21, 1, kept, 0, scratch, 4).number == PURDOLVE_REFUSED_LENGTH);
    flat[0] = 38;
    kept[0] = 7;
    CHECK(purdolve_fit_flat(flat, 8, 21, 1, kept, 2, scratch, 4).number == PURDOLVE_REFUSED_PLACE);
    flat[0] = 0;
    flat[3] = INFINITY;
    CHECK(purdolve_fit_flat(flat, 8, 21, 1, kept, 2, scratch, 4).number == PURDOLVE_REFUSED_NUMBER);
    CHECK(kept[0] == 7);

    purdolve_measure_answer n =
        purdolve_measure_flat(flat, 0, 21, m.model, PALETTE, 10, 1, scratch, 4);
    CHECK(n.number == 0 && n.noise.l1 == 100 && n.noise.sigma_ab == 6 && n.noise.samples == 0);
    CHECK(n.held == 0);
    CHECK(purdolve_measure_flat(flat, 8, 21, m.model, PALETTE, 10, 1, scratch, 4).number ==
          PURDOLVE_REFUSED_NUMBER);
}

/* The worked values: white at the first module's corner, by a gain of red. */
static void marks(void) {
    const double gains[] = {0, -0.0, 0x1.9999999999999p-5, 0.05, -0x1.9999999999999p-5, -0.05, 1};
    const uint32_t reds[] = {0x41A00000, 0x41A00000, 0x41A00000, 0x41A00000,
                             0xC1A00000, 0xC1A00000, 0x3F800000};
    const bool held[] = {true, true, true, false, true, false, false};
    purdolve_linear white = {1, 1, 1};
    for (int i = 0; i < 7; i++) {
        purdolve_illumination_model model = purdolve_identity(21).model;
        model.gain_r[0] = gains[i];
        purdolve_linear_answer a = purdolve_correct(&model, 0, 0, white);
        CHECK(a.number == 0 && bits_of(a.colour.r) == reds[i] && a.held_r == held[i]);
        CHECK(a.colour.g == 1 && a.colour.b == 1 && !a.held_g && !a.held_b);
    }
    purdolve_illumination_model dark = purdolve_identity(21).model;
    dark.gain_r[0] = dark.gain_g[0] = dark.gain_b[0] = 0.01;
    purdolve_linear_answer a = purdolve_correct(&dark, NAN, 0, white);
    CHECK(a.number == 0 && isnan(a.colour.r) && !a.held_r && !a.held_g && !a.held_b);
    a = purdolve_correct(&dark, 1e38f, 0, white);
    CHECK(bits_of(a.colour.r) == 0x41A00000 && a.held_r && a.held_g && a.held_b);
}

/* Eight references whose nominal colours are too far off for a finite residual. */
static void no_finite_fit(void) {
    float flat[64], scratch[33];
    for (int i = 0; i < 8; i++) {
        float *r = flat + 8 * i;
        r[0] = (float)(i % 3);
        r[1] = (float)(i / 3);
        for (int c = 2; c < 8; c++) {
            r[c] = (float)(i * c % 5) * 6e37f;
        }
    }
    for (int i = 0; i < 33; i++) {
        scratch[i] = 9;
    }
    uint8_t kept[8] = {7, 7, 7, 7, 7, 7, 7, 7};
    CHECK(purdolve_fit_flat(flat, 64, 21, 1, kept, 8, scratch, 33).number == PURDOLVE_REFUSED_FIT);
    CHECK(scratch[0] == 0 && scratch[31] == 0 && scratch[32] == 9);
    CHECK(kept[0] == 7 && kept[7] == 7);
}

/* The references near a module, of six of which four are kept. */
static void near_module(void) {
    static const float xy[12] = {10.5f, 10.5f, 12.5f, 10.5f, 10.5f, 13.5f,
                                 8.5f,  10.5f, 10.5f, 8.5f,  14.5f, 13.5f};
    static const uint8_t kept[6] = {1, 0, 1, 255, 0, 1};
    uint32_t out[7] = {7, 7, 7, 7, 7, 7, 7};
    purdolve_number_answer a = purdolve_nearest(xy, 12, kept, 6, 21, 10, 10, out, 7);
    CHECK(a.number == 0 && a.value == 3 && out[0] == 0 && out[1] == 3 && out[2] == 2);
    CHECK(out[3] == 7 && out[6] == 7);
    out[0] = out[1] = out[2] = 7;
    a = purdolve_within(xy, 12, kept, 6, 21, 10, 10, 2, out, 6);
    CHECK(a.number == 0 && a.value == 2 && out[0] == 0 && out[1] == 3 && out[2] == 7);
    a = purdolve_within(xy, 12, kept, 6, 21, 10, 10, 5, out, 6);
    CHECK(a.number == 0 && a.value == 4 && out[3] == 5 && out[4] == 7);
    a = purdolve_cut_off(xy, 12, kept, 6, 21, 10, 10, 12, out, 6);
    CHECK(a.number == 0 && a.value == 1 && out[0] == 5);
    a = purdolve_cut_off(xy, 12, kept, 6, 21, -6, 26, 26, out, 6);
    CHECK(a.number == 0 && a.value == 0);
    out[0] = 7;
    CHECK(purdolve_within(xy, 12, kept, 6, 21, 10, 10, -1, out, 6).number ==
          PURDOLVE_REFUSED_RADIUS);
    CHECK(purdolve_within(xy, 12, kept, 6, 21, -7, 10, NAN, out, 6).number ==
          PURDOLVE_REFUSED_PLACE);
    CHECK(purdolve_cut_off(xy, 12, kept, 6, 21, 10, 10, 27, out, 6).number ==
          PURDOLVE_REFUSED_PLACE);
    CHECK(purdolve_nearest(xy, 11, kept, 6, 21, 10, 10, out, 6).number == PURDOLVE_REFUSED_LENGTH);
    CHECK(purdolve_nearest(xy, 12, kept, 5, 21, 10, 10, out, 6).number == PURDOLVE_REFUSED_LENGTH);
    CHECK(purdolve_nearest(xy, 12, kept, 6, 21, 10, 10, out, 5).number == PURDOLVE_REFUSED_LENGTH);
    CHECK(purdolve_nearest(xy, 12, kept, 6, 0, 10, 10, out, 6).number == PURDOLVE_REFUSED_SIDE);
    CHECK(out[0] == 7);
}

/* As many references as there may be, all kept and all at one place, and one more. */
static void near_many(void) {
    static float xy[2 * 16385];
    static uint8_t kept[16385];
    static uint32_t out[16385];
    for (int i = 0; i < 16385; i++) {
        kept[i] = 1;
    }
    purdolve_number_answer a = purdolve_within(xy, 2 * 16384, kept, 16385, 21, 0, 0, 1, out, 16385);
    CHECK(a.number == 0 && a.value == 16384 && out[0] == 0 && out[16383] == 16383);
    xy[2 * 9000] = 0.5f;
    a = purdolve_nearest(xy, 2 * 16384, kept, 16385, 21, 0, 0, out, 16385);
    CHECK(a.number == 0 && a.value == 3 && out[0] == 9000 && out[1] == 0 && out[2] == 1);
    CHECK(purdolve_nearest(xy, 2 * 16385, kept, 16385, 21, 0, 0, out, 16385).number ==
          PURDOLVE_REFUSED_COUNT);
}

/* The forms on records answer as the flat ones. */
static void records(void) {
    purdolve_reference refs[12];
    float scratch[49];
    uint8_t kept[13], marks[13];
    memset(kept, 7, sizeof kept);
    memset(marks, 7, sizeof marks);
    for (int i = 0; i < 12; i++) {
        float v = (float)(i * 5 % 7) / 8;
        purdolve_linear nominal = {v, 0.5f * v + 0.1f, (float)(i % 3) / 4};
        purdolve_linear observed = {0.8f * v, 0.4f * v + 0.1f, (float)(i % 3) / 5};
        refs[i] = (purdolve_reference){(float)(i % 4), (float)(i / 4), observed, nominal};
    }
    for (int i = 0; i < 49; i++) {
        scratch[i] = 9;
    }
    CHECK(purdolve_fit(refs, 12, 21, 1, kept, 13, scratch, 47).number == PURDOLVE_REFUSED_LENGTH);
    CHECK(purdolve_fit(refs, 12, 21, 1, kept, 11, scratch, 48).number == PURDOLVE_REFUSED_LENGTH);
    CHECK(scratch[0] == 9 && kept[0] == 7);
    purdolve_modelled m = purdolve_fit(refs, 12, 21, 1, kept, 13, scratch, 49);
    CHECK(m.number == 0 && m.model.kept + m.model.rejected == 12);
    CHECK(scratch[0] == 0 && scratch[47] == 0 && scratch[48] == 9);
    uint32_t ones = 0;
    for (int i = 0; i < 12; i++) {
        CHECK(kept[i] <= 1);
        ones += kept[i];
    }
    CHECK(ones == m.model.kept && kept[12] == 7);
    float flat[96];
    memcpy(flat, refs, sizeof flat);
    purdolve_modelled f = purdolve_fit_flat(flat, 96, 21, 1, marks, 13, scratch, 49);
    CHECK(memcmp(&m.model, &f.model, sizeof m.model) == 0);
    CHECK(memcmp(kept, marks, sizeof kept) == 0);
    purdolve_measure_answer r =
        purdolve_measure(refs, 12, 21, m.model, PALETTE, 10, 1, scratch, 49);
    purdolve_measure_answer n =
        purdolve_measure_flat(flat, 96, 21, m.model, PALETTE, 10, 1, scratch, 49);
    CHECK(r.number == 0 && n.number == 0 && memcmp(&r.noise, &n.noise, sizeof r.noise) == 0);
    CHECK(r.held == 0 && n.held == 0);
    m.model.gain_g[0] = m.model.gain_b[0] = 0.01; /* a gradient is left: some are held, not all */
    r = purdolve_measure(refs, 12, 21, m.model, PALETTE, 10, 1, scratch, 49);
    n = purdolve_measure_flat(flat, 96, 21, m.model, PALETTE, 10, 1, scratch, 49);
    size_t held = 0;
    for (int i = 0; i < 12; i++) {
        purdolve_linear_answer a =
            purdolve_correct(&m.model, refs[i].x, refs[i].y, refs[i].observed);
        held += a.held_r || a.held_g || a.held_b;
    }
    CHECK(r.number == 0 && r.held == held && n.held == held);
    CHECK(purdolve_measure(refs, 7, 21, m.model, PALETTE, 10, 1, scratch, 49).held == 0);
    refs[11].observed.b = NAN;
    CHECK(purdolve_fit(refs, 12, 21, 1, kept, 13, scratch, 49).number == PURDOLVE_REFUSED_NUMBER);
}

/* Little-endian numbers, one after the other. */
static size_t put(uint8_t *file, size_t at, size_t bytes, uint32_t value) {
    for (size_t i = 0; i < bytes; i++) {
        file[at + i] = (uint8_t)(value >> 8 * i);
    }
    return at + bytes;
}

/* Document 01's case as a card file, and its listing. */
static void card_file(void) {
    static const uint32_t sections[5] = {8, 40, 0, 32, 0};
    static const char listing[] = "fit 4 0 0\nL 0 0 41A00000 1\nL 1 0 C1A00000 1\n";
    static uint8_t file[120], out[PURDOLVE_LISTING_ROOM];
    size_t at = 0;
    uint32_t offset = 40;
    for (int i = 0; i < 5; i++) {
        at = put(file, put(file, at, 4, offset), 4, sections[i]);
        offset += sections[i];
    }
    at = put(file, put(file, put(file, at, 2, 21), 1, 1), 1, 1); /* side, version, hues */
    at = put(file, put(file, put(file, at, 1, 1), 1, 0), 2, 2);  /* cell size, mask, grid */
    for (int i = 0; i < 10; i++) {
        at = put(file, at, 4, bits_of(PALETTE[i]));
    }
    for (int i = 0; i < 2; i++) {
        at = put(file, put(file, at, 2, (uint32_t)XS[i]), 2, (uint32_t)YS[i]);
        for (int c = 0; c < 3; c++) {
            at = put(file, at, 4, bits_of(RAW[3 * i + c]));
        }
    }
    CHECK(at == sizeof file && offset == at);
    size_t length = purdolve_read_card(file, at, out, sizeof out);
    CHECK(length == sizeof listing - 1 && memcmp(out, listing, length) == 0);
    file[40] = 65;
    length = purdolve_read_card(file, at, out, sizeof out);
    CHECK(length == 10 && memcmp(out, "refused 1\n", length) == 0);
    file[40] = 0;
    length = purdolve_read_card(file, at, out, sizeof out);
    CHECK(length == 10 && memcmp(out, "refused 2\n", length) == 0);
    out[3] = 7;
    CHECK(purdolve_read_card(file, at, out, 3) <= 3 && memcmp(out, "ref", 3) == 0 && out[3] == 7);
}

typedef struct {
    float luma[3], colours[7], chroma[1];
} outputs;

static purdolve_score_answer report;

static uint32_t score(size_t side, size_t hues, size_t size, size_t grid, const float *raw,
                      size_t raw_len, purdolve_illumination_model model,
                      purdolve_channel_stats noise, outputs *out) {
    report =
        purdolve_score(side, hues, size, XS, 2, YS, 2, grid, raw, raw_len, CELL, 0, CELL, 0, RAW, 0,
                       PALETTE, 10, model, noise, out->luma, 3, out->colours, 7, out->chroma, 1);
    return report.number;
}

/* The two modules in one call, by mask 0, with room for bits_len bits. */
static uint32_t read_bits(size_t side, size_t bits_len, purdolve_illumination_model model,
                          purdolve_channel_stats noise, outputs *out, float *window,
                          size_t window_len, uint8_t *bits) {
    report = purdolve_read_bits(side, 1, 1, XS, 2, YS, 2, 2, RAW, 6, CELL, 0, CELL, 0, RAW, 0,
                                PALETTE, 10, 0, model, noise, out->luma, 2, out->colours, 7,
                                out->chroma, 0, window, window_len, bits, bits_len, bits + 2, 0);
    return report.number;
}

static void stage(void) {
    purdolve_illumination_model model = purdolve_identity(21).model;
    purdolve_channel_stats noise = purdolve_nominal(PALETTE, 10, 1).noise;
    outputs before, out;
    memset(&before, 0x41, sizeof before);
    out = before;

    CHECK(score(0, 1, 1, 2, RAW, 6, model, noise, &out) == PURDOLVE_REFUSED_SIDE);
    CHECK(score(21, 3, 1, 2, RAW, 6, model, noise, &out) == PURDOLVE_REFUSED_HUES);
    CHECK(score(21, 1, 17, 2, RAW, 6, model, noise, &out) == PURDOLVE_REFUSED_CELL_SIZE);
    CHECK(score(21, 1, 1, 2, RAW, 5, model, noise, &out) == PURDOLVE_REFUSED_LENGTH);
    CHECK(score(21, 1, 1, 3, RAW, 6, model, noise, &out) == PURDOLVE_REFUSED_COUNT);
    CHECK(score(1, 1, 1, 2, RAW, 6, model, noise, &out) == PURDOLVE_REFUSED_PLACE);
    const float wild[6] = {0, 0, 0, 1, NAN, 1};
    CHECK(score(21, 1, 1, 2, wild, 6, model, noise, &out) == PURDOLVE_REFUSED_NUMBER);
    purdolve_channel_stats fine = noise;
    fine.sigma_l = 0.5f;
    CHECK(score(21, 1, 1, 2, RAW, 6, model, fine, &out) == PURDOLVE_REFUSED_SIGMA);
    purdolve_illumination_model bad = model;
    bad.flare_b[3] = NAN;
    CHECK(score(21, 1, 1, 2, RAW, 6, bad, noise, &out) == PURDOLVE_REFUSED_MODEL);
    bad = model;
    bad.affine_g[1] = 1e7;
    CHECK(score(21, 1, 1, 2, RAW, 6, bad, noise, &out) == PURDOLVE_REFUSED_CORRECTED);
    CHECK(memcmp(&out, &before, sizeof out) == 0 && report.held_modules == 0);

    bad = model;
    bad.gain_r[0] = 0.5; /* the gain is 0.024 at the first module and 0.071 at the second */
    bad.gain_r[1] = 0.5;
    CHECK(score(21, 1, 1, 2, RAW, 6, bad, noise, &out) == 0);
    CHECK(report.held_modules == 1 && report.held_cells == 0);
    CHECK(score(21, 1, 1, 2, RAW, 6, model, noise, &out) == 0 && report.held_modules == 0);
    CHECK(bits_of(out.luma[0]) == 0x41A00000 && bits_of(out.luma[1]) == 0xC1A00000);
    CHECK(out.luma[2] == before.luma[2] && out.colours[6] == before.colours[6]);
    CHECK(out.colours[0] == 0 && out.colours[3] == 1 && out.chroma[0] == before.chroma[0]);

    static float window[33 * 33 + 1];
    window[33 * 33] = 9;
    window[0] = 9;
    CHECK(purdolve_add_local_luma(out.luma, 3, 21, 1, XS, 2, YS, 2, 2, out.colours, 7, PALETTE, 10,
                                  noise, window, 33 * 33 - 1) == PURDOLVE_REFUSED_LENGTH);
    CHECK(window[0] == 9);
    CHECK(purdolve_add_local_luma(out.luma, 3, 21, 1, XS, 2, YS, 2, 2, out.colours, 7, PALETTE, 10,
                                  noise, window, 33 * 33 + 1) == 0);
    CHECK(window[0] == 0 && window[33 * 33] == 9 && out.luma[0] == 20);

    CHECK(purdolve_unmask_luma(out.luma, 3, 21, XS, 2, YS, 2, 3, 0) == PURDOLVE_REFUSED_COUNT);
    CHECK(purdolve_unmask_luma(out.luma, 3, 21, XS, 2, YS, 2, 2, 0) == 0);
    CHECK(out.luma[0] == -20 && out.luma[1] == -20);
    uint8_t bits[3] = {7, 7, 7};
    CHECK(purdolve_read_list(out.luma, 2, bits, 1) == PURDOLVE_REFUSED_LENGTH && bits[0] == 7);
    CHECK(purdolve_read_list(out.luma, 2, bits, 3) == 0);
    CHECK(bits[0] == 1 && bits[1] == 1 && bits[2] == 7);

    outputs scored = out;
    CHECK(read_bits(0, 2, model, noise, &out, window, 33 * 33, bits) == PURDOLVE_REFUSED_SIDE);
    CHECK(memcmp(&out, &scored, sizeof out) == 0 && bits[0] == 1);
    /* Refused by refinement: scoring has written. */
    bits[0] = bits[1] = 7;
    CHECK(read_bits(21, 2, model, noise, &out, window, 33 * 33 - 1, bits) ==
          PURDOLVE_REFUSED_LENGTH);
    CHECK(out.luma[0] == 20 && out.luma[1] == -20 && bits[0] == 7);
    CHECK(read_bits(21, 1, model, noise, &out, window, 33 * 33, bits) == PURDOLVE_REFUSED_LENGTH);
    CHECK(out.luma[0] == -20 && out.luma[1] == -20 && bits[0] == 7);
    CHECK(read_bits(21, 2, model, noise, &out, window, 33 * 33, bits) == 0);
    CHECK(bits[0] == 1 && bits[1] == 1 && bits[2] == 7 && window[0] == 0);
    CHECK(report.held_modules == 0 && report.held_cells == 0);
    CHECK(out.luma[0] == -20 && out.luma[2] == before.luma[2] && out.colours[3] == 1);

    uint8_t levels[3] = {7, 7, 7};
    size_t drawn[1] = {7};
    CHECK(purdolve_draw(bits, 2, 21, 1, 1, XS, 2, YS, 2, 2, CELL, 0, CELL, 0, 0, levels, 1, drawn,
                        1) == PURDOLVE_REFUSED_LENGTH);
    CHECK(levels[0] == 7);
    CHECK(purdolve_draw(bits, 2, 21, 1, 1, XS, 2, YS, 2, 2, CELL, 0, CELL, 0, 0, levels, 3, drawn,
                        1) == 0);
    CHECK(levels[0] == 0 && levels[1] == 1 && levels[2] == 7 && drawn[0] == 7);
}

static uint32_t page(size_t side, size_t terms, uint32_t kept, uint32_t rejected, size_t held,
                     size_t grid, const float *luma, uint8_t *out, size_t out_len) {
    static const int32_t xs[] = {0, 1, 2, -6, 9, 1}, ys[] = {0, 2, 1, 0, 9, 2};
    return purdolve_page(side, terms, kept, rejected, held, xs, 6, ys, 6, grid, luma, 6, out,
                         out_len);
}

static void door(void) {
#define BLANK "                       "
    static const char wanted[] = "         4         9     16384        12   1048576\n"
                                 "1..." BLANK BLANK "\n"
                                 "..0." BLANK BLANK "\n"
                                 ".2.." BLANK BLANK "\n"
                                 "...." BLANK BLANK "\n";
    const float luma[6] = {-20, 20, 20, 1, 1, NAN};
    static uint8_t out[PURDOLVE_PAGE_LENGTH(1024)];
    memset(out, 7, sizeof out);
    CHECK(PURDOLVE_PAGE_LENGTH(4) == sizeof wanted - 1);
    CHECK(PURDOLVE_PAGE_LENGTH(40) == PURDOLVE_PAGE_ROOM);
    CHECK(page(0, 9, 0, 0, 0, 1, luma, out, 300) == PURDOLVE_REFUSED_SIDE);
    CHECK(page(4, 9, 0, 0, 0, 1, luma, out, 254) == PURDOLVE_REFUSED_LENGTH);
    CHECK(page(4, 9, 0, 0, 0, 7, luma, out, 300) == PURDOLVE_REFUSED_COUNT);
    CHECK(page(4, 9, 16385, 0, 0, 1, luma, out, 300) == PURDOLVE_REFUSED_COUNT);
    CHECK(page(4, 9, 0, 16385, 0, 6, luma, out, 300) == PURDOLVE_REFUSED_COUNT);
    CHECK(page(4, 9, 0, 0, 1048577, 6, luma, out, 300) == PURDOLVE_REFUSED_COUNT);
    CHECK(page(4, 5, 0, 0, 0, 4, luma, out, 300) == PURDOLVE_REFUSED_PLACE);
    CHECK(page(41, 5, 0, 0, 0, 1, luma, out, 2142) == PURDOLVE_REFUSED_MODEL);
    CHECK(page(41, 9, 0, 0, 0, 1, luma, out, 2141) == PURDOLVE_REFUSED_LENGTH);
    CHECK(page(41, 9, 0, 0, 0, 1, luma, out, 2142) == PURDOLVE_REFUSED_PAGE);
    CHECK(page(1024, 9, 0, 0, 0, 1, luma, out, sizeof out) == PURDOLVE_REFUSED_PAGE);
    size_t untouched = 0;
    while (untouched < sizeof out && out[untouched] == 7) {
        untouched++;
    }
    CHECK(untouched == sizeof out);
    CHECK(page(4, 9, 16384, 12, 1048576, 1, luma, out, 300) == 0);
    CHECK(memcmp(out, wanted, sizeof wanted - 1) == 0);
    CHECK(out[sizeof wanted - 1] == 7 && out[299] == 7);
    CHECK(page(40, 4, 0, 0, 0, 1, luma, out, PURDOLVE_PAGE_ROOM) == 0 && out[2090] == '\n');
    CHECK(out[2091] == 7);
}

static bool same_totals(purdolve_totals t, uint64_t cards, uint64_t modules, uint64_t undecided,
                        uint64_t under, uint64_t sum) {
    return t.cards == cards && t.modules == modules && t.undecided == undecided &&
           t.under == under && t.sum == sum;
}

static void totals(void) {
    static float many[1048577];
    float luma[5] = {0.0f, -12.0f, 11.0f, 2.5f / 65536, 20.0f}, bad[2] = {1.0f, 20.000002f};
    purdolve_totals none = purdolve_empty_totals(), t, full = {65535, 0, 0, 0, 0};
    CHECK(same_totals(none, 0, 0, 0, 0, 0));
    purdolve_totals_answer a = purdolve_add_card(none, luma, 5);
    CHECK(a.number == 0 && same_totals(a.totals, 1, 5, 1, 3, 43 * 65536 + 2));
    t = a.totals;
    a = purdolve_add_card(t, bad, 2);
    CHECK(a.number == PURDOLVE_REFUSED_SCORE && same_totals(a.totals, 0, 0, 0, 0, 0));
    bad[1] = NAN;
    CHECK(purdolve_add_card(t, bad, 2).number == PURDOLVE_REFUSED_SCORE);
    CHECK(purdolve_add_card(full, bad, 2).number == PURDOLVE_REFUSED_TOTALS);
    CHECK(purdolve_add_card(full, many, 1048577).number == PURDOLVE_REFUSED_COUNT);
    a = purdolve_add_card(none, many, 1048576);
    CHECK(a.number == 0 && same_totals(a.totals, 1, 1048576, 1048576, 1048576, 0));
    CHECK(purdolve_add_card(t, bad, 0).totals.cards == 2);

    a = purdolve_add_totals(t, a.totals);
    CHECK(a.number == 0 && same_totals(a.totals, 2, 1048581, 1048577, 1048579, 43 * 65536 + 2));
    CHECK(purdolve_add_totals(full, none).number == 0);
    CHECK(purdolve_add_totals(full, t).number == PURDOLVE_REFUSED_TOTALS);
    t.under = 6;
    CHECK(purdolve_add_totals(none, t).number == PURDOLVE_REFUSED_TOTALS);

    purdolve_totals six = {1, 6, 0, 6, 3};
    purdolve_ratio_answer m = purdolve_mean(six);
    CHECK(m.number == 0 && m.ratio.numerator == 1 && m.ratio.denominator == 2);
    m = purdolve_mean(none);
    CHECK(m.number == 0 && m.ratio.numerator == 0 && m.ratio.denominator == 1);
    m = purdolve_mean(t);
    CHECK(m.number == PURDOLVE_REFUSED_TOTALS && m.ratio.numerator == 0 &&
          m.ratio.denominator == 0);
}

int main(void) {
    floats();
    systems();
    orders();
    colours();
    symbols();
    rotations();
    figures();
    counts();
    models();
    marks();
    no_finite_fit();
    near_module();
    near_many();
    records();
    card_file();
    stage();
    door();
    totals();
    printf("%d checks, %d failed\n", checked, failed);
    return failed != 0;
}
