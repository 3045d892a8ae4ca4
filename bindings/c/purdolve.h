/*
 * The colour stage of a settings-card reader: from the raw colours of a card's modules to scores
 * and bits. docs/MAKERS.md says what is promised and on what premises.
 *
 * RULES OF EVERY CALL
 *
 * Slices. A slice is a pointer and the number of elements behind it. The pointer is never NULL and
 * is aligned for its type, also where the number is 0 (any object's address does). A slice that is
 * written overlaps no other slice of the same call. A slice may be longer than the call needs; what
 * lies beyond is neither read nor written. "needs n" below means: at least n elements.
 *
 * Refusals. A call that breaks a limit answers the number of the first sentence that holds, in the
 * order of enum purdolve_refusal, and has then written nothing; only PURDOLVE_REFUSED_FIT leaves
 * the scratch all zero, and purdolve_read_bits, which makes five calls, what those before the
 * refused one wrote. Number 0 is acceptance. Each sentence is asked of everything that the call
 * takes before the next one. "refused:" below lists the numbers that a call can answer; a call
 * without such a line refuses nothing. The values beside a number other than 0 are zeros.
 *
 * Floats. Every float may be handed to every call, NaN and infinities too: where one is not
 * accepted it is refused. Which NaN stands where a NaN is due is left open. The processor must
 * round to nearest and keep subnormals (the state in which a process starts).
 *
 * bool takes 0 and 1 only. Nothing is allocated, kept between calls, locked or printed; calls may
 * run at the same time on memory of their own. For x86-64 with the System V calling convention.
 */
#ifndef PURDOLVE_H
#define PURDOLVE_H

#include <stdbool.h>
#include <stddef.h>
#include <stdint.h>

#ifdef __cplusplus
#define PURDOLVE_ASSERT(test) static_assert(test, #test)
extern "C" {
#else
#define PURDOLVE_ASSERT(test) _Static_assert(test, #test)
#endif

/* ---- Refusals ---------------------------------------------------------------------------- */

/* made from docs/refusals.txt by bindings/refusals */
enum purdolve_refusal {
    PURDOLVE_ACCEPTED = 0,
    /* The card file exceeds 16,384 bytes, has a side above 64 or breaks its layout (`readcard`
       only). */
    PURDOLVE_REFUSED_CARD_FILE = 1,
    /* The side is 0 or above 1,024. */
    PURDOLVE_REFUSED_SIDE = 2,
    /* The hue count is not 1, 2, 4, 8 or 16. */
    PURDOLVE_REFUSED_HUES = 3,
    /* The chroma cell size is 0 or above 16. */
    PURDOLVE_REFUSED_CELL_SIZE = 4,
    /* A lent slice is shorter than its length, or two slices that run in pairs differ in length. */
    PURDOLVE_REFUSED_LENGTH = 5,
    /* There are more than 16,384 references, more than 1,048,576 modules or cells, more grid
       modules than modules, or a matrix size or term count outside 1 to 18. */
    PURDOLVE_REFUSED_COUNT = 6,
    /* A reference position is not a number from -16 to side + 16, a grid module is outside 0 to
       side - 1, a ring module is outside -6 to side + 5, or a cell coordinate is above 1,023. */
    PURDOLVE_REFUSED_PLACE = 7,
    /* A colour, palette number or score given to refinement is not finite or has magnitude above
       1,048,576, or a noise figure is not finite or above 2^40 in magnitude; `fit` refuses
       reference colours only where they are not finite. */
    PURDOLVE_REFUSED_NUMBER = 8,
    /* `sigma_l` or `sigma_ab` is below 0.75, or a level's sigma is neither 0 nor at least 0.75. */
    PURDOLVE_REFUSED_SIGMA = 9,
    /* A model's terms are neither 4 nor 9, its side is not a whole number from 1 to 1,024, or one
       of its numbers is not finite. */
    PURDOLVE_REFUSED_MODEL = 10,
    /* After a pass of `fit`, a number of the model or a reference's residual is not finite. */
    PURDOLVE_REFUSED_FIT = 11,
    /* A corrected colour of a module, cell or measured reference is not finite or has magnitude
       above 1,048,576. */
    PURDOLVE_REFUSED_CORRECTED = 12,
    /* The side is above 40 where a page is laid out. */
    PURDOLVE_REFUSED_PAGE = 14,
    /* The radius within which references are asked for is negative or not finite. */
    PURDOLVE_REFUSED_RADIUS = 15,
    /* Totals have more than 65,535 cards, or would have with what is added, more than 1,048,576
       modules a card, a count above their modules, or a sum above 1,310,720 a module. */
    PURDOLVE_REFUSED_TOTALS = 18,
    /* A score that is added to totals is NaN or above 20 in magnitude. */
    PURDOLVE_REFUSED_SCORE = 19
};
/* end of docs/refusals.txt */

/* ---- Records ----------------------------------------------------------------------------- */

/* An encoded sRGB colour. */
typedef struct {
    uint8_t r, g, b;
} purdolve_srgb8;

/* Linear light, nominally from 0 to 1. */
typedef struct {
    float r, g, b;
} purdolve_linear;

/* CIE XYZ under D65, Y of white being 1. */
typedef struct {
    float x, y, z;
} purdolve_xyz;

/* CIELAB under D65. */
typedef struct {
    float l, a, b;
} purdolve_lab;

/* A known colour: where it is, what was seen, and what was printed. */
typedef struct {
    float x, y;
    purdolve_linear observed, nominal;
} purdolve_reference;

/*
 * An illumination model: what purdolve_fit_flat found, and what purdolve_correct undoes.
 * Coefficients beyond `terms` do not count. A fit's kept is 0, or kept + rejected is all.
 */
typedef struct {
    double affine_r[4], affine_g[4], affine_b[4]; /* nominal = row . (r, g, b, 1) */
    double gain_r[9], gain_g[9], gain_b[9];       /* gain surface of each channel */
    double flare_r[9], flare_g[9], flare_b[9];    /* flare surface of each channel */
    size_t terms;                                 /* 4 (bilinear) or 9 (biquadratic) */
    float side;                                   /* the card's side */
    float residual_rms;                           /* of the references kept, linear light */
    uint32_t rejected;                            /* references that the fit set aside */
    uint32_t kept;                                /* references that it rests on */
} purdolve_illumination_model;

/* The channel's noise, measured from references or nominal. */
typedef struct {
    float l0, l1;                        /* observed L of the dark and of the light level */
    float sigma_l;                       /* luma noise, in L */
    float sigma_ab;                      /* chroma noise of both levels, in the plane of a and b */
    float sigma_ab_dark, sigma_ab_light; /* of each level; 0 where not measured */
    uint32_t samples;                    /* references that the record rests on */
} purdolve_channel_stats;

/* Answers: a refusal's number, 0 where the call is accepted, and the value. */
typedef struct {
    uint32_t number;
    bool solved; /* false: there is no solution, which is no refusal */
} purdolve_solve_answer;

typedef struct {
    uint32_t number;
    size_t value;
} purdolve_number_answer;

typedef struct {
    uint32_t number;
    bool yes;
} purdolve_flag_answer;

typedef struct {
    uint32_t number;
    float value;
} purdolve_float_answer;

/*
 * A corrected colour, and a mark a channel: whether the gain of the model at the position was under
 * 0.05 in magnitude, and so was held at 0.05.
 */
typedef struct {
    uint32_t number;
    purdolve_linear colour;
    bool held_r, held_g, held_b;
} purdolve_linear_answer;

typedef struct {
    uint32_t number;
    purdolve_illumination_model model;
} purdolve_modelled;

typedef struct {
    uint32_t number;
    purdolve_channel_stats noise;
} purdolve_noise_answer;

typedef struct {
    uint32_t number;
    purdolve_channel_stats noise;
    size_t held; /* references that have a mark; 0 under 8 references, of which none is corrected */
} purdolve_measure_answer;

/* A module or a cell with two or three marks counts one. */
typedef struct {
    uint32_t number;
    size_t held_modules; /* modules that have a mark, ring modules among them */
    size_t held_cells;   /* cells that have one; 0 with chroma off, where none is corrected */
} purdolve_score_answer;

/* What a batch of cards adds up to. */
typedef struct {
    uint64_t cards;
    uint64_t modules;
    uint64_t undecided; /* modules whose score reads as 2 */
    uint64_t under;     /* modules whose score's magnitude is under 12 */
    uint64_t sum;       /* of the magnitudes, each in whole 65,536ths */
} purdolve_totals;

typedef struct {
    uint64_t numerator, denominator;
} purdolve_ratio;

typedef struct {
    uint32_t number;
    purdolve_totals totals;
} purdolve_totals_answer;

typedef struct {
    uint32_t number;
    purdolve_ratio ratio;
} purdolve_ratio_answer;

/* The library was built for these sizes. */
PURDOLVE_ASSERT(sizeof(size_t) == 8 && sizeof(bool) == 1);
PURDOLVE_ASSERT(sizeof(float) == 4 && sizeof(double) == 8);
PURDOLVE_ASSERT(sizeof(purdolve_srgb8) == 3);
PURDOLVE_ASSERT(sizeof(purdolve_linear) == 12);
PURDOLVE_ASSERT(sizeof(purdolve_xyz) == 12);
PURDOLVE_ASSERT(sizeof(purdolve_lab) == 12);
PURDOLVE_ASSERT(sizeof(purdolve_reference) == 32);
PURDOLVE_ASSERT(sizeof(purdolve_illumination_model) == 552);
PURDOLVE_ASSERT(offsetof(purdolve_illumination_model, terms) == 528);
PURDOLVE_ASSERT(offsetof(purdolve_illumination_model, kept) == 548);
PURDOLVE_ASSERT(sizeof(purdolve_channel_stats) == 28);
PURDOLVE_ASSERT(sizeof(purdolve_solve_answer) == 8);
PURDOLVE_ASSERT(sizeof(purdolve_number_answer) == 16);
PURDOLVE_ASSERT(sizeof(purdolve_flag_answer) == 8);
PURDOLVE_ASSERT(sizeof(purdolve_float_answer) == 8);
PURDOLVE_ASSERT(sizeof(purdolve_linear_answer) == 20);
PURDOLVE_ASSERT(offsetof(purdolve_linear_answer, held_r) == 16);
PURDOLVE_ASSERT(sizeof(purdolve_modelled) == 560);
PURDOLVE_ASSERT(offsetof(purdolve_modelled, model) == 8);
PURDOLVE_ASSERT(sizeof(purdolve_noise_answer) == 32);
PURDOLVE_ASSERT(sizeof(purdolve_measure_answer) == 40);
PURDOLVE_ASSERT(offsetof(purdolve_measure_answer, held) == 32);
PURDOLVE_ASSERT(sizeof(purdolve_score_answer) == 24);
PURDOLVE_ASSERT(offsetof(purdolve_score_answer, held_modules) == 8);
PURDOLVE_ASSERT(sizeof(purdolve_totals) == 40);
PURDOLVE_ASSERT(sizeof(purdolve_ratio) == 16);
PURDOLVE_ASSERT(sizeof(purdolve_totals_answer) == 48);
PURDOLVE_ASSERT(sizeof(purdolve_ratio_answer) == 24);

/* ---- The stage, in the order in which a card goes through it ----------------------------- */

/*
 * What the calls share:
 *
 *   flat     references, eight floats each: x, y, observed r, g, b, nominal r, g, b. Its length is
 *            a multiple of 8. A position is in modules; (0.5, 0.5) is the centre of module (0, 0).
 *   side     modules along an edge of the card's grid.
 *   hues     1, 2, 4, 8 or 16. Chroma is on when it is above 1.
 *   palette  needs 2 + 8 * hues: L of the dark and of the light level; a and b of each hue; then
 *            Lab of each colour, the dark ones by hue and then the light ones.
 *   xs, ys   module positions, two slices of one length, the number of modules. The first `grid`
 *            modules lie on the grid, the others in the ring around it.
 *   cxs, cys chroma cells, two slices of one length; cell (cx, cy) covers size by size modules.
 *   bits     log2(hues) a symbol. Symbols stand one a cell and then, where the cell size is 1, one
 *            a ring module; their number times log2(hues) is the number of chroma scores.
 */

/*
 * Fits the illumination to references, in two passes with rejection. Below version 10 the surfaces
 * have 4 terms, from 10 on 9. With fewer than 8 references, or where the equations of the first
 * pass have no solution, the model corrects nothing and has kept 0.
 * kept needs a byte a reference and gets 1 for one that was kept and 0 for any other; where the
 * model's kept is 0, all are 0.
 * scratch needs 4 * references and is zero to that length afterwards, also after refusal 11.
 * refused: 2, 5, 6, 7, 8 (only where a colour is not finite), 11
 */
purdolve_modelled purdolve_fit_flat(const float *flat, size_t flat_len, size_t side,
                                    uint8_t version, uint8_t *kept, size_t kept_len, float *scratch,
                                    size_t scratch_len);

/*
 * Which of the kept references stand near the module at (x, y), from -6 to side + 5: the three
 * nearest to its centre (all, if fewer); all within a radius of it, those at the radius too; all
 * that a column cuts off, its centre lying at or between the reference's x and the x of the
 * module's centre. xy has two floats a reference and kept a byte, 0 for one that was not kept.
 * Writes the places of the references in their list, from 0, the nearest first and of equal
 * distances the earlier one; the value is how many. out needs a place a reference, and beyond the
 * value it stays as it was.
 * refused: 2, 5, 6, 7 (any reference, kept or not, the module, the column), 15
 */
purdolve_number_answer purdolve_nearest(const float *xy, size_t xy_len, const uint8_t *kept,
                                        size_t kept_len, size_t side, int32_t x, int32_t y,
                                        uint32_t *out, size_t out_len);
purdolve_number_answer purdolve_within(const float *xy, size_t xy_len, const uint8_t *kept,
                                       size_t kept_len, size_t side, int32_t x, int32_t y,
                                       float radius, uint32_t *out, size_t out_len);
purdolve_number_answer purdolve_cut_off(const float *xy, size_t xy_len, const uint8_t *kept,
                                        size_t kept_len, size_t side, int32_t x, int32_t y,
                                        int32_t column, uint32_t *out, size_t out_len);

/* The model that corrects nothing, with 4 terms. refused: 2 */
purdolve_modelled purdolve_identity(size_t side);

/*
 * A colour observed at (x, y), as it would be under even light, with the channels' marks. The
 * position is any float, and the answer may be any colour; the marks do not depend on the colour.
 * The model is lent part by part, so that none of it is copied: each row of the affine part points
 * to 4 doubles, each gain and each flare to 9.
 * refused: 8, 10
 */
purdolve_linear_answer purdolve_correct_lent(size_t terms, float side, float residual_rms,
                                             const double *affine_r, const double *affine_g,
                                             const double *affine_b, const double *gain_r,
                                             const double *gain_g, const double *gain_b,
                                             const double *flare_r, const double *flare_g,
                                             const double *flare_b, float x, float y,
                                             purdolve_linear colour);

/* The same of a model that is in one place. refused: 8, 10 */
static inline purdolve_linear_answer purdolve_correct(const purdolve_illumination_model *model,
                                                      float x, float y, purdolve_linear colour) {
    return purdolve_correct_lent(model->terms, model->side, model->residual_rms, model->affine_r,
                                 model->affine_g, model->affine_b, model->gain_r, model->gain_g,
                                 model->gain_b, model->flare_r, model->flare_g, model->flare_b, x,
                                 y, colour);
}

/*
 * Measures the noise record from references that the model corrects, and counts those that have a
 * mark. With fewer than 8, or fewer than 3 of a level, the record is purdolve_nominal's.
 * scratch needs 4 * references and is zero to that length afterwards.
 * refused: 2, 3, 5, 6, 7, 8, 10, 12
 */
purdolve_measure_answer purdolve_measure_flat(const float *flat, size_t flat_len, size_t side,
                                              purdolve_illumination_model model,
                                              const float *palette, size_t palette_len,
                                              size_t hues, float *scratch, size_t scratch_len);

/* The record to fall back on: the palette's levels, sigmas 6, samples 0. refused: 3, 5, 8 */
purdolve_noise_answer purdolve_nominal(const float *palette, size_t palette_len, size_t hues);

/*
 * The margin check: whether, with this noise, this palette's levels and hues lie far enough apart
 * for the read guarantee.
 * refused: 3, 5, 8, 9
 */
purdolve_flag_answer purdolve_margin(purdolve_channel_stats noise, const float *palette,
                                     size_t palette_len, size_t hues);

/*
 * The margin check at one of its settings: at 9 where nine is true, else at 13, as purdolve_margin. At
 * 9 the read guarantee asks besides that no score is a NaN after purdolve_add_local_luma.
 * refused: 3, 5, 8, 9
 */
purdolve_flag_answer purdolve_margin_at(bool nine, purdolve_channel_stats noise,
                                        const float *palette, size_t palette_len, size_t hues);

/*
 * How a palette divides the colours: of the 32,768 sRGB colours whose three bytes are multiples of 8,
 * how many fall to each level and hue with this noise. The level comes from the sign of
 * purdolve_luma_llr, the hue from the highest of purdolve_hue_log_likelihoods, the lowest on
 * equality. Writes the dark ones by hue, the light ones by hue, and those whose luma score is zero or
 * NaN: out needs 2 * hues + 1, which is 3 with chroma off, and these add up to 32,768.
 * refused: 3, 5, 8, 9
 */
uint32_t purdolve_colour_counts(purdolve_channel_stats noise, const float *palette,
                                size_t palette_len, size_t hues, uint32_t *out, size_t out_len);

/*
 * Scores a card from its raw colours. raw needs 3 * modules, craw 3 * cells. Writes to luma a score
 * for each module (needs modules; positive for dark, from -20 to 20), to colours the corrected
 * colour of each (needs 3 * modules), and to chroma log2(hues) scores for each symbol (needs the
 * number of chroma scores). With chroma off chroma is not written, and cells are not corrected.
 * Answers how many modules and how many cells have a mark.
 * refused: 2, 3, 4, 5, 6, 7, 8, 9, 10, 12
 */
purdolve_score_answer
purdolve_score(size_t side, size_t hues, size_t size, const int32_t *xs, size_t xs_len,
               const int32_t *ys, size_t ys_len, size_t grid, const float *raw, size_t raw_len,
               const uint16_t *cxs, size_t cxs_len, const uint16_t *cys, size_t cys_len,
               const float *craw, size_t craw_len, const float *palette, size_t palette_len,
               purdolve_illumination_model model, purdolve_channel_stats noise, float *luma,
               size_t luma_len, float *colours, size_t colours_len, float *chroma,
               size_t chroma_len);

/*
 * Refines luma scores (needs modules) by what the corrected colours around each module show;
 * colours needs 3 * modules. A score of magnitude 12 or more stays.
 * scratch needs (side + 12) * (side + 12) and is zero to that length afterwards.
 * refused: 2, 3, 5, 6, 7, 8, 9
 */
uint32_t purdolve_add_local_luma(float *luma, size_t luma_len, size_t side, size_t hues,
                                 const int32_t *xs, size_t xs_len, const int32_t *ys, size_t ys_len,
                                 size_t grid, const float *colours, size_t colours_len,
                                 const float *palette, size_t palette_len,
                                 purdolve_channel_stats noise, float *scratch, size_t scratch_len);

/*
 * Turns the sign of the score of each grid module whose bit luma mask `mask` turned, of which the
 * low three bits count. Ring modules keep theirs. luma needs modules.
 * refused: 2, 5, 6, 7
 */
uint32_t purdolve_unmask_luma(float *luma, size_t luma_len, size_t side, const int32_t *xs,
                              size_t xs_len, const int32_t *ys, size_t ys_len, size_t grid,
                              uint8_t mask);

/*
 * The bit that a score stands for: 1 below zero, 0 above it, and 2, an erasure for the error
 * corrector, for either zero and for NaN. 2 is no bit to draw: purdolve_draw takes it for 1.
 */
uint8_t purdolve_read(float score);

/* The bit of each score, or 2. bits needs scores. refused: 5 */
uint32_t purdolve_read_list(const float *scores, size_t scores_len, uint8_t *bits, size_t bits_len);

/*
 * Lays a read card out as a page of text, from its unmasked luma scores (needs modules). Line one
 * gives the side, a model's terms, how many references it kept and rejected, and how many modules
 * have a mark (held), each right-aligned in ten columns. Below it stands every row of the grid, y
 * from 0 down, one column a module: 0, 1 or 2 as purdolve_read reads its score, or a dot where no
 * listed module stands; of several modules at one position the last shows. Each line is padded to 50
 * columns and ends in one line feed. Nothing ends the text but its length,
 * PURDOLVE_PAGE_LENGTH(side), which page needs; PURDOLVE_PAGE_ROOM bytes are room for every page.
 * terms, kept and rejected as purdolve_fit_flat gives them, and held_modules of purdolve_score, are
 * never refused.
 * refused: 2, 5, 6 (kept or rejected above 16,384 or held above 1,048,576 too), 7, 10 (terms), 14
 */
#define PURDOLVE_PAGE_LENGTH(side) (51 * ((size_t)(side) + 1))
#define PURDOLVE_PAGE_ROOM 2091
uint32_t purdolve_page(size_t side, size_t terms, uint32_t kept, uint32_t rejected, size_t held,
                       const int32_t *xs, size_t xs_len, const int32_t *ys, size_t ys_len,
                       size_t grid, const float *luma, size_t luma_len, uint8_t *page,
                       size_t page_len);

/*
 * Reads a card from its raw colours in one call: makes the calls purdolve_score,
 * purdolve_add_local_luma, purdolve_unmask_luma and purdolve_read_list, of the luma scores and then
 * of the chroma scores, each on what the one before it left. This is the call of the read guarantee
 * (docs/MAKERS.md): inside the margin, with each corrected colour within half a sigma of its drawn
 * colour, the bits read are the bits drawn.
 * raw, craw, luma, colours, chroma and scratch need what they need there; luma is left refined and
 * unmasked. bits needs luma_len and symbols chroma_len, a bit for every score that is lent: lend
 * luma of as many scores as there are modules, and with chroma off chroma of length 0. Then bits
 * has a bit a module, and symbols those of the symbols, in the order of purdolve_draw; each may be 2,
 * an erasure (purdolve_read).
 * The number is that of the first of the five calls that is refused, and the memory is as that call
 * left it; where none is, the answer is scoring's. After an accepted scoring only 5 can come, for
 * scratch, bits or symbols too short; the scores are written then.
 * refused: 2, 3, 4, 5, 6, 7, 8, 9, 10, 12
 */
purdolve_score_answer
purdolve_read_bits(size_t side, size_t hues, size_t size, const int32_t *xs, size_t xs_len,
                   const int32_t *ys, size_t ys_len, size_t grid, const float *raw, size_t raw_len,
                   const uint16_t *cxs, size_t cxs_len, const uint16_t *cys, size_t cys_len,
                   const float *craw, size_t craw_len, const float *palette, size_t palette_len,
                   uint8_t mask, purdolve_illumination_model model, purdolve_channel_stats noise,
                   float *luma, size_t luma_len, float *colours, size_t colours_len, float *chroma,
                   size_t chroma_len, float *scratch, size_t scratch_len, uint8_t *bits,
                   size_t bits_len, uint8_t *symbols, size_t symbols_len);

/* ---- References as records, and a whole card file ---------------------------------------- */

/*
 * As purdolve_fit_flat and purdolve_measure_flat, of references as records. They copy the records,
 * for which they take 512 KiB of stack; the flat forms do not. A record is eight floats without
 * padding, so the same array serves as flat references too.
 * refused: as the flat forms
 */
purdolve_modelled purdolve_fit(const purdolve_reference *refs, size_t refs_len, size_t side,
                               uint8_t version, uint8_t *kept, size_t kept_len, float *scratch,
                               size_t scratch_len);
purdolve_measure_answer purdolve_measure(const purdolve_reference *refs, size_t refs_len,
                                         size_t side, purdolve_illumination_model model,
                                         const float *palette, size_t palette_len, size_t hues,
                                         float *scratch, size_t scratch_len);

/*
 * Reads a card file: fits, measures, scores, refines, unmasks and reads. Writes the listing, or the
 * line "refused N", N being 1 or the number of the first call refused, to the front of out, and
 * answers the text's length. What has no room in out is left out; PURDOLVE_LISTING_ROOM bytes are
 * room for every file.
 */
#define PURDOLVE_LISTING_ROOM 101047
size_t purdolve_read_card(const uint8_t *file, size_t file_len, uint8_t *out, size_t out_len);

/* ---- Totals over a season's cards -------------------------------------------------------- */

/* The totals of no card, all zero. */
purdolve_totals purdolve_empty_totals(void);

/*
 * A card added to totals, by its refined luma scores, one a module: what purdolve_add_local_luma
 * left. Unmasking makes no difference, since only magnitudes count. luma is read whole: its length is
 * the card's number of modules.
 * refused: 6, 18, 19
 */
purdolve_totals_answer purdolve_add_card(purdolve_totals totals, const float *luma,
                                         size_t luma_len);

/* The totals of two batches added. refused: 18 */
purdolve_totals_answer purdolve_add_totals(purdolve_totals a, purdolve_totals b);

/*
 * The mean magnitude of a score in 65,536ths: sum over modules, as two whole numbers without common
 * factor, and 0 over 1 with no modules.
 * refused: 18
 */
purdolve_ratio_answer purdolve_mean(purdolve_totals totals);

/* ---- Drawing, masks and Gray code -------------------------------------------------------- */

/*
 * Draws a card from its bits, a byte each, other than 0 being 1: one for each module, then those of
 * the symbols, high bit first. Writes the level of each module, 1 for light (levels needs modules),
 * and, with chroma on, the hue of each symbol (drawn needs symbols).
 * refused: 2, 3, 4, 5, 6, 7
 */
uint32_t purdolve_draw(const uint8_t *bits, size_t bits_len, size_t side, size_t hues, size_t size,
                       const int32_t *xs, size_t xs_len, const int32_t *ys, size_t ys_len,
                       size_t grid, const uint16_t *cxs, size_t cxs_len, const uint16_t *cys,
                       size_t cys_len, uint8_t mask, uint8_t *levels, size_t levels_len,
                       size_t *drawn, size_t drawn_len);

/* The level of a grid module, 1 for light: its bit, turned where the mask turns it. */
uint8_t purdolve_grid_level(uint8_t bit, uint8_t mask, uint16_t x, uint16_t y);

/* The level of a ring module, 1 for light: its bit. */
uint8_t purdolve_ring_level(uint8_t bit);

/* The symbol of the first log2(hues) bits, high bit first. refused: 3, 5 */
purdolve_number_answer purdolve_symbol_of_bits(const uint8_t *bits, size_t bits_len, size_t hues);

/* The hue in which cell (cx, cy) is drawn for its symbol. refused: 3, 7 */
purdolve_number_answer purdolve_cell_hue(size_t symbol, uint16_t cx, uint16_t cy, size_t hues);

/* The hue in which a ring module is drawn for its symbol. refused: 3 */
purdolve_number_answer purdolve_ring_hue(size_t symbol, size_t hues);

/* Whether luma mask `id`, of which the low three bits count, turns the bit of module (x, y). */
bool purdolve_luma_mask(uint8_t id, uint16_t x, uint16_t y);

/* By how many hues cell (cx, cy) is rotated: (cx + cy) mod hues. refused: 3, 7 */
purdolve_number_answer purdolve_chroma_rotation(uint16_t cx, uint16_t cy, size_t hues);

/* The hue rotated as cell (cx, cy) is. The hue's remainder by hues counts. refused: 3, 7 */
purdolve_number_answer purdolve_chroma_mask_apply(size_t hue, uint16_t cx, uint16_t cy,
                                                  size_t hues);

/* The hue rotated back. refused: 3, 7 */
purdolve_number_answer purdolve_chroma_mask_remove(size_t hue, uint16_t cx, uint16_t cy,
                                                   size_t hues);

/*
 * The bit scores of one symbol from the log-likelihoods of its hues, positive for 0: of the cell
 * (cx, cy), or, where `masked` is false, of a ring module, for which cx and cy do not count. ll
 * needs hues and holds any floats; out needs log2(hues).
 * refused: 3, 5, 7
 */
uint32_t purdolve_chroma_bit_llrs(const float *ll, size_t ll_len, bool masked, uint16_t cx,
                                  uint16_t cy, size_t hues, float *out, size_t out_len);

/* The reflected binary code of n, and the number whose code is g. */
size_t purdolve_gray(size_t n);
size_t purdolve_gray_inverse(size_t g);

/* The hue of a symbol, and the symbol of a hue; the remainder by hues counts. refused: 3 */
purdolve_number_answer purdolve_chroma_symbol_to_hue(size_t symbol, size_t hues);
purdolve_number_answer purdolve_hue_to_chroma_symbol(size_t hue, size_t hues);

/* ---- The noise record's figures ---------------------------------------------------------- */

/* Chroma noise at lightness l, any float. refused: 8, 9 */
purdolve_float_answer purdolve_sigma_ab_at(purdolve_channel_stats noise, float l);

/* Log-likelihood ratio of lightness l, any float: positive for dark; -20 to 20, or NaN where l is
   NaN. refused: 8, 9 */
purdolve_float_answer purdolve_luma_llr(purdolve_channel_stats noise, float l);

/* How much to believe a sample, any floats: a number from 0 to 1. refused: 3, 5, 8, 9 */
purdolve_float_answer purdolve_reliability(purdolve_channel_stats noise, purdolve_lab sample,
                                           const float *palette, size_t palette_len, size_t hues);

/*
 * The log-likelihood of each hue for a sample, any floats, up to a constant that all share. out
 * needs hues.
 * refused: 3, 5, 8, 9
 */
uint32_t purdolve_hue_log_likelihoods(purdolve_channel_stats noise, purdolve_lab sample,
                                      const float *palette, size_t palette_len, size_t hues,
                                      float *out, size_t out_len);

/* ---- Colours ----------------------------------------------------------------------------- */

/* 0xRRGGBB to a colour, of which the low 24 bits count, and back. */
purdolve_srgb8 purdolve_from_hex(uint32_t hex);
uint32_t purdolve_to_hex(purdolve_srgb8 c);

/* Rec. 709 luma of the encoded values, from 0 to 255. */
float purdolve_rec709_luma(purdolve_srgb8 c);

/* The linear light of an sRGB byte and of an sRGB colour: the floats nearest IEC 61966-2-1. */
float purdolve_srgb_to_linear(uint8_t v);
purdolve_linear purdolve_srgb8_to_linear(purdolve_srgb8 c);

/* Conversions between linear sRGB, XYZ and CIELAB. A linear answer may lie outside the gamut. */
purdolve_lab purdolve_srgb8_to_lab(purdolve_srgb8 c);
purdolve_xyz purdolve_linear_to_xyz(purdolve_linear c);
purdolve_linear purdolve_xyz_to_linear(purdolve_xyz c);
purdolve_lab purdolve_xyz_to_lab(purdolve_xyz c);
purdolve_xyz purdolve_lab_to_xyz(purdolve_lab c);
purdolve_lab purdolve_linear_to_lab(purdolve_linear c);
purdolve_linear purdolve_lab_to_linear(purdolve_lab c);

/* Each component held to the range from 0 to 1; a NaN is left. */
purdolve_linear purdolve_clamped(purdolve_linear c);

/* Whether each component is from 0 to 1, give or take 1e-4. */
bool purdolve_in_gamut(purdolve_linear c);

/* Relative luminance. */
float purdolve_luminance(purdolve_linear c);

/* Chroma, and the distance of two colours in the plane of a and b. */
float purdolve_chroma(purdolve_lab c);
float purdolve_ab_distance(purdolve_lab c, purdolve_lab other);

/* How many colours a palette has, 2 * hues, and whether it has none, which is false. refused: 3 */
purdolve_number_answer purdolve_palette_len(size_t hues);
purdolve_flag_answer purdolve_palette_is_empty(size_t hues);

/* The place of a colour in the palette; the hue's remainder by hues counts. refused: 3 */
purdolve_number_answer purdolve_palette_index(bool light, size_t hue, size_t hues);

/* ---- Linear systems and order statistics ------------------------------------------------- */

/*
 * Solves the n by n system a x = b by elimination with row exchanges. a needs n * n, row by row, b
 * and x need n. a and b are left as elimination leaves them, x holds the solution where there is
 * one and is else untouched.
 * refused: 5, 6
 */
purdolve_solve_answer purdolve_solve(double *a, size_t a_len, double *b, size_t b_len, double *x,
                                     size_t x_len, size_t n);

/*
 * The x for which each row of `terms` numbers, times x, comes nearest its target in the sum of
 * squares. rows needs terms * targets, x needs terms and is untouched where there is no solution,
 * as with fewer rows than terms.
 * refused: 5, 6
 */
purdolve_solve_answer purdolve_least_squares(const double *rows, size_t rows_len,
                                             const double *targets, size_t targets_len,
                                             size_t terms, double *x, size_t x_len);

/*
 * The same row by row. ata points to 324 doubles, used to terms * terms; atb, row and x need
 * terms. Start from zeros, add each row, and finish, which leaves ata and atb as elimination does.
 * refused: 5, 6
 */
uint32_t purdolve_add_row(double *ata, double *atb, size_t atb_len, const double *row,
                          size_t row_len, double target, size_t terms);
purdolve_solve_answer purdolve_finish(double *ata, double *atb, size_t atb_len, double *x,
                                      size_t x_len, size_t terms);

/* The median, 0 where there are no values. The values are left in another order. */
float purdolve_median(float *values, size_t values_len);

/*
 * The median absolute deviation, scaled to estimate a standard deviation.
 * scratch needs 2 * values and is zero to that length afterwards.
 * refused: 5
 */
purdolve_float_answer purdolve_mad_sigma(const float *values, size_t values_len, float *scratch,
                                         size_t scratch_len);

/* ---- Floats ------------------------------------------------------------------------------ */

/* Magnitude. */
float purdolve_abs(float x);
double purdolve_abs_f64(double x);

/* b where a < b (for min: b < a) or a is NaN, else a. */
float purdolve_max(float a, float b);
float purdolve_min(float a, float b);

/* x held to the range from lo to hi; a NaN is left. */
float purdolve_clamp(float x, float lo, float hi);

/* The same value as a double, and a double rounded to the nearest float, ties to even. */
double purdolve_widen(float x);
float purdolve_narrow(double x);

/* Square and cube root: the nearest float. A square root below zero is NaN. */
float purdolve_sqrt(float x);
float purdolve_cbrt(float x);

#undef PURDOLVE_ASSERT
#ifdef __cplusplus
}
#endif
#endif
