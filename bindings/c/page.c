/*
 * Prints the page of a card file for the panel door:
 *     page < CARD
 * purdolve_read_card says whether the card can be read, but its listing does not say how many
 * modules were too dark to correct. So the calls are made here too, on what the file holds: the fit,
 * the measurement, and the reading, which counts those modules and leaves the unmasked scores. Exits
 * with 1 where the card or its page is refused.
 */
#include "purdolve.h"

#include <stdio.h>
#include <string.h>

enum {
    FILE_ROOM = 16385,
    REFERENCES = FILE_ROOM / 32,
    ENTRIES = FILE_ROOM / 16, /* modules and cells together */
    SCORES = 4 * ENTRIES,
    SCRATCH = (64 + 12) * (64 + 12)
};

static uint8_t file[FILE_ROOM], listing[PURDOLVE_LISTING_ROOM], page[PURDOLVE_PAGE_ROOM];
static float palette[FILE_ROOM / 4], flat[8 * REFERENCES], raw[3 * ENTRIES], craw[3 * ENTRIES];
static int32_t xs[ENTRIES], ys[ENTRIES];
static uint16_t cxs[ENTRIES], cys[ENTRIES];
static float luma[ENTRIES], colours[3 * ENTRIES], chroma[SCORES], scratch[SCRATCH];
static uint8_t kept[REFERENCES], bits[ENTRIES], symbols[SCORES];

/* Little-endian numbers of the file. */
static uint16_t half(size_t at) {
    return (uint16_t)(file[at] + 256 * file[at + 1]);
}

static uint32_t word(size_t at) {
    return half(at) + 65536 * (uint32_t)half(at + 2);
}

/* n f32 numbers, from a place of the file on. */
static void numbers(size_t at, size_t n, float *out) {
    for (size_t i = 0; i < n; i++) {
        uint32_t pattern = word(at + 4 * i);
        memcpy(out + i, &pattern, sizeof pattern);
    }
}

/* Where section k begins, and its length: settings, palette, references, modules, cells. */
static size_t section(size_t k, size_t *length) {
    *length = word(8 * k + 4);
    return word(8 * k);
}

static size_t modules(void) {
    size_t length, at = section(3, &length);
    for (size_t i = 0; i < length / 16; i++, at += 16) {
        xs[i] = (int16_t)half(at);
        ys[i] = (int16_t)half(at + 2);
        numbers(at + 4, 3, raw + 3 * i);
    }
    return length / 16;
}

static size_t cells(void) {
    size_t length, at = section(4, &length);
    for (size_t i = 0; i < length / 16; i++, at += 16) {
        cxs[i] = half(at);
        cys[i] = half(at + 2);
        numbers(at + 4, 3, craw + 3 * i);
    }
    return length / 16;
}

/* Lays the page out. The card was read, so none of the calls before it is refused. */
static uint32_t lay_out(size_t *side) {
    size_t length, at = section(0, &length), inks, floats;
    size_t hues = file[at + 3], size = file[at + 4], grid = half(at + 6);
    uint8_t version = file[at + 2], mask = file[at + 5];
    *side = half(at);
    size_t inks_at = section(1, &inks), floats_at = section(2, &floats);
    numbers(inks_at, inks /= 4, palette);
    numbers(floats_at, floats /= 4, flat);
    size_t m = modules(), c = cells();
    purdolve_illumination_model model =
        purdolve_fit_flat(flat, floats, *side, version, kept, floats / 8, scratch, SCRATCH).model;
    purdolve_channel_stats noise =
        purdolve_measure_flat(flat, floats, *side, model, palette, inks, hues, scratch, SCRATCH)
            .noise;
    purdolve_score_answer read =
        purdolve_read_bits(*side, hues, size, xs, m, ys, m, grid, raw, 3 * m, cxs, c, cys, c, craw,
                           3 * c, palette, inks, mask, model, noise, luma, m, colours, 3 * m,
                           chroma, SCORES, scratch, SCRATCH, bits, m, symbols, SCORES);
    return purdolve_page(*side, model.terms, model.kept, model.rejected, read.held_modules, xs, m,
                         ys, m, grid, luma, m, page, PURDOLVE_PAGE_ROOM);
}

int main(void) {
    size_t file_len = fread(file, 1, FILE_ROOM, stdin), side;
    size_t text = purdolve_read_card(file, file_len, listing, PURDOLVE_LISTING_ROOM);
    if (memcmp(listing, "refused", 7) == 0) {
        fwrite(listing, 1, text, stderr);
        return 1;
    }
    uint32_t number = lay_out(&side);
    if (number != PURDOLVE_ACCEPTED) {
        fprintf(stderr, "refused %u\n", (unsigned)number);
        return 1;
    }
    fwrite(page, 1, PURDOLVE_PAGE_LENGTH(side), stdout);
    return 0;
}
