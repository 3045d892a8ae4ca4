/* Eight inks, four hues at two levels, and the palette that the stage takes, made from them. */
#ifndef INKS_H
#define INKS_H

#include "purdolve.h"

enum { HUES = 4, COLOURS = 2 * HUES, PALETTE = 2 + 8 * HUES };

/* The dark inks by hue, then the light ones. */
static const uint32_t INKS[COLOURS] = {0x663E05, 0x065222, 0x0C4784, 0x7B274D,
                                       0xE2AC71, 0x81C58C, 0x95B5FE, 0xF89ABD};

/* The palette: each level's mean L, each hue's mean a and b, each ink's Lab. */
static inline void make_palette(float palette[PALETTE]) {
    float *lab = palette + 2 + 2 * HUES;
    for (size_t i = 0; i < PALETTE; i++) {
        palette[i] = 0;
    }
    for (size_t i = 0; i < COLOURS; i++) {
        purdolve_lab c = purdolve_srgb8_to_lab(purdolve_from_hex(INKS[i]));
        size_t hue = i % HUES;
        palette[i / HUES] += c.l / HUES;
        palette[2 + 2 * hue] += c.a / 2;
        palette[3 + 2 * hue] += c.b / 2;
        lab[3 * i] = c.l;
        lab[3 * i + 1] = c.a;
        lab[3 * i + 2] = c.b;
    }
}

#endif
