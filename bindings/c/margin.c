/*
 * Checks a palette before any card is printed: whether its inks lie far enough apart for the read
 * guarantee, and up to which noise they do, at both settings of the margin check; and how it divides
 * the colours.
 */
#include "inks.h"

#include <stdio.h>

static float palette[PALETTE];

/* What the margin check says at a setting; a refusal counts as no. */
static bool in_margin(bool nine, purdolve_channel_stats noise) {
    purdolve_flag_answer margin = purdolve_margin_at(nine, noise, palette, PALETTE, HUES);
    return margin.number == PURDOLVE_ACCEPTED && margin.yes;
}

/* The largest value of one of the noise's sigmas, in steps of a quarter from 0.75, up to which it says
   yes. The sigma is left as it was. */
static float most(bool nine, purdolve_channel_stats *noise, float *sigma) {
    float was = *sigma, most = 0;
    for (*sigma = 0.75f; in_margin(nine, *noise); *sigma += 0.25f) {
        most = *sigma;
    }
    *sigma = was;
    return most;
}

/* How many colours fall to each ink at this noise, and how many to none. */
static void print_counts(purdolve_channel_stats noise) {
    uint32_t counts[COLOURS + 1] = {0};
    purdolve_colour_counts(noise, palette, PALETTE, HUES, counts, COLOURS + 1);
    printf("colours");
    for (size_t i = 0; i <= COLOURS; i++) {
        printf(" %u", (unsigned)counts[i]);
    }
    printf("\n");
}

int main(void) {
    make_palette(palette);
    for (size_t i = 0; i < COLOURS; i++) {
        const float *lab = palette + 2 + 2 * HUES + 3 * i;
        printf("%06X  L %5.1f  a %5.1f  b %5.1f\n", (unsigned)INKS[i], lab[0], lab[1], lab[2]);
    }
    purdolve_channel_stats noise = purdolve_nominal(palette, PALETTE, HUES).noise;
    for (int nine = 0; nine < 2; nine++) {
        printf("at %d, nominal noise, sigmas 6: %s\n", nine ? 9 : 13,
               in_margin(nine, noise) ? "yes" : "no");
        printf("yes up to sigma_l %.2f\n", most(nine, &noise, &noise.sigma_l));
        printf("yes up to sigma_ab %.2f\n", most(nine, &noise, &noise.sigma_ab));
    }
    print_counts(noise);
    return !in_margin(false, noise);
}
