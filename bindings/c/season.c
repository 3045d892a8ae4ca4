/*
 * A season's totals: reads the card files that it is given, adds each card's refined luma scores to
 * the totals, and prints them and the mean. A file that is refused, and a card with a score that is
 * NaN, is left out and counted.
 *
 *     season CARD..
 *
 * The refined score of each module stands in the listing that purdolve_read_card gives, as the eight
 * digits of "L x y score bit". A reader that makes the calls itself hands purdolve_add_card what
 * purdolve_add_local_luma left.
 */
#include "purdolve.h"

#include <stdio.h>
#include <string.h>

enum { FILE_MOST = 16384, MODULES_MOST = FILE_MOST / 16 };

static uint8_t file[FILE_MOST + 1];
static char listing[PURDOLVE_LISTING_ROOM + 1];
static float luma[MODULES_MOST];

/* Reads a card file; answers whether there is a listing, which then ends in a zero byte. */
static bool read_card(const char *path) {
    FILE *from = fopen(path, "rb");
    if (!from) {
        perror(path);
        return false;
    }
    size_t length = fread(file, 1, sizeof file, from);
    fclose(from);
    length = purdolve_read_card(file, length, (uint8_t *)listing, PURDOLVE_LISTING_ROOM);
    listing[length] = 0;
    return strncmp(listing, "refused", 7) != 0;
}

/* The scores of the listing's modules, and how many there are. */
static size_t scores(void) {
    size_t count = 0;
    for (const char *line = listing; *line; line = strchr(line, '\n') + 1) {
        int x, y;
        unsigned bits;
        if (sscanf(line, "L %d %d %8x", &x, &y, &bits) == 3 && count < MODULES_MOST) {
            uint32_t pattern = (uint32_t)bits;
            memcpy(luma + count++, &pattern, sizeof pattern);
        }
    }
    return count;
}

static void print(purdolve_totals t) {
    purdolve_ratio mean = purdolve_mean(t).ratio;
    printf("cards %llu\nmodules %llu\nundecided %llu\nunder 12 %llu\nsum %llu\nmean %llu/%llu\n",
           (unsigned long long)t.cards, (unsigned long long)t.modules,
           (unsigned long long)t.undecided, (unsigned long long)t.under, (unsigned long long)t.sum,
           (unsigned long long)mean.numerator, (unsigned long long)mean.denominator);
}

int main(int count, char **paths) {
    purdolve_totals season = purdolve_empty_totals();
    int left_out = 0;
    for (int i = 1; i < count; i++) {
        purdolve_totals_answer added = {PURDOLVE_REFUSED_CARD_FILE, season};
        if (read_card(paths[i])) {
            added = purdolve_add_card(season, luma, scores());
        }
        if (added.number == PURDOLVE_ACCEPTED) {
            season = added.totals;
        } else {
            left_out++;
        }
    }
    print(season);
    printf("left out %d\n", left_out);
    return 0;
}
