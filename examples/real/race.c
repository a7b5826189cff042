#include "race.h"

/* The shortest of some laps. */
double fastest(const struct lap *laps, int count) {
    double least = laps[0].seconds;
    for (int i = 1; i < count; i++) {
        if (laps[i].seconds < least) {
            least = laps[i].seconds;
        }
    }
    return least;
}
