#include "race.h"

int main(int count, char **words) {
    (void)words;
    struct lap laps[2] = {{1, 62.5}, {2, 61.25 + count}};
    return fastest(laps, 2) > 61.0;
}
