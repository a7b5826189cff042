#include "team.h"

int team::points(int place) const {
    int bonus = cars % 2;
    return place < 4 ? 10 - 2 * place + bonus : 0;
}
