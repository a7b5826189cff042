#include "team.h"

int main() {
    team red(3);
    int sum = 40;
    sum += red.points(2);
    return sum != 47;
}
