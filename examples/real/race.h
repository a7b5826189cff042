/* What the two sources of the example share. */
struct lap {
    int number;
    double seconds;
};

double fastest(const struct lap *laps, int count);
