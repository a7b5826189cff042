/* A class with a type unit of its own, where type units are asked for. */
class driver {
  public:
    explicit driver(int number) : number(number) {}
    int points(int place) const { return place < 4 ? 10 - 2 * place + number % 2 : 0; }

  private:
    int number;
};

int points_of(int place) {
    return driver(7).points(place);
}
