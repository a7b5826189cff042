/* A class that both C++ sources use: where type units are asked for, gcc writes the same one for each source, and a package keeps it once. */
class team {
  public:
    explicit team(int cars) : cars(cars) {}
    int points(int place) const;

  private:
    int cars;
};
