// Dice with a fixed seed. No expression throws them twice in an order that the compiler may choose, so each run throws the same.
#pragma once

#include <cstdint>
#include <iterator>
#include <random>

class Dice {
public:
    explicit Dice(uint64_t seed) : engine(seed) {}

    uint64_t any() { return engine(); }
    uint64_t below(uint64_t n) { return engine() % n; }
    bool once_in(uint64_t n) { return below(n) == 0; }
    template <typename List> auto one_of(const List &list) { return list[below(std::size(list))]; }

private:
    std::mt19937_64 engine;
};
