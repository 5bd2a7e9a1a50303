// Fixed numbers that look random (a multiply-and-shift generator), the same on every machine.
#pragma once
#include <cstdint>

class Dice {
    uint64_t state;

public:
    explicit Dice(uint64_t seed) : state(seed) {}
    uint64_t roll()
    {
        uint64_t x = state += 0x9e3779b97f4a7c15u;
        x = (x ^ x >> 30) * 0xbf58476d1ce4e5b9u;
        x = (x ^ x >> 27) * 0x94d049bb133111ebu;
        return x ^ x >> 31;
    }
    // A number from least to most, both possible.
    int between(int least, int most) { return least + int(roll() % uint64_t(most - least + 1)); }
};
