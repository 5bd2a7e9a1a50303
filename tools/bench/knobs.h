// Families by a row of small numbers, so that a search can turn them: it looks for books on which we do worst.
#pragma once
#include <array>
#include <string>

#include "book.h"

enum Knob { Channels, LimitLow, LimitHigh, LimitShape, LengthLow, LengthHigh, Place, Order, Base, PerLength, Noise, Drift, KnobCount };
using Knobs = std::array<int, KnobCount>;

// Each knob goes from 0 to its greatest.
extern const Knobs greatest_knobs;

Book turned(const Knobs &knobs, uint64_t seed);
std::string text_of(const Knobs &knobs);
