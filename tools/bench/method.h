// Our method in plain C++, function by function as the crates have it and under their names: what g++ -O2 makes of it is what Rattle's compiler is
// measured against. So an array begins as zeros where the crates' does, and what they test is tested here too.
#pragma once
#include <cstddef>
#include <cstdint>
#include <optional>

namespace plain {
// A line or a ring by its columns.
struct Columns {
    size_t nodes, channels, count;
    const size_t *limits, *a, *b, *profit;
};
struct LinePlan {
    size_t earned, number, entries[256], prices[64];
};
struct RingPlan {
    size_t cut;
    LinePlan plan;
};

// method.cpp
namespace planrow {
void plan_row(size_t cells, size_t count, const size_t *lo, const size_t *hi, const int64_t *cost, bool *kept, size_t *room, int64_t *dist);
}
// order.cpp
namespace order {
// The requests of a row by their columns.
struct Requests {
    size_t count;
    const size_t *lo, *hi, *profit;
};
// The least and the greatest of the profits.
struct Extremes {
    size_t least, greatest;

    size_t apart() const { return greatest < least ? 0 : greatest - least; }
};
// guess.cpp
namespace guess {
// The greatest worth, and the prices' ceiling, where it can be compared with what an order brings.
struct Guess {
    size_t top;
    std::optional<size_t> ceiling;
};
std::optional<Guess> weigh(size_t cells, const size_t *limits, const Requests &requests, const Extremes &profits, size_t *worths);
}
void ordered(size_t cells, size_t count, const size_t *limits, const size_t *lo, const size_t *hi, const size_t *profit, size_t *order, size_t *place);
}
// line.cpp, with crates/plan_channels
namespace line {
size_t best_earnings(const Columns &cols, const size_t *place, size_t *prices);
LinePlan plan_line(const Columns &cols);
}
// ceiling.cpp
namespace ceiling {
size_t ceiling_of(const Columns &cols, const size_t *prices);
}
// ring.cpp, with crates/plan_turn
namespace ring {
RingPlan plan_ring(const Columns &cols);
}
// plain.cpp: crates/desk, on a book that is not at fault; the answer is packed as ours is.
uint64_t plan(const uint8_t *book, size_t book_len, uint8_t *entries, uint8_t *prices);
}  // namespace plain
