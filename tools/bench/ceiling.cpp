// crates/work_ceiling in plain C++: the ceiling of prices on a line.
#include "method.h"

namespace plain::ceiling {
namespace {
// The sum over spans of limit × price. On the way toll[v] becomes what the spans below node v cost together.
size_t rent(size_t spans, const size_t *limits, const size_t *prices, size_t *toll)
{
    size_t sum = 0, rented = 0;
    toll[0] = 0;
    for (size_t s = 0; s < spans; s++) {
        sum += prices[s];
        rented += limits[s] * prices[s];
        toll[s + 1] = sum;
    }
    return rented;
}

// The sum of prices on the spans between two nodes.
size_t fare_of(size_t a, size_t b, const size_t *toll) { return a < b ? toll[b] - toll[a] : toll[a] - toll[b]; }

size_t gain(size_t profit, size_t cost) { return profit < cost ? 0 : profit - cost; }

// What all requests have above the prices they cross.
size_t surplus(const Columns &cols, const size_t *toll)
{
    size_t sum = 0;
    for (size_t i = 0; i < cols.count; i++) sum += gain(cols.profit[i], fare_of(cols.a[i], cols.b[i], toll));
    return sum;
}
}  // namespace

size_t ceiling_of(const Columns &cols, const size_t *prices)
{
    size_t toll[64] = {};
    size_t rented = rent(cols.nodes - 1, cols.limits, prices, toll);
    return rented + surplus(cols, toll);
}
}  // namespace plain::ceiling
