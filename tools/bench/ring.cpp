// crates/plan_ring and crates/plan_turn in plain C++.
#include "method.h"

namespace plain {
namespace turn {
namespace {
// How many spans there are from node u up to node v, passing from the last node to node 0.
size_t steps(size_t n, size_t u, size_t v) { return u <= v ? v - u : v + n - u; }

// The span at place t of the line which cut j leaves.
size_t span_at(size_t n, size_t j, size_t t)
{
    size_t s = j + 1 + t;
    return n <= s ? s - n : s;
}

void turn_ends(size_t n, size_t j, size_t count, const size_t *ends, size_t *turned)
{
    for (size_t i = 0; i < count; i++) turned[i] = steps(n, j + 1, ends[i]);
}

void turn_limits(size_t n, size_t j, const size_t *limits, size_t *turned)
{
    for (size_t t = 0; t < n - 1; t++) turned[t] = limits[span_at(n, j, t)];
}
}  // namespace
}  // namespace turn

// Prices known from the cuts planned so far, one for each span of the ring.
namespace known {
namespace {
size_t higher(size_t x, size_t y) { return x < y ? y : x; }

// The span of the ring for each place of the line which cut j leaves.
void places(size_t nodes, size_t j, size_t *place)
{
    for (size_t t = 0; t < nodes - 1; t++) place[t] = turn::span_at(nodes, j, t);
}

// The cut span, which is on no place of that line, gets the higher price of its two neighbours.
void bridge(size_t nodes, size_t j, size_t *known)
{
    size_t after = known[turn::span_at(nodes, j, 0)], before = known[turn::span_at(nodes, j, nodes - 2)];
    known[j] = higher(before, after);
}

// What the line which cut j leaves can earn. Its prices become the known ones.
size_t best_earnings(size_t j, const Columns &left, size_t *known)
{
    size_t place[128] = {};
    places(left.nodes, j, place);
    size_t earned = line::best_earnings(left, place, known);
    bridge(left.nodes, j, known);
    return earned;
}
}  // namespace
}  // namespace known

namespace ring {
namespace {
struct Turned {
    size_t limits[64] = {}, from[256] = {}, to[256] = {};
};

// The line which cut j leaves, with its columns in `turned`.
Columns leave(const Columns &cols, size_t j, Turned &turned)
{
    turn::turn_limits(cols.nodes, j, cols.limits, turned.limits);
    turn::turn_ends(cols.nodes, j, cols.count, cols.a, turned.from);
    turn::turn_ends(cols.nodes, j, cols.count, cols.b, turned.to);
    return {cols.nodes, cols.channels, cols.count, turned.limits, turned.from, turned.to, cols.profit};
}

// No less than what the line which cut j leaves can earn.
size_t cut_ceiling(size_t j, const Columns &cols, const size_t *known)
{
    Turned turned;
    size_t prices[64] = {};
    Columns left = leave(cols, j, turned);
    turn::turn_limits(cols.nodes, j, known, prices);
    return ceiling::ceiling_of(left, prices);
}

size_t cut_earnings(size_t j, const Columns &cols, size_t *known)
{
    Turned turned;
    return known::best_earnings(j, leave(cols, j, turned), known);
}

// The higher of `top` and what the line which cut j leaves can earn. Where even its ceiling is not above `top`, that line is not planned.
size_t raised(size_t top, size_t j, const Columns &cols, size_t *known)
{
    if (cut_ceiling(j, cols, known) <= top) return top;
    return known::higher(top, cut_earnings(j, cols, known));
}

// The lowest-numbered span whose line has the greatest best earnings.
size_t best_cut(const Columns &cols)
{
    size_t known[64] = {}, best = 0, top = cut_earnings(0, cols, known);
    for (size_t j = 1; j < cols.nodes; j++) {
        size_t earned = raised(top, j, cols, known);
        if (top < earned) top = earned, best = j;
    }
    return best;
}
}  // namespace

RingPlan plan_ring(const Columns &cols)
{
    Turned turned;
    size_t j = best_cut(cols);
    return {j, line::plan_line(leave(cols, j, turned))};
}
}  // namespace ring
}  // namespace plain
