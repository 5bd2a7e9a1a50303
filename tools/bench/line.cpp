// crates/plan_line, crates/plan_row and crates/plan_channels in plain C++.
#include "method.h"

namespace plain {
namespace channels {
namespace {
// The lowest of the channels 1 to k whose latest connection ends no later than node `from`, or k + 1.
size_t lowest_past(size_t k, const size_t *ends, size_t from)
{
    size_t c = 1;
    while (c <= k && from < ends[c]) c++;
    return c;
}

// Lists the kept ones by first node, in rising number: from the highest down, so that each comes in front of the higher ones.
void begin_lists(size_t count, const size_t *lo, const bool *kept, size_t *first, size_t *after)
{
    for (size_t e = count; 0 < e--;)
        if (kept[e]) after[e] = first[lo[e]], first[lo[e]] = e;
}

// Those kept ones that begin at node v, by number. False where no channel is left, which never happens.
bool give_from(size_t v, size_t count, size_t k, const size_t *hi, const size_t *first, const size_t *after, size_t *channel, size_t *ends)
{
    for (size_t i = first[v]; i < count; i = after[i]) {
        size_t c = lowest_past(k, ends, v);
        if (k < c) return false;
        channel[i] = c, ends[c] = hi[i];
    }
    return true;
}

void clear(size_t count, size_t *channel)
{
    for (size_t j = 0; j < count; j++) channel[j] = 0;
}

bool hand_out(size_t cells, size_t count, size_t k, const size_t *lo, const size_t *hi, const bool *kept, size_t *channel)
{
    size_t first[128], after[256] = {}, ends[128] = {};
    clear(count, channel);
    for (size_t &f : first) f = 256;  // leads to none: every number is below it
    begin_lists(count, lo, kept, first, after);
    for (size_t v = 0; v < cells; v++)
        if (!give_from(v, count, k, hi, first, after, channel, ends)) return false;
    return true;
}
}  // namespace
}  // namespace channels

namespace line {
namespace {
// The candidates of a row: each over the cells lo to hi - 1, at a cost of minus its profit.
struct Candidates {
    size_t lo[256], hi[256];
    int64_t cost[256];
};
// A row with what planning it left.
struct Solved {
    Candidates by_number;
    size_t room[128];
    bool kept[256];
    int64_t dist[128];
};

// ---- cells

void lay(const Columns &cols, Candidates &c)
{
    for (size_t i = 0; i < cols.count; i++) {
        bool up = cols.a[i] < cols.b[i];
        c.lo[i] = up ? cols.a[i] : cols.b[i], c.hi[i] = up ? cols.b[i] : cols.a[i];
        c.cost[i] = -int64_t(cols.profit[i]);
    }
}

void make_room(size_t cells, const size_t *limits, size_t *room)
{
    for (size_t j = 0; j < cells; j++) room[j] = limits[j];
}

// The candidates in the order in which they are inserted.
void arrange(size_t count, const size_t *order, const Candidates &from, Candidates &to)
{
    for (size_t i = 0; i < count; i++) {
        size_t r = order[i];
        to.lo[i] = from.lo[r], to.hi[i] = from.hi[r], to.cost[i] = from.cost[r];
    }
}

// Which requests are kept, by number.
void put_back(size_t count, const size_t *place, const bool *keeps, bool *kept)
{
    for (size_t r = 0; r < count; r++) kept[r] = keeps[place[r]];
}

void solve(const Columns &cols, Solved &s)
{
    size_t cells = cols.nodes - 1, order[256] = {}, place[256] = {};
    Candidates arranged = {};
    bool keeps[256] = {};
    lay(cols, s.by_number);
    make_room(cells, cols.limits, s.room);
    order::ordered(cols.nodes - 1, cols.count, cols.limits, s.by_number.lo, s.by_number.hi, cols.profit, order, place);
    arrange(cols.count, order, s.by_number, arranged);
    planrow::plan_row(cells, cols.count, arranged.lo, arranged.hi, arranged.cost, keeps, s.room, s.dist);
    put_back(cols.count, place, keeps, s.kept);
}

// On a line, the price of cell j goes to span j.
void places(size_t cells, size_t *place)
{
    for (size_t j = 0; j < cells; j++) place[j] = j;
}

// What the distance falls by, and no more than 1,000,000.
size_t capped(int64_t near, int64_t far)
{
    int64_t fall = near - far;
    return 1000000 <= fall ? 1000000 : size_t(fall);
}

void price(size_t cells, const int64_t *dist, const size_t *place, size_t *prices)
{
    for (size_t j = 0; j < cells; j++) prices[place[j]] = capped(dist[j], dist[j + 1]);
}

// ---- entries

size_t earned(size_t count, const bool *kept, const size_t *profit)
{
    size_t sum = 0;
    for (size_t i = 0; i < count; i++)
        if (kept[i]) sum += profit[i];
    return sum;
}

size_t number(size_t count, const bool *kept)
{
    size_t sum = 0;
    for (size_t i = 0; i < count; i++)
        if (kept[i]) sum += 1;
    return sum;
}

// Way times 256 plus channel, or 0.
void enter(const Columns &cols, const bool *kept, const size_t *channel, size_t *entries)
{
    for (size_t i = 0; i < cols.count; i++) entries[i] = kept[i] ? (cols.a[i] < cols.b[i] ? 256 : 512) + channel[i] : 0;
}
}  // namespace

size_t best_earnings(const Columns &cols, const size_t *place, size_t *prices)
{
    Solved s = {};
    solve(cols, s);
    price(cols.nodes - 1, s.dist, place, prices);
    return earned(cols.count, s.kept, cols.profit);
}

LinePlan plan_line(const Columns &cols)
{
    Solved s = {};
    LinePlan plan = {};
    size_t cells = cols.nodes - 1, channel[256] = {}, place[128] = {};
    solve(cols, s);
    if (!channels::hand_out(cells, cols.count, cols.channels, s.by_number.lo, s.by_number.hi, s.kept, channel)) return plan;
    enter(cols, s.kept, channel, plan.entries);
    places(cells, place);
    price(cells, s.dist, place, plan.prices);
    plan.earned = earned(cols.count, s.kept, cols.profit), plan.number = number(cols.count, s.kept);
    return plan;
}
}  // namespace line
}  // namespace plain
