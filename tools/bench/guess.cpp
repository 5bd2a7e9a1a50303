// crates/plan_guess's guess of prices in plain C++ (its files bidders, prices and guess). What could grow too large saturates there and here.
#include <algorithm>

#include "method.h"

namespace plain::order::guess {
namespace {
size_t less(size_t x, size_t y) { return x < y ? 0 : x - y; }
size_t more(size_t x, size_t y) { return x <= SIZE_MAX - y ? x + y : SIZE_MAX; }
size_t times(size_t x, size_t y)
{
    size_t product;
    return __builtin_mul_overflow(x, y, &product) ? SIZE_MAX : product;
}

// ---- bidders

struct Bidder {
    size_t lo, hi, bid;

    size_t fare(const size_t *tolls) const { return less(tolls[hi], tolls[lo]); }
};

size_t bid_of(size_t profit, size_t off) { return times(less(profit, off), 64); }

// Lays the bidders, and adds up what they bid.
size_t lay(const Requests &requests, size_t off, Bidder *bidders)
{
    size_t sum = 0;
    for (size_t i = 0; i < requests.count; i++) {
        bidders[i] = {std::min<size_t>(requests.lo[i], 63), std::min<size_t>(requests.hi[i], 63), bid_of(requests.profit[i], off)};
        sum = more(sum, bidders[i].bid);
    }
    return sum;
}

// ---- prices

struct Crossing {
    size_t begins, ends;

    // The load of the span above the node, from that of the span below.
    size_t load_after(size_t load) const { return less(more(load, begins), ends); }
};

// Where those begin and end who ask: they bid more than their spans cost.
void ask(size_t count, const Bidder *bidders, const size_t *tolls, Crossing *crossings)
{
    for (size_t i = 0; i < count; i++) {
        const Bidder &bidder = bidders[i];
        if (bidder.bid <= bidder.fare(tolls)) continue;
        crossings[bidder.lo].begins = more(crossings[bidder.lo].begins, 1);
        crossings[bidder.hi].ends = more(crossings[bidder.hi].ends, 1);
    }
}

struct Prices {
    size_t cells;
    const size_t *limits;
    size_t prices[64], rates[64], tolls[64];

    // False where fewer than eight spans are asked for by more than their limit, or one is by all.
    bool start(size_t count, const Bidder *bidders, size_t unit)
    {
        Crossing crossings[64] = {};
        ask(count, bidders, tolls, crossings);
        size_t over = 0, load = 0;
        for (size_t j = 0; j < cells; j++) {
            load = crossings[j].load_after(load);
            if (count <= load) return false;
            rates[j] = unit / more(std::max(load, limits[j]), 1);
            if (limits[j] < load) over = more(over, 1);
        }
        return 8 <= over;
    }

    // One round.
    void step(const Crossing *crossings)
    {
        size_t toll = 0, load = 0;
        for (size_t j = 0; j < cells; j++) {
            load = crossings[j].load_after(load);
            size_t by = times(load < limits[j] ? limits[j] - load : load - limits[j], rates[j]);
            prices[j] = limits[j] < load ? more(prices[j], by) : less(prices[j], by);
            rates[j] = times(rates[j], 225) / 256;
            tolls[j + 1] = toll = more(toll, prices[j]);
        }
    }

    void settle(size_t count, const Bidder *bidders)
    {
        for (size_t round = 0; round < 20; round++) {
            Crossing crossings[64] = {};
            ask(count, bidders, tolls, crossings);
            step(crossings);
        }
    }

    size_t ceiling(size_t count, const Bidder *bidders) const
    {
        size_t sum = 0;
        for (size_t j = 0; j < cells; j++) sum = more(sum, times(limits[j], prices[j]));
        for (size_t i = 0; i < count; i++) sum = more(sum, less(bidders[i].bid, bidders[i].fare(tolls)));
        return sum / 64;
    }

    // What each request has above its fare, and the greatest.
    size_t surplus_all(size_t count, const Bidder *bidders, size_t slack, size_t *worths) const
    {
        size_t top = 0;
        for (size_t i = 0; i < count; i++) {
            worths[i] = less(more(bidders[i].bid, slack), bidders[i].fare(tolls)) / 64;
            top = std::max(top, worths[i]);
        }
        return top;
    }
};

// ---- guess

size_t total(size_t cells, const size_t *limits)
{
    size_t sum = 0;
    for (size_t j = 0; j < cells; j++) sum = more(sum, limits[j]);
    return sum;
}

// About how many spans the requests ask for together: every eighth counts for eight.
size_t spans_asked(const Requests &requests)
{
    size_t sum = 0;
    for (size_t i = 0; i < requests.count; i += 8) sum = more(sum, less(requests.hi[i], requests.lo[i]));
    return times(sum, 8);
}

bool middling(size_t count, size_t asked) { return 5 * count <= asked && asked <= 40 * count; }

bool contested(size_t cells, const size_t *limits, size_t count, size_t asked)
{
    size_t room = total(cells, limits);
    if (asked <= room || room < asked / 15 || cells == 0) return false;
    size_t least = *std::min_element(limits, limits + cells);
    return 0 < least && (asked <= 16 * count || room / (4 * cells + 1) <= least);
}

size_t flat_part(const Extremes &profits)
{
    size_t apart = profits.apart();
    return apart < profits.greatest / 8 ? less(profits.least, apart / 16 + 1) : 0;
}

// Whether a ceiling can be compared with what an order brings.
bool comparable(size_t cells, const size_t *limits, size_t off) { return off == 0 && 6 * cells <= total(cells, limits); }

std::optional<Guess> at_prices(size_t cells, const size_t *limits, const Requests &requests, const Extremes &profits, size_t asked, size_t *worths)
{
    size_t off = flat_part(profits), slack = bid_of(profits.greatest, off) / 2, count = requests.count;
    Bidder bidders[256] = {};
    size_t bids = lay(requests, off, bidders);
    Prices prices = {cells, limits, {}, {}, {}};
    if (!prices.start(count, bidders, times(bids, 2) / std::max<size_t>(asked, 1))) return {};
    prices.settle(count, bidders);
    size_t top = prices.surplus_all(count, bidders, slack, worths);
    if (top == 0) return {};
    Guess guess = {top, {}};
    if (comparable(cells, limits, off)) guess.ceiling = prices.ceiling(count, bidders);
    return guess;
}
}  // namespace

std::optional<Guess> weigh(size_t cells, const size_t *limits, const Requests &requests, const Extremes &profits, size_t *worths)
{
    size_t asked = spans_asked(requests);
    bool worthwhile = profits.least != profits.greatest && middling(requests.count, asked) && contested(cells, limits, requests.count, asked);
    if (!worthwhile) return {};
    return at_prices(cells, limits, requests, profits, asked, worths);
}
}  // namespace plain::order::guess
