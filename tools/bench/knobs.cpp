#include "knobs.h"

#include <algorithm>

#include "dice.h"

// Channels: one of four; limits and lengths by low and high; shapes, places and orders by number; sums of money as powers of 2, drift with a sign.
const Knobs greatest_knobs = {3, 95, 95, 3, 62, 62, 3, 6, 19, 14, 19, 24};

static int power(int x) { return x == 0 ? 0 : 1 << (x - 1); }

static int limit_at(const Knobs &n, int k, int j, Dice &dice)
{
    int low = std::min(k, std::min(n[LimitLow], n[LimitHigh])), high = std::min(k, std::max(n[LimitLow], n[LimitHigh]));
    if (n[LimitShape] == 0) return high;
    if (n[LimitShape] == 1) return dice.between(low, high);
    if (n[LimitShape] == 2) return j % 2 ? low : high;
    return low + (high - low) * std::abs(j - 31) / 31;  // a valley
}

static int start_at(const Knobs &n, int i, int length, Dice &dice)
{
    int room = 63 - length;
    if (n[Place] == 0) return dice.between(0, room);
    if (n[Place] == 1) return room / 2;                        // nested
    if (n[Place] == 2) return i % (room + 1);                  // a staircase
    return dice.between(0, 1) ? dice.between(0, room / 4) : room - dice.between(0, room / 4);  // at either end
}

static bool comes_before(int order, const Request &x, const Request &y)
{
    switch (order) {
    case 1: return x.a < y.a;
    case 2: return x.b > y.b;
    case 3: return x.b - x.a < y.b - y.a;
    case 4: return x.b - x.a > y.b - y.a;
    case 5: return x.profit < y.profit;
    case 6: return x.profit > y.profit;
    default: return false;
    }
}

Book turned(const Knobs &n, uint64_t seed)
{
    static const int channels[] = {4, 8, 40, 96};
    Dice dice(seed);
    Book book;
    book.nodes = 64, book.channels = channels[n[Channels]];
    for (int j = 0; j < 63; j++) book.limits.push_back(limit_at(n, book.channels, j, dice));
    int low = 1 + std::min(n[LengthLow], n[LengthHigh]), high = 1 + std::max(n[LengthLow], n[LengthHigh]);
    for (int i = 0; i < 256; i++) {
        int length = dice.between(low, high), a = start_at(n, i, length, dice);
        book.requests.push_back({a, a + length, power(n[Base]) + power(n[PerLength]) * length + dice.between(0, power(n[Noise]))});
    }
    std::stable_sort(book.requests.begin(), book.requests.end(), [&n](const Request &x, const Request &y) { return comes_before(n[Order], x, y); });
    int drift = n[Drift] < 12 ? -power(12 - n[Drift]) : power(n[Drift] - 12);
    for (int i = 0; i < 256; i++) {
        int &profit = book.requests[i].profit;
        profit = std::max(1, std::min(1000000, profit + drift * (drift < 0 ? i - 255 : i)));
    }
    return book;
}

std::string text_of(const Knobs &knobs)
{
    std::string out = "{";
    for (int x : knobs) out += (out.size() > 1 ? ", " : "") + std::to_string(x);
    return out + "}";
}
