#include "families.h"

#include <algorithm>

#include "dice.h"

static int length_of(const Kind &kind, Dice &dice)
{
    int longest = kind.ring ? kind.nodes / 2 : kind.nodes - 1;
    if (kind.intervals == "short") return dice.between(1, std::min(4, longest));
    if (kind.intervals == "long") return dice.between((longest + 1) / 2, longest);
    return dice.between(1, longest);
}

static int limit_of(const Kind &kind, Dice &dice)
{
    int k = kind.channels;
    if (kind.limits == "uniform") return k;
    if (kind.limits == "tight") return dice.between(1, std::max(2, k / 8));
    if (kind.limits == "zero") return dice.between(0, 7) == 0 ? 0 : dice.between(k / 2, k);
    return dice.between(0, k);
}

static int profit_of(const Kind &kind, int length, Dice &dice)
{
    if (kind.profits == "equal") return 5000;
    if (kind.profits == "near") return dice.between(999000, 1000000);
    if (kind.profits == "length") return 15000 * length;
    return dice.between(1, 1000000);
}

Book made(const Kind &kind, uint64_t seed)
{
    Dice dice(seed);
    Book book;
    int n = kind.nodes;
    book.ring = kind.ring, book.nodes = n, book.channels = kind.channels;
    for (int j = 0; j < (kind.ring ? n : n - 1); j++) book.limits.push_back(limit_of(kind, dice));
    for (int i = 0; i < kind.requests; i++) {
        int length = length_of(kind, dice);
        int a = kind.ring ? dice.between(0, n - 1) : dice.between(0, n - 1 - length);
        int b = (a + length) % n;
        if (dice.between(0, 1)) std::swap(a, b);
        book.requests.push_back({a, b, profit_of(kind, length, dice)});
    }
    return book;
}

static std::vector<Family> all_kinds(bool ring, std::vector<int> channels, std::vector<std::string> limits, std::vector<std::string> profits)
{
    std::vector<Family> out;
    for (int k : channels)
        for (const char *intervals : {"short", "long", "mixed"})
            for (const std::string &limit : limits)
                for (const std::string &profit : profits) {
                    Kind kind{ring, 64, 256, k, intervals, limit, profit};
                    uint64_t seed = 1000 * out.size() + (ring ? 1000000 : 0);
                    std::string name = std::string(ring ? "ring " : "line ") + "k=" + std::to_string(k) + " " + intervals + ", limits " + limit + ", profits " + profit;
                    out.push_back({name, [=](int copy) { return made(kind, seed + copy); }});
                }
    return out;
}

std::vector<Family> line_kinds() { return all_kinds(false, {4, 8, 40, 96}, {"uniform", "random", "tight", "zero"}, {"random", "equal", "near", "length"}); }
std::vector<Family> ring_families() { return all_kinds(true, {4, 8, 40, 96}, {"uniform", "random", "tight"}, {"random", "equal"}); }

std::vector<Family> line_families()
{
    std::vector<Family> out = line_kinds();
    for (const Family &f : hard_families()) out.push_back(f);
    for (const Family &f : found_families()) out.push_back(f);
    return out;
}
