// Books made to be hard for insertion one at a time: each newcomer displaces earlier ones, searches go far, ways back are long.
#include <algorithm>

#include "dice.h"
#include "families.h"

static Book blank(int k, int limit)
{
    Book book;
    book.nodes = 64, book.channels = k, book.limits.assign(63, limit);
    return book;
}

// Profits rise with the number, so that each insertion displaces earlier ones.
static Book rising(int k, int copy)
{
    Dice dice(7000 + copy);
    Book book = blank(k, std::min(k, 8));
    for (int i = 0; i < 256; i++) {
        int a = dice.between(0, 62), b = dice.between(a + 1, 63);
        book.requests.push_back({a, b, 3000 * (i + 1) + dice.between(0, 2999)});
    }
    return book;
}

// Profits fall with the number: few changes, but many searches that end without a way.
static Book falling(int k, int copy)
{
    Book book = rising(k, copy);
    std::reverse(book.requests.begin(), book.requests.end());
    return book;
}

// Each interval within the one before, or (outward) around it; worth a little more each.
static Book nested(int k, int copy, bool outward)
{
    Dice dice(7100 + copy);
    Book book = blank(k, std::min(k, 8));
    for (int i = 0; i < 256; i++) {
        int depth = (outward ? 255 - i : i) * 31 / 255;
        book.requests.push_back({depth, 63 - depth, 3000 * (i + 1) + dice.between(0, 999)});
    }
    return book;
}

// Short ones fill the line, then long ones worth a little more than all those that they displace.
static Book long_after_short(int k, int copy)
{
    Dice dice(7200 + copy);
    Book book = blank(k, std::min(k, 3));
    for (int i = 0; i < 189; i++) book.requests.push_back({i % 63, i % 63 + 1, dice.between(9000, 11000)});
    for (int i = 189; i < 256; i++) {
        int a = dice.between(0, 15), b = dice.between(48, 63);
        book.requests.push_back({a, b, 10000 * (b - a) + 100 * (i - 189) + dice.between(0, 5000)});
    }
    return book;
}

// Intervals of one length, each a step to the right of the last, in several rounds: ways lead from end to end of the line.
static Book staircase(int k, int copy, int length)
{
    Dice dice(7300 + copy);
    Book book = blank(k, std::min(k, 3));
    int steps = 64 - length;
    for (int i = 0; i < 256; i++) book.requests.push_back({i % steps, i % steps + length, 100000 + 1000 * (i / steps) + dice.between(0, 99999)});
    return book;
}

// Profits that differ by next to nothing: the labels of a search have many different small values.
static Book near_ties(int k, int copy)
{
    Dice dice(7400 + copy);
    Book book = blank(k, std::min(k, 6));
    for (int i = 0; i < 256; i++) {
        int length = dice.between(2, 24), a = dice.between(0, 63 - length);
        book.requests.push_back({a, a + length, 15000 * length + dice.between(0, 300) + i});
    }
    return book;
}

std::vector<Family> hard_families()
{
    std::vector<Family> out;
    for (int k : {4, 8, 40, 96}) {
        std::string at = "hard k=" + std::to_string(k) + " ";
        out.push_back({at + "rising", [=](int copy) { return rising(k, copy); }});
        out.push_back({at + "falling", [=](int copy) { return falling(k, copy); }});
        out.push_back({at + "nested inwards", [=](int copy) { return nested(k, copy, false); }});
        out.push_back({at + "nested outwards", [=](int copy) { return nested(k, copy, true); }});
        out.push_back({at + "long after short", [=](int copy) { return long_after_short(k, copy); }});
        out.push_back({at + "staircase of 3", [=](int copy) { return staircase(k, copy, 3); }});
        out.push_back({at + "staircase of 20", [=](int copy) { return staircase(k, copy, 20); }});
        out.push_back({at + "near ties", [=](int copy) { return near_ties(k, copy); }});
    }
    return out;
}
