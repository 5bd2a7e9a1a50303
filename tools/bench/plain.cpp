// A whole call in plain C++: reading, planning and writing, as crates/read_record, crates/read_book, crates/plan_book and crates/desk have them.
#include "melyonva.h"
#include "method.h"

namespace plain {
namespace {
struct Taken {
    size_t shape, nodes, channels, spans, count;
    size_t limits[64], a[256], b[256], profit[256];
};

size_t two(const uint8_t *p) { return size_t(p[0]) << 8 | p[1]; }
size_t four(const uint8_t *p) { return two(p) << 16 | two(p + 2); }
bool blank(const uint8_t *p, size_t n)
{
    while (n-- > 0)
        if (p[n] != 0) return false;
    return true;
}

// The number of the row of 01's table that is broken, or 0.
int read_book(const uint8_t *p, size_t len, Taken &t)
{
    if (len == 0 || len % 16 != 0 || 5136 < len) return 1;
    t.shape = p[1], t.nodes = two(p + 2), t.channels = two(p + 4);
    if (p[0] != 1 || t.shape < 1 || 2 < t.shape || !blank(p + 6, 10)) return 2;
    if (t.nodes < t.shape + 1 || 64 < t.nodes) return 3;
    if (t.channels < 1 || 96 < t.channels) return 4;
    t.spans = t.shape == 1 ? t.nodes - 1 : t.nodes;
    const uint8_t *end = p + len;
    for (size_t j = 0; j < t.spans; j++) {
        p += 16;
        if (p == end || p[0] != 2 || two(p + 2) != j || !blank(p + 6, 10)) return 5;
        if (p[1] != 1) return 6;
        if (t.channels < (t.limits[j] = two(p + 4))) return 7;
    }
    for (t.count = 0; (p += 16) != end; t.count++) {
        size_t i = t.count;
        if (255 < i) return 8;
        if (p[0] != 3 || p[1] != 0 || two(p + 2) != i || four(p + 12) != 0) return 9;
        t.a[i] = two(p + 4), t.b[i] = two(p + 6), t.profit[i] = four(p + 8);
        if (t.nodes <= t.a[i] || t.nodes <= t.b[i] || t.a[i] == t.b[i]) return 10;
        if (t.profit[i] == 0 || 1000000 < t.profit[i]) return 11;
    }
    return 0;
}

void put_two(uint8_t *p, size_t value) { p[0] = uint8_t(value >> 8), p[1] = uint8_t(value); }

void write_entries(size_t count, const size_t *entries, uint8_t *out)
{
    for (size_t i = 0; i < count; i++) put_two(out + 2 * i, entries[i]);
}

void write_prices(size_t count, const size_t *prices, uint8_t *out)
{
    for (size_t j = 0; j < count; j++) put_two(out + 4 * j, prices[j] >> 16), put_two(out + 4 * j + 2, prices[j]);
}

uint64_t pack(const LinePlan &plan, size_t cut) { return uint64_t(plan.earned) << 32 | plan.number << 16 | cut; }

uint64_t plan_on_line(const Columns &cols, uint8_t *entries, uint8_t *prices)
{
    LinePlan made = line::plan_line(cols);
    write_entries(cols.count, made.entries, entries);
    write_prices(cols.nodes - 1, made.prices, prices);
    return pack(made, MELYONVA_NO_CUT);
}

uint64_t plan_on_ring(const Columns &cols, uint8_t *entries)
{
    RingPlan made = ring::plan_ring(cols);
    write_entries(cols.count, made.plan.entries, entries);
    return pack(made.plan, made.cut);
}
}  // namespace

uint64_t plan(const uint8_t *book, size_t book_len, uint8_t *entries, uint8_t *prices)
{
    Taken t;
    if (int row = read_book(book, book_len, t)) return 1ull << 63 | uint64_t(row) << 32;
    Columns cols = {t.nodes, t.channels, t.count, t.limits, t.a, t.b, t.profit};
    return t.shape == 1 ? plan_on_line(cols, entries, prices) : plan_on_ring(cols, entries);
}
}  // namespace plain
