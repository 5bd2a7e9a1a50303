#include "book.h"

#include <algorithm>

// The n bytes of a number, high byte first.
static void put(std::vector<uint8_t> &out, unsigned value, int n)
{
    while (n-- > 0) out.push_back(uint8_t(value >> 8 * n));
}

std::vector<uint8_t> bytes_of(const Book &book)
{
    std::vector<uint8_t> out;
    auto fill = [&out] { out.resize((out.size() + 15) / 16 * 16); };
    put(out, 1, 1), put(out, book.ring ? 2 : 1, 1), put(out, book.nodes, 2), put(out, book.channels, 2), fill();
    for (size_t j = 0; j < book.limits.size(); j++) put(out, 2, 1), put(out, 1, 1), put(out, j, 2), put(out, book.limits[j], 2), fill();
    for (size_t i = 0; i < book.requests.size(); i++) {
        const Request &q = book.requests[i];
        put(out, 3, 1), put(out, 0, 1), put(out, i, 2), put(out, q.a, 2), put(out, q.b, 2), put(out, q.profit, 4), fill();
    }
    return out;
}

static void lay(Row &row, int a, int b, int profit)
{
    row.lo.push_back(std::min(a, b)), row.hi.push_back(std::max(a, b)), row.profit.push_back(profit);
}

Row row_of(const Book &line)
{
    Row row;
    row.cells = line.nodes - 1, row.channels = line.channels, row.limits = line.limits;
    for (const Request &q : line.requests) lay(row, q.a, q.b, q.profit);
    return row;
}

Row row_of(const Book &ring, int cut)
{
    Row row;
    int n = ring.nodes, first = cut + 1;
    row.cells = n - 1, row.channels = ring.channels;
    for (int t = 0; t < n - 1; t++) row.limits.push_back(ring.limits[(first + t) % n]);
    for (const Request &q : ring.requests) lay(row, (q.a + n - first % n) % n, (q.b + n - first % n) % n, q.profit);
    return row;
}
