// Our static library, called on bytes as the desk calls it; and the plain version, called likewise.
#pragma once
#include <cstdint>
#include <vector>

#include "book.h"
#include "melyonva.h"
#include "method.h"

struct Ours {
    std::vector<uint8_t> book;
    uint8_t entries[MELYONVA_MAX_ENTRY_BYTES] = {}, prices[MELYONVA_MAX_PRICE_BYTES] = {};

    explicit Ours(const Book &b) : book(bytes_of(b)) {}
    // Plans, and answers the earnings; -1 for a refusal.
    long long plan()
    {
        uint64_t answer = melyonva_plan(book.data(), book.size(), entries, sizeof entries, prices, sizeof prices);
        return melyonva_is_refusal(answer) ? -1 : (long long)melyonva_earnings(answer);
    }
    long long plain_plan()
    {
        uint64_t answer = plain::plan(book.data(), book.size(), entries, prices);
        return melyonva_is_refusal(answer) ? -1 : (long long)melyonva_earnings(answer);
    }
    // Reads the whole book and then refuses, since there is no place for the entries.
    long long read() { return melyonva_refusal_number(melyonva_plan(book.data(), book.size(), entries, 0, prices, sizeof prices)); }
    // Checks the plan that was made last at the planner's own prices.
    long long check() { return (long long)melyonva_check(book.data(), book.size(), entries, sizeof entries, prices, sizeof prices); }
};
