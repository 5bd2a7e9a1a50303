// Books for all contestants: the bytes of document 01 for our library, and rows of intervals for the peers.
#pragma once
#include <cstdint>
#include <string>
#include <vector>

struct Request {
    int a, b, profit;
};

struct Book {
    bool ring = false;
    int nodes = 0, channels = 0;
    std::vector<int> limits;
    std::vector<Request> requests;
};

// Cells with limits and intervals over the cells lo to hi - 1: a line, or the line that a cut leaves of a ring.
struct Row {
    int cells = 0, channels = 0;
    std::vector<int> limits;
    std::vector<int> lo, hi, profit;
};

std::vector<uint8_t> bytes_of(const Book &book);
Row row_of(const Book &line);
Row row_of(const Book &ring, int cut);
