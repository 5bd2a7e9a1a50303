// Families of books at the limits of document 01: 64 nodes, 256 requests.
#pragma once
#include <functional>
#include <string>
#include <vector>

#include "book.h"

struct Family {
    std::string name;
    // Book number `copy` of the family: the same on every run.
    std::function<Book(int copy)> make;
};

// What a book is like.
struct Kind {
    bool ring = false;
    int nodes = 64, requests = 256, channels = 8;
    std::string intervals = "mixed", limits = "random", profits = "random";
};

Book made(const Kind &kind, uint64_t seed);

std::vector<Family> line_kinds();
std::vector<Family> hard_families();
std::vector<Family> found_families();
// All three of these.
std::vector<Family> line_families();
std::vector<Family> ring_families();
