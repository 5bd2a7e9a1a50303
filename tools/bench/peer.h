// What every peer is: a way to build a model of a row, and a model that can be run as often as wanted.
#pragma once
#include <memory>
#include <string>
#include <vector>

#include "book.h"

struct Model {
    virtual ~Model() = default;
    // Plans the row anew and answers what it earns.
    virtual long long run() = 0;
};

struct Peer {
    std::string name;
    std::unique_ptr<Model> (*build)(const Row &);
};

// Each of them is empty where its package is not installed. The first are the two models that the goals name.
std::vector<Peer> lemon_simplex();
std::vector<Peer> lemon_scaling();
std::vector<Peer> glpk_simplex();
