// The contests on lines and on rings: ours against the peers, family by family.
#pragma once
#include <string>
#include <vector>

#include "families.h"
#include "race.h"

// The seconds of every runner on every family.
struct Table {
    std::string title;
    size_t books = 0;
    std::vector<std::string> runners, families;
    std::vector<std::vector<double>> seconds;  // by family, then by runner
    bool agreed = true;

    // One runner's column, or empty where it did not run.
    std::vector<double> column(const std::string &runner) const;
};

struct Contest {
    std::string title;
    std::vector<Family> families;
    size_t books;  // of each family
    bool all_peers;
    Pace pace;
};

Table hold(const Contest &contest);

// By family, the least of the columns of the two models that the goals name; `built` has the building of the model counted in.
std::vector<double> better_lemon(const Table &table, bool built);
// Empty where one of them is: it did not run.
std::vector<double> ratios(const std::vector<double> &ours, const std::vector<double> &theirs);
