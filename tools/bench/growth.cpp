#include "growth.h"

#include <cstdio>

#include "contest.h"

// One thing that grows, the others staying at their greatest (channels: 8, where a limit binds most).
struct Sweep {
    const char *name;
    bool ring;
    int Kind::*what;
    std::vector<int> sizes;
};

static Kind greatest(bool ring)
{
    Kind kind;
    kind.ring = ring, kind.limits = "uniform";
    return kind;
}

static Table grow(const Sweep &sweep, const Pace &pace)
{
    Contest contest{sweep.name, {}, sweep.ring ? 1u : 8u, false, pace};
    for (int size : sweep.sizes) {
        Kind kind = greatest(sweep.ring);
        kind.*sweep.what = size;
        contest.families.push_back({std::to_string(size), [kind](int copy) { return made(kind, 90000 + copy); }});
    }
    return hold(contest);
}

// How many times as long the greatest size takes as half of it.
static double factor(const std::vector<int> &sizes, const std::vector<double> &times)
{
    for (size_t i = 0; i < times.size(); i++)
        if (2 * sizes[i] == sizes.back()) return times.back() / times[i];
    return 0;
}

bool report_growth(const Pace &pace)
{
    const Sweep sweeps[] = {
        {"requests", false, &Kind::requests, {16, 32, 64, 96, 128, 160, 192, 224, 256}},
        {"nodes", false, &Kind::nodes, {4, 8, 16, 24, 32, 40, 48, 56, 64}},
        {"channels", false, &Kind::channels, {1, 2, 4, 8, 16, 24, 32, 48, 64, 80, 96}},
        {"ring-nodes", true, &Kind::nodes, {4, 8, 16, 24, 32, 40, 48, 56, 64}},
    };
    bool agreed = true;
    printf("\nGrowth: us a book; mixed intervals, limits all k, profits random; 256 requests, 64 nodes, 8 channels but for what grows\n");
    for (const Sweep &sweep : sweeps) {
        Table t = grow(sweep, pace);
        std::vector<double> ours = t.column("ours"), plain = t.column("plain C++"), lemon = better_lemon(t, false);
        FILE *out = fopen((std::string("target/bench/growth-") + sweep.name + ".dat").c_str(), "w");
        printf("  %-12s %9s %9s %9s\n", sweep.name, "ours", "plain C++", "LEMON");
        for (size_t i = 0; i < ours.size(); i++) {
            double peer = lemon.empty() ? 0 : 1e6 * lemon[i];
            printf("  %12d %9.1f %9.1f %9.1f\n", sweep.sizes[i], 1e6 * ours[i], 1e6 * plain[i], peer);
            if (out) fprintf(out, "%d %.2f %.2f %.2f\n", sweep.sizes[i], 1e6 * ours[i], 1e6 * plain[i], peer);
        }
        if (out) fclose(out);
        printf("  %12s %8.2fx %8.2fx %8.2fx\n", "half to all", factor(sweep.sizes, ours), factor(sweep.sizes, plain), factor(sweep.sizes, lemon));
        agreed = agreed && t.agreed;
    }
    fflush(stdout);
    return agreed;
}
