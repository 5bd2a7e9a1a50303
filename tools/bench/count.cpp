#include "count.h"

#include <algorithm>
#include <cstdio>
#include <functional>

#include "families.h"
#include "ours.h"
#include "peer.h"

// Callgrind counts inside this function alone and writes what it counted when it is left.
extern "C" __attribute__((noinline)) long long bench_counted(const std::function<long long()> &run)
{
    long long answer = run();
    asm volatile("" : "+r"(answer));  // so that the call is no tail call
    return answer;
}

static const char *const chosen[] = {
    "line k=8 mixed, limits uniform, profits random", "line k=96 mixed, limits uniform, profits near", "line k=4 short, limits tight, profits random",
    "line k=40 long, limits random, profits near",    "line k=8 long, limits zero, profits equal",     "line k=96 short, limits uniform, profits length",
    "hard k=40 nested inwards",                       "hard k=8 rising",                               "hard k=4 found 4",
    "ring k=8 mixed, limits uniform, profits random", "ring k=40 short, limits tight, profits random",
};

static void count_book(const std::string &name, const Book &book)
{
    Ours ours(book);
    printf("%s|ours\n", name.c_str()), bench_counted([&ours] { return ours.plan(); });
    printf("%s|plain C++\n", name.c_str()), bench_counted([&ours] { return ours.plain_plan(); });
    for (const Peer &peer : lemon_simplex()) {
        std::vector<std::unique_ptr<Model>> models;
        for (int cut = 0; cut < (book.ring ? book.nodes : 1); cut++) models.push_back(peer.build(book.ring ? row_of(book, cut) : row_of(book)));
        printf("%s|%s\n", name.c_str(), peer.name.c_str());
        bench_counted([&models] {
            long long best = -1;
            for (auto &m : models) best = std::max(best, m->run());
            return best;
        });
    }
}

int count()
{
    std::vector<Family> all = line_families();
    for (const Family &f : ring_families()) all.push_back(f);
    for (const char *name : chosen)
        for (const Family &f : all)
            if (f.name == name) count_book(f.name, f.make(0));
    return 0;
}
