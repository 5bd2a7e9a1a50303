#include "seek.h"

#include <time.h>

#include <algorithm>
#include <cstdio>

#include "contest.h"
#include "dice.h"
#include "knobs.h"

struct Found {
    Knobs knobs;
    double ratio;
};

static double judge(const Knobs &knobs, const Pace &pace)
{
    Contest contest{"", {{text_of(knobs), [&knobs](int copy) { return turned(knobs, 60000 + copy); }}}, 4, false, pace};
    Table table = hold(contest);
    std::vector<double> r = ratios(table.column("ours"), better_lemon(table, false));
    return r.empty() ? 0 : r[0];
}

static Knobs any(Dice &dice)
{
    Knobs knobs;
    for (int i = 0; i < KnobCount; i++) knobs[i] = dice.between(0, greatest_knobs[i]);
    return knobs;
}

// One to three knobs turned, a little or anywhere.
static Knobs changed(Knobs knobs, Dice &dice)
{
    for (int n = dice.between(1, 3); n > 0; n--) {
        int i = dice.between(0, KnobCount - 1), top = greatest_knobs[i], step = std::max(1, top / 10);
        knobs[i] = dice.between(0, 1) ? dice.between(0, top) : std::max(0, std::min(top, knobs[i] + dice.between(-step, step)));
    }
    return knobs;
}

// From the best of some tries, uphill as long as a step helps.
static Found climb(Dice &dice)
{
    const Pace fast{0, 1, 1};
    Found best{any(dice), 0};
    for (int tries = 0, idle = 0; idle < 60; tries++, idle++) {
        Knobs knobs = tries < 40 ? any(dice) : changed(best.knobs, dice);
        double ratio = judge(knobs, fast);
        if (ratio <= 1.01 * best.ratio) continue;
        ratio = std::min(ratio, judge(knobs, fast));  // so that a hiccup does not count
        if (ratio > 1.01 * best.ratio) best = {knobs, ratio}, idle = 0;
    }
    best.ratio = judge(best.knobs, {0.002, 1, 5});
    return best;
}

int seek(double seconds)
{
    Dice dice(4243);
    std::vector<Found> all;
    for (time_t start = time(nullptr); difftime(time(nullptr), start) < seconds;) {
        all.push_back(climb(dice));
        printf("  %6.3f %s\n", all.back().ratio, text_of(all.back().knobs).c_str());
        fflush(stdout);
    }
    std::sort(all.begin(), all.end(), [](const Found &x, const Found &y) { return x.ratio > y.ratio; });
    puts("\nworst first, as found.cpp takes them:");
    for (size_t i = 0; i < all.size() && i < 12; i++) printf("    %s,  // %.2f\n", text_of(all[i].knobs).c_str(), all[i].ratio);
    return 0;
}
