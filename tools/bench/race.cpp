#include "race.h"

#include <time.h>

#include <algorithm>

// This thread's own time, so that what else the machine does counts less.
static double now()
{
    timespec t;
    clock_gettime(CLOCK_THREAD_CPUTIME_ID, &t);
    return t.tv_sec + 1e-9 * t.tv_nsec;
}

// Seconds for one sweep over all tasks.
static double sweep(Runner &r, int times)
{
    double start = now();
    for (int i = 0; i < times; i++)
        for (size_t t = 0; t < r.answers.size(); t++) r.answers[t] = r.run(t);
    return (now() - start) / times;
}

void race(std::vector<Runner> &runners, size_t tasks, const Pace &pace)
{
    std::vector<int> times;
    for (Runner &r : runners) {
        r.answers.resize(tasks);
        r.least = sweep(r, 1);  // what it touches is warm then
        if (r.least < pace.slow) r.least = sweep(r, 1);
        times.push_back(r.least < pace.slow ? 1 + int(pace.grain / std::max(r.least, 1e-9)) : 0);
    }
    for (int round = 0; round < pace.rounds; round++)
        for (size_t i = 0; i < runners.size(); i++)
            if (times[i] > 0) runners[i].least = std::min(runners[i].least, sweep(runners[i], times[i]));
    for (Runner &r : runners) r.least /= std::max<size_t>(tasks, 1);
}

double median(std::vector<double> xs)
{
    if (xs.empty()) return 0;
    std::sort(xs.begin(), xs.end());
    size_t h = xs.size() / 2;
    return xs.size() % 2 ? xs[h] : (xs[h - 1] + xs[h]) / 2;
}
