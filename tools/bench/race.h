// Timing several contestants on the same tasks within one run: turn and turn about, the least time of several rounds for each.
#pragma once
#include <functional>
#include <string>
#include <vector>

struct Runner {
    std::string name;
    std::function<long long(size_t task)> run;
    double least = 0;                // seconds for one task
    std::vector<long long> answers;  // of each task
};

struct Pace {
    double grain;  // least seconds of one measure
    double slow;   // a sweep that takes more seconds than this is timed once only
    int rounds;
};

// A measure is one or more sweeps over all tasks: a contestant that met the same task again and again would find its branches foretold.
void race(std::vector<Runner> &runners, size_t tasks, const Pace &pace);

double median(std::vector<double> xs);
