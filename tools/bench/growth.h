// How the cost of a plan grows with requests, nodes and channels: a table, and target/bench/growth-*.dat for the plot.
#pragma once
#include "race.h"

// Whether all earnings agreed.
bool report_growth(const Pace &pace);
