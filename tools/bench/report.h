// What is said of a contest.
#pragma once
#include "contest.h"

// Medians and worst of our ratio to every other runner, and to the better LEMON model by kinds of family.
void report(const Table &table);
// Planning, reading and checking, for whoever calls us.
void report_desk(const Table &lines, const Table &rings);
// Every family's times, worst ratio first, into a file.
void write_families(const Table &table, const char *path);
// What the goals ask of these tables, with yes or no.
void report_goals(const Table &lines, const Table &rings);
