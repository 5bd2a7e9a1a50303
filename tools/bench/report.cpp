#include "report.h"

#include <algorithm>
#include <cstdio>
#include <numeric>

static double most(const std::vector<double> &xs) { return xs.empty() ? 0 : *std::max_element(xs.begin(), xs.end()); }

static void ratio_line(const Table &table, const std::string &name, const std::vector<double> &theirs)
{
    if (theirs.empty()) return;
    std::vector<double> r = ratios(table.column("ours"), theirs);
    size_t worst = std::max_element(r.begin(), r.end()) - r.begin();
    printf("  %-34s %9.1f %9.3f %9.3f   %s\n", name.c_str(), 1e6 * median(theirs), median(r), r[worst], table.families[worst].c_str());
}

// The families whose name has this word, against the better LEMON model.
static void kind_line(const Table &table, const std::string &word)
{
    std::vector<double> r = ratios(table.column("ours"), better_lemon(table, false)), some;
    for (size_t i = 0; i < r.size(); i++)
        if (table.families[i].find(word) != std::string::npos) some.push_back(r[i]);
    if (!some.empty()) printf("  %-34s %9zu %9.3f %9.3f\n", word.c_str(), some.size(), median(some), most(some));
}

void report(const Table &table)
{
    std::vector<double> ours = table.column("ours");
    printf("\n%s: %zu families, books of each: %zu; earnings %s\n", table.title.c_str(), table.families.size(), table.books, table.agreed ? "agree on every book" : "DIFFER");
    printf("  one call of ours, from bytes to bytes: median %.1f us, longest %.1f us\n\n", 1e6 * median(ours), 1e6 * most(ours));
    printf("  %-34s %9s %9s %9s   %s\n", "ours as part of", "median us", "median", "worst", "worst family");
    ratio_line(table, "better LEMON simplex, run alone", better_lemon(table, false));
    ratio_line(table, "better LEMON simplex, with building", better_lemon(table, true));
    for (const std::string &name : table.runners)
        if (name != "ours" && name != "reading" && name != "checking") ratio_line(table, name, table.column(name));
    printf("\n  %-34s %9s %9s %9s\n", "ours / better LEMON, run alone", "families", "median", "worst");
    for (const char *word : {"k=4 ", "k=8 ", "k=40 ", "k=96 ", "short,", "long,", "mixed,", "limits uniform", "limits random", "limits tight", "limits zero", "profits random", "profits equal", "profits near", "profits length", "hard"})
        kind_line(table, word);
    fflush(stdout);
}

void write_families(const Table &table, const char *path)
{
    FILE *out = fopen(path, "w");
    if (!out) return;
    std::vector<double> r = ratios(table.column("ours"), better_lemon(table, false));
    std::vector<size_t> order(table.families.size());
    std::iota(order.begin(), order.end(), 0);
    if (!r.empty()) std::sort(order.begin(), order.end(), [&r](size_t x, size_t y) { return r[x] > r[y]; });
    fprintf(out, "microseconds a book, worst ratio to the better LEMON simplex (run alone) first\n%-56s %8s", "family", "ratio");
    for (const std::string &name : table.runners) fprintf(out, " | %s", name.c_str());
    fprintf(out, "\n");
    for (size_t i : order) {
        fprintf(out, "%-56s %8.3f", table.families[i].c_str(), r.empty() ? 0 : r[i]);
        for (double s : table.seconds[i]) fprintf(out, " %10.2f", 1e6 * s);
        fprintf(out, "\n");
    }
    fclose(out);
}

static void desk_line(const char *what, const std::vector<double> &times, const std::vector<double> &planning)
{
    std::vector<double> part = ratios(times, planning);
    printf("  %-34s %9.1f %9.1f %8.1f%% %8.1f%%\n", what, 1e6 * median(times), 1e6 * most(times), 100 * median(part), 100 * most(part));
}

void report_desk(const Table &lines, const Table &rings)
{
    std::vector<double> line = lines.column("ours"), ring = rings.column("ours");
    printf("\nFor the desk: us, and as part of planning the same book; over all families\n");
    printf("  %-34s %9s %9s %9s %9s\n", "", "median", "longest", "median", "most");
    desk_line("planning a line", line, line), desk_line("reading a line's book", lines.column("reading"), line), desk_line("checking a line's plan", lines.column("checking"), line);
    desk_line("planning a ring", ring, ring), desk_line("reading a ring's book", rings.column("reading"), ring);
    fflush(stdout);
}

static void goal(const std::string &what, double got, const char *bound, double limit, bool met)
{
    printf("  %-66s %7.3f  %s %.2f: %s\n", what.c_str(), got, bound, limit, met ? "yes" : "NO");
}
static void goal_at_most(const std::string &what, double got, double limit) { goal(what, got, "at most", limit, got <= limit); }
static void goal_below(const std::string &what, double got, double limit) { goal(what, got, "below", limit, got < limit); }

void report_goals(const Table &lines, const Table &rings)
{
    std::vector<double> line = ratios(lines.column("ours"), better_lemon(lines, false)), ring = ratios(rings.column("ours"), better_lemon(rings, false));
    printf("\nGoals\n");
    if (line.empty()) puts("  (LEMON is not installed: nothing to compare with)");
    if (!line.empty()) {
        goal_at_most("a line / better LEMON run alone, median of all families", median(line), 0.5);
        goal_at_most("a line / better LEMON run alone, worst family", most(line), 1.5);
        // the peers are given arrays, so once more without the time that reading takes
        std::vector<double> unread = lines.column("ours"), reading = lines.column("reading");
        for (size_t i = 0; i < unread.size(); i++) unread[i] -= reading[i];
        line = ratios(unread, better_lemon(lines, false));
        goal_at_most("the same without reading the book, median of all families", median(line), 0.5);
        goal_at_most("the same without reading the book, worst family", most(line), 1.5);
        goal_at_most("a ring / LEMON run once for each cut, median of all families", median(ring), 0.15);
        goal_at_most("a ring / LEMON run once for each cut, worst family", most(ring), 0.15);
    }
    for (const char *name : {"reading", "checking"}) {
        std::vector<double> part = ratios(lines.column(name), lines.column("ours"));
        std::string what = std::string(name) + " / planning a line, ";
        goal_below(what + "median of all families", median(part), 0.05);
        goal_below(what + "worst family", most(part), 0.05);
    }
    fflush(stdout);
}
