// ./bench: the same books planned by our library and by peers, in one run.
#include <cstdio>
#include <cstdlib>
#include <cstring>

#include "count.h"
#include "growth.h"
#include "peer.h"
#include "report.h"
#include "seek.h"
#include "stack.h"

static void name_peers()
{
    puts(lemon_simplex().empty() ? "LEMON: not installed (liblemon-dev), skipped" : "LEMON: installed");
    puts(glpk_simplex().empty() ? "GLPK: not installed (libglpk-dev), skipped" : "GLPK: installed");
}

static std::vector<Family> every(size_t nth, const std::vector<Family> &families)
{
    std::vector<Family> out;
    for (size_t i = 0; i < families.size(); i += nth) out.push_back(families[i]);
    return out;
}

// Whether all earnings agreed.
static bool contests(bool quick)
{
    Contest lines{"Lines", line_families(), 8, !quick, quick ? Pace{0.0005, 0.02, 2} : Pace{0.001, 0.02, 4}};
    Contest rings{"Rings", every(quick ? 5 : 1, ring_families()), 1, !quick, quick ? Pace{0.001, 0.05, 2} : Pace{0.001, 0.02, 3}};
    Table on_line = hold(lines), on_ring = hold(rings);
    report(on_line), report(on_ring), report_desk(on_line, on_ring), report_stack(), report_goals(on_line, on_ring);
    write_families(on_line, "target/bench/lines.txt"), write_families(on_ring, "target/bench/rings.txt");
    return on_line.agreed && on_ring.agreed;
}

int main(int argc, char **argv)
{
    const char *what = argc > 1 ? argv[1] : "all";
    if (!strcmp(what, "count")) return count();
    if (!strcmp(what, "seek")) return seek(argc > 2 ? atof(argv[2]) : 60);
    bool quick = !strcmp(what, "quick");
    name_peers();
    bool agreed = contests(quick);
    if (!quick) agreed = report_growth({0.001, 0.05, 6}) && agreed;
    return agreed ? 0 : 1;
}
