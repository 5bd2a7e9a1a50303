// LEMON's solvers (liblemon-dev) on two flow models of a row.
#include "peer.h"

#if __has_include(<lemon/network_simplex.h>)
#include <lemon/capacity_scaling.h>
#include <lemon/network_simplex.h>
#include <lemon/smart_graph.h>

#include <algorithm>

using Graph = lemon::SmartDigraph;
using Wide = long long;

// A flow model, and what a flow of least cost has in it besides minus the earnings.
struct Network {
    Graph graph;
    Graph::NodeMap<Wide> supply{graph};
    Graph::ArcMap<Wide> room{graph}, cost{graph};
    Wide besides = 0;

    void arc(int u, int v, Wide capacity, Wide price)
    {
        Graph::Arc e = graph.addArc(graph.nodeFromId(u), graph.nodeFromId(v));
        room[e] = capacity, cost[e] = price;
    }
    explicit Network(const Row &row)
    {
        graph.reserveNode(row.cells + 1), graph.reserveArc(2 * row.cells + row.lo.size());
        for (int v = 0; v <= row.cells; v++) supply[graph.addNode()] = 0;
        for (size_t i = 0; i < row.lo.size(); i++) arc(row.lo[i], row.hi[i], 1, -row.profit[i]);
    }
    Wide &at(int v) { return supply[graph.nodeFromId(v)]; }
};

// Document 01's model: k units from the first node to the last, blocking arcs of capacity k - limit that cost more than all profits earn.
static void blocking(const Row &row, Network &net)
{
    Wide most = row.profit.empty() ? 0 : *std::max_element(row.profit.begin(), row.profit.end());
    Wide block = -(most * Wide(row.profit.size()) + 1);
    net.at(0) = row.channels, net.at(row.cells) = -row.channels;
    for (int j = 0; j < row.cells; j++) {
        Wide shut = row.channels - row.limits[j];
        net.arc(j, j + 1, row.channels, 0);
        if (shut > 0) net.arc(j, j + 1, shut, block), net.besides += shut * block;
    }
}

// The model by supplies: exactly limit units cross each cell, idle or by requests, so node j supplies what the limit rises by there. (Idle arcs
// of capacity limit are a little faster for LEMON than unbounded ones, and mean the same.)
static void supplies(const Row &row, Network &net)
{
    for (int j = 0; j < row.cells; j++) {
        net.at(j) += row.limits[j], net.at(j + 1) -= row.limits[j];
        net.arc(j, j + 1, row.limits[j], 0);
    }
}

template <class Solver, void (*shape)(const Row &, Network &)> struct LemonModel : Model {
    Network net;
    Solver solver;

    explicit LemonModel(const Row &row) : net((row)), solver((shape(row, net), net.graph))
    {
        solver.upperMap(net.room).costMap(net.cost).supplyMap(net.supply);
    }
    long long run() override
    {
        if (solver.run() != Solver::OPTIMAL) return -1;
        return net.besides - solver.template totalCost<Wide>();
    }
    static std::unique_ptr<Model> build(const Row &row) { return std::make_unique<LemonModel>(row); }
};

using Simplex = lemon::NetworkSimplex<Graph, Wide, Wide>;
using Scaling = lemon::CapacityScaling<Graph, Wide, Wide>;

std::vector<Peer> lemon_simplex()
{
    return {{"LEMON simplex, 01's model", LemonModel<Simplex, blocking>::build}, {"LEMON simplex, supplies", LemonModel<Simplex, supplies>::build}};
}
std::vector<Peer> lemon_scaling() { return {{"LEMON scaling, 01's model", LemonModel<Scaling, blocking>::build}}; }
#else
std::vector<Peer> lemon_simplex() { return {}; }
std::vector<Peer> lemon_scaling() { return {}; }
#endif
