// crates/plan_insert in plain C++.
#include "method.h"

namespace plain::planrow {
namespace {
using Cells = size_t[128];
using Arcs = size_t[256];

// What a search stands on, and what it leaves: made once, since no search looks at what the one before left.
struct Ground {
    size_t cells;
    const size_t *lo, *hi;
    const int64_t *cost;
    bool *kept;
    size_t *room;
    int64_t *dist;
    // the dropped candidates by their first node, the kept ones by their last, each chain by falling number
    Cells head_lo, head_hi;
    Arcs next_lo, next_hi;
};
struct Search {
    size_t most;
    Cells label, rank, by, from;
    Cells list;  // the nodes that have a label and are not settled
    size_t size;
};

// ---- arcs

// What an arc of this cost lacks to lower its far end.
size_t length_left(int64_t cost, int64_t near, int64_t far) { return size_t(cost + near - far); }

void enlist(Search &s, size_t v)
{
    if (s.size < 128) s.list[s.size++] = v;
}

// The first label puts a node on the list.
void relax(Search &s, size_t v, size_t way, size_t u, size_t arc)
{
    size_t old = s.label[v];
    if (old <= way) return;
    s.label[v] = way, s.by[v] = arc, s.from[v] = u;
    if (s.most <= old) enlist(s, v);
}

void try_arc(const Ground &g, Search &s, int64_t cost, size_t u, size_t v, size_t arc)
{
    relax(s, v, s.label[u] + length_left(cost, g.dist[u], g.dist[v]), u, arc);
}

// Up the cell above u: always open.
void rise(const Ground &g, Search &s, size_t u)
{
    if (u < g.cells) try_arc(g, s, 0, u, u + 1, 256);
}

// Down the cell below u: open where that cell has room.
void fall(const Ground &g, Search &s, size_t u)
{
    if (u != 0 && 0 < g.room[u - 1]) try_arc(g, s, 0, u, u - 1, 257);
}

// Along the candidates of one side with an end at u: the dropped ones from their first node, or back along the kept ones from their last.
void follow(const Ground &g, Search &s, bool side, const size_t *far, const size_t *head, const size_t *next, size_t u)
{
    for (size_t i = head[u]; 0 < i; i = next[i - 1]) try_arc(g, s, side ? -g.cost[i - 1] : g.cost[i - 1], u, far[i - 1], i - 1);
}

// ---- search

// Where on the list a node with the least label is: from the end, and no further than a label that is as low as any can be.
size_t nearest(const Search &s, size_t floor)
{
    size_t best = s.size - 1, least = s.label[s.list[best]];
    for (size_t i = best; 0 < i && least != floor;) {
        size_t far = s.label[s.list[--i]];
        if (far < least) best = i, least = far;
    }
    return best;
}

void start(const Ground &g, Search &s, size_t b)
{
    for (size_t v = 0; v <= g.cells; v++) s.label[v] = s.most, s.rank[v] = 0;
    s.label[b] = 0;
}

void spread(const Ground &g, Search &s, size_t u)
{
    rise(g, s, u), fall(g, s, u);
    follow(g, s, false, g.hi, g.head_lo, g.next_lo, u);
    follow(g, s, true, g.lo, g.head_hi, g.next_hi, u);
}

// A way from b to a that is shorter than s.most.
bool search(const Ground &g, Search &s, size_t a, size_t b)
{
    start(g, s, b);
    s.list[0] = b, s.size = 1;
    size_t floor = 0;  // the label of the last node settled
    for (size_t clock = 1; s.size != 0; clock++) {
        size_t i = nearest(s, floor), u = s.list[i];
        s.list[i] = s.list[--s.size];
        s.rank[u] = clock;
        if (u == a) return true;
        spread(g, s, u);
        floor = s.label[u];
    }
    return false;
}

// ---- chains

// The last link above e of a chain, from link j on.
size_t last_above(const size_t *next, size_t j, size_t e)
{
    while (e + 1 < next[j]) j = next[j] - 1;
    return j;
}

void put_in(size_t *head, size_t *next, size_t v, size_t e)
{
    size_t first = head[v];
    if (first <= e) {
        next[e] = first, head[v] = e + 1;
        return;
    }
    size_t j = last_above(next, first - 1, e);
    next[e] = next[j], next[j] = e + 1;
}

void take_out(size_t *head, size_t *next, size_t v, size_t e)
{
    size_t first = head[v], after = next[e];
    if (first == e + 1)
        head[v] = after;
    else
        next[last_above(next, first - 1, e)] = after;
}

// Keeps or drops candidate t, a new one, and puts it into its chain.
void enter(Ground &g, size_t t, const size_t *ends, size_t *head, size_t *next, bool stays)
{
    g.kept[t] = stays;
    put_in(head, next, ends[t], t);
}

// ---- walk

// A candidate leaves the chain of u, where its arc starts, for that of v.
void turn(Ground &g, size_t e, size_t u, size_t v)
{
    g.kept[e] = !g.kept[e];
    if (g.kept[e])
        take_out(g.head_lo, g.next_lo, u, e), put_in(g.head_hi, g.next_hi, v, e);
    else
        take_out(g.head_hi, g.next_hi, u, e), put_in(g.head_lo, g.next_lo, v, e);
}

void flip(Ground &g, size_t e, size_t u, size_t v)
{
    if (e == 256)
        g.room[u] += 1;
    else if (e == 257)
        g.room[v] -= 1;
    else
        turn(g, e, u, v);
}

void walk_back(Ground &g, const Search &s, size_t a, size_t b)
{
    for (size_t v = a; v != b; v = s.from[v]) flip(g, s.by[v], s.from[v], v);
}

// ---- insert

size_t gain_of(int64_t cost, int64_t near, int64_t far)
{
    int64_t gain = far - near - cost;
    return gain <= 0 ? 0 : size_t(gain);
}

bool room_between(const size_t *room, size_t a, size_t b)
{
    for (size_t j = a; j < b; j++)
        if (room[j] == 0) return false;
    return true;
}

void take_room(size_t *room, size_t a, size_t b)
{
    for (size_t j = a; j < b; j++) room[j] -= 1;
}

// ---- steps

int64_t lowest_cost(size_t count, const int64_t *cost)
{
    int64_t low = 0;
    for (size_t i = 0; i < count; i++)
        if (cost[i] < low) low = cost[i];
    return low;
}

// A cell without room has its price from the start.
void begin(size_t cells, size_t count, const int64_t *cost, const size_t *room, int64_t *dist)
{
    int64_t fall = lowest_cost(count, cost);
    dist[0] = 0;
    for (size_t j = 0; j < cells; j++) dist[j + 1] = room[j] == 0 ? dist[j] + fall : dist[j];
}

// ---- insert

void deepen(Ground &g, const size_t *label, size_t to)
{
    for (size_t v = 0; v <= g.cells; v++)
        if (label[v] < to) g.dist[v] -= int64_t(to - label[v]);
}

void insert(Ground &g, Search &s, size_t t)
{
    size_t a = g.lo[t], b = g.hi[t];
    size_t gain = gain_of(g.cost[t], g.dist[a], g.dist[b]);
    if (gain == 0) {
        enter(g, t, g.lo, g.head_lo, g.next_lo, false);
        return;
    }
    if (room_between(g.room, a, b)) {
        take_room(g.room, a, b);
        enter(g, t, g.hi, g.head_hi, g.next_hi, true);
        return;
    }
    s.most = gain;
    if (search(g, s, a, b)) {
        deepen(g, s.label, s.label[a]);
        enter(g, t, g.hi, g.head_hi, g.next_hi, true);
        walk_back(g, s, a, b);
        return;
    }
    deepen(g, s.label, gain);
    enter(g, t, g.lo, g.head_lo, g.next_lo, false);
}
}  // namespace

void plan_row(size_t cells, size_t count, const size_t *lo, const size_t *hi, const int64_t *cost, bool *kept, size_t *room, int64_t *dist)
{
    Ground g = {cells, lo, hi, cost, kept, room, dist, {}, {}, {}, {}};
    Search s = {};
    begin(cells, count, cost, room, dist);
    for (size_t t = 0; t < count; t++) insert(g, s, t);
}
}  // namespace plain::planrow
