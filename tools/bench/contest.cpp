#include "contest.h"

#include <algorithm>
#include <cstdio>

#include "ours.h"
#include "peer.h"

static const std::string with_building = ", built";

static std::vector<Peer> peers(bool all)
{
    std::vector<Peer> out = lemon_simplex();
    if (!all) return out;
    for (const Peer &p : lemon_scaling()) out.push_back(p);
    for (const Peer &p : glpk_simplex()) out.push_back(p);
    return out;
}

std::vector<double> Table::column(const std::string &runner) const
{
    std::vector<double> out;
    auto at = std::find(runners.begin(), runners.end(), runner);
    if (at != runners.end())
        for (const auto &row : seconds) out.push_back(row[at - runners.begin()]);
    return out;
}

// The rows of a book: one of a line, one for each cut of a ring.
static std::vector<Row> rows_of(const Book &book)
{
    if (!book.ring) return {row_of(book)};
    std::vector<Row> rows;
    for (int cut = 0; cut < book.nodes; cut++) rows.push_back(row_of(book, cut));
    return rows;
}

// The books of a family, in the forms that the contestants take.
struct Field {
    std::vector<Ours> ours, plain;
    std::vector<std::vector<Row>> rows;
    std::vector<std::vector<std::unique_ptr<Model>>> models;  // of one peer after the other, book by book

    Field(const Family &family, size_t books)
    {
        for (size_t copy = 0; copy < books; copy++) {
            Book book = family.make(copy);
            ours.emplace_back(book), plain.emplace_back(book), rows.push_back(rows_of(book));
            ours.back().plan();  // so that there is a plan to check
        }
    }
};

// A peer once with its models built beforehand and once from the arrays; on a ring the answer is the best cut's.
static void enter(std::vector<Runner> &runners, const Peer &peer, Field &field)
{
    size_t first = field.models.size();
    for (const auto &rows : field.rows) {
        field.models.emplace_back();
        for (const Row &row : rows) field.models.back().push_back(peer.build(row));
    }
    auto alone = [&field, first](size_t t) {
        long long best = -1;
        for (auto &m : field.models[first + t]) best = std::max(best, m->run());
        return best;
    };
    auto built = [&field, peer](size_t t) {
        long long best = -1;
        for (const Row &row : field.rows[t]) best = std::max(best, peer.build(row)->run());
        return best;
    };
    runners.push_back({peer.name, alone, 0, {}}), runners.push_back({peer.name + with_building, built, 0, {}});
}

static std::vector<Runner> enter_all(const Contest &contest, Field &field)
{
    std::vector<Runner> out;
    bool ring = field.rows[0].size() > 1;
    out.push_back({"ours", [&field](size_t t) { return field.ours[t].plan(); }, 0, {}});
    out.push_back({"plain C++", [&field](size_t t) { return field.plain[t].plain_plan(); }, 0, {}});
    for (const Peer &p : peers(contest.all_peers)) enter(out, p, field);
    out.push_back({"reading", [&field](size_t t) { return field.ours[t].read(); }, 0, {}});
    if (!ring) out.push_back({"checking", [&field](size_t t) { return field.ours[t].check(); }, 0, {}});
    return out;
}

// Whether every peer earns what we do on every book, reading came to refusal 12 and checking to yes.
static bool agree(const std::string &family, const std::vector<Runner> &runners)
{
    bool all = true;
    for (const Runner &r : runners)
        for (size_t t = 0; t < r.answers.size(); t++) {
            long long due = r.name == "reading" ? 12 : r.name == "checking" ? 1 : runners[0].answers[t];
            if (r.answers[t] == due) continue;
            printf("DIFFERS: %s, book %zu: %s answers %lld and not %lld\n", family.c_str(), t, r.name.c_str(), r.answers[t], due);
            all = false;
        }
    return all;
}

Table hold(const Contest &contest)
{
    Table table;
    table.title = contest.title, table.books = contest.books;
    for (const Family &family : contest.families) {
        Field field(family, contest.books);
        std::vector<Runner> runners = enter_all(contest, field);
        race(runners, contest.books, contest.pace);
        table.agreed = agree(family.name, runners) && table.agreed;
        table.runners.clear(), table.families.push_back(family.name), table.seconds.emplace_back();
        for (const Runner &r : runners) table.runners.push_back(r.name), table.seconds.back().push_back(r.least);
    }
    return table;
}

std::vector<double> better_lemon(const Table &table, bool built)
{
    std::vector<double> out;
    for (const Peer &p : lemon_simplex()) {
        std::vector<double> column = table.column(built ? p.name + with_building : p.name);
        if (out.empty()) out = column;
        for (size_t i = 0; i < out.size(); i++) out[i] = std::min(out[i], column[i]);
    }
    return out;
}

std::vector<double> ratios(const std::vector<double> &ours, const std::vector<double> &theirs)
{
    std::vector<double> out;
    for (size_t i = 0; i < std::min(ours.size(), theirs.size()); i++) out.push_back(ours[i] / theirs[i]);
    return out;
}
