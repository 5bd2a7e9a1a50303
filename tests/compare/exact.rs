//! Best earnings on a line, and on every line that a cut leaves of a ring, by
//! three methods that share nothing: all plans, all subsets, and a flow whose
//! answer comes with prices that prove it.

use crate::book::{Book, MOST_PROFIT};
use crate::rules::{breach, earnings, only_way, position};

/// A line with its requests as stretches of places, or a ring cut open: span t
/// of the row joins places t and t + 1.
pub struct Row {
    pub channels: usize,
    pub limits: Vec<usize>,
    pub pieces: Vec<Piece>,
}

pub struct Piece {
    pub from: usize,
    pub to: usize,
    pub profit: u64,
}

pub fn row_of(book: &Book, cut: Option<usize>) -> Row {
    let first = cut.map_or(0, |span| span + 1);
    let limits = (0..book.nodes - 1).map(|t| book.limits[(first + t) % book.limits.len()]).collect();
    let pieces = book
        .requests
        .iter()
        .map(|request| {
            let (one, other) = (position(book, cut, request.a), position(book, cut, request.b));
            Piece { from: one.min(other), to: one.max(other), profit: request.profit }
        })
        .collect();
    Row { channels: book.channels, limits, pieces }
}

/// A best kept set of a row with prices at which its ceiling is its earnings.
pub struct Best {
    pub earnings: u64,
    pub kept: Vec<bool>,
    pub prices: Vec<u64>,
}

// ---- All plans, by the definition ----

/// Tries every entry for every request and asks the rules; only for books with
/// few channels and requests. On a ring the plans are those of the cut's line.
pub fn by_plans(book: &Book, cut: Option<usize>) -> u64 {
    let ways: Vec<u16> = book.requests.iter().map(|request| only_way(book, request, cut)).collect();
    let mut best = 0;
    each_plan(book.channels, &ways, |entries| {
        let sum = earnings(book, entries);
        if sum > best && breach(book, entries).is_none() {
            best = sum;
        }
    });
    best
}

/// Every list of entries with the given ways and any channels, or not kept.
pub fn each_plan(channels: usize, ways: &[u16], mut look: impl FnMut(&[u16])) {
    let mut chosen = vec![0; ways.len()];
    loop {
        let entries: Vec<u16> = chosen
            .iter()
            .zip(ways)
            .map(|(&channel, &way)| if channel == 0 { 0 } else { way * 256 + channel })
            .collect();
        look(&entries);
        // Count on, the first request's channel being the fastest digit.
        let Some(digit) = chosen.iter().position(|&channel| usize::from(channel) < channels) else {
            return;
        };
        chosen[digit] += 1;
        chosen[..digit].fill(0);
    }
}

pub fn number_of_plans(book: &Book) -> u64 {
    (book.channels as u64 + 1).saturating_pow(book.requests.len() as u32)
}

// ---- All subsets ----

/// The best earnings over all subsets within the limits, and every subset that
/// has them, bit i for request i. On a row the limits are the whole matter:
/// stretches that nowhere number more than k can always be given k channels.
pub fn by_subsets(row: &Row) -> (u64, Vec<u32>) {
    let mut search = Subsets { row, loads: vec![0; row.limits.len()], best: 0, sets: Vec::new() };
    search.from(0, 0, 0);
    (search.best, search.sets)
}

struct Subsets<'a> {
    row: &'a Row,
    loads: Vec<usize>,
    best: u64,
    sets: Vec<u32>,
}

impl Subsets<'_> {
    fn from(&mut self, turn: usize, sum: u64, set: u32) {
        let Some(piece) = self.row.pieces.get(turn) else {
            if sum > self.best {
                self.best = sum;
                self.sets.clear();
            }
            if sum == self.best {
                self.sets.push(set);
            }
            return;
        };
        self.from(turn + 1, sum, set);
        let crossed = piece.from..piece.to;
        if crossed.clone().all(|span| self.loads[span] < self.row.limits[span]) {
            crossed.clone().for_each(|span| self.loads[span] += 1);
            self.from(turn + 1, sum + piece.profit, set | 1 << turn);
            crossed.for_each(|span| self.loads[span] -= 1);
        }
    }
}

// ---- Flow ----

/// An arc of the residual network. Arc e and arc e ^ 1 undo each other.
struct Arc {
    to: usize,
    room: usize,
    cost: i64,
}

struct Network {
    arcs: Vec<Arc>,
    leaving: Vec<Vec<usize>>,
}

const FAR: i64 = i64::MAX / 4;

impl Network {
    fn join(&mut self, from: usize, to: usize, room: usize, cost: i64) -> usize {
        let arc = self.arcs.len();
        self.arcs.push(Arc { to, room, cost });
        self.arcs.push(Arc { to: from, room: 0, cost: -cost });
        self.leaving[from].push(arc);
        self.leaving[to].push(arc + 1);
        arc
    }

    /// Bellman and Ford's distances from node 0 over arcs with room, and the
    /// arc by which each node is reached. The sweeps change direction in turn,
    /// which needs fewer of them where arcs lead to and fro along a row.
    fn distances(&self) -> (Vec<i64>, Vec<usize>) {
        let nodes = self.leaving.len();
        let mut distance = vec![FAR; nodes];
        let mut by = vec![usize::MAX; nodes];
        distance[0] = 0;
        for sweep in 0.. {
            assert!(sweep <= 2 * nodes, "a cycle of negative cost");
            let mut moved = false;
            for step in 0..nodes {
                let node = if sweep % 2 == 0 { step } else { nodes - 1 - step };
                let here = distance[node];
                if here == FAR {
                    continue;
                }
                for &arc in &self.leaving[node] {
                    let Arc { to, room, cost } = self.arcs[arc];
                    if room > 0 && here + cost < distance[to] {
                        distance[to] = here + cost;
                        by[to] = arc;
                        moved = true;
                    }
                }
            }
            if !moved {
                break;
            }
        }
        (distance, by)
    }
}

/// The flow model of document 01. All k channels travel from the first place to
/// the last. Over a piece a channel gains its profit, over an idle arc nothing,
/// and a blocking arc, which holds back the k − limit channels that a span
/// lacks, gains more than all pieces together, so that it always fills up.
pub fn by_flow(row: &Row) -> Best {
    let best = flow_with(row, |span| row.channels - row.limits[span]);
    assert!(proved(row, &best), "the flow's answer is not proved by its prices");
    best
}

/// The same with other blocking capacities, to show what they lead to.
pub fn flow_with(row: &Row, blocking: impl Fn(usize) -> usize) -> Best {
    let spans = row.limits.len();
    let greatest = row.pieces.iter().map(|piece| piece.profit).max().unwrap_or(0);
    let block = -((greatest * row.pieces.len() as u64 + 1) as i64);
    let mut network = Network { arcs: Vec::new(), leaving: vec![Vec::new(); spans + 1] };
    for span in 0..spans {
        // More room than k changes no flow of k units, and it keeps each
        // distance at most the one before, so that no price is below 0.
        network.join(span, span + 1, 2 * row.channels, 0);
        if blocking(span) > 0 {
            network.join(span, span + 1, blocking(span), block);
        }
    }
    let arcs: Vec<usize> = row
        .pieces
        .iter()
        .map(|piece| network.join(piece.from, piece.to, 1, -(piece.profit as i64)))
        .collect();

    let mut left = row.channels;
    let distance = loop {
        let (distance, by) = network.distances();
        // At distance 0 the units that are left may as well lie idle.
        if left == 0 || distance[spans] == 0 {
            break distance;
        }
        let mut path = Vec::new();
        let mut node = spans;
        while node != 0 {
            path.push(by[node]);
            node = network.arcs[by[node] ^ 1].to;
        }
        let units = path.iter().map(|&arc| network.arcs[arc].room).min().expect("a path").min(left);
        for arc in path {
            network.arcs[arc].room -= units;
            network.arcs[arc ^ 1].room += units;
        }
        left -= units;
    };

    let kept: Vec<bool> = arcs.iter().map(|&arc| network.arcs[arc].room == 0).collect();
    let earnings =
        row.pieces.iter().zip(&kept).filter(|(_, &kept)| kept).map(|(piece, _)| piece.profit).sum();
    // The fall of the distance over a span is its price. A fall above the
    // greatest profit shuts out everything, and so does that profit.
    let prices =
        (0..spans).map(|span| ((distance[span] - distance[span + 1]) as u64).min(greatest)).collect();
    Best { earnings, kept, prices }
}

/// Whether a kept set is within the limits and earns what its prices allow at
/// most. That alone shows it to be best, whatever the method was.
pub fn proved(row: &Row, best: &Best) -> bool {
    let mut loads = vec![0; row.limits.len()];
    let mut sum = 0;
    let mut most = 0;
    for (piece, &kept) in row.pieces.iter().zip(&best.kept) {
        let toll: u64 = best.prices[piece.from..piece.to].iter().sum();
        most += piece.profit.saturating_sub(toll);
        if kept {
            sum += piece.profit;
            (piece.from..piece.to).for_each(|span| loads[span] += 1);
        }
    }
    for (span, &limit) in row.limits.iter().enumerate() {
        most += limit as u64 * best.prices[span];
        if loads[span] > limit || best.prices[span] > MOST_PROFIT {
            return false;
        }
    }
    sum == best.earnings && sum == most
}

// ---- Lines and rings ----

/// The best of a book: its only row for a line; for a ring every cut's row, and
/// the lowest cut whose row earns most.
pub struct Solved {
    pub cut: Option<usize>,
    pub best: Best,
    /// Best earnings by cut; a line has one.
    pub by_cut: Vec<u64>,
}

pub fn solve(book: &Book) -> Solved {
    if !book.is_ring() {
        let best = by_flow(&row_of(book, None));
        return Solved { cut: None, by_cut: vec![best.earnings], best };
    }
    let rows: Vec<Best> = (0..book.nodes).map(|cut| by_flow(&row_of(book, Some(cut)))).collect();
    let by_cut: Vec<u64> = rows.iter().map(|best| best.earnings).collect();
    let cut = lowest_greatest(&by_cut);
    let best = rows.into_iter().nth(cut).expect("a ring has spans");
    Solved { cut: Some(cut), best, by_cut }
}

pub fn lowest_greatest(by_cut: &[u64]) -> usize {
    let greatest = by_cut.iter().max().expect("a ring has spans");
    by_cut.iter().position(|earnings| earnings == greatest).expect("the greatest is there")
}

/// Whether another kept set earns as much. It would lack some kept request, as
/// a larger set earns more, so it is looked for without each of them in turn.
pub fn has_another_best(book: &Book, solved: &Solved) -> bool {
    (0..book.requests.len()).filter(|&turn| solved.best.kept[turn]).any(|turn| {
        let mut row = row_of(book, solved.cut);
        row.pieces.remove(turn);
        by_flow(&row).earnings == solved.best.earnings
    })
}
