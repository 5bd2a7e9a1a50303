//! One call at a time: what the functions under test answered and wrote, held
//! against this program's own reading, rules and exact methods.

use std::collections::hash_map::DefaultHasher;
use std::collections::HashSet;
use std::hash::{Hash, Hasher};
use std::sync::atomic::{AtomicU64, Ordering};

use crate::book::{read, write, Book, Refusal, Shape, MOST_PROFIT};
use crate::exact::{
    by_plans, by_subsets, each_plan, has_another_best, number_of_plans, row_of, solve, Row, Solved,
};
use crate::ffi;
use crate::gen::Rng;
use crate::plans::{offers, scene, Offer};
use crate::rules::{
    breach, ceiling, checked_book, earnings, entries_by_rule, entries_of, entry_bytes, lists_too_short,
    number_kept, only_way, packed, price_bytes, prices_of, route, told_check, told_plan, verdict, NO_CUT,
};

/// Counts the calls that were begun, so that somebody can notice when there
/// are no more of them.
pub static CALLS: AtomicU64 = AtomicU64::new(0);

/// A list lent to a function: it may start at any address, and there are bytes
/// on both sides which nobody may touch.
struct Lent {
    now: Vec<u8>,
    before: Vec<u8>,
    start: usize,
    len: usize,
}

impl Lent {
    fn any(rng: &mut Rng, len: usize) -> Lent {
        let content = rng.bytes(len);
        Lent::of(rng, &content)
    }

    fn of(rng: &mut Rng, content: &[u8]) -> Lent {
        let start = rng.within(8, 15);
        let mut before = rng.bytes(start);
        before.extend(content);
        before.extend(rng.bytes(8));
        Lent { now: before.clone(), before, start, len: content.len() }
    }

    fn list(&self) -> &[u8] {
        &self.now[self.start..self.start + self.len]
    }

    fn list_mut(&mut self) -> &mut [u8] {
        &mut self.now[self.start..self.start + self.len]
    }

    fn list_before(&self) -> &[u8] {
        &self.before[self.start..self.start + self.len]
    }

    /// The first byte that was changed outside the first `written` of the list.
    fn changed_beyond(&self, written: usize) -> Option<isize> {
        let own = self.start..self.start + written;
        (0..self.now.len())
            .find(|at| !own.contains(at) && self.now[*at] != self.before[*at])
            .map(|at| at as isize - self.start as isize)
    }
}

/// A file, and what it must lead to.
pub struct Known {
    pub file: Vec<u8>,
    pub reading: Result<Accepted, Refusal>,
}

pub struct Accepted {
    pub book: Book,
    pub solved: Solved,
}

pub fn know(file: &[u8]) -> Known {
    let reading = read(file).map(|book| Accepted { solved: solve(&book), book });
    Known { file: file.to_vec(), reading }
}

/// A plan as it was handed back.
pub struct Plan {
    pub earnings: u64,
    pub kept: u64,
    pub cut: u64,
    pub entries: Vec<u16>,
}

/// What is wrong with a plan for an accepted book, prices apart.
pub fn judge(accepted: &Accepted, plan: &Plan) -> Result<(), String> {
    let Accepted { book, solved } = accepted;
    let cut = solved.cut.map_or(NO_CUT, |span| span as u64);
    if plan.cut != cut {
        return Err(format!("cut {} and not {cut}; best earnings by cut {:?}", plan.cut, solved.by_cut));
    }
    let sum = earnings(book, &plan.entries);
    if plan.earnings != sum {
        return Err(format!("earnings {} told, {sum} by the entries", plan.earnings));
    }
    let count = number_kept(&plan.entries);
    if plan.kept != count {
        return Err(format!("{} kept told, {count} by the entries", plan.kept));
    }
    if let Some(breach) = breach(book, &plan.entries) {
        return Err(format!("the plan breaks the rules: {breach:?}"));
    }
    if sum != solved.best.earnings {
        return Err(format!("earnings {sum}, the best being {}", solved.best.earnings));
    }
    let wrong_way = |&turn: &usize| {
        plan.entries[turn] != 0
            && plan.entries[turn] / 256 != only_way(book, &book.requests[turn], solved.cut)
    };
    if let Some(turn) = (0..plan.entries.len()).find(wrong_way) {
        return Err(format!("request {turn} goes over the cut"));
    }
    let kept: Vec<bool> = plan.entries.iter().map(|&entry| entry != 0).collect();
    match entries_by_rule(book, &kept, solved.cut) {
        Ok(entries) if entries == plan.entries => Ok(()),
        Ok(entries) => {
            let turn = (0..entries.len()).find(|&turn| entries[turn] != plan.entries[turn]).unwrap_or(0);
            let (given, right) = (plan.entries[turn] % 256, entries[turn] % 256);
            Err(format!("request {turn} has channel {given}, and {right} by the channel rule"))
        }
        Err(turn) => Err(format!("no channel left for request {turn}")),
    }
}

/// Whether a piece of a row covers the spans that its request crosses.
fn same_spans(book: &Book, cut: Option<usize>, row: &Row, turn: usize) -> bool {
    let first = cut.map_or(0, |span| span + 1);
    let piece = &row.pieces[turn];
    let covered = (piece.from..piece.to).fold(0, |spans, at| spans | 1 << ((first + at) % book.nodes));
    let way = only_way(book, &book.requests[turn], cut);
    route(book, &book.requests[turn], way) == Some(covered)
}

/// How many books and calls there were.
#[derive(Default)]
pub struct Tally {
    pub books: u64,
    pub damaged: u64,
    pub lines: u64,
    pub rings: u64,
    pub plans: u64,
    pub checks: u64,
    pub failures: u64,
    pub seen: HashSet<u64>,
}

pub struct Tester {
    pub tally: Tally,
    pub seed: u64,
    pub rng: Rng,
    /// What the current case is called in messages.
    pub label: String,
    /// After this many failures no more are printed, and no more books begun.
    pub patience: u64,
    /// Failures are counted and not printed.
    pub quiet: bool,
    /// Each call is announced, so that the one which never returns is known.
    pub trace: bool,
    /// The first failure in words.
    pub first: Option<String>,
}

fn hex(bytes: &[u8]) -> String {
    bytes.iter().map(|byte| format!("{byte:02x}")).collect()
}

impl Tester {
    pub fn new(seed: u64) -> Tester {
        Tester {
            tally: Tally::default(),
            seed,
            rng: Rng::new(seed, u64::MAX),
            label: String::new(),
            patience: 10,
            quiet: false,
            trace: false,
            first: None,
        }
    }

    pub fn done(&self) -> bool {
        self.tally.failures >= self.patience
    }

    /// Before each call.
    fn begin(&self, call: std::fmt::Arguments, known: &Known) {
        CALLS.fetch_add(1, Ordering::Relaxed);
        if self.trace {
            eprintln!("{}: {call}, book {}", self.label, hex(&known.file));
        }
    }

    pub fn fail(&mut self, what: &str, file: &[u8], lists: &[(&str, &[u8])]) {
        self.tally.failures += 1;
        if self.first.is_none() {
            self.first = Some(format!("{}: {what}", self.label));
        }
        if self.quiet || self.tally.failures > self.patience {
            return;
        }
        println!("FAILED {}: {what}", self.label);
        println!("  book {}", hex(file));
        for (name, bytes) in lists {
            println!("  {name} {}", hex(bytes));
        }
    }

    /// Counts a book among those that ran.
    pub fn count(&mut self, file: &[u8], shape: Shape, damaged: bool) {
        self.tally.books += 1;
        self.tally.damaged += u64::from(damaged);
        match shape {
            Shape::Line => self.tally.lines += 1,
            Shape::Ring => self.tally.rings += 1,
        }
        let mut hasher = DefaultHasher::new();
        file.hash(&mut hasher);
        self.tally.seen.insert(hasher.finish());
    }

    /// One call of the planner with lists of these lengths in bytes, compared in
    /// full. Hands back the plan and prices if there are any to go on with.
    pub fn plan(&mut self, known: &Known, entries_len: usize, prices_len: usize) -> Option<(Plan, Vec<u64>)> {
        self.tally.plans += 1;
        self.begin(format_args!("plan, lists of {entries_len} and {prices_len} bytes"), known);
        let file = Lent::of(&mut self.rng, &known.file);
        let mut entries = Lent::any(&mut self.rng, entries_len);
        let mut prices = Lent::any(&mut self.rng, prices_len);
        let answer = ffi::plan(file.list(), entries.list_mut(), prices.list_mut());
        let result = self.compare_plan(known, answer, &file, &entries, &prices);
        match result {
            Ok(plan) => plan,
            Err(what) => {
                self.fail(
                    &format!(
                        "plan, lists of {entries_len} and {prices_len} bytes: {what}; answered {}",
                        told_plan(answer)
                    ),
                    &known.file,
                    &[
                        ("entries lent ", entries.list_before()),
                        ("entries after", entries.list()),
                        ("prices lent  ", prices.list_before()),
                        ("prices after ", prices.list()),
                    ],
                );
                None
            }
        }
    }

    fn compare_plan(
        &self,
        known: &Known,
        answer: u64,
        file: &Lent,
        entries: &Lent,
        prices: &Lent,
    ) -> Result<Option<(Plan, Vec<u64>)>, String> {
        let refusal = match &known.reading {
            Err(refusal) => Some(*refusal),
            Ok(accepted) if lists_too_short(&accepted.book, entries.len, prices.len) => {
                Some(Refusal { number: 12, place: 0 })
            }
            Ok(_) => None,
        };
        let (m, n) = match (&known.reading, refusal) {
            (Ok(accepted), None) if accepted.book.is_ring() => (accepted.book.requests.len(), 0),
            (Ok(accepted), None) => (accepted.book.requests.len(), accepted.book.spans()),
            _ => (0, 0),
        };
        for (name, lent, written) in
            [("book", file, 0), ("entry list", entries, 2 * m), ("price list", prices, 4 * n)]
        {
            if let Some(at) = lent.changed_beyond(written) {
                return Err(format!("byte {at} of the {name} was written, where {written} bytes may be"));
            }
        }
        if let Some(refusal) = refusal {
            let right = packed(refusal);
            return if answer == right { Ok(None) } else { Err(format!("should be {}", told_plan(right))) };
        }
        let Ok(accepted) = &known.reading else { return Ok(None) };
        if answer >> 63 == 1 {
            return Err("should be planned".to_string());
        }
        let plan = Plan {
            earnings: answer >> 32,
            kept: answer >> 16 & 0xffff,
            cut: answer & 0xffff,
            entries: entries_of(&entries.list()[..2 * m]),
        };
        judge(accepted, &plan)?;
        let prices = prices_of(&prices.list()[..4 * n]);
        if !accepted.book.is_ring() {
            if let Some(span) = prices.iter().position(|&price| price > MOST_PROFIT) {
                return Err(format!("price {} at span {span}", prices[span]));
            }
            if !verdict(&accepted.book, &plan.entries, &prices) {
                let most = ceiling(&accepted.book, &prices);
                return Err(format!(
                    "the prices {prices:?} have a ceiling of {most}, and the plan earns {}",
                    plan.earnings
                ));
            }
        }
        Ok(Some((plan, prices)))
    }

    /// One call of the checker. `expected` is what the offer was made for; the
    /// answer must be that, and what the rules here say.
    pub fn check(&mut self, known: &Known, name: &str, entries: &[u8], prices: &[u8], expected: Option<u64>) {
        self.tally.checks += 1;
        let right = match &known.reading {
            Err(refusal) => packed(*refusal),
            Ok(accepted) => checked_book(&accepted.book, entries, prices),
        };
        if expected.is_some_and(|expected| expected != right) {
            let what = format!(
                "own rules on \"{name}\": {} and not {}",
                told_check(right),
                told_check(expected.unwrap_or(0))
            );
            self.fail(&what, &known.file, &[("entries", entries), ("prices ", prices)]);
            return;
        }
        self.begin(format_args!("check of \"{name}\""), known);
        let lent_entries = Lent::of(&mut self.rng, entries);
        let lent_prices = Lent::of(&mut self.rng, prices);
        let answer = ffi::check(&known.file, lent_entries.list(), lent_prices.list());
        if answer != right {
            let what =
                format!("check of \"{name}\": answered {} and not {}", told_check(answer), told_check(right));
            self.fail(&what, &known.file, &[("entries", entries), ("prices ", prices)]);
        }
        for lent in [&lent_entries, &lent_prices] {
            if let Some(at) = lent.changed_beyond(0) {
                let what = format!("check of \"{name}\": byte {at} of a list was written");
                self.fail(&what, &known.file, &[("entries", entries), ("prices ", prices)]);
            }
        }
    }

    pub fn check_offers(&mut self, known: &Known, list: &[Offer]) {
        for offer in list {
            self.check(known, offer.name, &offer.entries, &offer.prices, offer.expected);
        }
    }

    /// A book made for the checker, with the offers made for it.
    pub fn scene(&mut self, rng: &mut Rng) {
        let scene = scene(rng);
        let file = write(&scene.book);
        let known = know(&file);
        self.count(&file, scene.book.shape, known.reading.is_err());
        self.check_offers(&known, &scene.offers);
    }

    /// Everything that is tried on a book: the planner with lists that fit,
    /// that are too short and too long, and the checker with plans of all kinds.
    pub fn book(&mut self, file: &[u8], shape: Shape) {
        let known = know(file);
        self.count(file, shape, known.reading.is_err());
        match &known.reading {
            Err(_) => self.refused(&known),
            Ok(accepted) => {
                self.own_methods(&known, accepted);
                if accepted.book.is_ring() {
                    self.ring(&known, &accepted.book);
                } else {
                    self.line(&known, accepted);
                }
            }
        }
    }

    /// A book that is refused: whatever lists are lent, nothing is written.
    fn refused(&mut self, known: &Known) {
        let lengths = [0, 1, 2, 3, 4, 7, 8, 64, 252, 512, 600];
        let (one, other) = (self.rng.pick(&lengths), self.rng.pick(&lengths));
        self.plan(known, one, other);
        if self.rng.one_in(2) {
            self.plan(known, 512, 252);
        }
        let (entries, prices) = (self.rng.bytes(one), self.rng.bytes(other));
        self.check(known, "a refused book", &entries, &prices, None);
        if self.rng.one_in(2) {
            self.check(known, "a refused book, lists of zeros", &[0; 512], &[0; 252], None);
        }
    }

    /// The exact methods against each other, on books small enough for them.
    fn own_methods(&mut self, known: &Known, accepted: &Accepted) {
        let Accepted { book, solved } = accepted;
        let cuts: Vec<Option<usize>> =
            if book.is_ring() { (0..book.nodes).map(Some).collect() } else { vec![None] };
        for (at, &cut) in cuts.iter().enumerate() {
            let flow = solved.by_cut[at];
            if book.requests.len() <= 10 {
                let row = row_of(book, cut);
                if !(0..row.pieces.len()).all(|turn| same_spans(book, cut, &row, turn)) {
                    self.fail(
                        &format!("own methods: a row and the routes differ, cut {cut:?}"),
                        &known.file,
                        &[],
                    );
                }
                let (best, sets) = by_subsets(&row);
                if cut == solved.cut && (sets.len() > 1) != has_another_best(book, solved) {
                    self.fail(
                        &format!("own methods: {} best sets, cut {cut:?}", sets.len()),
                        &known.file,
                        &[],
                    );
                }
                if best != flow {
                    self.fail(
                        &format!("own methods: subsets {best}, flow {flow}, cut {cut:?}"),
                        &known.file,
                        &[],
                    );
                }
                // Each best set can be given channels, so its earnings are reached.
                for set in sets {
                    let kept: Vec<bool> = (0..book.requests.len()).map(|turn| set >> turn & 1 == 1).collect();
                    let obeys = entries_by_rule(book, &kept, cut)
                        .is_ok_and(|entries| breach(book, &entries).is_none());
                    if !obeys {
                        self.fail(
                            &format!("own methods: no channels for {kept:?}, cut {cut:?}"),
                            &known.file,
                            &[],
                        );
                    }
                }
            }
            if number_of_plans(book) <= 256 {
                let best = by_plans(book, cut);
                if best != flow {
                    self.fail(
                        &format!("own methods: all plans {best}, flow {flow}, cut {cut:?}"),
                        &known.file,
                        &[],
                    );
                }
            }
        }
    }

    fn ring(&mut self, known: &Known, book: &Book) {
        let m = book.requests.len();
        // The price list is not even measured.
        let unread = self.rng.pick(&[0, 1, 4, 4 * (book.nodes - 1), 4 * book.nodes, 300]);
        let extra = self.rng.pick(&[0, 0, 1, 2, 7, 40]);
        let planned = self.plan(known, 2 * m + extra, unread);
        if m > 0 {
            let less = self.rng.pick(&[1, 1, 2, 2, 3, 2 * m]).min(2 * m);
            self.plan(known, 2 * m - less, unread);
        }
        let entries = planned.map_or(Vec::new(), |(plan, _)| entry_bytes(&plan.entries));
        self.check(
            known,
            "a ring",
            &entries,
            &vec![0; unread],
            Some(packed(Refusal { number: 14, place: 0 })),
        );
        self.check(known, "a ring, no lists", &[], &[], Some(packed(Refusal { number: 14, place: 0 })));
        let high = vec![0xff; 4 * book.nodes];
        self.check(
            known,
            "a ring, prices too high",
            &entries,
            &high,
            Some(packed(Refusal { number: 14, place: 0 })),
        );
    }

    fn line(&mut self, known: &Known, accepted: &Accepted) {
        let Accepted { book, solved } = accepted;
        let (m, spans) = (book.requests.len(), book.spans());
        let more_entries = self.rng.pick(&[0, 0, 1, 2, 7, 40]);
        let more_prices = self.rng.pick(&[0, 0, 1, 2, 3, 4, 9, 40]);
        let planned = self.plan(known, 2 * m + more_entries, 4 * spans + more_prices);
        if m > 0 {
            let less = self.rng.pick(&[1, 1, 2, 2, 3, 2 * m]).min(2 * m);
            self.plan(known, 2 * m - less, 4 * spans + more_prices);
        }
        let less = self.rng.pick(&[1, 1, 2, 3, 4, 4, 4 * spans]).min(4 * spans);
        self.plan(known, 2 * m + more_entries, 4 * spans - less);

        let own = match entries_by_rule(book, &solved.best.kept, None) {
            Ok(entries) => entries,
            Err(turn) => {
                self.fail(&format!("own methods: no channel for request {turn}"), &known.file, &[]);
                return;
            }
        };
        let list = offers(&mut self.rng, book, &own, &solved.best.prices);
        self.check_offers(known, &list);
        let Some((plan, prices)) = planned else { return };
        // Prices that prove one best plan prove them all, and no other plan.
        self.check(
            known,
            "the planner's plan and prices",
            &entry_bytes(&plan.entries),
            &price_bytes(&prices),
            Some(1),
        );
        self.check(
            known,
            "its plan, own prices",
            &entry_bytes(&plan.entries),
            &price_bytes(&solved.best.prices),
            Some(1),
        );
        self.check(known, "own plan, its prices", &entry_bytes(&own), &price_bytes(&prices), Some(1));
        let list = offers(&mut self.rng, book, &plan.entries, &prices);
        self.check_offers(known, &list);
        self.every_plan(known, accepted, &prices);
    }

    /// On small books: with the planner's prices the best plans, all of them
    /// and nothing else, are accepted.
    fn every_plan(&mut self, known: &Known, accepted: &Accepted, prices: &[u64]) {
        let Accepted { book, solved } = accepted;
        let best = solved.best.earnings;
        if book.requests.len() <= 10 {
            for set in by_subsets(&row_of(book, None)).1.into_iter().take(20) {
                let kept: Vec<bool> = (0..book.requests.len()).map(|turn| set >> turn & 1 == 1).collect();
                if let Ok(entries) = entries_by_rule(book, &kept, None) {
                    self.check(known, "a best set", &entry_bytes(&entries), &price_bytes(prices), Some(1));
                }
            }
        }
        if number_of_plans(book) <= 256 && self.rng.one_in(4) {
            let ways: Vec<u16> = book.requests.iter().map(|request| only_way(book, request, None)).collect();
            each_plan(book.channels, &ways, |entries| {
                let good = breach(book, entries).is_none() && earnings(book, entries) == best;
                self.check(
                    known,
                    "some plan",
                    &entry_bytes(entries),
                    &price_bytes(prices),
                    Some(u64::from(good)),
                );
            });
        }
    }
}
