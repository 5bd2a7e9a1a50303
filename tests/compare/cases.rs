//! Fixed cases: the books and figures of document 01, the shortcuts that it
//! warns of, the edges that it names, and faults put in on purpose.

use crate::book::{read, request_record, spans, write, Book, Refusal, Request, Shape, MOST_PROFIT, RECORD};
use crate::compare::{know, Tester};
use crate::exact::{by_flow, flow_with, row_of, solve};
use crate::gen::{book_of, faults, first_of, Rng};
use crate::plans::{NO, YES};
use crate::rules::{ceiling, checked, earnings, entry_bytes, obeys, packed, price_bytes, NO_CUT};
use crate::text::{judge_text, print};

fn requests(list: &[(usize, usize, u64)]) -> Vec<Request> {
    list.iter().map(|&(a, b, profit)| Request { a, b, profit }).collect()
}

fn line(channels: usize, limits: &[usize], list: &[(usize, usize, u64)]) -> Book {
    let nodes = limits.len() + 1;
    Book { shape: Shape::Line, nodes, channels, limits: limits.to_vec(), requests: requests(list) }
}

fn ring(channels: usize, limits: &[usize], list: &[(usize, usize, u64)]) -> Book {
    let nodes = limits.len();
    Book { shape: Shape::Ring, nodes, channels, limits: limits.to_vec(), requests: requests(list) }
}

fn book_a() -> Book {
    line(4, &[2], &[(0, 1, 7), (0, 1, 6), (0, 1, 5)])
}

fn book_b() -> Book {
    line(2, &[2, 1, 2], &[(0, 2, 4), (3, 1, 5), (0, 1, 3), (2, 3, 2)])
}

fn book_c() -> Book {
    line(1, &[1, 1], &[(0, 1, 4), (1, 2, 4), (0, 2, 7)])
}

fn book_d() -> Book {
    line(3, &[0], &[(0, 1, 9)])
}

fn book_e() -> Book {
    ring(1, &[1; 4], &[(0, 1, 5), (1, 2, 5), (2, 3, 5), (3, 0, 5)])
}

fn book_f() -> Book {
    line(1, &[1], &[])
}

const UP: u16 = 256;
const DOWN: u16 = 512;

impl Tester {
    /// A figure of document 01 that this program must find by itself.
    fn figure(&mut self, name: &str, found: u64, right: u64) {
        if found != right {
            self.label = name.to_string();
            self.fail(&format!("own figure {found} and not {right}"), &[], &[]);
        }
    }

    /// The book is planned, and its plan is this one.
    fn plan_is(&mut self, name: &str, book: &Book, sum: u64, cut: u64, entries: &[u16]) {
        self.label = name.to_string();
        let file = write(book);
        self.book(&file, book.shape);
        let known = know(&file);
        let Some((plan, _)) = self.plan(&known, 2 * entries.len(), 4 * (book.nodes - 1)) else { return };
        let kept = entries.iter().filter(|&&entry| entry != 0).count() as u64;
        if (plan.earnings, plan.kept, plan.cut) != (sum, kept, cut) || plan.entries != entries {
            let what = format!(
                "planned {} kept {} cut {} entries {:?}, and not {sum} {kept} {cut} {entries:?}",
                plan.earnings, plan.kept, plan.cut, plan.entries
            );
            self.fail(&what, &file, &[]);
        }
    }

    fn check_is(&mut self, name: &str, book: &Book, entries: &[u16], prices: &[u64], answer: u64) {
        self.label = name.to_string();
        let known = know(&write(book));
        self.check(&known, name, &entry_bytes(entries), &price_bytes(prices), Some(answer));
    }

    fn refused_is(&mut self, name: &str, file: &[u8], shape: Shape, number: u32, place: usize) {
        self.label = name.to_string();
        let right = Refusal { number, place };
        if read(file) != Err(right) {
            self.fail(&format!("own reading gives {:?} and not {right:?}", read(file).err()), file, &[]);
        }
        self.book(file, shape);
    }

    fn taken(&mut self, name: &str, file: &[u8], shape: Shape) {
        self.label = name.to_string();
        if let Err(refusal) = read(file) {
            self.fail(&format!("own reading refuses: {refusal:?}"), file, &[]);
        }
        self.book(file, shape);
    }
}

pub fn run(tester: &mut Tester) {
    let parts: [fn(&mut Tester); 12] = [
        books_of_the_paper,
        shortcuts,
        edges,
        order_of_refusals,
        lists,
        checker_order,
        rings,
        sizes,
        structure,
        every_fault,
        scenes,
        texts,
    ];
    for part in parts {
        if !tester.done() {
            part(tester);
        }
    }
}

fn books_of_the_paper(t: &mut Tester) {
    let a = book_a();
    t.plan_is("book A", &a, 13, NO_CUT, &[UP + 1, UP + 2, 0]);
    for (price, most, answer) in [(5, 13, YES), (6, 13, YES), (4, 14, NO), (7, 14, NO)] {
        t.check_is("book A", &a, &[UP + 1, UP + 2, 0], &[price], answer);
        t.figure("book A, ceiling", ceiling(&a, &[price]), most);
    }

    let b = book_b();
    t.plan_is("book B", &b, 10, NO_CUT, &[0, DOWN + 1, UP + 1, UP + 2]);
    t.check_is("book B", &b, &[0, DOWN + 1, UP + 1, UP + 2], &[0, 4, 0], YES);
    t.check_is("book B, request 0 in place of 1", &b, &[UP + 1, 0, UP + 2, UP + 1], &[0, 4, 0], NO);

    t.plan_is("book C", &book_c(), 8, NO_CUT, &[UP + 1, UP + 1, 0]);

    let d = book_d();
    t.plan_is("book D", &d, 0, NO_CUT, &[0]);
    t.check_is("book D", &d, &[0], &[9], YES);
    t.check_is("book D", &d, &[0], &[8], NO);
    t.check_is("book D, kept over a shut span", &d, &[UP + 1], &[0], NO);
    t.figure("book D, ceiling", ceiling(&d, &[8]), 1);

    let e = book_e();
    t.plan_is("book E", &e, 15, 0, &[0, UP + 1, UP + 1, UP + 1]);
    t.check_is("book E", &e, &[0, UP + 1, UP + 1, UP + 1], &[0; 3], packed(Refusal { number: 14, place: 0 }));
    let all = [UP + 1; 4];
    t.figure("book E, a ring plan", if obeys(&e, &all) { earnings(&e, &all) } else { 0 }, 20);

    let f = book_f();
    t.plan_is("book F", &f, 0, NO_CUT, &[]);
    t.check_is("book F", &f, &[], &[0], YES);
    t.check_is("book F", &f, &[], &[1], NO);
    t.figure("book F, ceiling", ceiling(&f, &[1]), 1);
}

/// Keeps requests in an order of choice as long as they fit.
fn greedy(book: &Book, order: &[usize]) -> u64 {
    let mut loads = vec![0; book.spans()];
    let mut sum = 0;
    for &turn in order {
        let Request { a, b, profit } = book.requests[turn];
        let crossed = a.min(b)..a.max(b);
        if crossed.clone().all(|span| loads[span] < book.limits[span]) {
            crossed.for_each(|span| loads[span] += 1);
            sum += profit;
        }
    }
    sum
}

fn shortcuts(t: &mut Tester) {
    let c = book_c();
    t.figure("largest profit first on C", greedy(&c, &[2, 0, 1]), 7);
    t.check_is("largest profit first on C", &c, &[0, 0, UP + 1], &[4, 4], NO);

    let per_span = line(1, &[1, 1], &[(0, 1, 4), (0, 2, 7)]);
    t.figure("largest profit per span first", greedy(&per_span, &[0, 1]), 4);
    t.plan_is("largest profit per span first", &per_span, 7, NO_CUT, &[0, UP + 1]);

    let a = book_a();
    let old = flow_with(&row_of(&a, None), |_| 4.min(3) - 2);
    t.figure("blocking capacity of document 001 on A", old.earnings, 18);
    t.check_is("all three of A", &a, &[UP + 1, UP + 2, UP + 3], &[0], NO);

    // With the kept alone in the ceiling each of these would pass.
    t.check_is("nothing of A at price 0", &a, &[0; 3], &[0], NO);
    t.check_is("one of A at price 0", &a, &[0, 0, UP + 1], &[0], NO);
    t.check_is("two of C at price 0", &c, &[UP + 1, UP + 1, 0], &[0, 0], NO);

    // A limit above k, or none, is not read as k.
    let b = book_b();
    for span in 0..3 {
        let mut high = b.clone();
        high.limits[span] = 3;
        t.refused_is("limit above k", &write(&high), Shape::Line, 7, 1 + span);
        let mut file = write(&b);
        file.drain((1 + span) * RECORD..(2 + span) * RECORD);
        t.refused_is("span left out", &file, Shape::Line, 5, 1 + span);
    }

    for book in cut_books() {
        let solved = solve(&book.0);
        t.label = "rings whose best cut is easily missed".to_string();
        if solved.by_cut != book.1 {
            t.fail(
                &format!("own figures by cut {:?} and not {:?}", solved.by_cut, book.1),
                &write(&book.0),
                &[],
            );
        }
        t.book(&write(&book.0), Shape::Ring);
    }
}

/// Rings with their best earnings by cut. But for E, one cut alone is best, and
/// it is neither the first nor the last, nor the least loaded span with every
/// request on way 1 or on its shorter way, nor the one with the lowest limit.
fn cut_books() -> Vec<(Book, Vec<u64>)> {
    vec![
        (book_e(), vec![15; 4]),
        (ring(2, &[1, 2, 1, 2, 2], &[(1, 0, 8), (2, 4, 2), (2, 0, 5)]), vec![8, 13, 8, 8, 10]),
        (ring(2, &[1, 1, 2, 1, 1], &[(3, 1, 2), (0, 3, 4), (1, 3, 6), (1, 2, 6)]), vec![10, 6, 12, 6, 6]),
        (
            ring(3, &[2, 3, 3, 2], &[(0, 2, 3), (2, 0, 3), (0, 2, 6), (3, 2, 8), (0, 1, 9)]),
            vec![23, 26, 17, 23],
        ),
        (
            ring(3, &[2, 2, 3, 2], &[(2, 1, 4), (1, 3, 9), (0, 3, 4), (1, 3, 9), (2, 1, 3)]),
            vec![22, 18, 25, 18],
        ),
    ]
}

fn edges(t: &mut Tester) {
    // Limits about k.
    for k in [1, 2, 95, 96] {
        let book = line(k, &[k, 0, k], &[(0, 3, 5), (0, 1, 5)]);
        t.taken("limit = k", &write(&book), Shape::Line);
        for span in 0..3 {
            let mut book = book.clone();
            book.limits[span] = k + 1;
            t.refused_is("limit k + 1", &write(&book), Shape::Line, 7, 1 + span);
        }
    }
    let many = line(96, &[96], &[(0, 1, 1); 100]);
    t.taken("limit 96 and 100 requests", &write(&many), Shape::Line);

    // Profits.
    for (profit, good) in [(1, true), (MOST_PROFIT, true), (0, false), (MOST_PROFIT + 1, false)] {
        let book = line(1, &[1, 1], &[(0, 1, 5), (1, 0, profit), (2, 1, 6)]);
        if good {
            t.taken("profit at its edge", &write(&book), Shape::Line);
        } else {
            t.refused_is("profit past its edge", &write(&book), Shape::Line, 11, 4);
        }
    }

    // Requests: 256 and more, on every shape and size that has room for them.
    for (shape, nodes) in
        [(Shape::Line, 2), (Shape::Line, 63), (Shape::Line, 64), (Shape::Ring, 3), (Shape::Ring, 63)]
    {
        let mut rng = Rng::new(256, nodes as u64);
        let start = 1 + spans(shape, nodes);
        for count in [255, 256, 257, 258, 321 - start] {
            let book = book_of(&mut rng, shape, nodes, 5, count);
            let file = write(&book);
            if count <= 256 {
                t.taken("256 requests", &file, shape);
            } else if file.len() <= 5136 {
                t.refused_is("257 requests", &file, shape, 8, start + 256);
            } else {
                t.refused_is("257 requests and too long", &file, shape, 1, 0);
            }
        }
    }
    let mut rng = Rng::new(257, 0);
    let full = write(&book_of(&mut rng, Shape::Ring, 64, 96, 256));
    t.figure("bytes of the longest book", full.len() as u64, 5136);
    t.taken("a ring of 64 nodes with 256 requests", &full, Shape::Ring);
    let over = write(&book_of(&mut rng, Shape::Ring, 64, 96, 257));
    t.refused_is("a ring of 64 nodes with 257 requests", &over, Shape::Ring, 1, 0);

    // Little or nothing.
    t.refused_is("an empty file", &[], Shape::Line, 1, 0);
    for shape in [Shape::Line, Shape::Ring] {
        let mut rng = Rng::new(258, 0);
        let file = write(&book_of(&mut rng, shape, 4, 2, 3));
        t.refused_is("a network record alone", &file[..RECORD], shape, 5, 1);
        for bytes in 1..file.len() {
            if bytes % RECORD != 0 {
                t.refused_is("part of a record", &file[..bytes], shape, 1, 0);
            }
        }
    }

    // Marks.
    for mark in [0, 2, 255] {
        let mut file = write(&line(2, &[2, 2], &[(0, 1, 5)]));
        file[RECORD + 1] = mark;
        t.refused_is("a wrong limit mark", &file, Shape::Line, 6, 1);
        file[RECORD + 5] = 3;
        t.refused_is("a wrong limit mark, limit above k", &file, Shape::Line, 6, 1);
    }

    // Nodes and channels.
    for (shape, fewest) in [(Shape::Line, 2), (Shape::Ring, 3)] {
        for nodes in [fewest, 63, 64] {
            let mut rng = Rng::new(259, nodes as u64);
            t.taken("nodes in range", &write(&book_of(&mut rng, shape, nodes, 3, 4)), shape);
        }
        for nodes in [0, 1, fewest - 1, 65, 256 + 4, 65_535] {
            let book = Book { shape, nodes, channels: 1, limits: vec![1; 4], requests: vec![] };
            t.refused_is("nodes out of range", &write(&book), shape, 3, 0);
        }
        for channels in [1, 95, 96] {
            let mut rng = Rng::new(260, channels as u64);
            t.taken("channels in range", &write(&book_of(&mut rng, shape, 5, channels, 20)), shape);
        }
        for channels in [0, 97, 256 + 5, 65_535] {
            let mut rng = Rng::new(261, 0);
            let mut book = book_of(&mut rng, shape, 5, 1, 3);
            book.channels = channels;
            t.refused_is("channels out of range", &write(&book), shape, 4, 0);
        }
    }
}

/// Which of several faults counts.
fn order_of_refusals(t: &mut Tester) {
    // A span that is missing is found in its turn.
    let book = Book { shape: Shape::Line, nodes: 64, channels: 4, limits: vec![4], requests: vec![] };
    let mut file = write(&book);
    t.refused_is("62 spans missing", &file, Shape::Line, 5, 2);
    file[RECORD + 1] = 0;
    t.refused_is("span 0 without its mark, the rest missing", &file, Shape::Line, 6, 1);

    // Wrong shape and nodes and channels: in that order.
    let mut file = write(&book_c());
    file[5] = 97;
    t.refused_is("channels wrong", &file, Shape::Line, 4, 0);
    file[3] = 65;
    t.refused_is("nodes and channels wrong", &file, Shape::Line, 3, 0);
    file[1] = 3;
    t.refused_is("shape, nodes and channels wrong", &file, Shape::Line, 2, 0);
    file.pop();
    t.refused_is("those and the byte count", &file, Shape::Line, 1, 0);

    // The 257th request is told by its place and not by what it holds.
    let full = line(3, &[3], &[(0, 1, 5); 256]);
    for last in [[0; RECORD], [255; RECORD], request_record(256, &Request { a: 0, b: 0, profit: 0 })] {
        let mut file = write(&full);
        file.extend(last);
        t.refused_is("any 257th record", &file, Shape::Line, 8, 258);
        for turn in [0, 255] {
            let mut file = file.clone();
            file[(2 + turn) * RECORD + 7] = 0;
            t.refused_is("a fault before the 257th", &file, Shape::Line, 10, 2 + turn);
        }
        file.extend([7; 62 * RECORD]);
        t.refused_is("many after the 256th", &file, Shape::Line, 8, 258);
    }

    // A record of another kind where a span or a request is due.
    let b = write(&book_b());
    let mut file = b.clone();
    file.extend(&b[RECORD..2 * RECORD]);
    t.refused_is("a span after the requests", &file, Shape::Line, 9, 8);
    let mut file = b.clone();
    file.extend(&b[..RECORD]);
    t.refused_is("a network record after the requests", &file, Shape::Line, 9, 8);
    t.refused_is("no network record", &b[RECORD..], Shape::Line, 2, 0);
    let mut file = b.clone();
    file[1] = 2;
    t.refused_is("a line's records called a ring", &file, Shape::Line, 5, 4);
    let mut file = write(&book_e());
    file[1] = 1;
    t.refused_is("a ring's records called a line", &file, Shape::Ring, 9, 4);
}

/// Lengths of the lent lists.
fn lists(t: &mut Tester) {
    for book in [book_b(), book_a(), book_f(), book_e()] {
        t.label = "lengths of lists".to_string();
        let known = know(&write(&book));
        let (m, prices) = (book.requests.len(), book.nodes - 1);
        for entries_len in 0..=2 * m + 5 {
            for prices_len in 0..=4 * prices + 5 {
                t.plan(&known, entries_len, prices_len);
                let (entries, prices) = (vec![0; entries_len], vec![0; prices_len]);
                t.check(&known, "lists of zeros", &entries, &prices, None);
            }
        }
        t.plan(&known, 2000, 2000);
    }
}

fn checker_order(t: &mut Tester) {
    let refusal = |number: u32, place: usize| packed(Refusal { number, place });
    let high = MOST_PROFIT + 1;
    let b = book_b();
    let plan = [0, DOWN + 1, UP + 1, UP + 2];
    t.check_is("14 before 12", &book_e(), &[], &[], refusal(14, 0));
    t.check_is("14 before 13", &book_e(), &[0; 4], &[high; 4], refusal(14, 0));
    t.check_is("12 before 13, entries", &b, &plan[..3], &[high; 3], refusal(12, 0));
    t.check_is("12 before 13, prices", &b, &plan, &[high; 2], refusal(12, 0));
    t.check_is("13 before no", &b, &[0xffff; 4], &[0, 4, high], refusal(13, 2));
    t.check_is("13, lowest span", &b, &plan, &[0, high, high], refusal(13, 1));
    t.check_is("13, first span", &b, &plan, &[high, 4, 0], refusal(13, 0));
    t.check_is("a price past the spans", &b, &plan, &[0, 4, 0, high], YES);
    t.check_is("a price of 1,000,000", &book_d(), &[0], &[MOST_PROFIT], YES);
    t.check_is("a price of 1,000,001", &book_d(), &[0], &[high], refusal(13, 0));

    let mut ring = write(&book_e());
    ring.truncate(3 * RECORD);
    let known = know(&ring);
    t.label = "a ring's own refusal before 14".to_string();
    t.check(&known, "a damaged ring", &[], &[], Some(refusal(5, 3)));
    let figure = checked(&ring, &[], &[]);
    t.figure("a damaged ring", figure, refusal(5, 3));

    // Every entry there is, for the one request of a line that can hold it.
    let one = line(3, &[1], &[(0, 1, 9)]);
    let known = know(&write(&one));
    for entry in 0..=u16::MAX {
        t.label = "every entry".to_string();
        let answer = u64::from((UP + 1..=UP + 3).contains(&entry));
        t.check(&known, "every entry", &entry.to_be_bytes(), &[0; 4], Some(answer));
    }
    let back = line(3, &[0], &[(1, 0, 9)]);
    let known = know(&write(&back));
    for entry in 0..=u16::MAX {
        t.label = "every entry, nothing to keep".to_string();
        let answer = u64::from(entry == 0);
        t.check(
            &known,
            "every entry, nothing to keep",
            &entry.to_be_bytes(),
            &price_bytes(&[9]),
            Some(answer),
        );
    }
}

fn rings(t: &mut Tester) {
    // Nothing to choose between: the lowest cut.
    for nodes in [3, 4, 64] {
        let empty = Book { shape: Shape::Ring, nodes, channels: 2, limits: vec![2; nodes], requests: vec![] };
        t.plan_is("a ring without requests", &empty, 0, 0, &[]);
        let shut = Book { limits: vec![0; nodes], requests: requests(&[(0, 1, 5), (2, 0, 7)]), ..empty };
        t.plan_is("a ring with every span shut", &shut, 0, 0, &[0, 0]);
    }
    // The limit of the cut span does not matter: span 0 is shut here.
    let shut = ring(1, &[0, 1, 1], &[(0, 1, 5)]);
    t.plan_is("a cut at a shut span", &shut, 5, 0, &[DOWN + 1]);
    let shut = ring(1, &[1, 1, 0], &[(0, 1, 5), (2, 1, 4)]);
    t.plan_is("a cut at the last span", &shut, 9, 2, &[UP + 1, DOWN + 1]);
    // By node numbers request 0 would come first, but the line starts at node 2.
    let turned = ring(2, &[2, 0, 2, 2], &[(0, 1, 3), (3, 1, 2), (2, 0, 4)]);
    t.plan_is("channels from the node after the cut", &turned, 9, 1, &[UP + 1, UP + 2, UP + 1]);
}

fn sizes(t: &mut Tester) {
    // 256 kept at 1,000,000 each: nine bits of a count and 28 of earnings.
    let list: Vec<(usize, usize, u64)> =
        (0..256).map(|turn| (turn % 63, turn % 63 + 1, MOST_PROFIT)).collect();
    let book = line(96, &[96; 63], &list);
    let entries: Vec<u16> = (0..256).map(|turn| UP + 1 + turn / 63).collect();
    t.plan_is("256 kept", &book, 256_000_000, NO_CUT, &entries);
    t.check_is("256 kept, prices 0", &book, &entries, &[0; 63], YES);
    t.check_is("256 kept, prices at their greatest", &book, &entries, &[MOST_PROFIT; 63], NO);
    t.figure("the greatest ceiling", ceiling(&book, &[MOST_PROFIT; 63]), 63 * 96 * 1_000_000);

    // Every span shut but for one channel, or all: blocking costs at their worst.
    let long: Vec<(usize, usize, u64)> = (0..256).map(|turn| (0, 63, MOST_PROFIT - turn)).collect();
    for limit in [0, 1, 95, 96] {
        let book = line(96, &[limit; 63], &long);
        let right: u64 = (0..limit as u64).map(|turn| MOST_PROFIT - turn).sum();
        t.figure("the whole line, equal limits", by_flow(&row_of(&book, None)).earnings, right);
        t.label = "the whole line, equal limits".to_string();
        t.book(&write(&book), Shape::Line);
    }
    let around: Vec<(usize, usize, u64)> =
        (0..256).map(|turn| (turn % 64, (turn + 31) % 64, MOST_PROFIT)).collect();
    t.label = "a full ring".to_string();
    t.book(&write(&ring(96, &[50; 64], &around)), Shape::Ring);
    t.book(&write(&ring(96, &[0; 64], &around)), Shape::Ring);
}

/// Records missing, doubled and swapped, with the refusal known beforehand.
fn structure(t: &mut Tester) {
    for (shape, nodes, count) in [
        (Shape::Line, 5, 4),
        (Shape::Ring, 5, 4),
        (Shape::Line, 2, 1),
        (Shape::Ring, 3, 0),
        (Shape::Ring, 64, 256),
    ] {
        let mut rng = Rng::new(300, nodes as u64);
        let file = write(&book_of(&mut rng, shape, nodes, 3, count));
        let start = 1 + spans(shape, nodes);
        let records = start + count;
        let record = |index: usize| &file[index * RECORD..(index + 1) * RECORD];
        for index in 0..records {
            let (number, place) = match index {
                0 => (2, 0),
                _ if index < start => (5, index),
                _ => (9, index),
            };
            let without: Vec<u8> = [&file[..index * RECORD], &file[(index + 1) * RECORD..]].concat();
            if records == 1 {
                t.refused_is("no record left", &without, shape, 1, 0);
            } else if index + 1 == records && index >= start {
                t.taken("without its last request", &without, shape);
            } else {
                t.refused_is("a record missing", &without, shape, number, place);
            }

            let doubled: Vec<u8> = [&file[..index * RECORD], record(index), &file[index * RECORD..]].concat();
            let number = if index + 1 < start { 5 } else { 9 };
            if doubled.len() > 5136 {
                t.refused_is("a record doubled and too long", &doubled, shape, 1, 0);
            } else {
                t.refused_is("a record doubled", &doubled, shape, number, index + 1);
            }

            if index + 1 < records {
                let mut swapped = file[..index * RECORD].to_vec();
                swapped.extend(record(index + 1));
                swapped.extend(record(index));
                swapped.extend(&file[(index + 2) * RECORD..]);
                let (number, place) = match index {
                    0 => (2, 0),
                    _ if index < start => (5, index),
                    _ => (9, index),
                };
                t.refused_is("two records swapped", &swapped, shape, number, place);
            }

            let cut = &file[..index * RECORD];
            if index == 0 {
                t.refused_is("cut to nothing", cut, shape, 1, 0);
            } else if index < start {
                t.refused_is("cut among the spans", cut, shape, 5, index);
            } else {
                t.taken("cut after the spans", cut, shape);
            }
            if t.done() {
                return;
            }
        }
    }
}

/// Each fault at each place; all pairs of them; and every change of one byte.
fn every_fault(t: &mut Tester) {
    let mut rng = Rng::new(400, 0);
    for round in 0..30 {
        let shape = if round % 2 == 0 { Shape::Line } else { Shape::Ring };
        let (nodes, count) = match round {
            0..=3 => (3, 1),
            4..=7 => (64, 256),
            _ => (rng.within(3, 20), rng.within(0, 30)),
        };
        let channels = rng.within(1, 96);
        let book = book_of(&mut rng, shape, nodes, channels, count);
        for fault in faults(&book) {
            let mut file = write(&book);
            fault.put(&mut file);
            let Refusal { number, place } = fault.refusal;
            t.refused_is("a fault", &file, shape, number, place);
        }
        if t.done() {
            return;
        }
    }
    for shape in [Shape::Line, Shape::Ring] {
        let book = book_of(&mut rng, shape, 4, 3, 3);
        let faults = faults(&book);
        for (at, one) in faults.iter().enumerate() {
            for other in &faults[at + 1..] {
                if one.touches(other) {
                    continue;
                }
                let mut file = write(&book);
                one.put(&mut file);
                other.put(&mut file);
                let Refusal { number, place } = first_of(one.refusal, other.refusal);
                t.refused_is("two faults", &file, shape, number, place);
            }
            if t.done() {
                return;
            }
        }
    }
    for book in [book_b(), book_e()] {
        let file = write(&book);
        for at in 0..file.len() {
            for byte in 0..=255 {
                let mut other = file.clone();
                other[at] = byte;
                t.label = format!("byte {at} made {byte}");
                t.book(&other, book.shape);
            }
            if t.done() {
                return;
            }
        }
    }
}

fn scenes(t: &mut Tester) {
    for index in 0..2000 {
        t.label = format!("scene {index} of seed {}", t.seed);
        t.scene(&mut Rng::new(t.seed ^ 0x5ce2e, index));
        if t.done() {
            return;
        }
    }
}

/// The printed form, by this program's own text.
fn texts(t: &mut Tester) {
    let right = "profit 10 kept 3 cut none\n0 0 2 0 0\n1 3 1 2 1\n2 0 1 1 1\n3 2 3 1 2\n";
    let b = write(&book_b());
    let empty: &[u8] = &[];
    t.label = "printed text".to_string();
    for (file, text) in [
        (&b[..], right),
        (&write(&book_a()), "profit 13 kept 2 cut none\n0 0 1 1 1\n1 0 1 1 2\n2 0 1 0 0\n"),
        (&write(&book_c()), "profit 8 kept 2 cut none\n0 0 1 1 1\n1 1 2 1 1\n2 0 2 0 0\n"),
        (&write(&book_d()), "profit 0 kept 0 cut none\n0 0 1 0 0\n"),
        (&write(&book_e()), "profit 15 kept 3 cut 0\n0 0 1 0 0\n1 1 2 1 1\n2 2 3 1 1\n3 3 0 1 1\n"),
        (&write(&book_f()), "profit 0 kept 0 cut none\n"),
        (empty, "refused 1 at 0\n"),
        (&b[..16], "refused 5 at 1\n"),
    ] {
        let (own, others) = print(file);
        if own != text || others {
            t.fail(&format!("own text {own:?}, others {others}, and not {text:?}"), file, &[]);
        }
        if let Err(what) = judge_text(file, text.as_bytes()) {
            t.fail(&format!("right text called wrong: {what}"), file, &[]);
        }
    }
    for wrong in [
        "",
        &right[..right.len() - 1],
        &right.replace("none", "65535"),
        &right.replace("10", "010"),
        &right.replace("10", "9"),
        &right.replace("kept 3", "kept 4"),
        &right.replace("1 3 1 2 1", "1 3 1 1 1"),
        &right.replace("1 3 1 2 1", "1 1 3 2 1"),
        &right.replace("3 2 3 1 2", "3 2 3 1 1"),
        &right.replace("0 0 2 0 0", "0 0 2 1 0"),
        &right.replace('\n', "\r\n"),
        &right.replace("kept", " kept"),
        &format!("{right}\n"),
        "refused 1 at 0\n",
    ] {
        if judge_text(&b, wrong.as_bytes()).is_ok() {
            t.fail(&format!("wrong text called right: {wrong:?}"), &b, &[]);
        }
    }
}
