//! Books from a seeded generator: whole ones from tiny to the limits, and
//! damaged ones. Case `index` of a seed is always the same book.

use crate::book::{
    read, request_record, span_record, spans, write, Book, Refusal, Request, Shape, LONGEST, MOST_PROFIT,
    MOST_REQUESTS, RECORD,
};
use crate::exact::row_of;

/// Splitmix: a counter with a large odd step, and its bits well stirred.
pub struct Rng(u64);

impl Rng {
    pub fn new(seed: u64, index: u64) -> Rng {
        let mut rng = Rng(seed ^ index.wrapping_mul(0xd134_2543_de82_ef95));
        rng.next();
        rng
    }

    pub fn next(&mut self) -> u64 {
        self.0 = self.0.wrapping_add(0x9e37_79b9_7f4a_7c15);
        let mut word = self.0;
        word = (word ^ word >> 30).wrapping_mul(0xbf58_476d_1ce4_e5b9);
        word = (word ^ word >> 27).wrapping_mul(0x94d0_49bb_1331_11eb);
        word ^ word >> 31
    }

    /// A number below `bound`.
    pub fn below(&mut self, bound: usize) -> usize {
        (self.next() % bound as u64) as usize
    }

    /// A number from `low` to `high`, both included.
    pub fn within(&mut self, low: usize, high: usize) -> usize {
        low + self.below(high - low + 1)
    }

    pub fn one_in(&mut self, count: usize) -> bool {
        self.below(count) == 0
    }

    pub fn pick<T: Clone>(&mut self, from: &[T]) -> T {
        from[self.below(from.len())].clone()
    }

    pub fn bytes(&mut self, count: usize) -> Vec<u8> {
        (0..count).map(|_| self.next() as u8).collect()
    }
}

pub struct Case {
    pub name: &'static str,
    pub shape: Shape,
    pub file: Vec<u8>,
}

/// Even cases are damaged, and refused for certain; odd ones are taken. Of
/// these one in eight has damage which happens to leave a proper book.
pub fn case(seed: u64, index: u64) -> Case {
    let mut rng = Rng::new(seed, index);
    let book = whole(&mut rng);
    let shape = book.shape;
    let file = write(&book);
    if index % 2 == 0 {
        for _ in 0..100 {
            let (name, damaged) = damage(&mut rng, &book);
            if read(&damaged).is_err() {
                return Case { name, shape, file: damaged };
            }
        }
        return Case { name: "a byte short", shape, file: file[..file.len() - 1].to_vec() };
    }
    if rng.one_in(8) {
        for _ in 0..20 {
            let (_, altered) = damage(&mut rng, &book);
            if altered != file && read(&altered).is_ok() {
                return Case { name: "altered, still whole", shape, file: altered };
            }
        }
    }
    Case { name: "whole", shape, file }
}

// ---- Whole books ----

/// The most nodes, channels and requests of each size, and its share in 1,000.
const SIZES: [(usize, usize, usize, usize); 6] = [
    (4, 3, 4, 240),
    (7, 5, 10, 360),
    (12, 10, 30, 240),
    (30, 40, 90, 120),
    (64, 96, 256, 34),
    (0, 0, 0, 6), // every size at its limit
];

pub fn whole(rng: &mut Rng) -> Book {
    let shape = if rng.one_in(2) { Shape::Line } else { Shape::Ring };
    let mut share = rng.below(1000);
    let mut size = SIZES[0];
    for next in SIZES {
        size = next;
        if share < next.3 {
            break;
        }
        share -= next.3;
    }
    let fewest = if shape == Shape::Line { 2 } else { 3 };
    let (nodes, channels, count) = match size {
        (0, ..) => (64, 96, MOST_REQUESTS),
        (nodes, channels, count, _) => {
            let nodes = rng.within(fewest, nodes);
            let channels = match rng.below(6) {
                0 => 1,
                1 => channels,
                _ => rng.within(1, channels),
            };
            let count = if rng.one_in(5) { count } else { rng.within(0, count) };
            (nodes, channels, count)
        }
    };
    book_of(rng, shape, nodes, channels, count)
}

/// A book with these numbers; ends, profits and limits each in some fashion.
pub fn book_of(rng: &mut Rng, shape: Shape, nodes: usize, channels: usize, count: usize) -> Book {
    let mut book =
        Book { shape, nodes, channels, limits: vec![channels; spans(shape, nodes)], requests: Vec::new() };
    let fashion = rng.below(7);
    let few: Vec<(usize, usize)> = (0..3).map(|_| two_nodes(rng, nodes)).collect();
    for turn in 0..count {
        let (mut a, mut b) = match fashion {
            0 | 1 => two_nodes(rng, nodes),
            2 => rng.pick(&few),
            3 => neighbours(rng, &book),
            4 => stairs(rng, nodes, turn),
            5 => (few[0].0, (few[0].0 + 1 + rng.below(nodes - 1)) % nodes), // one end in common
            _ => nested(rng, nodes),
        };
        if rng.one_in(2) {
            (a, b) = (b, a);
        }
        book.requests.push(Request { a, b, profit: 1 });
    }
    set_profits(rng, &mut book);
    set_limits(rng, &mut book);
    book
}

fn two_nodes(rng: &mut Rng, nodes: usize) -> (usize, usize) {
    let a = rng.below(nodes);
    (a, (a + 1 + rng.below(nodes - 1)) % nodes)
}

fn neighbours(rng: &mut Rng, book: &Book) -> (usize, usize) {
    let span = rng.below(book.spans());
    (span, (span + 1) % book.nodes)
}

/// Stretches of one length, each a step behind the one before.
fn stairs(rng: &mut Rng, nodes: usize, turn: usize) -> (usize, usize) {
    let length = (nodes / 3).max(1);
    let from = turn % (nodes - length);
    if rng.one_in(10) {
        two_nodes(rng, nodes)
    } else {
        (from, from + length)
    }
}

/// Stretches about the middle, one inside the other.
fn nested(rng: &mut Rng, nodes: usize) -> (usize, usize) {
    let from = rng.below(nodes / 2);
    (from, nodes - 1 - from)
}

fn set_profits(rng: &mut Rng, book: &mut Book) {
    let fashion = rng.below(9);
    let same = rng.within(1, MOST_PROFIT as usize);
    let by_length = rng.within(1, 15_000);
    for request in &mut book.requests {
        let length = request.a.abs_diff(request.b);
        let profit = match fashion {
            0 => same,
            1 => 1,
            2 => MOST_PROFIT as usize,
            3 => rng.pick(&[1, MOST_PROFIT as usize]),
            4 => rng.within(1, 4),
            5 => length * by_length,
            6 => length * 1000 + rng.below(300),
            7 => MOST_PROFIT as usize - rng.below(10),
            _ => rng.within(1, MOST_PROFIT as usize),
        };
        request.profit = profit as u64;
    }
}

fn set_limits(rng: &mut Rng, book: &mut Book) {
    let fashion = rng.below(10);
    let channels = book.channels;
    let crossings = crossings(book);
    for (span, crossing) in crossings.into_iter().enumerate() {
        book.limits[span] = match fashion {
            0 => channels,
            1 => 0,
            2 => rng.pick(&[0, channels]),
            3 => rng.below(3).min(channels),
            4 => crossing.min(channels),
            5 => crossing.saturating_sub(1).min(channels),
            6 => channels - rng.below(2),
            7 => 1,
            _ => rng.within(0, channels),
        };
    }
    if rng.one_in(4) {
        let narrow = rng.below(book.limits.len());
        book.limits[narrow] = rng.below(2);
    }
}

/// How many requests cross each span; on a ring as if its last one were cut.
fn crossings(book: &Book) -> Vec<usize> {
    let cut = if book.is_ring() { Some(book.nodes - 1) } else { None };
    let row = row_of(book, cut);
    (0..book.spans())
        .map(|span| row.pieces.iter().filter(|piece| piece.from <= span && span < piece.to).count())
        .collect()
}

// ---- Aimed faults ----

/// A fault put into one record on purpose, with the refusal it must lead to.
#[derive(Clone)]
pub struct Fault {
    pub bytes: Vec<(usize, u8)>,
    pub refusal: Refusal,
}

impl Fault {
    pub fn put(&self, file: &mut [u8]) {
        for &(at, byte) in &self.bytes {
            file[at] = byte;
        }
    }

    pub fn touches(&self, other: &Fault) -> bool {
        self.bytes.iter().any(|one| other.bytes.iter().any(|two| one.0 == two.0))
    }
}

/// The first, the middle and the last of `count` things, each once.
pub fn first_middle_last(count: usize) -> Vec<usize> {
    let mut places = match count {
        0 => vec![],
        _ => vec![0, count / 2, count - 1],
    };
    places.dedup();
    places
}

/// Every kind of fault inside a record, at the first, middle and last record of
/// each kind.
pub fn faults(book: &Book) -> Vec<Fault> {
    let mut faults = Vec::new();
    let mut add = |number: u32, index: usize, at: usize, value: &[u8]| {
        let bytes =
            value.iter().enumerate().map(|(step, &byte)| (index * RECORD + at + step, byte)).collect();
        faults.push(Fault { bytes, refusal: Refusal { number, place: index } });
    };
    let two = |value: usize| (value as u16).to_be_bytes();
    let four = |value: u64| (value as u32).to_be_bytes();

    for kind in [0, 2, 3, 4, 255] {
        add(2, 0, 0, &[kind]);
    }
    for shape in [0, 3, 4, 255] {
        add(2, 0, 1, &[shape]);
    }
    for at in 6..RECORD {
        add(2, 0, at, &[1]);
        add(2, 0, at, &[0x80]);
    }
    for nodes in [0, 1, 65, 256 + book.nodes, 65_535] {
        add(3, 0, 2, &two(nodes));
    }
    if book.is_ring() {
        add(3, 0, 2, &two(2));
    }
    for channels in [0, 97, 256 + book.channels, 65_535] {
        add(4, 0, 4, &two(channels));
    }

    for span in first_middle_last(book.spans()) {
        let index = 1 + span;
        for kind in [0, 1, 3, 4, 255] {
            add(5, index, 0, &[kind]);
        }
        for number in [span + 1, span + 256, 65_535] {
            add(5, index, 2, &two(number));
        }
        if span > 0 {
            add(5, index, 2, &two(span - 1));
        }
        for at in 6..RECORD {
            add(5, index, at, &[1]);
            add(5, index, at, &[0x80]);
        }
        for mark in [0, 2, 3, 255] {
            add(6, index, 1, &[mark]);
        }
        for limit in [book.channels + 1, 256, 256 + book.limits[span], 65_535] {
            add(7, index, 4, &two(limit));
        }
    }

    for turn in first_middle_last(book.requests.len()) {
        let index = 1 + book.spans() + turn;
        let Request { a, b, profit } = book.requests[turn];
        for kind in [0, 1, 2, 4, 255] {
            add(9, index, 0, &[kind]);
        }
        for mark in [1, 2, 255] {
            add(9, index, 1, &[mark]);
        }
        for number in [turn + 1, turn + 256, 65_535] {
            add(9, index, 2, &two(number));
        }
        if turn > 0 {
            add(9, index, 2, &two(turn - 1));
        }
        for at in 12..RECORD {
            add(9, index, at, &[1]);
            add(9, index, at, &[0x80]);
        }
        for end in [book.nodes, 64.max(book.nodes), 65_535] {
            add(10, index, 4, &two(end));
            add(10, index, 6, &two(end));
        }
        add(10, index, 4, &two(256 + a));
        add(10, index, 6, &two(256 + b));
        // Both ends are written, so that two such faults cannot cancel out.
        add(10, index, 4, &[two(a), two(a)].concat());
        add(10, index, 4, &[two(b), two(b)].concat());
        for wrong in [0, MOST_PROFIT + 1, profit + (1 << 24), 1 << 31, (1 << 32) - 1] {
            add(11, index, 8, &four(wrong));
        }
    }
    faults
}

/// Of two faults the earlier record's counts, and in one record the lower number.
pub fn first_of(one: Refusal, other: Refusal) -> Refusal {
    if (one.place, one.number) <= (other.place, other.number) {
        one
    } else {
        other
    }
}

// ---- Damage at random ----

pub fn damage(rng: &mut Rng, book: &Book) -> (&'static str, Vec<u8>) {
    let file = write(book);
    let faults = faults(book);
    let (name, damaged) = match rng.below(12) {
        0 => {
            let mut damaged = file;
            some_fault(rng, &faults).put(&mut damaged);
            ("one fault", damaged)
        }
        1 | 2 => {
            let mut damaged = file;
            some_fault(rng, &faults).put(&mut damaged);
            some_fault(rng, &faults).put(&mut damaged);
            ("two faults", damaged)
        }
        3 => ("a fault and a blow", {
            let mut damaged = file;
            some_fault(rng, &faults).put(&mut damaged);
            blow(rng, book, damaged)
        }),
        4 => ("two blows", {
            let damaged = blow(rng, book, file);
            blow(rng, book, damaged)
        }),
        5 => ("too long", too_long(rng, book)),
        6 => ("too many requests", too_many(rng, book)),
        7 => ("noise", noise(rng, file)),
        _ => ("one blow", blow(rng, book, file)),
    };
    (name, damaged)
}

/// Each refusal number is as likely as the others, however many faults it has.
fn some_fault(rng: &mut Rng, faults: &[Fault]) -> Fault {
    let number = rng.pick(&[2, 3, 4, 5, 6, 7, 9, 10, 11]);
    let of_it: Vec<Fault> = faults.iter().filter(|fault| fault.refusal.number == number).cloned().collect();
    if of_it.is_empty() {
        rng.pick(faults)
    } else {
        rng.pick(&of_it)
    }
}

/// One thing that goes wrong with a file, without a thought for what it means.
fn blow(rng: &mut Rng, book: &Book, mut file: Vec<u8>) -> Vec<u8> {
    if file.len() < 2 * RECORD || file.len() > 2 * LONGEST {
        file.push(rng.next() as u8);
        return file;
    }
    let records = file.len() / RECORD;
    let at = rng.below(file.len());
    let index = record_at_random(rng, book, records);
    let range = index * RECORD..(index + 1) * RECORD;
    match rng.below(12) {
        0 => file[at] = rng.next() as u8,
        1 => file[at] ^= 1 << rng.below(8),
        2 => file[at] = rng.pick(&[0, 1, 2, 3, 255]),
        3 => drop(file.drain(range)),
        4 => {
            let record = file[range].to_vec();
            file.splice(index * RECORD..index * RECORD, record);
        }
        5 => {
            let other = record_at_random(rng, book, records);
            for byte in 0..RECORD {
                file.swap(index * RECORD + byte, other * RECORD + byte);
            }
        }
        6 => file.truncate(at),
        7 => file.truncate(index * RECORD),
        8 => {
            let count = rng.within(1, 15);
            file.extend(rng.bytes(count));
        }
        9 => {
            let pair = index * RECORD + 2 * rng.within(1, 5); // a number with its bytes the wrong way round
            file.swap(pair, pair + 1);
        }
        10 => file[range].fill(0),
        _ => drop(file.drain(at..=at)),
    }
    file
}

/// Records where one kind begins or ends are taken more often than others.
fn record_at_random(rng: &mut Rng, book: &Book, records: usize) -> usize {
    let spans = book.spans();
    let edges = [0, 1, spans, spans + 1, records - 1];
    if rng.one_in(2) {
        rng.pick(&edges).min(records - 1)
    } else {
        rng.below(records)
    }
}

fn too_long(rng: &mut Rng, book: &Book) -> Vec<u8> {
    let mut file = write(book);
    let count = rng.pick(&[LONGEST, LONGEST + 1, LONGEST + RECORD, LONGEST + 1000, 65_536, 70_000]);
    while file.len() < count {
        let turn = file.len() / RECORD - 1 - book.spans();
        let (a, b) = two_nodes(rng, book.nodes);
        file.extend(request_record(turn, &Request { a, b, profit: 5 }));
    }
    file.truncate(count);
    file
}

/// Requests past the 256th, sometimes with a fault in one of them or before.
fn too_many(rng: &mut Rng, book: &Book) -> Vec<u8> {
    let mut file = write(book);
    let start = 1 + book.spans();
    let room = LONGEST / RECORD - start;
    let count = rng.within(MOST_REQUESTS, room.max(MOST_REQUESTS) + 1);
    for turn in book.requests.len()..count {
        let (a, b) = two_nodes(rng, book.nodes);
        file.extend(request_record(turn, &Request { a, b, profit: 1 + turn as u64 }));
    }
    if rng.one_in(2) {
        let turn = rng.pick(&[0, 128, 254, 255, 256, count - 1]).min(count - 1);
        let at = (start + turn) * RECORD + rng.below(RECORD);
        file[at] = rng.next() as u8;
    }
    file
}

fn noise(rng: &mut Rng, file: Vec<u8>) -> Vec<u8> {
    let count = RECORD * rng.within(0, 8);
    match rng.below(6) {
        0 => rng.bytes(count),
        1 => vec![0; count],
        2 => rng.bytes(count + 1),
        3 => file[..RECORD].repeat(rng.within(1, 5)),
        4 => {
            // The records in some other order.
            let mut records: Vec<Vec<u8>> = file.chunks(RECORD).map(<[u8]>::to_vec).collect();
            for last in (1..records.len()).rev() {
                records.swap(last, rng.below(last + 1));
            }
            records.concat()
        }
        _ => (0..count / RECORD).flat_map(|span| span_record(span, 1)).collect(),
    }
}
