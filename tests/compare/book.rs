//! Order books: a file of 16-byte records read into a `Book`, or the refusal
//! that document 01 gives for it (numbers 1 to 11), and books written as bytes.

pub const RECORD: usize = 16;
/// One network record, 64 spans and 256 requests.
pub const LONGEST: usize = 5136;
pub const MOST_REQUESTS: usize = 256;
pub const MOST_PROFIT: u64 = 1_000_000;

#[derive(Clone, Copy, PartialEq, Eq, Debug)]
pub struct Refusal {
    pub number: u32,
    pub place: usize,
}

#[derive(Clone, Copy, PartialEq, Eq, Debug)]
pub enum Shape {
    Line,
    Ring,
}

#[derive(Clone, PartialEq, Eq, Debug)]
pub struct Request {
    pub a: usize,
    pub b: usize,
    pub profit: u64,
}

#[derive(Clone, PartialEq, Eq, Debug)]
pub struct Book {
    pub shape: Shape,
    pub nodes: usize,
    pub channels: usize,
    /// One limit a span, in span order.
    pub limits: Vec<usize>,
    pub requests: Vec<Request>,
}

impl Book {
    pub fn spans(&self) -> usize {
        spans(self.shape, self.nodes)
    }

    pub fn is_ring(&self) -> bool {
        self.shape == Shape::Ring
    }
}

/// A ring's last span closes the circle; a line has one span fewer.
pub fn spans(shape: Shape, nodes: usize) -> usize {
    match shape {
        Shape::Line => nodes - 1,
        Shape::Ring => nodes,
    }
}

/// The number in bytes `from` to `to` of a record, both included.
fn number(record: &[u8], from: usize, to: usize) -> u64 {
    record[from..=to].iter().fold(0, |sum, &byte| sum * 256 + u64::from(byte))
}

fn all_zero(record: &[u8], from: usize) -> bool {
    record[from..RECORD].iter().all(|&byte| byte == 0)
}

/// Judges a file as document 01's table does: the byte count first, then record
/// after record, and in a record the lowest number first.
pub fn read(file: &[u8]) -> Result<Book, Refusal> {
    let refuse = |number: u32, place: usize| Err(Refusal { number, place });

    if file.is_empty() || file.len() % RECORD != 0 || file.len() > LONGEST {
        return refuse(1, 0);
    }
    let records: Vec<&[u8]> = file.chunks(RECORD).collect();

    let network = records[0];
    let shape = match (network[0], network[1]) {
        (1, 1) => Shape::Line,
        (1, 2) => Shape::Ring,
        _ => return refuse(2, 0),
    };
    if !all_zero(network, 6) {
        return refuse(2, 0);
    }
    let nodes = number(network, 2, 3) as usize;
    let fewest = if shape == Shape::Line { 2 } else { 3 };
    if nodes < fewest || nodes > 64 {
        return refuse(3, 0);
    }
    let channels = number(network, 4, 5) as usize;
    if channels < 1 || channels > 96 {
        return refuse(4, 0);
    }

    let span_count = spans(shape, nodes);
    let mut limits = Vec::new();
    for span in 0..span_count {
        let index = 1 + span;
        // A span whose turn comes after the end of the file is missing.
        let Some(record) = records.get(index) else {
            return refuse(5, index);
        };
        if record[0] != 2 || number(record, 2, 3) != span as u64 || !all_zero(record, 6) {
            return refuse(5, index);
        }
        if record[1] != 1 {
            return refuse(6, index);
        }
        let limit = number(record, 4, 5) as usize;
        if limit > channels {
            return refuse(7, index);
        }
        limits.push(limit);
    }

    let mut requests = Vec::new();
    for (index, record) in records.iter().enumerate().skip(1 + span_count) {
        let turn = index - 1 - span_count;
        if turn == MOST_REQUESTS {
            return refuse(8, index);
        }
        if record[0] != 3 || record[1] != 0 || number(record, 2, 3) != turn as u64 || !all_zero(record, 12) {
            return refuse(9, index);
        }
        let a = number(record, 4, 5) as usize;
        let b = number(record, 6, 7) as usize;
        if a >= nodes || b >= nodes || a == b {
            return refuse(10, index);
        }
        let profit = number(record, 8, 11);
        if profit < 1 || profit > MOST_PROFIT {
            return refuse(11, index);
        }
        requests.push(Request { a, b, profit });
    }

    Ok(Book { shape, nodes, channels, limits, requests })
}

fn put(record: &mut [u8], at: usize, width: usize, value: u64) {
    let bytes = value.to_be_bytes();
    record[at..at + width].copy_from_slice(&bytes[8 - width..]);
}

pub fn network_record(book: &Book) -> [u8; RECORD] {
    let mut record = [0; RECORD];
    record[0] = 1;
    record[1] = if book.is_ring() { 2 } else { 1 };
    put(&mut record, 2, 2, book.nodes as u64);
    put(&mut record, 4, 2, book.channels as u64);
    record
}

pub fn span_record(span: usize, limit: usize) -> [u8; RECORD] {
    let mut record = [0; RECORD];
    record[0] = 2;
    record[1] = 1;
    put(&mut record, 2, 2, span as u64);
    put(&mut record, 4, 2, limit as u64);
    record
}

pub fn request_record(turn: usize, request: &Request) -> [u8; RECORD] {
    let mut record = [0; RECORD];
    record[0] = 3;
    put(&mut record, 2, 2, turn as u64);
    put(&mut record, 4, 2, request.a as u64);
    put(&mut record, 6, 2, request.b as u64);
    put(&mut record, 8, 4, request.profit);
    record
}

/// The file that holds `book`. Nothing is tested here, so that books with a
/// value out of its range, or too many requests, can be written as well.
pub fn write(book: &Book) -> Vec<u8> {
    let mut file = network_record(book).to_vec();
    for (span, &limit) in book.limits.iter().enumerate() {
        file.extend(span_record(span, limit));
    }
    for (turn, request) in book.requests.iter().enumerate() {
        file.extend(request_record(turn, request));
    }
    file
}
