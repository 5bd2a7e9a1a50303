//! The rules of document 01 as plain definitions: routes, plans that obey,
//! earnings, ceiling, verdict, the channel rule and the ways round a cut.

use crate::book::{read, Book, Refusal, Request, MOST_PROFIT};

/// The cut reported for a line.
pub const NO_CUT: u64 = 65_535;

/// A set of spans, bit j for span j. There are at most 64 spans.
pub type Spans = u64;

/// The spans that a request crosses on a way, or nothing where there is no such
/// way. Way 1 walks up from a, way 2 walks down from a; a line has no span from
/// its last node to node 0, so there only one of them arrives.
pub fn route(book: &Book, request: &Request, way: u16) -> Option<Spans> {
    let exists = match way {
        1 => book.is_ring() || request.a < request.b,
        2 => book.is_ring() || request.a > request.b,
        _ => false,
    };
    if !exists {
        return None;
    }
    let mut crossed = 0;
    let mut at = request.a;
    while at != request.b {
        if way == 1 {
            crossed |= 1 << at;
            at = (at + 1) % book.nodes;
        } else {
            at = (at + book.nodes - 1) % book.nodes;
            crossed |= 1 << at;
        }
    }
    Some(crossed)
}

/// What is wrong with a plan.
#[derive(Clone, Copy, PartialEq, Eq, Debug)]
pub enum Breach {
    /// The entry of this request has no such way or channel.
    Form(usize),
    /// These two requests share a span and a channel.
    Clash(usize, usize),
    /// This span is crossed more often than its limit allows.
    Over(usize),
}

/// The first breach of the rules in a plan, if there is one.
pub fn breach(book: &Book, entries: &[u16]) -> Option<Breach> {
    let mut kept: Vec<(usize, u16, Spans)> = Vec::new();
    for (turn, (request, &entry)) in book.requests.iter().zip(entries).enumerate() {
        if entry == 0 {
            continue;
        }
        let (way, channel) = (entry / 256, entry % 256);
        let Some(crossed) = route(book, request, way) else {
            return Some(Breach::Form(turn));
        };
        if channel < 1 || usize::from(channel) > book.channels {
            return Some(Breach::Form(turn));
        }
        kept.push((turn, channel, crossed));
    }
    for (at, one) in kept.iter().enumerate() {
        for other in &kept[at + 1..] {
            if one.1 == other.1 && one.2 & other.2 != 0 {
                return Some(Breach::Clash(one.0, other.0));
            }
        }
    }
    for (span, &limit) in book.limits.iter().enumerate() {
        let load = kept.iter().filter(|one| one.2 >> span & 1 == 1).count();
        if load > limit {
            return Some(Breach::Over(span));
        }
    }
    None
}

pub fn obeys(book: &Book, entries: &[u16]) -> bool {
    breach(book, entries).is_none()
}

pub fn earnings(book: &Book, entries: &[u16]) -> u64 {
    book.requests
        .iter()
        .zip(entries)
        .filter(|(_, &entry)| entry != 0)
        .map(|(request, _)| request.profit)
        .sum()
}

pub fn number_kept(entries: &[u16]) -> u64 {
    entries.iter().filter(|&&entry| entry != 0).count() as u64
}

/// What no plan on a line can earn more than, at these prices. Every request
/// counts, kept or not.
pub fn ceiling(book: &Book, prices: &[u64]) -> u64 {
    let rent: u64 = book.limits.iter().zip(prices).map(|(&limit, &price)| limit as u64 * price).sum();
    let surplus: u64 = book
        .requests
        .iter()
        .map(|request| {
            let (low, high) = (request.a.min(request.b), request.a.max(request.b));
            let toll: u64 = prices[low..high].iter().sum();
            request.profit.saturating_sub(toll)
        })
        .sum();
    rent + surplus
}

pub fn verdict(book: &Book, entries: &[u16], prices: &[u64]) -> bool {
    obeys(book, entries) && earnings(book, entries) == ceiling(book, prices)
}

/// Where a node stands: its number on a line, and on a ring how far it is
/// behind the node that follows the cut.
pub fn position(book: &Book, cut: Option<usize>, node: usize) -> usize {
    match cut {
        None => node,
        Some(span) => (node + book.nodes - (span + 1)) % book.nodes,
    }
}

/// The way of a request on a line, or on the line that a cut leaves of a ring.
pub fn only_way(book: &Book, request: &Request, cut: Option<usize>) -> u16 {
    let fits = |way: u16| match (route(book, request, way), cut) {
        (Some(crossed), Some(span)) => crossed >> span & 1 == 0,
        (Some(_), None) => true,
        (None, _) => false,
    };
    if fits(1) {
        1
    } else {
        2
    }
}

/// The entries that the channel rule gives to a kept set, or the request for
/// which no channel is left (refusal 15).
pub fn entries_by_rule(book: &Book, kept: &[bool], cut: Option<usize>) -> Result<Vec<u16>, usize> {
    let mut order: Vec<usize> = (0..book.requests.len()).filter(|&turn| kept[turn]).collect();
    order.sort_by_key(|&turn| {
        let request = &book.requests[turn];
        (position(book, cut, request.a).min(position(book, cut, request.b)), turn)
    });
    let mut entries = vec![0; book.requests.len()];
    let mut given: Vec<(Spans, u16)> = Vec::new();
    for turn in order {
        let way = only_way(book, &book.requests[turn], cut);
        let crossed = route(book, &book.requests[turn], way).expect("the way exists");
        let held = |channel: u16| given.iter().any(|one| one.1 == channel && one.0 & crossed != 0);
        let Some(channel) = (1..=book.channels as u16).find(|&channel| !held(channel)) else {
            return Err(turn);
        };
        given.push((crossed, channel));
        entries[turn] = way * 256 + channel;
    }
    Ok(entries)
}

/// The numbers in a lent list. What is no whole place at its end is passed over.
pub fn entries_of(list: &[u8]) -> Vec<u16> {
    list.chunks_exact(2).map(|two| u16::from(two[0]) * 256 + u16::from(two[1])).collect()
}

pub fn prices_of(list: &[u8]) -> Vec<u64> {
    list.chunks_exact(4).map(|four| four.iter().fold(0, |sum, &byte| sum * 256 + u64::from(byte))).collect()
}

pub fn entry_bytes(entries: &[u16]) -> Vec<u8> {
    entries.iter().flat_map(|entry| entry.to_be_bytes()).collect()
}

pub fn price_bytes(prices: &[u64]) -> Vec<u8> {
    prices.iter().flat_map(|&price| (price as u32).to_be_bytes()).collect()
}

/// Refusal 12, which the planner and the checker share.
pub fn lists_too_short(book: &Book, entries_len: usize, prices_len: usize) -> bool {
    entries_len / 2 < book.requests.len() || !book.is_ring() && prices_len / 4 < book.spans()
}

/// A refusal as the 64-bit answer.
pub fn packed(refusal: Refusal) -> u64 {
    1 << 63 | u64::from(refusal.number) << 32 | refusal.place as u64
}

fn told_refusal(answer: u64) -> String {
    format!("refused {} at {}", answer >> 32 & 0x7fff_ffff, answer & 0xffff_ffff)
}

/// The planner's answer in words, for messages.
pub fn told_plan(answer: u64) -> String {
    if answer >> 63 == 1 {
        return told_refusal(answer);
    }
    format!("earnings {} kept {} cut {}", answer >> 32, answer >> 16 & 0xffff, answer & 0xffff)
}

/// The checker's answer in words.
pub fn told_check(answer: u64) -> String {
    match answer {
        0 => "no".to_string(),
        1 => "yes".to_string(),
        _ if answer >> 63 == 1 => told_refusal(answer),
        _ => format!("{answer}, neither yes nor no"),
    }
}

/// The checker's answer, with its refusals in document 01's order.
pub fn checked(file: &[u8], entries: &[u8], prices: &[u8]) -> u64 {
    match read(file) {
        Err(refusal) => packed(refusal),
        Ok(book) => checked_book(&book, entries, prices),
    }
}

pub fn checked_book(book: &Book, entries: &[u8], prices: &[u8]) -> u64 {
    if book.is_ring() {
        return packed(Refusal { number: 14, place: 0 });
    }
    if lists_too_short(book, entries.len(), prices.len()) {
        return packed(Refusal { number: 12, place: 0 });
    }
    let prices = &prices_of(prices)[..book.spans()];
    if let Some(place) = prices.iter().position(|&price| price > MOST_PROFIT) {
        return packed(Refusal { number: 13, place });
    }
    let entries = &entries_of(entries)[..book.requests.len()];
    u64::from(verdict(book, entries, prices))
}
