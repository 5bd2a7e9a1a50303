//! Plans and prices to offer to the checker: good ones, nearly good ones, and
//! ones with a single thing wrong, some on books made for that.

use crate::book::{Book, Refusal, Request, Shape, MOST_PROFIT};
use crate::gen::{first_middle_last, Rng};
use crate::rules::{breach, entry_bytes, only_way, packed, price_bytes, route, Breach};

pub struct Offer {
    pub name: &'static str,
    pub entries: Vec<u8>,
    pub prices: Vec<u8>,
    /// The answer that the offer was made for, where that is known beforehand.
    pub expected: Option<u64>,
}

pub const NO: u64 = 0;
pub const YES: u64 = 1;

fn refusal(number: u32, place: usize) -> u64 {
    packed(Refusal { number, place })
}

struct Offers {
    list: Vec<Offer>,
}

impl Offers {
    fn add(&mut self, name: &'static str, entries: &[u16], prices: &[u64], expected: Option<u64>) {
        self.raw(name, entry_bytes(entries), price_bytes(prices), expected);
    }

    fn raw(&mut self, name: &'static str, entries: Vec<u8>, prices: Vec<u8>, expected: Option<u64>) {
        self.list.push(Offer { name, entries, prices, expected });
    }
}

/// What is offered on a line's book, given a best plan for it and prices that
/// prove it.
pub fn offers(rng: &mut Rng, book: &Book, plan: &[u16], prices: &[u64]) -> Vec<Offer> {
    let mut out = Offers { list: Vec::new() };
    let spans = book.spans();
    let free = vec![0; spans];
    let kept: Vec<usize> = (0..plan.len()).filter(|&turn| plan[turn] != 0).collect();
    let dropped: Vec<usize> = (0..plan.len()).filter(|&turn| plan[turn] == 0).collect();

    out.add("best", plan, prices, Some(YES));
    out.add("best with its channels changed about", &shuffled(rng, book, plan), prices, Some(YES));
    out.add("nothing kept", &vec![0; plan.len()], prices, None);
    out.add(
        "nothing kept, prices 0",
        &vec![0; plan.len()],
        &free,
        Some(if plan.is_empty() { YES } else { NO }),
    );
    out.add("best, prices 0", plan, &free, None);
    out.add("best, prices at their greatest", plan, &vec![MOST_PROFIT; spans], None);

    for span in first_middle_last(spans) {
        let mut other = prices.to_vec();
        other[span] += 1;
        let expected = if other[span] > MOST_PROFIT { Some(refusal(13, span)) } else { None };
        out.add("a price one more", plan, &other, expected);
        if prices[span] > 0 {
            other[span] = prices[span] - 1;
            out.add("a price one less", plan, &other, None);
        }
        for high in [MOST_PROFIT + 1, 1 << 24, u64::from(u32::MAX)] {
            let mut other = prices.to_vec();
            other[span] = high;
            out.add("a price too high", plan, &other, Some(refusal(13, span)));
            other[rng.within(span, spans - 1)] = high;
            out.add("two prices too high", plan, &other, Some(refusal(13, span)));
            let wrong = vec![0x0300; plan.len()];
            out.add("a price too high and a wrong plan", &wrong, &other, Some(refusal(13, span)));
            if !plan.is_empty() {
                out.add("a price too high and no entries", &[], &other, Some(refusal(12, 0)));
            }
        }
    }

    let mut beyond = prices.to_vec();
    beyond.extend([MOST_PROFIT + 1, u64::from(u32::MAX)]);
    let mut after = plan.to_vec();
    after.extend([0x0005, 0xffff, 0x0101]);
    out.add("more in both lists than is read", &after, &beyond, Some(YES));
    let (mut odd_entries, mut odd_prices) = (entry_bytes(plan), price_bytes(prices));
    odd_entries.push(0xff);
    let extra = rng.within(1, 3);
    odd_prices.extend(vec![0xff; extra]);
    out.raw("bytes left over", odd_entries, odd_prices, Some(YES));
    for less in 1..=2 {
        if !plan.is_empty() {
            let mut short = entry_bytes(plan);
            short.truncate(short.len() - less);
            out.raw("entries too short", short, price_bytes(prices), Some(refusal(12, 0)));
        }
    }
    for less in 1..=4 {
        let mut short = price_bytes(prices);
        short.truncate(short.len() - less);
        out.raw("prices too short", entry_bytes(plan), short, Some(refusal(12, 0)));
    }

    if !kept.is_empty() {
        let turn = rng.pick(&kept);
        let mut other = plan.to_vec();
        other[turn] = 0;
        out.add("one dropped", &other, prices, Some(NO));
        out.add("one dropped, prices 0", &other, &free, Some(NO));
        let other = rng.pick(&kept);
        let mut same = plan.to_vec();
        same[turn] = same[turn] / 256 * 256 + plan[other] % 256;
        out.add("one on the channel of another", &same, prices, None);
    }
    if !dropped.is_empty() {
        let turn = rng.pick(&dropped);
        let mut other = plan.to_vec();
        other[turn] = only_way(book, &book.requests[turn], None) * 256 + rng.within(1, book.channels) as u16;
        out.add("one more", &other, prices, Some(NO));
    }
    for _ in 0..2 {
        if !plan.is_empty() {
            let turn = rng.below(plan.len());
            for entry in malformed(rng, book, turn) {
                let mut other = plan.to_vec();
                other[turn] = entry;
                out.add("a malformed entry", &other, prices, Some(NO));
            }
        }
    }
    if let Some(other) = clashing(rng, book, plan) {
        out.add("two that share a span on one channel", &other, prices, Some(NO));
    }

    let random: Vec<u16> = book
        .requests
        .iter()
        .map(|request| match rng.below(3) {
            0 => 0,
            1 => only_way(book, request, None) * 256 + rng.within(1, book.channels) as u16,
            _ => rng.next() as u16,
        })
        .collect();
    out.add("any entries", &random, prices, None);
    let random: Vec<u64> = (0..spans).map(|_| rng.below(MOST_PROFIT as usize + 1) as u64).collect();
    out.add("any prices", plan, &random, None);
    out.list
}

/// Entries for a request that have no proper way and channel, one of each kind.
fn malformed(rng: &mut Rng, book: &Book, turn: usize) -> Vec<u16> {
    let way = only_way(book, &book.requests[turn], None);
    let channels = book.channels as u16;
    let channel = rng.within(1, book.channels) as u16;
    vec![
        channel,                   // way 0
        255,                       // way 0, no such channel either
        (3 - way) * 256 + channel, // the way that a line does not have
        3 * 256 + channel,
        4 * 256 + channel,
        255 * 256 + channel,
        (way + 128) * 256 + channel, // only the low bits of the way are right
        way * 256,                   // channel 0
        3 * 256,
        way * 256 + channels + 1,
        way * 256 + 128 + channel, // only the low bits of the channel are right
        way * 256 + 255,
    ]
}

/// The plan with its channels renamed by some permutation of 1 to k.
fn shuffled(rng: &mut Rng, book: &Book, plan: &[u16]) -> Vec<u16> {
    let mut names: Vec<u16> = (1..=book.channels as u16).collect();
    for last in (1..names.len()).rev() {
        names.swap(last, rng.below(last + 1));
    }
    let rename =
        |entry: u16| if entry == 0 { 0 } else { entry / 256 * 256 + names[usize::from(entry % 256) - 1] };
    plan.iter().map(|&entry| rename(entry)).collect()
}

/// The plan with some request moved to the channel of one that it shares a span
/// with, if there are two such.
fn clashing(rng: &mut Rng, book: &Book, plan: &[u16]) -> Option<Vec<u16>> {
    let kept: Vec<usize> = (0..plan.len()).filter(|&turn| plan[turn] != 0).collect();
    let crossed = |turn: usize| route(book, &book.requests[turn], plan[turn] / 256).expect("a proper plan");
    let mut pairs = Vec::new();
    for &one in &kept {
        for &other in &kept {
            if one < other && crossed(one) & crossed(other) != 0 {
                pairs.push((one, other));
            }
        }
    }
    if pairs.is_empty() {
        return None;
    }
    let (one, other) = rng.pick(&pairs);
    let mut clash = plan.to_vec();
    clash[one] = plan[one] / 256 * 256 + plan[other] % 256;
    Some(clash)
}

/// A book made for the checker, with offers that differ in one thing.
pub struct Scene {
    pub book: Book,
    pub offers: Vec<Offer>,
}

/// In each of these scenes earnings and ceiling are equal, so that only the
/// thing in question can decide.
pub fn scene(rng: &mut Rng) -> Scene {
    match rng.below(5) {
        0 | 1 => clash_on_one_span(rng),
        2 => over_on_one_span(rng),
        3 => forms(rng),
        _ => past_32_bits(rng),
    }
}

fn either_way(rng: &mut Rng, low: usize, high: usize, profit: u64) -> Request {
    let (a, b) = if rng.one_in(2) { (low, high) } else { (high, low) };
    Request { a, b, profit }
}

fn any_profit(rng: &mut Rng) -> u64 {
    rng.within(1, MOST_PROFIT as usize) as u64
}

/// A line with room for all, and requests each on a channel of its own.
fn roomy(rng: &mut Rng, nodes: usize, extra: usize) -> (Book, Vec<u16>) {
    let channels = rng.within(extra.max(2) + 2, 96);
    let mut book =
        Book { shape: Shape::Line, nodes, channels, limits: vec![channels; nodes - 1], requests: Vec::new() };
    let mut channel: Vec<u16> = (1..=channels as u16).collect();
    for last in (1..channels).rev() {
        channel.swap(last, rng.below(last + 1));
    }
    for _ in 0..extra {
        let low = rng.below(nodes - 1);
        let high = rng.within(low + 1, nodes - 1);
        let profit = any_profit(rng);
        book.requests.push(either_way(rng, low, high, profit));
    }
    (book, channel)
}

fn on_channels(book: &Book, channels: &[u16]) -> Vec<u16> {
    book.requests
        .iter()
        .zip(channels)
        .map(|(request, &channel)| only_way(book, request, None) * 256 + channel)
        .collect()
}

/// Two requests that share one span, the first, a middle or the last of the
/// line, and two that share only the node at its left.
fn clash_on_one_span(rng: &mut Rng) -> Scene {
    let size = rng.pick(&[4, 10, 64]);
    let nodes = rng.within(2, size);
    let extra = rng.below(6);
    let (mut book, channels) = roomy(rng, nodes, extra);
    let places = first_middle_last(nodes - 1);
    let span = rng.pick(&places);
    let from = rng.within(0, span);
    let to = rng.within(span + 1, nodes - 1);
    let (here, there) = (rng.within(0, book.requests.len()), rng.within(0, book.requests.len()));
    let (profit, gain) = (any_profit(rng), any_profit(rng));
    let left = either_way(rng, from, span + 1, profit);
    let right = either_way(rng, span, to, gain);
    book.requests.insert(here, left);
    book.requests.insert(there, right);
    let one = there;
    let other = if there <= here { here + 1 } else { here };

    let mut out = Offers { list: Vec::new() };
    let free = vec![0; nodes - 1];
    let apart = on_channels(&book, &channels);
    out.add("all on channels of their own", &apart, &free, Some(YES));
    let mut same = apart.clone();
    same[one] = same[one] / 256 * 256 + same[other] % 256;
    assert!(matches!(breach(&book, &same), Some(Breach::Clash(..))));
    out.add("one channel twice on one span", &same, &free, Some(NO));

    if from < span && rng.one_in(3) {
        // The left one now ends where the right one begins.
        let left = &mut book.requests[other];
        let end = if left.a < left.b { &mut left.b } else { &mut left.a };
        *end = span;
        out.list.clear();
        out.add("one channel on both sides of a node", &same, &free, Some(YES));
        out.add("all on channels of their own", &apart, &free, Some(YES));
    }
    Scene { book, offers: out.list }
}

/// Every limit is the load, but for one span, where it is one less.
fn over_on_one_span(rng: &mut Rng) -> Scene {
    let size = rng.pick(&[4, 10, 64]);
    let nodes = rng.within(2, size);
    let extra = rng.within(1, 8);
    let (mut book, channels) = roomy(rng, nodes, extra);
    let places = first_middle_last(nodes - 1);
    let span = rng.pick(&places);
    let profit = any_profit(rng);
    book.requests[0] = either_way(rng, span, span + 1, profit);
    let loads: Vec<usize> = (0..nodes - 1)
        .map(|at| book.requests.iter().filter(|one| one.a.min(one.b) <= at && at < one.a.max(one.b)).count())
        .collect();
    book.limits = loads;
    let plan = on_channels(&book, &channels);
    let mut out = Offers { list: Vec::new() };
    let free = vec![0; nodes - 1];
    let exact = rng.one_in(3);
    if exact {
        out.add("every span at its limit", &plan, &free, Some(YES));
    } else {
        book.limits[span] -= 1;
        assert_eq!(breach(&book, &plan), Some(Breach::Over(span)));
        out.add("one over the limit of one span", &plan, &free, Some(NO));
    }
    Scene { book, offers: out.list }
}

/// Malformed entries where all is kept at price 0, so that counting them as
/// kept would do, or where nothing can be kept, so that not counting would.
fn forms(rng: &mut Rng) -> Scene {
    let size = rng.pick(&[4, 64]);
    let nodes = rng.within(2, size);
    let extra = rng.within(1, 5);
    let (mut book, channels) = roomy(rng, nodes, extra);
    let mut out = Offers { list: Vec::new() };
    let shut = rng.one_in(2);
    let (plan, prices) = if shut {
        book.limits = vec![0; nodes - 1];
        let greatest = book.requests.iter().map(|one| one.profit).max().unwrap_or(0);
        (vec![0; book.requests.len()], vec![greatest; nodes - 1])
    } else {
        (on_channels(&book, &channels), vec![0; nodes - 1])
    };
    out.add("a proper plan", &plan, &prices, Some(YES));
    for turn in first_middle_last(plan.len()) {
        for entry in malformed(rng, &book, turn) {
            let mut other = plan.clone();
            other[turn] = entry;
            out.add("a malformed entry", &other, &prices, Some(NO));
        }
    }
    Scene { book, offers: out.list }
}

/// A ceiling that is the earnings plus 2 to the 32nd, with everything kept that
/// there is. Arithmetic in 32 bits would take them for equal.
fn past_32_bits(rng: &mut Rng) -> Scene {
    let mut book =
        Book { shape: Shape::Line, nodes: 64, channels: 96, limits: vec![96; 63], requests: Vec::new() };
    let mut prices = vec![0; 63];
    // 44 × 96,000,000 + 96 × 739,242 + 64 × 1 = 2 to the 32nd.
    let mut order: Vec<usize> = (0..63).collect();
    for last in (1..63).rev() {
        order.swap(last, rng.below(last + 1));
    }
    order[..44].iter().for_each(|&span| prices[span] = MOST_PROFIT);
    prices[order[44]] = 739_242;
    prices[order[45]] = 1;
    book.limits[order[45]] = 64;
    // Requests only over spans that cost nothing count in full on both sides.
    for &span in &order[46..] {
        if rng.one_in(2) {
            let profit = any_profit(rng);
            book.requests.push(either_way(rng, span, span + 1, profit));
        }
    }
    let plan = on_channels(&book, &vec![96; book.requests.len()]);
    let mut out = Offers { list: Vec::new() };
    out.add("a ceiling of earnings and 2^32", &plan, &prices, Some(NO));
    out.add("nothing kept below a high ceiling", &vec![0; plan.len()], &prices, Some(NO));
    out.add("all kept, prices 0", &plan, &[0; 63], Some(YES));
    out.add("all prices at their greatest", &plan, &[MOST_PROFIT; 63], Some(NO));
    Scene { book, offers: out.list }
}
