//! A stand-in for the library, to test this program with: a planner and a
//! checker written apart from the rest, which can be told to make a mistake.
//! Each mistake that a run does not notice is a hole in the tests.

use std::sync::atomic::{AtomicUsize, Ordering};

use crate::book::{Book, Request, Shape};
use crate::exact::{by_flow, by_subsets, flow_with, row_of, Best, Row};

macro_rules! mistakes {
    ($($name:ident)*) => {
        #[derive(Clone, Copy, PartialEq, Eq, Debug)]
        pub enum Mistake { $($name),* }
        pub const MISTAKES: &[Mistake] = &[$(Mistake::$name),*];
    };
}

mistakes! {
    // The reading.
    CountOfBytesNotTested EmptyTaken LengthRoundedDown TooLongBySixteen KindOfNetworkNotTested
    ShapeThreeTaken NetworkTailNotTested NetworkTailFromEight RingOfTwoTaken LineOfTwoRefused
    SixtyFiveNodesTaken SixtyFourNodesRefused NinetySevenChannelsTaken NinetySixChannelsRefused
    ZeroChannelsTaken NodesBeforeShape ChannelsBeforeNodes MissingSpanTaken MissingSpanFoundFirst
    MissingSpanPlacedAtItsEnd KindOfSpanNotTested SpanNumberNotTested SpanNumberLowByteOnly
    SpanTailNotTested SpanTailFromEight MarkNotTested MarkAfterLimit LimitNotTested
    LimitLowByteOnly LimitEqualRefused HighLimitReadAsChannels TooManyFoundFirst TooManyPlacedAtEnd
    TooManyTaken FullBookRefused FaultBeforeTooMany KindOfRequestNotTested RequestByteOneNotTested
    RequestNumberNotTested RequestNumberLowByteOnly RequestTailNotTested EndANotTested
    EndBNotTested EqualEndsTaken ProfitZeroTaken ProfitOneTooHighTaken ProfitMillionRefused
    ProfitBeforeEnds RequestPlacesFromOne LastRequestNotRead LittleEndianProfit
    // The planner's answer.
    RefusesEverything OneFixedPlan KeepsNothing DropsOne EarningsOneMore KeptOneLess
    KeptInEightBits CutZeroOnLines LargestFirst LargestPerSpanFirst OldBlockingCapacity
    LimitsForgotten OnlyLastCut OnlyFirstCut LeastLoadedCut HighestOfEqualCuts
    CutSpansOwnLimitCounts LastCutForgotten
    // Channels and ways.
    ChannelsByRequestNumber ChannelsByHigherEnd ChannelsTiesReversed ChannelsFromHighest
    ChannelsAllDifferent NodesCountAsShared RingChannelsFromNodeZero WayOneAlways WaysSwapped
    // The lists.
    DroppedEntriesNotWritten OneEntryTooMany NoEntriesWritten LowByteFirst EntriesClearedFirst
    ShortEntriesTaken ShortPricesTaken RingPricesMeasured RingPricesWritten OnePriceTooMany
    PricesNotWritten PricesAllZero PricesOneMore PricesNotClamped EntriesWrittenBeforePricesTested
    BytesLeftOverCleared OddLengthRefused
    // The checker.
    AlwaysYes AlwaysNo CeilingOfKeptOnly CeilingIn32Bits CeilingWithoutLimits
    SurplusBelowZeroCounts LimitsNotChecked LastLimitNotChecked FirstLimitNotChecked
    ChannelsNotChecked FirstSpanShareNotSeen LastSpanShareNotSeen MeetingAtNodeIsClash
    WayZeroNotKept WayThreeTaken WrongWayTaken WayLowBitOnly ChannelZeroTaken ChannelAboveTaken
    EarningsNotCompared RulesNotChecked HighPriceTaken MillionPriceRefused HighPricePlaceLast
    HighPricePastEndRefused HighPriceAfterPlan RingAnsweredNo RingAfterLists RingBeforeBook
    HighPriceBeforeLists CheckerShortEntriesTaken CheckerShortPricesTaken EntriesPastEndRead
}

/// Which mistake is made: its place in the list, or none.
static MISTAKE: AtomicUsize = AtomicUsize::new(usize::MAX);

pub fn make(mistake: Option<Mistake>) {
    let place = mistake.and_then(|mistake| MISTAKES.iter().position(|&one| one == mistake));
    MISTAKE.store(place.unwrap_or(usize::MAX), Ordering::Relaxed);
}

fn on(mistake: Mistake) -> bool {
    MISTAKE.load(Ordering::Relaxed) == mistake as usize
}

use Mistake::*;

fn word(file: &[u8], at: usize) -> usize {
    usize::from(file[at]) << 8 | usize::from(file[at + 1])
}

fn tail_wrong(file: &[u8], from: usize, to: usize) -> bool {
    file[from..to].iter().any(|&byte| byte > 0)
}

/// The reading again, going over the bytes by offset.
fn read(file: &[u8]) -> Result<Book, (u64, u64)> {
    let len = file.len();
    if len == 0 && !on(EmptyTaken) && !on(CountOfBytesNotTested) {
        return Err((1, 0));
    }
    if len % 16 > 0 && !on(LengthRoundedDown) && !on(CountOfBytesNotTested) {
        return Err((1, 0));
    }
    if len > if on(TooLongBySixteen) { 5152 } else { 5136 } && !on(CountOfBytesNotTested) {
        return Err((1, 0));
    }
    let total = len / 16;
    if total == 0 {
        return Err((2, 0));
    }
    let shape_wrong = !(file[1] == 1 || file[1] == 2 || file[1] == 3 && on(ShapeThreeTaken));
    let tail = if on(NetworkTailFromEight) { 8 } else { 6 };
    let two = file[0] != 1 && !on(KindOfNetworkNotTested)
        || shape_wrong
        || tail_wrong(file, tail, 16) && !on(NetworkTailNotTested);
    if two && !on(NodesBeforeShape) {
        return Err((2, 0));
    }
    let ring = file[1] == 2;
    let nodes = word(file, 2);
    let k = word(file, 4);
    let fewest = match ring {
        true if on(RingOfTwoTaken) => 2,
        true => 3,
        false if on(LineOfTwoRefused) => 3,
        false => 2,
    };
    let most = if on(SixtyFiveNodesTaken) {
        65
    } else if on(SixtyFourNodesRefused) {
        63
    } else {
        64
    };
    let three = nodes < fewest || nodes > most;
    let channels_most = if on(NinetySevenChannelsTaken) {
        97
    } else if on(NinetySixChannelsRefused) {
        95
    } else {
        96
    };
    let four = k == 0 && !on(ZeroChannelsTaken) || k > channels_most;
    if four && on(ChannelsBeforeNodes) {
        return Err((4, 0));
    }
    if three {
        return Err((3, 0));
    }
    if two {
        return Err((2, 0));
    }
    if four {
        return Err((4, 0));
    }
    let spans = if ring { nodes } else { nodes - 1 };
    let start = 1 + spans;
    if on(MissingSpanFoundFirst) && total < start {
        return Err((5, total as u64));
    }
    if on(TooManyFoundFirst) && total > start + 256 {
        return Err((8, (start + 256) as u64));
    }
    let mut limits = Vec::new();
    for i in 1..start {
        let at = 16 * i;
        let place = i as u64;
        if i >= total {
            if on(MissingSpanTaken) {
                limits.push(k);
                continue;
            }
            return Err((5, if on(MissingSpanPlacedAtItsEnd) { spans as u64 } else { place }));
        }
        let number = word(file, at + 2);
        let number_wrong = if on(SpanNumberLowByteOnly) { number % 256 != i - 1 } else { number != i - 1 };
        let tail = if on(SpanTailFromEight) { 8 } else { 6 };
        if file[at] != 2 && !on(KindOfSpanNotTested)
            || number_wrong && !on(SpanNumberNotTested)
            || tail_wrong(file, at + tail, at + 16) && !on(SpanTailNotTested)
        {
            return Err((5, place));
        }
        let limit = if on(LimitLowByteOnly) { word(file, at + 4) % 256 } else { word(file, at + 4) };
        let high = (limit > k || on(LimitEqualRefused) && limit == k)
            && !on(LimitNotTested)
            && !on(HighLimitReadAsChannels);
        if on(MarkAfterLimit) && high {
            return Err((7, place));
        }
        if file[at + 1] != 1 && !on(MarkNotTested) {
            return Err((6, place));
        }
        if high {
            return Err((7, place));
        }
        limits.push(limit.min(k));
    }
    let mut requests = Vec::new();
    let last = if on(LastRequestNotRead) && total > start { total - 1 } else { total };
    for i in start..last {
        let at = 16 * i;
        let turn = i - start;
        let place = if on(RequestPlacesFromOne) { i + 1 } else { i } as u64;
        let number = word(file, at + 2);
        let number_wrong =
            if on(RequestNumberLowByteOnly) { number % 256 != turn % 256 } else { number != turn };
        let nine = file[at] != 3 && !on(KindOfRequestNotTested)
            || file[at + 1] != 0 && !on(RequestByteOneNotTested)
            || number_wrong && !on(RequestNumberNotTested)
            || tail_wrong(file, at + 12, at + 16) && !on(RequestTailNotTested);
        if nine && on(FaultBeforeTooMany) {
            return Err((9, place));
        }
        if turn
            >= if on(TooManyTaken) {
                257
            } else if on(FullBookRefused) {
                255
            } else {
                256
            }
        {
            return Err((8, if on(TooManyPlacedAtEnd) { total as u64 - 1 } else { place }));
        }
        if nine {
            return Err((9, place));
        }
        let (a, b) = (word(file, at + 4), word(file, at + 6));
        let mut profit = (word(file, at + 8) << 16 | word(file, at + 10)) as u64;
        if on(LittleEndianProfit) {
            profit = u64::from((profit as u32).swap_bytes());
        }
        let most = if on(ProfitOneTooHighTaken) {
            1_000_001
        } else if on(ProfitMillionRefused) {
            999_999
        } else {
            1_000_000
        };
        let eleven = profit == 0 && !on(ProfitZeroTaken) || profit > most;
        if eleven && on(ProfitBeforeEnds) {
            return Err((11, place));
        }
        if a >= nodes && !on(EndANotTested)
            || b >= nodes && !on(EndBNotTested)
            || a == b && !on(EqualEndsTaken)
        {
            return Err((10, place));
        }
        if eleven {
            return Err((11, place));
        }
        // A mistake that lets an end through must not lead this program astray.
        let (a, b) = (a % nodes, b % nodes);
        requests.push(Request { a, b: if a == b { (a + 1) % nodes } else { b }, profit: profit.max(1) });
    }
    let shape = if ring { Shape::Ring } else { Shape::Line };
    Ok(Book { shape, nodes, channels: k.max(1), limits, requests })
}

fn refuse((number, place): (u64, u64)) -> u64 {
    1 << 63 | number << 32 | place
}

// ---- The planner ----

fn greedy(row: &Row, worth: impl Fn(usize) -> u64) -> Vec<bool> {
    let mut order: Vec<usize> = (0..row.pieces.len()).collect();
    order.sort_by_key(|&i| std::cmp::Reverse(worth(i)));
    let mut loads = vec![0; row.limits.len()];
    let mut kept = vec![false; row.pieces.len()];
    for i in order {
        let piece = &row.pieces[i];
        if (piece.from..piece.to).all(|span| loads[span] < row.limits[span]) {
            (piece.from..piece.to).for_each(|span| loads[span] += 1);
            kept[i] = true;
        }
    }
    kept
}

fn best_of(row: &Row) -> Best {
    let mut best = by_flow(row);
    if row.pieces.len() <= 8 {
        let set = by_subsets(row).1[0];
        best.kept = (0..row.pieces.len()).map(|i| set >> i & 1 == 1).collect();
    }
    if on(LargestFirst) {
        best.kept = greedy(row, |i| row.pieces[i].profit);
    }
    if on(LargestPerSpanFirst) {
        best.kept =
            greedy(row, |i| row.pieces[i].profit * 1000 / (row.pieces[i].to - row.pieces[i].from) as u64);
    }
    if on(OldBlockingCapacity) {
        let over =
            |span: usize| row.pieces.iter().filter(|piece| piece.from <= span && span < piece.to).count();
        best.kept = flow_with(row, |span| over(span).min(row.channels).saturating_sub(row.limits[span])).kept;
    }
    if on(LimitsForgotten) {
        best.kept = flow_with(row, |_| 0).kept;
    }
    if on(KeepsNothing) {
        best.kept.fill(false);
    }
    if on(DropsOne) && row.pieces.len() > 5 {
        if let Some(one) = best.kept.iter_mut().find(|kept| **kept) {
            *one = false;
        }
    }
    best.earnings =
        row.pieces.iter().zip(&best.kept).filter(|(_, &kept)| kept).map(|(piece, _)| piece.profit).sum();
    best
}

fn cut_and_best(book: &Book) -> (Option<usize>, Best) {
    if !book.is_ring() {
        return (None, best_of(&row_of(book, None)));
    }
    let n = book.nodes;
    let least_loaded = (0..n).min_by_key(|&span| {
        book.requests.iter().filter(|one| (span + n - one.a) % n < (one.b + n - one.a) % n).count()
    });
    let cuts: Vec<usize> = if on(OnlyLastCut) {
        vec![n - 1]
    } else if on(OnlyFirstCut) {
        vec![0]
    } else if on(LeastLoadedCut) {
        least_loaded.into_iter().collect()
    } else if on(LastCutForgotten) {
        (0..n - 1).collect()
    } else {
        (0..n).collect()
    };
    let mut found: Option<(usize, Best)> = None;
    for cut in cuts {
        let mut row = row_of(book, Some(cut));
        if on(CutSpansOwnLimitCounts) && book.limits[cut] == 0 {
            row.limits.fill(0);
        }
        let best = best_of(&row);
        let better = match &found {
            None => true,
            Some((_, old)) => {
                best.earnings > old.earnings || on(HighestOfEqualCuts) && best.earnings == old.earnings
            }
        };
        if better {
            found = Some((cut, best));
        }
    }
    let (cut, best) = found.expect("a ring has a cut");
    (Some(cut), best)
}

/// Channels by remembering, for each channel and span, whether it is held.
fn channels(book: &Book, row: &Row, kept: &[bool], cut: Option<usize>) -> Vec<u16> {
    let first = cut.map_or(0, |span| span + 1);
    let mut order: Vec<usize> = (0..kept.len()).filter(|&i| kept[i]).collect();
    if on(ChannelsByHigherEnd) {
        order.sort_by_key(|&i| (row.pieces[i].to, i));
    } else if on(ChannelsTiesReversed) {
        order.sort_by_key(|&i| (row.pieces[i].from, usize::MAX - i));
    } else if on(RingChannelsFromNodeZero) {
        order.sort_by_key(|&i| (book.requests[i].a.min(book.requests[i].b), i));
    } else if !on(ChannelsByRequestNumber) {
        order.sort_by_key(|&i| (row.pieces[i].from, i));
    }
    let mut held = vec![vec![false; row.limits.len() + 1]; 257];
    let mut entries = vec![0; kept.len()];
    for (rank, i) in order.into_iter().enumerate() {
        let piece = &row.pieces[i];
        let last = if on(NodesCountAsShared) { piece.to + 1 } else { piece.to };
        let free = |channel: &usize| held[*channel][piece.from..last].iter().all(|held| !held);
        let channel = if on(ChannelsFromHighest) {
            (1..=book.channels).rev().find(free)
        } else if on(ChannelsAllDifferent) {
            Some(rank % book.channels + 1)
        } else {
            (1..=book.channels).find(free)
        };
        let channel = channel.unwrap_or(1);
        held[channel][piece.from..last].fill(true);
        let mut up = (book.requests[i].a + book.nodes - first) % book.nodes == piece.from;
        if on(WayOneAlways) {
            up = true;
        }
        if on(WaysSwapped) {
            up = !up;
        }
        entries[i] = (if up { 256 } else { 512 }) + channel as u16;
    }
    entries
}

pub fn plan(file: &[u8], entries: &mut [u8], prices: &mut [u8]) -> u64 {
    if on(RefusesEverything) {
        return refuse((1, 0));
    }
    if on(EntriesClearedFirst) {
        entries.fill(0);
    }
    let book = match read(file) {
        Ok(book) => book,
        Err(refusal) => return refuse(refusal),
    };
    let m = book.requests.len();
    let needed = if on(ShortEntriesTaken) { (2 * m).saturating_sub(1) } else { 2 * m };
    let ring = book.is_ring();
    let price_count = if ring && !on(RingPricesMeasured) { 0 } else { book.nodes - 1 };
    let prices_needed =
        if on(ShortPricesTaken) { (4 * price_count).saturating_sub(1) } else { 4 * price_count };
    if on(OddLengthRefused) && entries.len() % 2 == 1 {
        return refuse((12, 0));
    }
    if entries.len() < needed {
        return refuse((12, 0));
    }
    if on(EntriesWrittenBeforePricesTested) {
        entries[..2 * m].fill(0);
    }
    if prices.len() < prices_needed {
        return refuse((12, 0));
    }
    if on(OneFixedPlan) {
        entries[..2 * m].fill(0);
        return 65_535;
    }
    let (cut, best) = cut_and_best(&book);
    let row = row_of(&book, cut);
    let plan = channels(&book, &row, &best.kept, cut);
    for (i, &entry) in plan.iter().enumerate() {
        let bytes = if on(LowByteFirst) { entry.to_le_bytes() } else { entry.to_be_bytes() };
        if entry == 0 && on(DroppedEntriesNotWritten) || on(NoEntriesWritten) || entries.len() < 2 * i + 2 {
            continue;
        }
        entries[2 * i..2 * i + 2].copy_from_slice(&bytes);
    }
    if on(OneEntryTooMany) && entries.len() >= 2 * m + 2 {
        entries[2 * m..2 * m + 2].fill(0);
    }
    if on(BytesLeftOverCleared) && entries.len() % 2 == 1 {
        entries[entries.len() - 1] = 0;
    }
    if !ring && !on(PricesNotWritten) || on(RingPricesWritten) {
        for (span, &price) in best.prices.iter().enumerate() {
            let mut price = if on(PricesAllZero) { 0 } else { price };
            if on(PricesOneMore) {
                price += 1;
            }
            if on(PricesNotClamped) && book.limits[span] == 0 {
                price += 1_000_000;
            }
            if prices.len() >= 4 * span + 4 {
                prices[4 * span..4 * span + 4].copy_from_slice(&(price as u32).to_be_bytes());
            }
        }
        if on(OnePriceTooMany) && prices.len() >= 4 * book.nodes {
            prices[4 * book.nodes - 4..4 * book.nodes].fill(0);
        }
    }
    let mut kept = best.kept.iter().filter(|&&kept| kept).count() as u64;
    let mut sum = best.earnings;
    if on(EarningsOneMore) {
        sum += 1;
    }
    if on(KeptOneLess) {
        kept = kept.saturating_sub(1);
    }
    if on(KeptInEightBits) {
        kept %= 256;
    }
    let cut = cut.map_or(if on(CutZeroOnLines) { 0 } else { 65_535 }, |span| span as u64);
    sum << 32 | kept << 16 | cut
}

// ---- The checker ----

pub fn check(file: &[u8], entries: &[u8], prices: &[u8]) -> u64 {
    if on(RingBeforeBook) && file.len() > 1 && file[1] == 2 {
        return refuse((14, 0));
    }
    let book = match read(file) {
        Ok(book) => book,
        Err(refusal) => return refuse(refusal),
    };
    let m = book.requests.len();
    let spans = book.nodes - 1;
    let short = entries.len() / 2 < m && !on(CheckerShortEntriesTaken)
        || prices.len() / 4 < spans && !on(CheckerShortPricesTaken);
    if on(RingAfterLists) && short {
        return refuse((12, 0));
    }
    if book.is_ring() {
        return if on(RingAnsweredNo) { 0 } else { refuse((14, 0)) };
    }
    let price = |span: usize| match prices.get(4 * span..4 * span + 4) {
        Some(four) => (word(four, 0) << 16 | word(four, 2)) as u64,
        None => 0,
    };
    let read_to = if on(HighPricePastEndRefused) { prices.len() / 4 } else { spans };
    let most = if on(MillionPriceRefused) { 999_999 } else { 1_000_000 };
    let mut high = (0..read_to).find(|&span| price(span) > most);
    if on(HighPricePlaceLast) {
        high = (0..read_to).rev().find(|&span| price(span) > most);
    }
    let thirteen = high.filter(|_| !on(HighPriceTaken)).map(|span| refuse((13, span as u64)));
    if on(HighPriceBeforeLists) && thirteen.is_some() {
        return thirteen.unwrap_or(0);
    }
    if short {
        return refuse((12, 0));
    }
    let good = rules_hold(&book, entries);
    if on(HighPriceAfterPlan) && !good {
        return 0;
    }
    if let Some(refusal) = thirteen {
        return refusal;
    }
    if on(AlwaysYes) || on(AlwaysNo) {
        return u64::from(on(AlwaysYes));
    }
    if on(EntriesPastEndRead) && (m..entries.len() / 2).any(|i| word(entries, 2 * i) != 0) {
        return 0;
    }
    let (sum, most) = sums(&book, entries, price);
    let equal = if on(CeilingIn32Bits) { sum as u32 == most as u32 } else { sum == most };
    u64::from((good || on(RulesNotChecked)) && (equal || on(EarningsNotCompared)))
}

fn entry_at(entries: &[u8], i: usize) -> usize {
    if entries.len() < 2 * i + 2 {
        0
    } else {
        word(entries, 2 * i)
    }
}

/// Earnings and ceiling, in one pass over running sums of the prices.
fn sums(book: &Book, entries: &[u8], price: impl Fn(usize) -> u64) -> (i64, i64) {
    let mut before = vec![0];
    let mut most = 0;
    for (span, &limit) in book.limits.iter().enumerate() {
        before.push(before[span] + price(span) as i64);
        most += if on(CeilingWithoutLimits) { price(span) as i64 } else { limit as i64 * price(span) as i64 };
    }
    let mut sum = 0;
    for (i, request) in book.requests.iter().enumerate() {
        let gain = request.profit as i64 - (before[request.a] - before[request.b]).abs();
        let kept = entry_at(entries, i) != 0;
        if kept {
            sum += request.profit as i64;
        }
        if kept || !on(CeilingOfKeptOnly) {
            most += if on(SurplusBelowZeroCounts) { gain } else { gain.max(0) };
        }
    }
    (sum, most)
}

/// The rules by a table of who holds which channel on which span.
fn rules_hold(book: &Book, entries: &[u8]) -> bool {
    let spans = book.nodes - 1;
    let mut held = vec![[false; 256]; spans + 2];
    let mut loads = vec![0; spans];
    for (i, request) in book.requests.iter().enumerate() {
        let entry = entry_at(entries, i);
        let (way, channel) = (entry / 256, entry % 256);
        if entry == 0 || way == 0 && on(WayZeroNotKept) {
            continue;
        }
        let right = if request.a < request.b { 1 } else { 2 };
        let way_fits = way == right
            || on(WrongWayTaken) && (way == 1 || way == 2)
            || on(WayThreeTaken) && way >= 3
            || on(WayLowBitOnly) && way % 4 == right;
        let lowest = if on(ChannelZeroTaken) { 0 } else { 1 };
        let highest = if on(ChannelAboveTaken) { book.channels + 1 } else { book.channels };
        if !way_fits || channel < lowest || channel > highest {
            return false;
        }
        let (low, high) = (request.a.min(request.b), request.a.max(request.b));
        for span in low..high {
            let unseen =
                on(FirstSpanShareNotSeen) && span == 0 || on(LastSpanShareNotSeen) && span + 1 == spans;
            if held[span][channel] && !on(ChannelsNotChecked) && !unseen {
                return false;
            }
            loads[span] += 1;
        }
        if on(MeetingAtNodeIsClash) && (held[high][channel] || low > 0 && held[low - 1][channel]) {
            return false;
        }
        (low..high).for_each(|span| held[span][channel] = true);
    }
    (0..spans).all(|span| {
        let looked_at = !(on(LimitsNotChecked)
            || on(LastLimitNotChecked) && span + 1 == spans
            || on(FirstLimitNotChecked) && span == 0);
        !looked_at || loads[span] <= book.limits[span]
    })
}
