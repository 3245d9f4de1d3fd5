//! Orders and lists of calls for tests: random ones from fixed seeds, and every order of a few points.

pub mod faulty_nets;
pub mod nets;

use crate::drawing::{open, Drawing};
use crate::entry::{FEEDER_BIT, GUIDE_BIT, POINT_BITS};
use crate::records::{
    put, DRAWING_HEADER, DRAWING_LINE, DRAWING_POINT, END, ORDER_HEADER, ORDER_POINT, SCALE,
    STRAIGHT_HEADER,
};
use crate::style::Style;

/// An xorshift generator; the same seed gives the same numbers.
#[derive(Clone, Debug)]
pub struct Random {
    state: u64,
}

impl Random {
    /// A generator from a seed.
    pub fn new(seed: u64) -> Self {
        let state = (seed ^ 0x9E37_79B9_7F4A_7C15).max(1);
        Random { state }
    }

    /// The next 64-bit number.
    pub fn number(&mut self) -> u64 {
        self.state ^= self.state << 13;
        self.state ^= self.state >> 7;
        self.state ^= self.state << 17;
        self.state
    }

    /// A whole number from 0 to below - 1.
    pub fn below(&mut self, below: usize) -> usize {
        (self.number() >> 16) as usize % below
    }

    /// A whole number from low to high.
    pub fn between(&mut self, low: usize, high: usize) -> usize {
        low + self.below(high - low + 1)
    }
}

/// How the runs of a random order are chosen.
#[derive(Clone, Copy, Debug, PartialEq, Eq)]
pub enum Runs {
    /// D is 1 or 2.
    Short,
    /// D is at least half of the largest.
    Long,
    /// Any run.
    Mixed,
    /// Every run but the last ends at the same point, which is point 1, 2 or 3.
    Crowded,
    /// The whole boundary each time.
    Whole,
}

/// All of them.
pub const RUNS: [Runs; 5] = [
    Runs::Short,
    Runs::Long,
    Runs::Mixed,
    Runs::Crowded,
    Runs::Whole,
];

/// An order: what an order file holds.
#[derive(Clone, Debug, PartialEq, Eq)]
pub struct Order {
    pub n: u16,
    pub s: u16,
    /// The entries of points 2 and 3: 1; 1, 2; each guide, plain or feeder.
    pub opening: [u16; 3],
    /// The entries of points 4 to n, one adding call each.
    pub calls: Vec<Vec<u16>>,
}

impl Order {
    /// "Order file: 48 44 and n; optionally 53 43 and a scale s from 2 to 8 (absent means 1); n
    /// point records 50 54, a count c, c entries; 45 4E."
    pub fn bytes(&self) -> Vec<u8> {
        let mut bytes = Vec::new();
        put(&mut bytes, ORDER_HEADER, &[self.n]);
        if self.s > 1 {
            put(&mut bytes, SCALE, &[self.s]);
        }
        let [two, three_left, three_right] = self.opening;
        put(&mut bytes, ORDER_POINT, &[0]);
        put(&mut bytes, ORDER_POINT, &[1, two]);
        put(&mut bytes, ORDER_POINT, &[2, three_left, three_right]);
        for call in &self.calls {
            let mut numbers = vec![call.len() as u16];
            numbers.extend(call);
            put(&mut bytes, ORDER_POINT, &numbers);
        }
        put(&mut bytes, END, &[]);
        bytes
    }

    /// The order of the first n points, n from 3 to this order's n; the last run is made the whole
    /// boundary.
    pub fn shortened(&self, n: u16) -> Order {
        let mut boundary = vec![1, 3, 2];
        let mut calls: Vec<Vec<u16>> = Vec::new();
        for (point, call) in (4..n).zip(&self.calls) {
            let first = call[0] & POINT_BITS;
            let l = boundary.iter().position(|&w| w == first).unwrap_or(0);
            cover(&mut boundary, l, l + call.len() - 1, point);
            calls.push(call.clone());
        }
        if n > 3 {
            calls.push(boundary);
        }
        Order {
            n,
            calls,
            ..self.clone()
        }
    }

    /// The same order with all lines plain and scale 1.
    pub fn plain(&self) -> Order {
        let mut order = self.clone();
        order.s = 1;
        order.entries_mut().for_each(|entry| *entry &= POINT_BITS);
        order
    }

    /// The entries of all points in line order.
    pub fn entries(&self) -> impl Iterator<Item = &u16> {
        self.opening.iter().chain(self.calls.iter().flatten())
    }

    /// The same, to be changed.
    pub fn entries_mut(&mut self) -> impl Iterator<Item = &mut u16> {
        self.opening
            .iter_mut()
            .chain(self.calls.iter_mut().flatten())
    }
}

/// How many of eight entries are guides and how many feeders, on average; the others are plain.
#[derive(Clone, Copy)]
struct Shares {
    guides: usize,
    feeders: usize,
}

impl Shares {
    /// Any of them, none and all eight of each kind included.
    fn random(random: &mut Random) -> Self {
        let guides = random.below(9);
        let feeders = random.below(9 - guides);
        Shares { guides, feeders }
    }

    /// Marks each entry at random.
    fn mark(self, entries: &mut [u16], random: &mut Random) {
        for entry in entries {
            let chance = random.below(8);
            if chance < self.guides {
                *entry |= GUIDE_BIT;
            } else if chance < self.guides + self.feeders {
                *entry |= FEEDER_BIT;
            }
        }
    }
}

/// A random order of n points with runs of a sort, n from 3 to 1,024, with guides and feeders at
/// random and a scale from 1 to 8.
pub fn order(n: u16, runs: Runs, random: &mut Random) -> Order {
    let crowded = random.between(1, 3) as u16;
    let shares = Shares::random(random);
    let mut boundary = vec![1, 3, 2];
    let mut calls = Vec::new();
    for point in 4..=n {
        let (l, r) = if point == n {
            (0, boundary.len() - 1)
        } else {
            run(&boundary, runs, crowded, random)
        };
        let mut entries = boundary[l..=r].to_vec();
        shares.mark(&mut entries, random);
        calls.push(entries);
        cover(&mut boundary, l, r, point);
    }
    let mut opening = [1, 1, 2];
    shares.mark(&mut opening, random);
    Order {
        n,
        s: random.between(1, 8) as u16,
        opening,
        calls,
    }
}

/// The order that bytes choose, up to 1,024 points: two bytes a point, the first for the start of its
/// run, the second for its length; by three with remainder each also says the kind of the line to one
/// end of the run.
pub fn order_by(choices: &[u8]) -> Order {
    let mut boundary = vec![1, 3, 2];
    let mut calls = Vec::new();
    for (point, choice) in (4..1024).zip(choices.chunks_exact(2)) {
        let [left, right] = [choice[0], choice[1]].map(|byte| usize::from(byte / 3));
        let most = boundary.len() - 1;
        let l = left % most;
        let r = l + 1 + right % (most - l);
        let mut entries = boundary[l..=r].to_vec();
        let [mark_left, mark_right] = [choice[0], choice[1]].map(mark_by);
        entries[0] |= mark_left;
        entries[r - l] |= mark_right;
        calls.push(entries);
        cover(&mut boundary, l, r, point);
    }
    calls.push(boundary);
    Order {
        n: calls.len() as u16 + 3,
        s: 1 + u16::from(choices.last().map_or(0, |byte| byte % 8)),
        opening: [1, 1, 2],
        calls,
    }
}

/// The mark that a byte chooses: none, guide or feeder.
fn mark_by(choice: u8) -> u16 {
    match choice % 3 {
        0 => 0,
        1 => GUIDE_BIT,
        _ => FEEDER_BIT,
    }
}

/// A run of a sort, wl, .., wr of the boundary, as indexes.
fn run(boundary: &[u16], runs: Runs, crowded: u16, random: &mut Random) -> (usize, usize) {
    let most = boundary.len() - 1;
    let (least_d, most_d) = match runs {
        Runs::Short => (1, 2.min(most)),
        Runs::Long => (most.div_ceil(2), most),
        Runs::Mixed => (1, most),
        Runs::Crowded => return crowded_run(boundary, crowded, random),
        Runs::Whole => (most, most),
    };
    let d = random.between(least_d, most_d);
    let l = random.below(most - d + 1);
    (l, l + d)
}

/// A run that starts or ends at the given boundary point and is mostly short.
fn crowded_run(boundary: &[u16], crowded: u16, random: &mut Random) -> (usize, usize) {
    let last = boundary.len() - 1;
    let at = boundary.iter().position(|&w| w == crowded).unwrap_or(0);
    let leftwards = at == last || (at > 0 && random.below(2) == 0);
    let room = if leftwards { at } else { last - at };
    let d = if random.below(4) == 0 {
        random.between(1, room)
    } else {
        1
    };
    if leftwards {
        (at - d, at)
    } else {
        (at, at + d)
    }
}

/// A random list of adding calls with runs of a sort for n points, n from 3 to 1,024, with refused
/// calls among them. It may stop before the drawing is finished, and may go on after.
pub fn calls(n: u16, runs: Runs, random: &mut Random) -> Vec<Vec<u16>> {
    let mut drawing = open(Style::OneBend, n).expect("n from 3 to 1,024");
    let crowded = random.between(1, 3) as u16;
    let shares = Shares::random(random);
    let wrong_in_8 = random.below(7);
    let most = random.below(4 * usize::from(n));
    let mut calls = Vec::new();
    let mut after = random.below(4);
    while calls.len() < most && after > 0 {
        let whole = drawing.k() + 1 == n && random.below(4) > 0;
        let runs = if whole { Runs::Whole } else { runs };
        let (l, r) = run(&drawing.boundary, runs, crowded, random);
        let mut entries = drawing.boundary[l..=r].to_vec();
        let wrong = random.below(8) < wrong_in_8;
        if wrong {
            spoil(&mut entries, &drawing, random);
        }
        shares.mark(&mut entries, random);
        if wrong && random.below(4) == 0 {
            mark_both(&mut entries, random);
        }
        let finished = drawing.is_finished();
        let accepted = drawing.add(&entries).is_ok();
        if finished && !accepted {
            after -= 1;
        }
        calls.push(entries);
    }
    calls
}

/// Changes the entries of a call so that most calls are refused, each number in turn.
fn spoil(entries: &mut Vec<u16>, drawing: &Drawing, random: &mut Random) {
    let at = random.below(entries.len());
    let other = random.below(entries.len());
    match random.below(11) {
        0 => entries.truncate(random.below(2)),
        1 => entries.swap(at, other),
        2 => entries.insert(at, entries[other]),
        3 => entries[at] = 0,
        4 => entries[at] = drawing.k() + 1,
        5 => entries[at] = random.between(1, usize::from(drawing.k())) as u16,
        6 => entries[at] = random.number() as u16,
        7 => entries.reverse(),
        8 => {
            entries.remove(at);
        }
        9 => mark_both(entries, random),
        _ => {
            let length = random.below(9);
            *entries = (0..length).map(|_| random.below(12) as u16).collect();
        }
    }
}

/// Marks an entry both guide and feeder, if there is one.
fn mark_both(entries: &mut [u16], random: &mut Random) {
    if !entries.is_empty() {
        let at = random.below(entries.len());
        entries[at] |= GUIDE_BIT | FEEDER_BIT;
    }
}

/// "Points strictly inside the run are covered: they leave the boundary"; the new point stands
/// between wl and wr.
fn cover(boundary: &mut Vec<u16>, l: usize, r: usize, point: u16) {
    boundary.splice(l + 1..r, [point]);
}

/// The offsets of the records' marks of an accepted order or drawing file, the last one that of the
/// end record.
pub fn record_places(bytes: &[u8]) -> Vec<usize> {
    let number = |at: usize| usize::from(u16::from_be_bytes([bytes[at], bytes[at + 1]]));
    let line_length = match bytes.starts_with(&STRAIGHT_HEADER) {
        true => 8,
        false => 12,
    };
    let mut places = Vec::new();
    let mut at = 0;
    while at < bytes.len() {
        places.push(at);
        at += match [bytes[at], bytes[at + 1]] {
            ORDER_HEADER | SCALE => 4,
            ORDER_POINT => 4 + 2 * number(at + 2),
            DRAWING_HEADER | STRAIGHT_HEADER => 10,
            DRAWING_POINT => 6,
            DRAWING_LINE => line_length,
            _ => 2,
        };
    }
    places
}

/// Every order of n points, n at least 3, by every choice of runs; all lines plain, scale 1.
pub fn all_orders(n: u16) -> Vec<Order> {
    let mut orders = Vec::new();
    extend_orders(n, &[1, 3, 2], &mut Vec::new(), &mut orders);
    orders
}

/// Every way to go on after the given calls, which left the given boundary.
fn extend_orders(n: u16, boundary: &[u16], calls: &mut Vec<Vec<u16>>, orders: &mut Vec<Order>) {
    let point = calls.len() as u16 + 4;
    if point > n {
        orders.push(Order {
            n,
            s: 1,
            opening: [1, 1, 2],
            calls: calls.clone(),
        });
        return;
    }
    for l in 0..boundary.len() {
        for r in l + 1..boundary.len() {
            if point == n && r - l + 1 < boundary.len() {
                continue;
            }
            let mut next = boundary.to_vec();
            cover(&mut next, l, r, point);
            calls.push(boundary[l..=r].to_vec());
            extend_orders(n, &next, calls, orders);
            calls.pop();
        }
    }
}

#[cfg(test)]
mod tests {
    use super::*;
    use crate::entry::Kind;
    use crate::order_file;

    /// The one-bend drawing of an order, which is accepted.
    fn drawn(order: &Order) -> Drawing {
        order_file::read(Style::OneBend, &order.bytes()).unwrap()
    }

    // The number of orders of n points is 1, 1, 3, 15, 105, 945 for n from 3.
    #[test]
    fn counts_of_all_orders() {
        let counts: Vec<usize> = (3..=8).map(|n| all_orders(n).len()).collect();
        assert_eq!(counts, [1, 1, 3, 15, 105, 945]);
    }

    // The same seed gives the same order, and other seeds give other orders.
    #[test]
    fn seeds_decide() {
        let make = |seed| order(30, Runs::Mixed, &mut Random::new(seed)).bytes();
        assert_eq!(make(5), make(5));
        assert_ne!(make(5), make(6));
    }

    // The first points of an order are an order, and so is the order without marks and scale.
    #[test]
    fn shorter_and_plain_orders_are_accepted() {
        for runs in RUNS {
            let order = order(40, runs, &mut Random::new(41));
            assert_eq!(order.shortened(40).plain(), order.plain());
            for n in 3..=40 {
                let drawing = drawn(&order.shortened(n));
                assert_eq!((drawing.n, drawing.s), (n, order.s));
            }
            let plain = drawn(&order.plain());
            assert!(plain.s == 1 && plain.lines.iter().all(|line| line.kind == Kind::Plain));
        }
    }

    /// How many lines of a drawing are guides, plain and feeders.
    fn counts(drawing: &Drawing) -> [usize; 3] {
        let lines = || drawing.lines.iter();
        [Kind::Guide, Kind::Plain, Kind::Feeder]
            .map(|kind| lines().filter(|line| line.kind == kind).count())
    }

    // Drawings of one kind only, of each two and of all three come up, in orders and in calls.
    #[test]
    fn all_kinds_come_up() {
        let (mut in_orders, mut in_calls) = ([false; 8], [false; 8]);
        let index = |drawing: &Drawing| {
            let bits = counts(drawing).map(|count| usize::from(count > 0));
            bits[0] + 2 * bits[1] + 4 * bits[2]
        };
        let mut random = Random::new(9);
        for _ in 0..2000 {
            let order = order(6, Runs::Mixed, &mut random);
            in_orders[index(&drawn(&order))] = true;
            let mut drawing = open(Style::OneBend, 6).unwrap();
            for call in calls(6, Runs::Mixed, &mut random) {
                let _ = drawing.add(&call);
            }
            drawing.lines.drain(..3);
            in_calls[index(&drawing)] = true;
        }
        assert_eq!(in_orders, [false, true, true, true, true, true, true, true]);
        assert_eq!(in_calls, [true; 8]);
    }

    // Any bytes choose an accepted order, and all kinds come up.
    #[test]
    fn bytes_choose_orders() {
        let mut random = Random::new(3);
        for length in (0..50).chain([500, 2039, 2040, 2041, 3000]) {
            let choices: Vec<u8> = (0..length).map(|_| random.number() as u8).collect();
            let drawing = drawn(&order_by(&choices));
            assert_eq!(usize::from(drawing.n), (length / 2).min(1020) + 4);
            assert!(length < 500 || !counts(&drawing).contains(&0));
        }
    }

    // Lists of calls meet every refusal of adding but 25, and some finish their drawing; both styles
    // give the same answers.
    #[test]
    fn lists_of_calls_are_refused_in_all_ways() {
        let mut seen = std::collections::BTreeSet::new();
        let mut random = Random::new(1);
        for runs in RUNS {
            for n in (3..40).chain(3..40) {
                let mut drawing = open(Style::OneBend, n).unwrap();
                let mut straight = open(Style::Straight, n).unwrap();
                for call in calls(n, runs, &mut random) {
                    let answer = drawing.add(&call);
                    assert_eq!(straight.add(&call), answer);
                    seen.extend(answer.err().map(|refusal| refusal.number));
                }
                seen.extend(drawing.is_finished().then_some(0));
            }
        }
        assert!(seen.into_iter().eq([0, 5, 6, 7, 8, 9, 13, 21]));
    }

    // Runs of each sort give accepted orders, and all scales occur.
    #[test]
    fn all_sorts_of_runs_are_accepted() {
        let mut scales = [false; 9];
        for runs in RUNS {
            for n in 3..60 {
                let order = order(n, runs, &mut Random::new(u64::from(n)));
                assert_eq!(drawn(&order).s, order.s);
                scales[usize::from(order.s)] = true;
            }
        }
        assert!(scales[1..].iter().all(|&seen| seen));
    }
}
