//! Orders drawn and read back.

use panel::{FEEDER, GUIDE};
use second::generate::{all_orders, order, Order, Random, RUNS};
use second::Style;

use crate::both::{compare, Way};
use crate::promise::keeps_the_promise;
use crate::shrink::{order_keeps, Kept};
use crate::tally::{in_each_style, Tally};

/// Both sides accept the file; gives what they write.
fn accepted(style: Style, way: Way, input: &[u8]) -> Result<Vec<u8>, String> {
    let answer = compare(style, way, input, way.room(input))?;
    answer.map_err(|refusal| format!("{style:?}, {way:?}: {refusal}"))
}

/// Both sides draw the order to the same bytes and read the order back from them; up to 60 points the
/// drawing is tried for the promise.
fn comes_back(style: Style, order: &Order) -> Kept {
    let bytes = order.bytes();
    let drawing = accepted(style, Way::Draw, &bytes)?;
    if order.n <= 60 {
        keeps_the_promise(style, &drawing)?;
    }
    if accepted(style, Way::Undraw, &drawing)? != bytes {
        return Err("another order comes back".into());
    }
    Ok(())
}

/// The order comes back, one case more.
fn keeps(style: Style, order: &Order, tally: &mut Tally) {
    order_keeps(order, |order| comes_back(style, order));
    tally.count();
}

/// The order file and the drawing file of an order that comes back.
pub fn drawn(style: Style, order: &Order) -> (Vec<u8>, Vec<u8>) {
    order_keeps(order, |order| comes_back(style, order));
    let bytes = order.bytes();
    let drawing = accepted(style, Way::Draw, &bytes).expect("the order comes back");
    (bytes, drawing)
}

// Every choice of runs, all lines plain.
#[test]
fn every_order_of_up_to_10_points() {
    in_each_style("orders, every order of up to 10 points", |style, tally| {
        for order in (3..=10).flat_map(all_orders) {
            keeps(style, &order, tally);
        }
    });
}

// Every choice of runs and guides, every scale.
#[test]
fn every_guide_and_scale_of_up_to_5_points() {
    let what = "orders, every guide and scale of up to 5 points";
    in_each_style(what, |style, tally| {
        for order in (3..=5).flat_map(all_orders) {
            for guides in 0..1 << (3 * order.n - 6) {
                for s in 1..=8 {
                    keeps(style, &with_guides(&order, guides, s), tally);
                }
            }
        }
    });
}

/// The order with a scale, and a guide for each bit that is 1, a line a bit.
fn with_guides(order: &Order, guides: u32, s: u16) -> Order {
    let mut order = order.clone();
    order.s = s;
    for (line, entry) in order.entries_mut().enumerate() {
        *entry |= ((guides >> line & 1) as u16) << 15;
    }
    order
}

// Every choice of runs and kinds, the scales in turn.
#[test]
fn every_kind_of_up_to_5_points() {
    in_each_style("orders, every kind of up to 5 points", |style, tally| {
        let scales = &mut (1..=8).cycle();
        for order in (3..=5).flat_map(all_orders) {
            for (kinds, s) in (0..3u32.pow(3 * u32::from(order.n) - 6)).zip(scales.by_ref()) {
                keeps(style, &with_kinds(&order, kinds, s), tally);
            }
        }
    });
}

/// The order with a scale, and the kind of each line by a digit of base 3.
fn with_kinds(order: &Order, mut kinds: u32, s: u16) -> Order {
    let mut order = order.clone();
    order.s = s;
    for entry in order.entries_mut() {
        *entry |= [0, GUIDE, FEEDER][kinds as usize % 3];
        kinds /= 3;
    }
    order
}

/// Random orders with runs of every sort, so many of each, of the sizes that `size` gives.
fn random_orders(what: &'static str, seed: u64, count: u64, size: impl Fn(&mut Random) -> usize) {
    in_each_style(what, |style, tally| {
        for round in 0..tally.rounds(count) {
            let mut random = Random::new(seed + round);
            for runs in RUNS {
                let n = size(&mut random) as u16;
                keeps(style, &order(n, runs, &mut random), tally);
            }
        }
    });
}

// Many small ones.
#[test]
fn random_orders_of_up_to_100_points() {
    let what = "orders, random ones of up to 100 points";
    random_orders(what, 10_000, 4000, |random| random.between(3, 100));
}

// Some of middle size.
#[test]
fn random_orders_of_up_to_1023_points() {
    let what = "orders, random ones of 101 to 1,023 points";
    random_orders(what, 20_000, 200, |random| random.between(101, 1023));
}

// The largest.
#[test]
fn random_orders_of_1024_points() {
    let what = "orders, random ones of 1,024 points";
    random_orders(what, 30_000, 60, |_| 1024);
}
