//! The promise on what the proved library drew, by the coordinates of its drawing files.

use second::drawing_file::layout;
use second::generate::{order, Order, Random, RUNS};
use second::promise::check;
use second::Style;

use crate::proved::proved;
use crate::shrink::{order_keeps, Kept};
use crate::tally::{in_each_style, Tally};

/// The proved library's drawing of the order keeps the promise, one case more.
fn drawn_as_promised(style: Style, order: &Order, tally: &mut Tally) {
    order_keeps(order, |order| {
        let file = (proved(style).draw)(&order.bytes());
        keeps_the_promise(style, &file.map_err(|refusal| refusal.to_string())?)
    });
    tally.count();
}

/// The points and bends of a drawing file keep every clause, all pairs of pieces tried; width and
/// height of the header are those of the points.
pub fn keeps_the_promise(style: Style, file: &[u8]) -> Kept {
    let layout = layout(style, file).map_err(|refusal| format!("reading back: {refusal}"))?;
    let violations = check(&layout);
    if !violations.is_empty() {
        return Err(format!("{violations:?}"));
    }
    let number = |at: usize| i64::from(u16::from_be_bytes([file[at], file[at + 1]]));
    let [s, width, height] = [4, 6, 8].map(number);
    let highest = layout.places.iter().map(|place| place.y).max();
    if width != s * layout.places[1].x || Some(height) != highest.map(|y| s * y) {
        return Err(format!("width {width} or height {height} at scale {s}"));
    }
    Ok(())
}

// Every sort of runs and every n.
#[test]
fn random_orders_of_up_to_60_points() {
    let what = "promise, random orders of up to 60 points";
    in_each_style(what, |style, tally| {
        for round in 0..tally.rounds(100) {
            for runs in RUNS {
                for n in 3..=60 {
                    let mut random = Random::new(50_000 + 100 * round + u64::from(n));
                    drawn_as_promised(style, &order(n, runs, &mut random), tally);
                }
            }
        }
    });
}

// Every sort of runs at the largest n.
#[test]
fn orders_of_1024_points() {
    in_each_style("promise, orders of 1,024 points", |style, tally| {
        for runs in RUNS {
            let order = order(1024, runs, &mut Random::new(51_000));
            drawn_as_promised(style, &order, tally);
        }
    });
}
