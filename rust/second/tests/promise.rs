//! The promise of both styles on every order of a few points and on random orders.

use second::generate::{all_orders, order, Order, Random, RUNS};
use second::promise::{check, Layout};
use second::{drawing_file, open, order_file, Bend, Drawing, Style, STYLES};

/// The promise, and "Middle port i (1 to 2h - 1)", "Right port j (1 to dr)", "Left port j (1 to dl)":
/// every line's port is there.
fn keeps_the_promise(drawing: &Drawing) {
    let violations = check(&drawing.into());
    assert!(violations.is_empty(), "{violations:?} in {drawing:?}");
    for line in &drawing.lines {
        let (index, most) = match line.bend {
            Bend::None => continue,
            Bend::Left(j) => (j, drawing.point(line.earlier).dl),
            Bend::Right(j) => (j, drawing.point(line.earlier).dr),
            Bend::Middle(i) => (i, 2 * drawing.point(line.later).h - 1),
        };
        assert!((1..=most).contains(&index), "{line:?} in {drawing:?}");
    }
}

/// The promise after opening and after each call, in both styles.
fn keeps_the_promise_after_each_call(order: &Order) {
    for style in STYLES {
        let mut drawing = open(style, order.n).unwrap();
        keeps_the_promise(&drawing);
        for call in &order.calls {
            drawing.add(call).unwrap();
            keeps_the_promise(&drawing);
        }
        assert!(drawing.is_finished());
    }
}

// Every choice of runs, after each call.
#[test]
fn every_order_of_up_to_8_points() {
    for n in 3..=8 {
        for order in all_orders(n) {
            keeps_the_promise_after_each_call(&order);
        }
    }
}

// Every sort of runs and every n, after each call.
#[test]
fn random_orders_of_up_to_60_points() {
    for runs in RUNS {
        for n in 3..=60 {
            let mut random = Random::new(1000 + u64::from(n));
            keeps_the_promise_after_each_call(&order(n, runs, &mut random));
        }
    }
}

// Every sort of runs at the largest n, after the last call.
#[test]
fn finished_drawings_of_1024_points() {
    for runs in RUNS {
        let order = order(1024, runs, &mut Random::new(7));
        for style in STYLES {
            keeps_the_promise(&order_file::read(style, &order.bytes()).unwrap());
        }
    }
}

// "A finished panel is 2n - 4 wide and n - 2 high", and its file says so times the scale.
#[test]
fn sizes_of_straight_panels() {
    for runs in RUNS {
        for n in (3..=40).chain([1023, 1024]) {
            let order = order(n, runs, &mut Random::new(u64::from(n)));
            let drawing = order_file::read(Style::Straight, &order.bytes()).unwrap();
            let file = drawing_file::write(&drawing).unwrap();
            let header = [6, 8].map(|at| u16::from_be_bytes([file[at], file[at + 1]]));
            assert_eq!(header, [order.s * (2 * n - 4), order.s * (n - 2)]);
        }
    }
}

// Both styles have the same boundary, owners and lines but for bends after each call.
#[test]
fn both_styles_have_the_same_net() {
    for runs in RUNS {
        let order = order(60, runs, &mut Random::new(12));
        let [mut one_bend, mut straight] = STYLES.map(|style| open(style, order.n).unwrap());
        for call in &order.calls {
            one_bend.add(call).unwrap();
            straight.add(call).unwrap();
            assert_eq!(one_bend.boundary, straight.boundary);
            let owners = |drawing: &Drawing| -> Vec<Option<u16>> {
                drawing.points.iter().map(|point| point.owner).collect()
            };
            assert_eq!(owners(&one_bend), owners(&straight));
            for (bent, line) in one_bend.lines.iter().zip(&straight.lines) {
                assert_eq!((bent.later, bent.earlier), (line.later, line.earlier));
                assert_eq!((bent.kind, line.bend), (line.kind, Bend::None));
            }
            assert_eq!(one_bend.lines.len(), straight.lines.len());
        }
    }
}

// The numbers of a drawing file give the layout of its drawing.
#[test]
fn the_layout_of_a_file() {
    for runs in RUNS {
        for n in [3, 4, 9, 40] {
            let order = order(n, runs, &mut Random::new(u64::from(n)));
            for style in STYLES {
                let drawing = order_file::read(style, &order.bytes()).unwrap();
                let file = drawing_file::write(&drawing).unwrap();
                let layout = drawing_file::layout(style, &file);
                assert_eq!(layout, Ok(Layout::from(&drawing)));
            }
        }
    }
}
