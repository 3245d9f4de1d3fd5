//! Look-ups of an order file's drawing.

use panel::{Bend, Kind, Place, Refusal, FEEDER, GUIDE};
use second::generate::{all_orders, order, Order, Random, Runs, RUNS};
use second::{order_file, Drawing, Style};

use crate::both::refusal;
use crate::proved::{proved, Line};
use crate::shrink::{keeps, order_keeps, Kept};
use crate::tally::{in_each_style, Tally};

/// Numbers of no point and no line, most of them a point's in 16 or 32 bits.
pub const FAR: [usize; 6] = [4000, 65_536, 65_537, 1 << 32, (1 << 32) + 1, usize::MAX];

/// The answers to the three look-ups of a number.
#[derive(Debug, PartialEq)]
pub struct Looked {
    pub point: Result<Place, Refusal>,
    pub line: Result<Line, Refusal>,
    pub cut_line: Result<Option<usize>, Refusal>,
}

/// The number of a point for the second implementation, 0 if it has more than 16 bits.
pub fn point_number(point: usize) -> u16 {
    point.try_into().unwrap_or(0)
}

/// A place of the second implementation.
fn place(place: second::Place) -> Place {
    let [x, y] = [place.x, place.y].map(|number| u16::try_from(number).expect("16 bits"));
    Place { x, y }
}

/// A bend of the second implementation.
fn bend(bend: second::Bend) -> Bend {
    match bend {
        second::Bend::None => Bend::None,
        second::Bend::Left(j) => Bend::Left(j.into()),
        second::Bend::Right(j) => Bend::Right(j.into()),
        second::Bend::Middle(i) => Bend::Middle(i.into()),
    }
}

/// A line of the second implementation.
fn second_line(drawing: &Drawing, number: usize) -> Result<Line, Refusal> {
    let line = drawing.line(number).map_err(refusal)?;
    Ok(Line {
        later: line.later.into(),
        earlier: line.earlier.into(),
        bend: line.bend.map(|(port, at)| (bend(port), place(at))),
        kind: match line.kind {
            second::Kind::Guide => Kind::Guide,
            second::Kind::Plain => Kind::Plain,
            second::Kind::Feeder => Kind::Feeder,
        },
    })
}

/// "some cut line ending at a given point, or none exactly if there is none; which one is free": the
/// proved library's if it is one.
fn second_cut_line(
    drawing: &Drawing,
    point: usize,
    proved: Result<Option<usize>, Refusal>,
) -> Result<Option<usize>, Refusal> {
    let first = drawing.cut_line_at(point_number(point)).map_err(refusal)?;
    let is_one = |&number: &usize| {
        second_line(drawing, number)
            .is_ok_and(|line| line.kind.is_cut() && [line.later, line.earlier].contains(&point))
    };
    Ok(first.map(|first| proved.ok().flatten().filter(is_one).unwrap_or(first)))
}

/// The proved library's look-ups of a number are right for the second implementation's drawing.
pub fn right(proved: &Looked, drawing: &Result<Drawing, Refusal>, number: usize) -> Kept {
    let looked = |drawing: &Drawing| Looked {
        point: drawing
            .place_of(point_number(number))
            .map(place)
            .map_err(refusal),
        line: second_line(drawing, number),
        cut_line: second_cut_line(drawing, number, proved.cut_line),
    };
    let second = match drawing {
        Ok(drawing) => looked(drawing),
        Err(refusal) => Looked {
            point: Err(*refusal),
            line: Err(*refusal),
            cut_line: Err(*refusal),
        },
    };
    if *proved != second {
        return Err(format!(
            "look-ups of {number}\n  proved: {proved:?}\n  second: {second:?}"
        ));
    }
    Ok(())
}

/// An order file, and its drawing by the second implementation.
struct Ordered<'a> {
    style: Style,
    bytes: &'a [u8],
    drawing: Result<Drawing, Refusal>,
}

impl<'a> Ordered<'a> {
    /// Reads the order file.
    fn new(style: Style, bytes: &'a [u8]) -> Self {
        Ordered {
            style,
            bytes,
            drawing: order_file::read(style, bytes).map_err(refusal),
        }
    }

    /// Both sides give the same look-ups of a number.
    fn same_look_ups(&self, number: usize) -> Kept {
        let proved = proved(self.style);
        let looked = Looked {
            point: (proved.point)(self.bytes, number),
            line: (proved.line)(self.bytes, number),
            cut_line: (proved.cut_line)(self.bytes, number),
        };
        right(&looked, &self.drawing, number).map_err(|why| format!("{:?} {why}", self.style))
    }
}

/// Every point and line of an order, and numbers of none; one case more.
fn all_look_ups(style: Style, order: &Order, tally: &mut Tally) {
    order_keeps(order, |order| {
        let bytes = order.bytes();
        let ordered = Ordered::new(style, &bytes);
        let beyond = panel::line_count(order.n.into()) + 2;
        let mut numbers = (0..beyond).chain(FAR);
        numbers.try_for_each(|number| ordered.same_look_ups(number))
    });
    tally.count();
}

// Every choice of runs.
#[test]
fn every_order_of_up_to_7_points() {
    let what = "look-ups, all of every order of up to 7 points";
    in_each_style(what, |style, tally| {
        for order in (3..=7).flat_map(all_orders) {
            all_look_ups(style, &order, tally);
        }
    });
}

// Every point and line of random drawings, with guides, feeders and scales.
#[test]
fn all_look_ups_of_up_to_60_points() {
    let what = "look-ups, all of random drawings of up to 60 points";
    in_each_style(what, |style, tally| {
        for round in 0..tally.rounds(20) {
            let mut random = Random::new(100_000 + round);
            for runs in RUNS {
                let n = random.between(3, 60) as u16;
                all_look_ups(style, &order(n, runs, &mut random), tally);
            }
        }
    });
}

// Guides only: no point has a cut line.
#[test]
fn guides_only() {
    in_each_style("look-ups, drawings of guides only", |style, tally| {
        for runs in RUNS {
            let mut order = order(30, runs, &mut Random::new(101_000)).plain();
            order.entries_mut().for_each(|entry| *entry |= GUIDE);
            all_look_ups(style, &order, tally);
            for point in 1..=30 {
                let cut_line = (proved(style).cut_line)(&order.bytes(), point);
                assert_eq!(cut_line, Ok(None));
            }
        }
    });
}

// Guides and one feeder: its two ends have it as their cut line, and no other point has one.
#[test]
fn one_feeder_among_guides() {
    let what = "look-ups, drawings of guides and one feeder";
    in_each_style(what, |style, tally| {
        for runs in RUNS {
            let plain = order(12, runs, &mut Random::new(104_000)).plain();
            for feeder in 0..panel::line_count(12) {
                let mut order = plain.clone();
                for (line, entry) in order.entries_mut().enumerate() {
                    *entry |= if line == feeder { FEEDER } else { GUIDE };
                }
                all_look_ups(style, &order, tally);
                let bytes = order.bytes();
                let line = (proved(style).line)(&bytes, feeder).unwrap();
                assert_eq!(line.kind, Kind::Feeder);
                for point in 1..=12 {
                    let ends_here = [line.later, line.earlier].contains(&point);
                    let expected = ends_here.then_some(feeder);
                    let cut_line = (proved(style).cut_line)(&bytes, point);
                    assert_eq!(cut_line, Ok(expected));
                }
            }
        }
    });
}

// Some points and lines of the largest drawings, the first and the last among them.
#[test]
fn look_ups_of_1024_points() {
    let what = "look-ups, some of drawings of 1,024 points";
    in_each_style(what, |style, tally| {
        for runs in RUNS {
            let mut random = Random::new(102_000);
            let bytes = order(1024, runs, &mut random).bytes();
            let ordered = Ordered::new(style, &bytes);
            let chosen = (0..tally.rounds(60)).map(|_| random.below(3070));
            let ends = [0, 1, 2, 3, 1023, 1024, 1025, 3065, 3066];
            let numbers: Vec<usize> = ends.into_iter().chain(chosen).chain(FAR).collect();
            for number in numbers {
                keeps(ordered.same_look_ups(number));
                tally.count();
            }
        }
    });
}

// Refusals of the file come before 23.
#[test]
fn refused_files() {
    in_each_style("look-ups, refused files", |style, tally| {
        let bytes = order(6, Runs::Mixed, &mut Random::new(103_031)).bytes();
        for at in 0..bytes.len() {
            for change in [1, 0x40, 0x80, 0xC0, 0xFF] {
                let mut wrong = bytes.clone();
                wrong[at] ^= change;
                let ordered = Ordered::new(style, &wrong);
                for number in [0, 1, 6, 11, 12] {
                    keeps(ordered.same_look_ups(number));
                    tally.count();
                }
            }
        }
    });
}
