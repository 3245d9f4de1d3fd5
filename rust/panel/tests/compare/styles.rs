//! Files of one style at the reader of the other.

use panel::Refusal;
use second::generate::{order, Random, RUNS};
use second::Style;

use crate::both::{compare, Answer, Way};
use crate::orders::drawn;
use crate::tally::in_each_style;

/// "gives 2 to mark 44 48"
const WRONG_MARK: Refusal = Refusal {
    number: 2,
    place: 0,
};

/// The other style.
fn other(style: Style) -> Style {
    match style {
        Style::OneBend => Style::Straight,
        Style::Straight => Style::OneBend,
    }
}

/// The answer of both sides of a style to a drawing file, with an output of so many bytes.
fn answer(style: Style, file: &[u8], room: usize) -> Answer {
    let answer = compare(style, Way::Undraw, file, room);
    answer.unwrap_or_else(|why| panic!("{why}\n  for {file:02x?}"))
}

// Each reader refuses the other's files with 2 at 0, whatever follows the mark and whatever the output.
#[test]
fn each_reader_refuses_the_other_files() {
    let what = "files at the other reader, up to 40 points and 1,024";
    in_each_style(what, |style, tally| {
        for n in (3..=40).chain([1024]) {
            for runs in RUNS {
                let order = order(n, runs, &mut Random::new(130_000 + u64::from(n)));
                let (bytes, drawing) = drawn(style, &order);
                for length in [2, 3, 9, 10, 11, drawing.len() - 1, drawing.len()] {
                    for room in [0, bytes.len()] {
                        let told = answer(other(style), &drawing[..length], room);
                        assert_eq!(told, Err(WRONG_MARK));
                        tally.count();
                    }
                }
            }
        }
    });
}

// With the mark of the other style: both sides find where the records differ.
#[test]
fn files_with_the_mark_of_the_other_style() {
    let what = "files with the other mark, up to 60 points and 1,024";
    in_each_style(what, |style, tally| {
        for n in (3..=60).chain([1024]) {
            for runs in RUNS {
                let order = order(n, runs, &mut Random::new(131_000 + u64::from(n)));
                let (_, drawing) = drawn(style, &order);
                let (_, other_drawing) = drawn(other(style), &order);
                let mark = &other_drawing[..2];
                let body = [mark, &drawing[2..]].concat();
                assert!(answer(other(style), &body, body.len()).is_err());
                let lines = 10 + 6 * usize::from(n);
                let mixed = [&drawing[..lines], &other_drawing[lines..]].concat();
                assert!(answer(style, &mixed, mixed.len()).is_err());
                tally.count();
            }
        }
    });
}
