//! Outputs of every length: 24 exactly where the file doesn't fit, and what must stay stays.

use second::generate::{order, Random, Runs, RUNS};
use second::Style;

use crate::both::{compare, Answer, Way};
use crate::orders::drawn;
use crate::proved::proved;
use crate::shrink::{keeps, Kept};
use crate::tally::{in_each_style, Tally};

/// The answer of both sides; how they differ is said with the input.
fn same(style: Style, way: Way, input: &[u8], room: usize) -> Result<Answer, String> {
    compare(style, way, input, room).map_err(|why| format!("{why}\n  for {input:02x?}"))
}

/// Both sides agree on an output of so many bytes, and give 24 exactly if it is too short.
fn fits(style: Style, way: Way, input: &[u8], output: &[u8], room: usize) -> Kept {
    let right = match same(style, way, input, room)? {
        Ok(bytes) => bytes == output && room >= output.len(),
        Err(refusal) => refusal.to_string() == "refused 24 at 0" && room < output.len(),
    };
    if !right {
        let needed = output.len();
        return Err(format!(
            "{style:?}, {way:?} into {room} bytes where {needed} are needed\n  for {input:02x?}"
        ));
    }
    Ok(())
}

/// Both ways of orders of n points with outputs of some lengths around the needed one.
fn both_ways(
    style: Style,
    n: u16,
    seed: u64,
    tally: &mut Tally,
    lengths: impl Fn(usize) -> Vec<usize>,
) {
    for runs in RUNS {
        let (bytes, drawing) = drawn(style, &order(n, runs, &mut Random::new(seed)));
        for (way, input, output) in [
            (Way::Draw, &bytes, &drawing),
            (Way::Undraw, &drawing, &bytes),
        ] {
            for room in lengths(output.len()) {
                keeps(fits(style, way, input, output, room));
                tally.count();
            }
        }
    }
}

// Every length up to nine more than is needed.
#[test]
fn every_length_for_small_files() {
    let what = "outputs, every length for up to 20 points";
    in_each_style(what, |style, tally| {
        for n in 3..=20 {
            both_ways(style, n, 40_000, tally, |needed| (0..needed + 10).collect());
        }
    });
}

// Nine less to nine more than is needed, none, one, and many more.
#[test]
fn lengths_around_the_needed_one() {
    let what = "outputs, around the needed length for 60 to 1,024 points";
    in_each_style(what, |style, tally| {
        for n in [60, 255, 256, 257, 1024] {
            both_ways(style, n, 41_000, tally, |needed| {
                let mut lengths = vec![0, 1, needed / 2, needed + 70_000];
                lengths.extend(needed - 9..needed + 10);
                lengths
            });
        }
    });
}

/// A vector has what both sides write, or the refusal is theirs.
fn same_in_vector(style: Style, way: Way, input: &[u8]) -> Kept {
    let made = match way {
        Way::Draw => (proved(style).draw)(input),
        Way::Undraw => (proved(style).undraw)(input),
    };
    if made != same(style, way, input, way.room(input))? {
        return Err(format!(
            "{style:?}, {way:?} into a vector\n  for {input:02x?}"
        ));
    }
    Ok(())
}

// The file in a vector, for accepted and refused files, and for the longest.
#[test]
fn files_in_vectors() {
    in_each_style("outputs, files in vectors", |style, tally| {
        for n in (3..=60).chain([1023, 1024]) {
            for runs in RUNS {
                let (bytes, drawing) = drawn(style, &order(n, runs, &mut Random::new(43_000)));
                for (way, input) in [(Way::Draw, bytes), (Way::Undraw, drawing)] {
                    keeps(same_in_vector(style, way, &input));
                    keeps(same_in_vector(style, way, &input[1..]));
                    tally.count();
                }
            }
        }
    });
}

// A refusal of the file comes before 24.
#[test]
fn refused_files_and_short_outputs() {
    let what = "outputs, refused files and short outputs";
    in_each_style(what, |style, tally| {
        for n in [3, 4, 9, 40] {
            let order = order(n, Runs::Mixed, &mut Random::new(42_015));
            let (bytes, drawing) = drawn(style, &order);
            for (way, input) in [(Way::Draw, bytes), (Way::Undraw, drawing)] {
                for at in 0..input.len() {
                    let mut wrong = input.clone();
                    wrong[at] ^= 0x11;
                    for room in [0, 1, input.len() / 2] {
                        keeps(same(style, way, &wrong, room).map(|_| ()));
                        tally.count();
                    }
                }
            }
        }
    });
}
