//! All moves in one call, and what C finds in the two buffers.

use panel::raw::{Words, ONE_BEND, SHORT_AT, SHORT_OUT, STRAIGHT};
use panel::{Tool, FEEDER, GUIDE};
use second::generate::{order, Random, Runs, RUNS};
use second::{order_file, Style};

use crate::as_c::words;
use crate::both::refusal;
use crate::damage::with_number;
use crate::moves::{corners, proved_moves, random_tool, second_moves, with, Bits};
use crate::proved::proved;
use crate::shrink::{keeps, order_keeps, Kept};
use crate::tally::in_each_style;

/// How long the two buffers are.
#[derive(Clone, Copy, Debug)]
pub struct Room {
    pub kinds: usize,
    pub at: usize,
}

/// Buffers for so many moves: exactly enough, one short, none, and longer, each with each.
pub fn rooms(count: usize) -> Vec<Room> {
    let lengths = |needed: usize| [needed, needed.saturating_sub(1), 0, needed + 5];
    let each = |kinds| lengths(2 * count).map(|at| Room { kinds, at });
    lengths(count).into_iter().flat_map(each).collect()
}

/// Elements behind each buffer, which must stay.
const BEHIND: usize = 8;

/// What a call returns, and what stands in its memory: a refusal, kinds and the bits of numbers, with the
/// elements behind them.
#[derive(Debug, PartialEq)]
pub struct Left {
    returned: u64,
    pub refusal: Words,
    kinds: Vec<u8>,
    at: Vec<u32>,
}

impl Left {
    /// What stands there before a call: no kind of move, and a NaN of its own in each place.
    fn before(room: Room) -> Self {
        Left {
            returned: 0,
            refusal: [u64::MAX; 3],
            kinds: (0..room.kinds + BEHIND).map(|at| at as u8 | 0x80).collect(),
            at: (0..room.at + BEHIND)
                .map(|at| 0x7FC0_0000 | at as u32)
                .collect(),
        }
    }

    /// What a call leaves.
    pub fn by(room: Room, call: impl FnOnce(&mut [u8], &mut [f32], &mut Words) -> u64) -> Self {
        let mut left = Left::before(room);
        let mut at: Vec<f32> = left.at.into_iter().map(f32::from_bits).collect();
        left.returned = call(
            &mut left.kinds[..room.kinds],
            &mut at[..room.at],
            &mut left.refusal,
        );
        left.at = at.into_iter().map(f32::to_bits).collect();
        left
    }

    /// What it must leave if these are the moves, or why there are none: 24 for the kinds comes before 24
    /// for the numbers, and a refusal changes neither.
    pub fn wanted(room: Room, moves: &Result<Vec<Bits>, Words>) -> Self {
        let mut left = Left::before(room);
        left.refusal = match moves {
            Err(words) => *words,
            Ok(moves) if room.kinds < moves.len() => [24, 0, SHORT_OUT],
            Ok(moves) if room.at < 2 * moves.len() => [24, 0, SHORT_AT],
            Ok(moves) => {
                left.returned = moves.len() as u64;
                for (number, (kind, at)) in moves.iter().enumerate() {
                    left.kinds[number] = *kind as u8;
                    left.at[2 * number..][..2].copy_from_slice(at);
                }
                [0; 3]
            }
        };
        left
    }

    /// It is what must be left.
    pub fn same(&self, wanted: &Left) -> Kept {
        if self == wanted {
            return Ok(());
        }
        let shown = |left: &Left| format!("{} {:?}", left.returned, left.refusal);
        let mut kinds = self.kinds.iter().zip(&wanted.kinds);
        let kind = kinds.position(|(a, b)| a != b);
        let mut numbers = self.at.iter().zip(&wanted.at);
        let at = numbers.position(|(a, b)| a != b);
        Err(format!(
            "  proved: {}\n  second: {}\n  first difference of kinds: {kind:?}, of numbers: {at:?}",
            shown(self),
            shown(wanted)
        ))
    }
}

/// What the library leaves after all moves of an order file, as C calls it.
fn left_in(style: Style, bytes: &[u8], tool: Tool, room: Room) -> Left {
    let function = match style {
        Style::OneBend => ONE_BEND.order_moves,
        Style::Straight => STRAIGHT.order_moves,
    };
    // SAFETY: pointers and lengths are those of slices, and the array is lent.
    Left::by(room, |kinds, at, refusal| unsafe {
        function(
            bytes.as_ptr(),
            bytes.len(),
            tool.pitch,
            tool.depth,
            tool.clearance,
            kinds.as_mut_ptr(),
            kinds.len(),
            at.as_mut_ptr(),
            at.len(),
            refusal,
        )
    })
}

/// What it leaves as Rust calls it; the refusal doesn't say which buffer was short.
fn left_in_slices(style: Style, bytes: &[u8], tool: Tool, room: Room, short: u64) -> Left {
    Left::by(room, |kinds, at, refusal| {
        let count = (proved(style).moves_into)(bytes, tool, kinds, at);
        *refusal = count.map_or_else(|why| words(why, short), |_| [0; 3]);
        count.unwrap_or(0) as u64
    })
}

/// Both sides list the same moves of an order file, or refuse alike: in a vector, and in buffers of all
/// lengths that are given for so many moves.
fn same_list(style: Style, bytes: &[u8], tool: Tool, rooms: impl Fn(usize) -> Vec<Room>) -> Kept {
    let second = order_file::read(style, bytes)
        .map_err(refusal)
        .and_then(|drawing| second_moves(&drawing, tool));
    if proved_moves(style, bytes, tool) != second {
        return Err(format!("{style:?}, all moves in a vector with {tool:?}"));
    }
    let count = second.as_ref().map_or(1, Vec::len);
    let second = second.map_err(|why| words(why, 0));
    for room in rooms(count) {
        let wanted = Left::wanted(room, &second);
        let [_, _, short] = wanted.refusal;
        let slices = left_in_slices(style, bytes, tool, room, short);
        for left in [left_in(style, bytes, tool, room), slices] {
            let kept = left.same(&wanted);
            kept.map_err(|why| format!("{style:?}, all moves with {tool:?}, {room:?}\n{why}"))?;
        }
    }
    Ok(())
}

// Random drawings with guides, feeders and scales, and random tools.
#[test]
fn lists_of_up_to_100_points() {
    let what = "all moves, random drawings of up to 100 points";
    in_each_style(what, |style, tally| {
        for round in 0..tally.rounds(200) {
            let mut random = Random::new(140_000 + round);
            for runs in RUNS {
                let order = order(random.between(3, 100) as u16, runs, &mut random);
                let tool = random_tool(&mut random);
                order_keeps(&order, |order| {
                    same_list(style, &order.bytes(), tool, rooms)
                });
                tally.count();
            }
        }
    });
}

// The same of more points, and of the most.
#[test]
fn lists_of_up_to_1024_points() {
    let what = "all moves, random drawings of 101 to 1,024 points";
    in_each_style(what, |style, tally| {
        for round in 0..tally.rounds(8) {
            let mut random = Random::new(141_000 + round);
            for runs in RUNS {
                for n in [random.between(101, 1023) as u16, 1024] {
                    let order = order(n, runs, &mut random);
                    let tool = random_tool(&mut random);
                    order_keeps(&order, |order| {
                        same_list(style, &order.bytes(), tool, rooms)
                    });
                    tally.count();
                }
            }
        }
    });
}

// Feeders only: the longest lists are no longer than `most_moves` says.
#[test]
fn feeders_only() {
    in_each_style("all moves, drawings of feeders only", |style, tally| {
        for n in [3, 4, 5, 9, 100, 1024] {
            for runs in RUNS {
                let mut random = Random::new(142_000);
                let mut order = order(n, runs, &mut random).plain();
                order.entries_mut().for_each(|entry| *entry |= FEEDER);
                let bytes = order.bytes();
                let tool = random_tool(&mut random);
                keeps(same_list(style, &bytes, tool, rooms));
                let count = proved_moves(style, &bytes, tool).map_or(0, |moves| moves.len());
                let lines = panel::line_count(n.into());
                assert!((8 * lines..=panel::most_moves(n.into())).contains(&count));
                tally.count();
            }
        }
    });
}

// Guides only: no move, and no refusal, also with empty buffers.
#[test]
fn guides_only() {
    in_each_style("all moves, drawings of guides only", |style, tally| {
        for n in [3, 4, 5, 9, 100, 1024] {
            for runs in RUNS {
                let mut random = Random::new(143_000);
                let mut order = order(n, runs, &mut random).plain();
                order.entries_mut().for_each(|entry| *entry |= GUIDE);
                let bytes = order.bytes();
                let tool = random_tool(&mut random);
                keeps(same_list(style, &bytes, tool, rooms));
                assert_eq!((proved(style).moves)(&bytes, tool), Ok(vec![]));
                assert_eq!(
                    (proved(style).moves_into)(&bytes, tool, &mut [], &mut []),
                    Ok(0)
                );
                tally.count();
            }
        }
    });
}

/// Buffers of every length up to two more than so many moves need, each with each.
fn all_rooms(count: usize) -> Vec<Room> {
    let kinds = 0..count + 3;
    let each = |kinds| (0..2 * count + 3).map(move |at| Room { kinds, at });
    kinds.flat_map(each).collect()
}

// Short, exact and longer buffers of all lengths.
#[test]
fn buffers_of_all_lengths() {
    let what = "all moves, buffers of all lengths for up to 5 points";
    in_each_style(what, |style, tally| {
        let mut random = Random::new(144_000);
        for n in 3..=5 {
            for runs in RUNS {
                let bytes = order(n, runs, &mut random).bytes();
                let tool = random_tool(&mut random);
                keeps(same_list(style, &bytes, tool, all_rooms));
                tally.count();
            }
        }
    });
}

// Refusals of the file come before 12, 12 before 24 for the kinds, and that before 24 for the numbers.
#[test]
fn refusals_in_order() {
    in_each_style("all moves, refusals in their order", |style, tally| {
        let mut random = Random::new(145_000);
        let bytes = order(6, Runs::Mixed, &mut random).bytes();
        for at in 0..bytes.len() {
            let mut wrong_files = vec![bytes[..at].to_vec()];
            for change in [1, 0x40, 0x80, 0xC0, 0xFF] {
                let mut wrong = bytes.clone();
                wrong[at] ^= change;
                wrong_files.push(wrong);
            }
            for wrong in wrong_files {
                for pitch in [8.0, 0.0] {
                    let tool = with(random_tool(&mut random), 0, pitch);
                    let kept = same_list(style, &wrong, tool, rooms);
                    keeps(kept.map_err(|why| format!("{why}\n  for {wrong:02x?}")));
                    tally.count();
                }
            }
        }
    });
}

// Headers with n in range and out of range, in files that end behind it and in whole ones of 4 points.
#[test]
fn headers_with_other_n() {
    in_each_style("all moves, headers with other n", |style, tally| {
        let mut random = Random::new(146_000);
        let bytes = order(4, Runs::Whole, &mut random).bytes();
        let tool = random_tool(&mut random);
        for n in (0..=1100).chain([0x1003, 0x4004, 0x8004, 0xC004, 0xFFFF]) {
            let wrong = with_number(&bytes, 2, n);
            for file in [&wrong[..4], &wrong] {
                let none = |_| vec![Room { kinds: 0, at: 0 }];
                keeps(same_list(style, file, tool, none));
                tally.count();
            }
        }
    });
}

// Each number of the tool from all corners of f32.
#[test]
fn tools_from_all_corners() {
    let what = "all moves, tools from all corners of f32";
    in_each_style(what, |style, tally| {
        let mut random = Random::new(147_000);
        let bytes = order(5, Runs::Mixed, &mut random).bytes();
        for value in corners() {
            for field in 0..3 {
                let tool = with(random_tool(&mut random), field, value);
                keeps(same_list(style, &bytes, tool, rooms));
                tally.count();
            }
        }
    });
}
