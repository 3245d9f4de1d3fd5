//! Cutter moves, bit for bit.

use panel::raw::{ONE_BEND, STRAIGHT};
use panel::{Move, Refusal, Tool, FEEDER, GUIDE};
use second::generate::{order, Order, Random, Runs, RUNS};
use second::{moves, order_file, Drawing, Style};

use crate::as_c::words;
use crate::both::refusal;
use crate::proved::proved;
use crate::shrink::{keeps, order_keeps, Kept};
use crate::tally::{in_each_style, Tally};

/// A move's kind and the bits of its numbers, so that -0 and NaN are told apart.
pub type Bits = (u64, [u32; 2]);

/// The bits of a move, with the number that C gets for its kind; the second number is 0 where there
/// is none.
pub fn bits(given: Move) -> Bits {
    let (kind, at) = match given {
        Move::Travel(x, y) => (1, [x, y]),
        Move::Plunge(z) => (2, [z, 0.0]),
        Move::Cut(x, y) => (3, [x, y]),
        Move::Lift(z) => (4, [z, 0.0]),
    };
    (kind, at.map(f32::to_bits))
}

/// The tool for the second implementation.
fn second_tool(tool: Tool) -> moves::Tool {
    moves::Tool {
        pitch: tool.pitch,
        depth: tool.depth,
        clearance: tool.clearance,
    }
}

/// The bits of a move of the second implementation.
fn second_bits(given: moves::Move) -> Bits {
    bits(match given {
        moves::Move::Travel(x, y) => Move::Travel(x, y),
        moves::Move::Plunge(z) => Move::Plunge(z),
        moves::Move::Cut(x, y) => Move::Cut(x, y),
        moves::Move::Lift(z) => Move::Lift(z),
    })
}

/// A move of the second implementation.
pub fn second_move(drawing: &Drawing, tool: Tool, number: usize) -> Result<Bits, Refusal> {
    let given = moves::move_at(drawing, second_tool(tool), number);
    given.map(second_bits).map_err(refusal)
}

/// All moves of the second implementation.
pub fn second_moves(drawing: &Drawing, tool: Tool) -> Result<Vec<Bits>, Refusal> {
    let given = moves::all_moves(drawing, second_tool(tool)).map_err(refusal)?;
    Ok(given.into_iter().map(second_bits).collect())
}

/// All moves of an order file by the proved library, in one call.
pub fn proved_moves(style: Style, bytes: &[u8], tool: Tool) -> Result<Vec<Bits>, Refusal> {
    let given = (proved(style).moves)(bytes, tool)?;
    Ok(given.into_iter().map(bits).collect())
}

/// "23 no such point, line or move"
const NO_SUCH: Refusal = Refusal {
    number: 23,
    place: 0,
};

/// The proved library's move of the order file is the second implementation's.
fn same_as(
    second: Result<Bits, Refusal>,
    (style, bytes): (Style, &[u8]),
    tool: Tool,
    number: usize,
) -> Kept {
    let proved = (proved(style).move_at)(bytes, tool, number).map(bits);
    if proved != second {
        return Err(format!(
            "{style:?}, move {number} with {tool:?}\n  proved: {proved:x?}\n  second: {second:x?}"
        ));
    }
    Ok(())
}

/// Both sides give the same move of the order file, whose drawing is given too.
fn same_move(bytes: &[u8], drawing: &Drawing, tool: Tool, number: usize) -> Kept {
    let second = second_move(drawing, tool, number);
    same_as(second, (drawing.style, bytes), tool, number)
}

/// The second implementation's drawing of an accepted order, and how many moves it gives.
fn second_drawing(style: Style, bytes: &[u8]) -> (Drawing, usize) {
    let drawing = order_file::read(style, bytes).expect("an accepted order");
    let count = moves::move_count(&drawing).expect("a finished drawing");
    (drawing, count)
}

/// The proved library gives the second implementation's list of moves of an order, in one call, and by
/// number until 23; one case more.
fn same_moves(style: Style, order: &Order, tool: Tool, tally: &mut Tally) {
    order_keeps(order, |order| {
        let bytes = order.bytes();
        let (drawing, count) = second_drawing(style, &bytes);
        let list = second_moves(&drawing, tool).expect("a tool in range");
        if proved_moves(style, &bytes, tool).as_ref() != Ok(&list) {
            return Err(format!("{style:?}, all moves with {tool:?}"));
        }
        let mut numbers = (0..=count).chain([usize::MAX]);
        numbers.try_for_each(|number| {
            let second = list.get(number).copied().ok_or(NO_SUCH);
            same_as(second, (style, &bytes), tool, number)
        })
    });
    tally.count();
}

/// A tool within its ranges.
pub fn random_tool(random: &mut Random) -> Tool {
    Tool {
        pitch: random.between(1, 80) as f32,
        depth: random.between(1, 40) as f32,
        clearance: random.between(1, 80) as f32,
    }
}

/// The tool with one of its numbers changed.
pub fn with(tool: Tool, field: usize, value: f32) -> Tool {
    match field {
        0 => Tool {
            pitch: value,
            ..tool
        },
        1 => Tool {
            depth: value,
            ..tool
        },
        _ => Tool {
            clearance: value,
            ..tool
        },
    }
}

/// f32 from all corners: zeros, subnormal, whole numbers with their neighbours and halves, the
/// largest, infinities, NaN of all kinds, powers of two, each with both signs.
pub fn corners() -> Vec<f32> {
    let whole = (0..=130).flat_map(|number| {
        let number = number as f32;
        [number, number.next_up(), number.next_down(), number + 0.5]
    });
    let others = [
        0x0000_0001,
        0x0000_0002,
        0x007F_FFFF,
        0x0080_0000,
        0x7F7F_FFFF,
        0x7F80_0000,
        0x7F80_0001,
        0x7FBF_FFFF,
        0x7FC0_0000,
        0x7FC1_2345,
        0x7FFF_FFFF,
    ];
    let powers = (-126..=127).map(|power| 2f32.powi(power));
    whole
        .chain(others.map(f32::from_bits))
        .chain(powers)
        .flat_map(|value| [value, -value])
        .collect()
}

// Every move of random drawings with random tools, small drawings and many.
#[test]
fn all_moves_of_up_to_100_points() {
    let what = "moves, all of random drawings of up to 100 points";
    in_each_style(what, |style, tally| {
        for round in 0..tally.rounds(80) {
            let mut random = Random::new(80_000 + round);
            for runs in RUNS {
                let n = random.between(3, 100) as u16;
                let order = order(n, runs, &mut random);
                same_moves(style, &order, random_tool(&mut random), tally);
            }
        }
    });
}

// Every move of the largest drawings.
#[test]
fn all_moves_of_1024_points() {
    let tool = Tool {
        pitch: 80.0,
        depth: 40.0,
        clearance: 80.0,
    };
    in_each_style("moves, all of drawings of 1,024 points", |style, tally| {
        for runs in RUNS {
            let order = order(1024, runs, &mut Random::new(81_000));
            same_moves(style, &order, tool, tally);
        }
    });
}

/// The moves that the proved library gives for an order.
fn all_moves(style: Style, order: &Order, tool: Tool) -> Vec<Bits> {
    let moves = proved_moves(style, &order.bytes(), tool);
    moves.expect("an accepted order and a tool in range")
}

/// The moves of each time that a line is cut, which begin with a travel.
fn each_cut(moves: &[Bits]) -> Vec<&[Bits]> {
    moves.chunk_by(|_, (kind, _)| *kind != 1).collect()
}

/// "so a plain line gives four moves or five"; a straight line "has one cut move", and so four.
fn is_a_cut(style: Style, moves: &[Bits]) -> bool {
    let kinds: Vec<u64> = moves.iter().map(|(kind, _)| *kind).collect();
    match kinds[..] {
        [1, 2, 3, 4] => true,
        [1, 2, 3, 3, 4] => style == Style::OneBend,
        _ => false,
    }
}

// "a plain line gives four moves or five, a feeder twice as many": the whole list with feeders is the
// list of the same lines all plain, each line's moves as often as it is cut.
#[test]
fn feeders_give_their_moves_twice() {
    in_each_style("moves, all of drawings with feeders", |style, tally| {
        for round in 0..tally.rounds(60) {
            let mut random = Random::new(86_000 + round);
            for runs in RUNS {
                let n = random.between(3, 40) as u16;
                let marked = order(n, runs, &mut random);
                moves_as_marked(style, &marked, random_tool(&mut random), tally);
            }
        }
    });
}

/// The same for the lines of an order as they are marked, all feeders, and all guides.
fn moves_as_marked(style: Style, marked: &Order, tool: Tool, tally: &mut Tally) {
    let mut plain = marked.plain();
    plain.s = marked.s;
    let once = all_moves(style, &plain, tool);
    let lines = each_cut(&once);
    assert_eq!(lines.len(), plain.entries().count());
    assert!(lines.iter().all(|moves| is_a_cut(style, moves)));
    let all_with = |mark: u16| {
        let mut order = plain.clone();
        order.entries_mut().for_each(|entry| *entry |= mark);
        order
    };
    for order in [marked.clone(), all_with(FEEDER), all_with(GUIDE)] {
        let mut expected = Vec::new();
        for (line, &entry) in lines.iter().zip(order.entries()) {
            let times = match entry & (GUIDE | FEEDER) {
                0 => 1,
                FEEDER => 2,
                _ => 0,
            };
            expected.extend(line.repeat(times));
        }
        assert_eq!(all_moves(style, &order, tool), expected, "{order:?}");
        same_moves(style, &order, tool, tally);
    }
}

// Every pitch, and some moves of the widest drawings at the largest scale.
#[test]
fn every_pitch() {
    let what = "moves, every pitch for 1,024 points at scale 8";
    in_each_style(what, |style, tally| {
        for runs in RUNS {
            let mut order = order(1024, runs, &mut Random::new(82_000)).plain();
            order.s = 8;
            order
                .entries_mut()
                .step_by(2)
                .for_each(|entry| *entry |= FEEDER);
            let bytes = order.bytes();
            let (drawing, count) = second_drawing(style, &bytes);
            let mut random = Random::new(82_000);
            for pitch in 1..=80u8 {
                let tool = with(random_tool(&mut random), 0, pitch.into());
                for _ in 0..tally.rounds(10) {
                    let number = random.below(count + 100);
                    keeps(same_move(&bytes, &drawing, tool, number));
                    tally.count();
                }
            }
        }
    });
}

// Each number of the tool from all corners of f32, and at random.
#[test]
fn tools_from_all_corners() {
    in_each_style("moves, tools from all corners of f32", |style, tally| {
        let mut random = Random::new(83_000);
        let mut values = corners();
        let many = tally.rounds(100_000);
        values.extend((0..many).map(|_| f32::from_bits(random.number() as u32)));
        let order = order(5, Runs::Mixed, &mut random).plain();
        let bytes = order.bytes();
        let (drawing, count) = second_drawing(style, &bytes);
        for value in values {
            for field in 0..3 {
                let tool = with(random_tool(&mut random), field, value);
                for number in [random.below(count), usize::MAX] {
                    keeps(same_move(&bytes, &drawing, tool, number));
                    tally.count();
                }
            }
        }
    });
}

// Refusals of the file come before 12, 12 before 23.
#[test]
fn refusals_in_order() {
    in_each_style("moves, refusals in their order", |style, tally| {
        let mut random = Random::new(84_020);
        let bytes = order(6, Runs::Mixed, &mut random).bytes();
        for at in 0..bytes.len() {
            for change in [1, 0x40, 0x80, 0xC0, 0xFF] {
                let mut wrong = bytes.clone();
                wrong[at] ^= change;
                for pitch in [8.0, 0.0] {
                    let tool = with(random_tool(&mut random), 0, pitch);
                    for number in [0, usize::MAX] {
                        let second = order_file::read(style, &wrong)
                            .map_err(refusal)
                            .and_then(|drawing| second_move(&drawing, tool, number));
                        keeps(same_as(second, (style, &wrong), tool, number));
                        tally.count();
                    }
                }
            }
        }
    });
}

// As C sees it: a refusal leaves `at`, plunge and lift put 0 into its second number.
#[test]
fn what_stands_in_at() {
    in_each_style("moves, what C finds in `at`", |style, tally| {
        let mut random = Random::new(85_000);
        for runs in RUNS {
            let bytes = order(9, runs, &mut random).bytes();
            let (drawing, _) = second_drawing(style, &bytes);
            for number in 0..215 {
                let pitch = if number % 7 == 6 { 0.5 } else { 3.0 };
                let tool = with(random_tool(&mut random), 0, pitch);
                same_in_at(&bytes, &drawing, tool, number);
                tally.count();
            }
        }
    });
}

/// The same for one move of an order file, whose drawing is given too.
fn same_in_at(bytes: &[u8], drawing: &Drawing, tool: Tool, number: usize) {
    let before = [0x7FC1_2345, 0x8000_0001].map(f32::from_bits);
    let (mut at, mut refusal) = (before, [u64::MAX; 3]);
    let order_move = match drawing.style {
        Style::OneBend => ONE_BEND.order_move,
        Style::Straight => STRAIGHT.order_move,
    };
    // SAFETY: pointer and length are those of a slice, and both arrays are ours.
    let kind = unsafe {
        order_move(
            bytes.as_ptr(),
            bytes.len(),
            tool.pitch,
            tool.depth,
            tool.clearance,
            number,
            &mut at,
            &mut refusal,
        )
    };
    let told = ((kind, at.map(f32::to_bits)), refusal);
    match second_move(drawing, tool, number) {
        Ok(wanted) => assert_eq!(told, (wanted, [0; 3])),
        Err(why) => assert_eq!(told, ((0, before.map(f32::to_bits)), words(why, 0))),
    }
}
