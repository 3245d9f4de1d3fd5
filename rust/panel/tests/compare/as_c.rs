//! What C finds after a call: the three words of a refusal, and what a refusal leaves.

use std::hint::black_box;

use panel::raw::{
    CallsMove, Convert, Functions, RunCalls, Words, FOUND, NONE, ONE_BEND, SHORT_ANSWERS,
    SHORT_OUT, STRAIGHT,
};
use panel::{Refusal, Tool};
use second::generate::{calls, order, Random, Runs, RUNS};
use second::{order_file, Drawing, Style};

use crate::both::refusal;
use crate::calls::{blank, needed, second_drawing, words_of};
use crate::lookups::{point_number, FAR};
use crate::moves::{random_tool, second_move, with};
use crate::orders::drawn;
use crate::tally::{in_each_style, Tally};

/// What stands in every word before a call; no point, line or place has this number.
const BEFORE: u64 = 0xA5A5_A5A5_A5A5_A5A5;

/// The words of a refusal, the last of which says which buffer was short.
pub fn words(refusal: Refusal, buffer: u64) -> Words {
    [refusal.number.into(), refusal.place as u64, buffer]
}

/// The words of a refusal of a list of calls, or of what is asked after it with no output: only the
/// answers can be short.
pub fn list_words(refusal: Refusal) -> Words {
    let short = refusal.number == 24;
    words(refusal, if short { SHORT_ANSWERS } else { 0 })
}

/// Whether the three look-ups of a number find something, or the words of the refusal.
fn wanted(drawing: &Result<Drawing, Refusal>, number: usize) -> [Result<bool, Words>; 3] {
    let point = point_number(number);
    let looked = |look_up: &dyn Fn(&Drawing) -> Result<bool, second::Refusal>| {
        let drawing = drawing.as_ref().map_err(|&refusal| list_words(refusal))?;
        look_up(drawing).map_err(|why| list_words(refusal(why)))
    };
    [
        looked(&|drawing| drawing.place_of(point).map(|_| true)),
        looked(&|drawing| drawing.line(number).map(|_| true)),
        looked(&|drawing| drawing.cut_line_at(point).map(|line| line.is_some())),
    ]
}

/// What a look-up fills, with words behind it that must stay.
#[repr(C)]
struct Seen<const WORDS: usize> {
    seen: [u64; WORDS],
    behind: [u64; 8],
}

/// A look-up returns what is wanted, and fills `seen`, no more, exactly if it finds something.
fn leaves<const WORDS: usize>(
    wanted: Result<bool, Words>,
    look_up: impl FnOnce(&mut [u64; WORDS], &mut Words) -> u64,
) {
    let mut memory = Seen {
        seen: [BEFORE; WORDS],
        behind: [BEFORE; 8],
    };
    let mut refusal = [BEFORE; 3];
    let returned = look_up(&mut memory.seen, &mut refusal);
    let told = match wanted {
        Ok(true) => (FOUND, [0; 3]),
        Ok(false) => (NONE, [0; 3]),
        Err(words) => (0, words),
    };
    assert_eq!((returned, refusal), told);
    let filled = memory.seen.map(|word| word != BEFORE);
    assert_eq!(filled, [wanted == Ok(true); WORDS]);
    assert_eq!(black_box(memory).behind, [BEFORE; 8]);
}

// An order file's drawing, and refused order files.
#[test]
fn what_stands_in_seen() {
    let what = "as C, `seen` after look-ups of an order file";
    in_each_style(what, |style, tally| match style {
        Style::OneBend => seen_of_orders(style, &ONE_BEND, tally),
        Style::Straight => seen_of_orders(style, &STRAIGHT, tally),
    });
}

/// The same in one style.
fn seen_of_orders<const LINE: usize>(style: Style, raw: &Functions<LINE>, tally: &mut Tally) {
    for runs in RUNS {
        let mut random = Random::new(120_006);
        let bytes = order(9, runs, &mut random).bytes();
        let from = bytes.as_ptr();
        for length in [10, bytes.len() - 1, bytes.len()] {
            let drawing = order_file::read(style, &bytes[..length]).map_err(refusal);
            for number in (0..25).chain(FAR) {
                let [point, line, cut_line] = wanted(&drawing, number);
                // SAFETY: the length is at most the slice's, and the arrays are lent.
                unsafe {
                    leaves(point, |s, r| (raw.point)(from, length, number, s, r));
                    leaves(line, |s, r| (raw.line)(from, length, number, s, r));
                    leaves(cut_line, |s, r| (raw.cut_line)(from, length, number, s, r));
                }
                tally.count();
            }
        }
    }
}

// What a list of calls leaves, with answers that are too short and n out of range.
#[test]
fn what_stands_in_seen_after_calls() {
    let what = "as C, `seen` after look-ups of lists of calls";
    in_each_style(what, |style, tally| match style {
        Style::OneBend => seen_of_calls(style, &ONE_BEND, tally),
        Style::Straight => seen_of_calls(style, &STRAIGHT, tally),
    });
}

/// The same in one style.
fn seen_of_calls<const LINE: usize>(style: Style, raw: &Functions<LINE>, tally: &mut Tally) {
    for round in 0..tally.rounds(2000) {
        let mut random = Random::new(121_000 + round);
        let n = random.between(2, 9);
        let list = words_of(&calls(n.max(3) as u16, Runs::Mixed, &mut random));
        let mut answers = blank(random.below(2 * list.len() + 2));
        let drawing = second_drawing(style, n, &list, &mut answers.clone());
        let number = random.below(3 * n);
        let [point, line, cut_line] = wanted(&drawing, number);
        let (from, length) = (list.as_ptr(), list.len());
        let (to, room) = (answers.as_mut_ptr(), answers.len());
        // SAFETY: pointers and lengths are those of slices, and the arrays are lent.
        unsafe {
            leaves(point, |s, r| {
                (raw.calls_point)(n, from, length, to, room, number, s, r)
            });
            leaves(line, |s, r| {
                (raw.calls_line)(n, from, length, to, room, number, s, r)
            });
            leaves(cut_line, |s, r| {
                (raw.calls_cut_line)(n, from, length, to, room, number, s, r)
            });
        }
        tally.count();
    }
}

/// What a list of calls makes the library say with a tool and a move's number; a refusal leaves `at`.
fn move_words(
    function: CallsMove,
    n: usize,
    list: &[u16],
    answers: &mut [u16],
    (tool, number): (Tool, usize),
) -> Words {
    let before = [0x7FC1_2345, 0x8000_0001].map(f32::from_bits);
    let (mut at, mut refusal) = (before, [BEFORE; 3]);
    // SAFETY: pointers and lengths are those of slices, and the arrays are ours.
    let kind = unsafe {
        function(
            n,
            list.as_ptr(),
            list.len(),
            answers.as_mut_ptr(),
            answers.len(),
            tool.pitch,
            tool.depth,
            tool.clearance,
            number,
            &mut at,
            &mut refusal,
        )
    };
    let left = at.map(f32::to_bits) == before.map(f32::to_bits);
    assert_eq!((kind == 0, left), (refusal != [0; 3], refusal != [0; 3]));
    refusal
}

// Moves of lists of calls.
#[test]
fn what_stands_in_at_after_calls() {
    let what = "as C, `at` after moves of lists of calls";
    in_each_style(what, |style, tally| {
        let function = match style {
            Style::OneBend => ONE_BEND.calls_move,
            Style::Straight => STRAIGHT.calls_move,
        };
        for round in 0..tally.rounds(2000) {
            let mut random = Random::new(122_000 + round);
            let n = random.between(2, 9);
            let list = words_of(&calls(n.max(3) as u16, Runs::Mixed, &mut random));
            let mut answers = blank(random.below(2 * list.len() + 2));
            let pitch = random.below(4) as f32;
            let tool = with(random_tool(&mut random), 0, pitch);
            let number = random.below(32 * n);
            let second = second_drawing(style, n, &list, &mut answers.clone())
                .and_then(|drawing| second_move(&drawing, tool, number));
            let wanted = second.map_or_else(list_words, |_| [0; 3]);
            let told = move_words(function, n, &list, &mut answers, (tool, number));
            assert_eq!(told, wanted);
            tally.count();
        }
    });
}

/// Calls draw or undraw with an output of so many bytes.
fn convert(function: Convert, input: &[u8], room: usize) -> (u64, Words) {
    let (mut out, mut refusal) = (vec![0; room], [BEFORE; 3]);
    let (from, to) = (input.as_ptr(), out.as_mut_ptr());
    // SAFETY: pointers and lengths are those of slices, and the array is ours.
    let written = unsafe { function(from, input.len(), to, room, &mut refusal) };
    (written, refusal)
}

// Draw and undraw say that the output was short, and say nothing of it for other refusals.
#[test]
fn short_outputs() {
    in_each_style("as C, short outputs", |style, tally| {
        let (draw, undraw) = match style {
            Style::OneBend => (ONE_BEND.draw, ONE_BEND.undraw),
            Style::Straight => (STRAIGHT.draw, STRAIGHT.undraw),
        };
        for runs in RUNS {
            let (bytes, drawing) = drawn(style, &order(9, runs, &mut Random::new(123_000)));
            short_of(draw, &bytes, drawing.len(), tally);
            short_of(undraw, &drawing, bytes.len(), tally);
        }
    });
}

/// The same for one of the two.
fn short_of(function: Convert, input: &[u8], needed: usize, tally: &mut Tally) {
    for room in 0..needed {
        let told = convert(function, input, room);
        assert_eq!(told, (0, [24, 0, SHORT_OUT]));
        tally.count();
    }
    let told = convert(function, input, needed);
    assert_eq!(told, (needed as u64, [0; 3]));
    let told = convert(function, &input[..1], 0);
    assert_eq!(told, (0, [1, 0, 0]));
}

/// What a list of calls makes the library say with answers of so many words and so many bytes.
fn list_told(
    function: RunCalls,
    n: usize,
    list: &[u16],
    answer_words: usize,
    room: usize,
) -> Words {
    let (mut answers, mut out) = (blank(answer_words), vec![0; room]);
    let mut refusal = [BEFORE; 3];
    // SAFETY: pointers and lengths are those of slices, and the array is ours.
    unsafe {
        function(
            n,
            list.as_ptr(),
            list.len(),
            answers.as_mut_ptr(),
            answers.len(),
            out.as_mut_ptr(),
            out.len(),
            &mut refusal,
        );
    }
    refusal
}

// A list of calls says which of its two buffers was short: 3, then the answers, 22, the output.
#[test]
fn short_answers_and_short_outputs() {
    let what = "as C, short answers and short outputs of lists of calls";
    in_each_style(what, |style, tally| {
        let needed = needed(style, 5);
        let function = match style {
            Style::OneBend => ONE_BEND.calls,
            Style::Straight => STRAIGHT.calls,
        };
        short_lists(function, needed, tally);
    });
}

/// The same by one function, for which so many bytes are enough for five points.
fn short_lists(function: RunCalls, needed: usize, tally: &mut Tally) {
    for (n, list, finished) in [
        (5, &[2, 1, 3, 4, 1, 4, 3, 2][..], true),
        (5, &[2, 1, 3, 1, 9], false),
        (2, &[2, 1, 3, 1, 9], false),
    ] {
        for answer_words in 0..6 {
            for room in 0..needed + 3 {
                let wanted = if n == 2 {
                    [3, 0, 0]
                } else if answer_words < 4 {
                    [24, 0, SHORT_ANSWERS]
                } else if !finished {
                    [22, 0, 0]
                } else if room < needed {
                    [24, 0, SHORT_OUT]
                } else {
                    [0; 3]
                };
                let told = list_told(function, n, list, answer_words, room);
                assert_eq!(told, wanted);
                tally.count();
            }
        }
    }
}
