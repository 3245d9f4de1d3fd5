//! All moves of what a list of calls drew, in one call.

use panel::raw::{ONE_BEND, SHORT_ANSWERS, SHORT_AT, SHORT_OUT, STRAIGHT};
use panel::Tool;
use second::generate::{calls, order, Random, RUNS};
use second::Style;

use crate::all_moves::{rooms, Left, Room};
use crate::as_c::list_words;
use crate::calls::{blank, second_drawing, words_of};
use crate::moves::{bits, corners, random_tool, second_moves, with};
use crate::proved::proved;
use crate::shrink::{list_keeps, Kept};
use crate::tally::in_each_style;

/// What the library leaves, as C calls it.
fn left_in(
    style: Style,
    n: usize,
    words: &[u16],
    answers: &mut [u16],
    (tool, room): (Tool, Room),
) -> Left {
    let function = match style {
        Style::OneBend => ONE_BEND.calls_moves,
        Style::Straight => STRAIGHT.calls_moves,
    };
    // SAFETY: pointers and lengths are those of slices, and the array is lent.
    Left::by(room, |kinds, at, refusal| unsafe {
        function(
            n,
            words.as_ptr(),
            words.len(),
            answers.as_mut_ptr(),
            answers.len(),
            tool.pitch,
            tool.depth,
            tool.clearance,
            kinds.as_mut_ptr(),
            kinds.len(),
            at.as_mut_ptr(),
            at.len(),
            refusal,
        )
    })
}

/// Both sides list the same moves, or refuse alike, and leave the same in answers of so many words: in a
/// vector, and in buffers that are long enough, too short and longer. 3, 24 for the answers, 12, 22, 24
/// for the kinds, 24 for the numbers, in this order.
fn agree(style: Style, n: usize, words: &[u16], answer_words: usize, tool: Tool) -> Kept {
    let mut wanted_answers = blank(answer_words);
    let second = second_drawing(style, n, words, &mut wanted_answers)
        .and_then(|drawing| second_moves(&drawing, tool));
    let about = |what: &str| format!("all moves of {style:?} calls with n = {n}, {tool:?}, {what}");
    let mut answers = blank(answer_words);
    let vector = (proved(style).calls_moves)(n, words, &mut answers, tool)
        .map(|moves| moves.into_iter().map(bits).collect());
    if (vector, &answers) != (second.clone(), &wanted_answers) {
        return Err(about("in a vector"));
    }
    let count = second.as_ref().map_or(1, Vec::len);
    let second = second.map_err(list_words);
    for room in rooms(count) {
        let mut answers = blank(answer_words);
        let left = left_in(style, n, words, &mut answers, (tool, room));
        let kept = left.same(&Left::wanted(room, &second));
        kept.map_err(|why| about(&format!("{room:?}\n{why}")))?;
        if answers != wanted_answers {
            return Err(about(&format!(
                "{room:?}\n  proved: {answers:?}\n  second: {wanted_answers:?}"
            )));
        }
    }
    Ok(())
}

// Random lists, some unfinished, some for too few points, with answers of all lengths, and tools in and
// out of range.
#[test]
fn lists_of_random_calls() {
    let corners = corners();
    in_each_style("all moves of lists of calls", |style, tally| {
        for round in 0..tally.rounds(3000) {
            let mut random = Random::new(150_000 + round);
            let n = random.between(2, 30);
            let runs = RUNS[random.below(RUNS.len())];
            let list = calls(n.max(3) as u16, runs, &mut random);
            let (less, more) = (random.below(3), random.below(5));
            let mut tool = random_tool(&mut random);
            if random.below(4) == 0 {
                let value = corners[random.below(corners.len())];
                tool = with(tool, random.below(3), value);
            }
            list_keeps(&list, |list| {
                let length = (2 * list.len() + more).saturating_sub(less);
                agree(style, n, &words_of(list), length, tool)
            });
            tally.count();
        }
    });
}

// Lists that finish 1,024 points, and the same with n out of range and one more point.
#[test]
fn lists_of_1024_points_and_n_out_of_range() {
    let what = "all moves of lists of calls, 1,024 points and n out of range";
    in_each_style(what, |style, tally| {
        for runs in RUNS {
            let mut random = Random::new(151_000);
            let tool = random_tool(&mut random);
            for last in [1023, 1024] {
                let list = order(last, runs, &mut random).calls;
                for n in [0, 2, 1024, 1025, 65_539, usize::MAX] {
                    list_keeps(&list, |list| {
                        agree(style, n, &words_of(list), 2 * list.len(), tool)
                    });
                    tally.count();
                }
            }
        }
    });
}

// 3, then 24 for the answers, and the answers stay; then 12, 22, 24 for the kinds, 24 for the numbers, and
// the answers are written.
#[test]
fn refusals_in_order() {
    let what = "all moves of lists of calls, refusals in their order";
    in_each_style(what, |style, tally| {
        let needed = match style {
            Style::OneBend => 42,
            Style::Straight => 36,
        };
        for (n, list, finished) in [
            (5, &[2, 1, 3, 4, 1, 4, 3, 2][..], true),
            (5, &[2, 1, 3, 1, 9], false),
            (2, &[2, 1, 3, 1, 9], false),
        ] {
            for answer_words in 0..6 {
                for pitch in [8.0, 0.0] {
                    let tool = Tool {
                        pitch,
                        depth: 8.0,
                        clearance: 8.0,
                    };
                    for room in rooms(needed) {
                        let wanted = if n == 2 {
                            [3, 0, 0]
                        } else if answer_words < 4 {
                            [24, 0, SHORT_ANSWERS]
                        } else if pitch == 0.0 {
                            [12, 0, 0]
                        } else if !finished {
                            [22, 0, 0]
                        } else if room.kinds < needed {
                            [24, 0, SHORT_OUT]
                        } else if room.at < 2 * needed {
                            [24, 0, SHORT_AT]
                        } else {
                            [0; 3]
                        };
                        let mut answers = blank(answer_words);
                        let left = left_in(style, n, list, &mut answers, (tool, room));
                        assert_eq!(left.refusal, wanted);
                        let written = answers != blank(answer_words);
                        assert_eq!(written, n == 5 && answer_words >= 4);
                        tally.count();
                    }
                }
            }
        }
    });
}
