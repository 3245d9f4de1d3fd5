//! Cutter moves of what a list of calls drew.

use panel::Tool;
use second::generate::{calls, Random, RUNS};
use second::Style;

use crate::calls::{blank, second_drawing, words_of};
use crate::moves::{bits, corners, random_tool, second_move, with};
use crate::proved::proved;
use crate::shrink::{list_keeps, Kept};
use crate::tally::in_each_style;

/// Both sides give the same move, and leave the same in answers of so many words.
fn agree(
    style: Style,
    n: usize,
    words: &[u16],
    answer_words: usize,
    (tool, number): (Tool, usize),
) -> Kept {
    let (mut answers, mut wanted_answers) = (blank(answer_words), blank(answer_words));
    let proved = (proved(style).calls_move_at)(n, words, &mut answers, tool, number).map(bits);
    let second = second_drawing(style, n, words, &mut wanted_answers)
        .and_then(|drawing| second_move(&drawing, tool, number));
    if (proved, &answers) != (second, &wanted_answers) {
        return Err(format!(
            "move {number} of {style:?} calls with n = {n}, {tool:?}\n  \
             proved: {proved:x?} {answers:?}\n  second: {second:x?} {wanted_answers:?}"
        ));
    }
    Ok(())
}

// Random lists, some unfinished, with tools in and out of range and numbers in and out of range.
#[test]
fn moves_of_random_lists() {
    let corners = corners();
    in_each_style("moves of lists of calls", |style, tally| {
        for round in 0..tally.rounds(20_000) {
            let mut random = Random::new(90_000 + round);
            let n = random.between(2, 30);
            let runs = RUNS[random.below(RUNS.len())];
            let list = calls(n.max(3) as u16, runs, &mut random);
            let short = usize::from(random.below(8) == 0);
            let mut tool = random_tool(&mut random);
            if random.below(4) == 0 {
                let value = corners[random.below(corners.len())];
                tool = with(tool, random.below(3), value);
            }
            let number = random.below(32 * n);
            list_keeps(&list, |list| {
                let length = (2 * list.len()).saturating_sub(short);
                agree(style, n, &words_of(list), length, (tool, number))
            });
            tally.count();
        }
    });
}
