//! Look-ups of the drawing that a list of calls leaves, finished or not.

use second::generate::{calls, Random, RUNS};
use second::Style;

use crate::calls::{blank, second_drawing, words_of};
use crate::lookups::{right, Looked, FAR};
use crate::proved::proved;
use crate::shrink::{list_keeps, Kept};
use crate::tally::in_each_style;

/// Both sides give the same look-ups of a number, and leave the same in answers of so many words.
fn agree(style: Style, n: usize, words: &[u16], answer_words: usize, number: usize) -> Kept {
    let proved = proved(style);
    let mut answers = [(); 3].map(|()| blank(answer_words));
    let [one, two, three] = &mut answers;
    let looked = Looked {
        point: (proved.calls_point)(n, words, one, number),
        line: (proved.calls_line)(n, words, two, number),
        cut_line: (proved.calls_cut_line)(n, words, three, number),
    };
    let mut wanted_answers = blank(answer_words);
    let drawing = second_drawing(style, n, words, &mut wanted_answers);
    right(&looked, &drawing, number)
        .map_err(|why| format!("{style:?} calls with n = {n}, {why}"))?;
    if answers.iter().any(|answers| *answers != wanted_answers) {
        return Err(format!(
            "look-ups of {number} after {style:?} calls with n = {n}\n  \
             proved: {answers:?}\n  second: {wanted_answers:?}"
        ));
    }
    Ok(())
}

// Every point and line that a list leaves, refused calls among them, and numbers of none.
#[test]
fn all_look_ups_of_random_lists() {
    let what = "look-ups of lists of calls, all of up to 20 points";
    in_each_style(what, |style, tally| {
        for round in 0..tally.rounds(60) {
            let mut random = Random::new(110_000 + round);
            for runs in RUNS {
                let n = random.between(3, 20);
                let list = calls(n as u16, runs, &mut random);
                for number in (0..panel::line_count(n) + 2).chain(FAR) {
                    list_keeps(&list, |list| {
                        agree(style, n, &words_of(list), 2 * list.len(), number)
                    });
                    tally.count();
                }
            }
        }
    });
}

// Random lists of every length, some for too few points, with answers that are too short or too long.
#[test]
fn look_ups_of_random_lists() {
    let what = "look-ups of lists of calls, answers of all lengths";
    in_each_style(what, |style, tally| {
        for round in 0..tally.rounds(6000) {
            let mut random = Random::new(111_000 + round);
            let n = random.between(2, 40);
            let runs = RUNS[random.below(RUNS.len())];
            let list = calls(n.max(3) as u16, runs, &mut random);
            let number = random.below(3 * n);
            let (less, more) = (random.below(3), random.below(3));
            list_keeps(&list, |list| {
                let length = (2 * list.len() + more).saturating_sub(less);
                agree(style, n, &words_of(list), length, number)
            });
            tally.count();
        }
    });
}

// A last call that is cut off, at every length.
#[test]
fn words_cut_off() {
    let what = "look-ups of lists of calls, words cut off";
    in_each_style(what, |style, tally| {
        for runs in RUNS {
            let mut random = Random::new(112_000);
            let words = words_of(&calls(12, runs, &mut random));
            for length in 0..words.len() {
                let number = random.below(30);
                list_keeps(&words[..length], |words| {
                    agree(style, 12, words, 2 * words.len(), number)
                });
                tally.count();
            }
        }
    });
}

// The largest n, and n out of range.
#[test]
fn large_n_and_n_out_of_range() {
    let what = "look-ups of lists of calls, 1,024 points and n out of range";
    in_each_style(what, |style, tally| {
        for runs in RUNS {
            let mut random = Random::new(113_000);
            let list = calls(1024, runs, &mut random);
            for n in [0, 2, 1024, 1025, 65_539, usize::MAX] {
                for number in [0, 1, 1024, random.below(3070), random.below(3070)] {
                    list_keeps(&list, |list| {
                        agree(style, n, &words_of(list), 2 * list.len(), number)
                    });
                    tally.count();
                }
            }
        }
    });
}
