//! Lists of calls, refused ones among them.

use panel::Refusal;
use second::generate::{calls, Random, Runs, RUNS};
use second::{drawing_file, open, Drawing, Style};

use crate::both::refusal;
use crate::proved::proved;
use crate::shrink::{keeps, list_keeps, Kept};
use crate::tally::{in_each_style, Tally};

/// What stands in an answer buffer before a call.
const BLANK: u16 = 0xA5A5;

/// "24 always has place 0."
const SHORT: Refusal = Refusal {
    number: 24,
    place: 0,
};

/// The words of a list of calls.
pub fn words_of(calls: &[Vec<u16>]) -> Vec<u16> {
    calls
        .iter()
        .flat_map(|call| std::iter::once(call.len() as u16).chain(call.iter().copied()))
        .collect()
}

/// An answer buffer of so many words.
pub fn blank(length: usize) -> Vec<u16> {
    vec![BLANK; length]
}

/// The calls that words hold; the last one may be cut off.
fn calls_of(mut words: &[u16]) -> Vec<&[u16]> {
    let mut calls = Vec::new();
    while let Some((&count, rest)) = words.split_first() {
        let (entries, after) = rest.split_at(rest.len().min(count.into()));
        calls.push(entries);
        words = after;
    }
    calls
}

/// What the second implementation draws by a list of calls, with the answers in the buffer.
pub fn second_drawing(
    style: Style,
    n: usize,
    words: &[u16],
    answers: &mut [u16],
) -> Result<Drawing, Refusal> {
    let mut drawing = open(style, n.try_into().unwrap_or(0)).map_err(refusal)?;
    let calls = calls_of(words);
    let Some(answers) = answers.get_mut(..2 * calls.len()) else {
        return Err(SHORT);
    };
    for (call, answer) in calls.into_iter().zip(answers.chunks_mut(2)) {
        let told = drawing.add(call);
        let told = told.map_or_else(
            |refusal| [refusal.number, refusal.place as u16],
            |()| [0; 2],
        );
        answer.copy_from_slice(&told);
    }
    Ok(drawing)
}

/// Both sides answer alike, and leave both buffers alike.
pub fn agree(style: Style, n: usize, words: &[u16], answer_words: usize, room: usize) -> Kept {
    let pattern: Vec<u8> = (0..room).map(|at| at as u8 ^ 0x5A).collect();
    let (mut answers, mut out) = (blank(answer_words), pattern.clone());
    let proved = (proved(style).calls_in_words)(n, words, &mut answers, &mut out);
    let (mut wanted_answers, mut wanted_out) = (blank(answer_words), pattern);
    let second = second_drawing(style, n, words, &mut wanted_answers)
        .map(|drawing| drawing_file::write_into(&drawing, &mut wanted_out).map_err(refusal));
    if (proved, &answers, &out) != (second, &wanted_answers, &wanted_out) {
        let place = out.iter().zip(&wanted_out).position(|(a, b)| a != b);
        return Err(format!(
            "{style:?} calls with n = {n}, {answer_words} words of answers, {room} bytes\n  \
             proved: {proved:?} {answers:?}\n  second: {second:?} {wanted_answers:?}\n  \
             first difference of outputs: {place:?}"
        ));
    }
    Ok(())
}

/// The bytes that a drawing file of n points needs.
pub fn needed(style: Style, n: u16) -> usize {
    (proved(style).drawing_length)(n.into())
}

/// Random lists with runs of every sort, so many of each.
fn random_lists(what: &'static str, seed: u64, count: u64, least: usize, most: usize) {
    in_each_style(what, |style, tally| {
        for round in 0..tally.rounds(count) {
            let mut random = Random::new(seed + round);
            for runs in RUNS {
                let n = random.between(least, most) as u16;
                let list = calls(n, runs, &mut random);
                list_keeps(&list, |list| {
                    let (answer_words, room) = (2 * list.len() + 3, needed(style, n) + 5);
                    agree(style, n.into(), &words_of(list), answer_words, room)
                });
                tally.count();
            }
        }
    });
}

// Many short lists.
#[test]
fn random_lists_of_up_to_40_points() {
    random_lists(
        "calls, random lists for up to 40 points",
        70_000,
        12_000,
        3,
        40,
    );
}

// Some longer ones.
#[test]
fn random_lists_of_up_to_400_points() {
    random_lists(
        "calls, random lists for 41 to 400 points",
        71_000,
        400,
        41,
        400,
    );
}

// The longest.
#[test]
fn random_lists_of_1024_points() {
    random_lists(
        "calls, random lists for 1,024 points",
        72_000,
        30,
        1024,
        1024,
    );
}

// Words cut off at every length, answers and outputs of every length around the needed one.
#[test]
fn words_cut_off_and_buffers_of_all_lengths() {
    let what = "calls, words cut off and buffers of all lengths";
    in_each_style(what, all_lengths);
}

/// The same in one style.
fn all_lengths(style: Style, tally: &mut Tally) {
    let rounds = tally.rounds(100);
    let needed = |n| needed(style, n);
    let mut keeps = |n: usize, words: &[u16], answer_words: usize, room: usize| {
        let kept = agree(style, n, words, answer_words, room);
        keeps(kept.map_err(|why| format!("{why}\n  for {words:?}")));
        tally.count();
    };
    for round in 0..rounds {
        let mut random = Random::new(73_000 + round);
        for runs in RUNS {
            let n = random.between(3, 12) as u16;
            let list = calls(n, runs, &mut random);
            let words = words_of(&list);
            for length in 0..words.len() {
                keeps(n.into(), &words[..length], 2 * list.len(), needed(n));
            }
            for answer_words in 0..2 * list.len() + 3 {
                keeps(n.into(), &words, answer_words, needed(n));
            }
            for room in (0..4).chain(needed(n) - 4..needed(n) + 4) {
                keeps(n.into(), &words, 2 * list.len(), room);
            }
            for n in [0, 1, 2, 1025, 65_535, 65_536, 65_539, 1 << 32, usize::MAX] {
                keeps(n, &words, 2 * list.len(), 100);
                keeps(n, &words, 0, 100);
            }
            for n in [3, 4, 5, 1024] {
                keeps(n, &words, 2 * list.len(), 43_000);
            }
        }
    }
}

// Words at random, small ones more often.
#[test]
fn random_words() {
    in_each_style("calls, random words", |style, tally| {
        for round in 0..tally.rounds(200_000) {
            let mut random = Random::new(74_000 + round);
            let n = random.between(2, 7);
            let length = random.below(30);
            let words: Vec<u16> = (0..length)
                .map(|_| match random.below(16) {
                    0 => random.number() as u16,
                    1 => (random.below(4) << 14 | random.below(8)) as u16,
                    _ => random.below(6) as u16,
                })
                .collect();
            list_keeps(&words, |words| agree(style, n, words, 2 * words.len(), 300));
            tally.count();
        }
    });
}

// Calls of many entries, and many calls.
#[test]
fn large_calls_and_long_lists() {
    let what = "calls, up to 65,535 entries or calls";
    in_each_style(what, |style, tally| {
        let mut keeps = |list: &[Vec<u16>]| {
            list_keeps(list, |list| {
                agree(style, 5, &words_of(list), 2 * list.len(), 150)
            });
            tally.count();
        };
        for count in [1023, 1024, 1025, 32_768, 65_535] {
            for entry in [0, 1, 3, 4, 0x8001, 0x4001, 0xC001, 0xC000] {
                let (first, last) = (vec![1, 3], vec![1, 4, 3, 2]);
                let mut large: Vec<u16> = [1, 3, 2].into_iter().cycle().take(count).collect();
                large[count - 1] = entry;
                keeps(&[first.clone(), large, last.clone()]);
                let mut many = vec![vec![]; count - 1];
                many.insert(0, first);
                many.extend([last, vec![entry; 2]]);
                keeps(&many);
            }
        }
    });
}

/// The proved library gives the second implementation's answers and drawing with one list a call.
fn agree_in_lists(style: Style, n: usize, list: &[Vec<u16>]) -> Kept {
    let mut answers = blank(2 * list.len());
    let second = second_drawing(style, n, &words_of(list), &mut answers)
        .map(|drawing| drawing_file::write(&drawing).map_err(refusal));
    let (told, drawing) = match (proved(style).calls)(n, list) {
        Ok(called) => (called.answers, Ok(called.drawing)),
        Err(refusal) => (Vec::new(), Err(refusal)),
    };
    let told = told.into_iter().map(|answer| match answer {
        Ok(()) => [0, 0],
        Err(refusal) => [refusal.number, refusal.place as u16],
    });
    if drawing != second || (second.is_ok() && !told.flatten().eq(answers)) {
        return Err(format!("{style:?} lists of calls with n = {n}"));
    }
    Ok(())
}

// The same answers with one list a call.
#[test]
fn lists_of_lists() {
    in_each_style("calls, lists of lists", |style, tally| {
        for round in 0..tally.rounds(2000) {
            let mut random = Random::new(75_000 + round);
            let n = random.between(3, 60) as u16;
            let list = calls(n, Runs::Mixed, &mut random);
            for n in [n, 2, 1025] {
                list_keeps(&list, |list| agree_in_lists(style, n.into(), list));
                tally.count();
            }
        }
    });
}
