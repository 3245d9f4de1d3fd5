//! Lists of adding calls.

use crate::raw::{RunCalls, ONE_BEND, SHORT_ANSWERS};
use crate::refusal::Refusal;
use crate::sizes::{drawing_length, ANSWER_WORDS, FEWEST_POINTS, MOST_POINTS};

/// The bit of an entry that says guide.
pub const GUIDE: u16 = 0x8000;

/// The bit of an entry that says feeder.
pub const FEEDER: u16 = 0x4000;

/// What a list of calls gave.
#[derive(Clone, Debug, PartialEq, Eq)]
pub struct Called {
    /// The answer to each call.
    pub answers: Vec<Result<(), Refusal>>,
    /// The drawing file, or 22 while points are missing.
    pub drawing: Result<Vec<u8>, Refusal>,
}

/// Opens a drawing for n points and makes the calls, each a list of entries; 3 if n is out of range.
///
/// An entry is an earlier point in its low 14 bits, with [`GUIDE`] or [`FEEDER`] or neither for a plain
/// line; an entry with both is refused with 13 at its index, before anything is asked of its point.
///
/// ```
/// use panel::{Refusal, FEEDER, GUIDE};
///
/// let marked_both = vec![1, GUIDE | FEEDER | 3, 2];
/// let called = panel::calls(4, &[vec![1, 3], marked_both, vec![FEEDER | 1, 3, GUIDE | 2]])?;
/// let [not_whole, both] = [(9, 0), (13, 1)].map(|(number, place)| Refusal { number, place });
/// assert_eq!(called.answers, [Err(not_whole), Err(both), Ok(())]);
/// assert_eq!(called.drawing?.len(), panel::drawing_length(4));
/// # Ok::<(), panel::Refusal>(())
/// ```
///
/// # Panics
/// If a call has more than 65,535 entries.
pub fn calls<Entries: AsRef<[u16]>>(n: usize, calls: &[Entries]) -> Result<Called, Refusal> {
    run(ONE_BEND.calls, drawing_length, n, calls)
}

/// The same by a function of the library, with the length of a drawing file by n.
pub(crate) fn run<Entries: AsRef<[u16]>>(
    function: RunCalls,
    drawing_length: fn(usize) -> usize,
    n: usize,
    calls: &[Entries],
) -> Result<Called, Refusal> {
    let mut words = Vec::new();
    for call in calls {
        let entries = call.as_ref();
        words.push(u16::try_from(entries.len()).expect("a call has at most 65,535 entries"));
        words.extend_from_slice(entries);
    }
    let mut answers = vec![0; ANSWER_WORDS * calls.len()];
    let mut drawing = vec![0; drawing_length(n.clamp(FEWEST_POINTS, MOST_POINTS))];
    let written = run_in_words(function, n, &words, &mut answers, &mut drawing)?;
    Ok(Called {
        answers: answers.chunks(ANSWER_WORDS).map(answer).collect(),
        drawing: written.map(|length| {
            drawing.truncate(length);
            drawing
        }),
    })
}

/// An answer from its two words.
fn answer(words: &[u16]) -> Result<(), Refusal> {
    Refusal::said(words[0].into(), words[1].into())
}

/// The same in words, with no allocation; gives the number of bytes of the drawing file in `out`.
///
/// `calls` has a count, then that many entries, one call after another; a last call that is cut off
/// has the entries that are left. `answers` gets two words a call, number and place, 0 and 0 for
/// accepted.
///
/// The outer refusal is that of the list: 3 if n is out of range, 24 if `answers` is too short, and
/// nothing changes. The inner one is that of the drawing file: 22 while points are missing, 24 if
/// `out` is too short; the answers are written, and `out` stays.
///
/// ```
/// use panel::{calls_in_words, Refusal};
///
/// let calls = [3, 1, 3, 2]; // one call of three entries
/// let (mut answers, mut out) = ([9; 2], [0; panel::drawing_length(4)]);
/// assert_eq!(calls_in_words(4, &calls, &mut answers, &mut out), Ok(Ok(108)));
/// assert_eq!(answers, [0, 0]);
///
/// let short = Refusal { number: 24, place: 0 };
/// assert_eq!(calls_in_words(4, &calls, &mut answers[..1], &mut out), Err(short));
/// assert_eq!(calls_in_words(4, &calls, &mut answers, &mut out[..1]), Ok(Err(short)));
/// ```
pub fn calls_in_words(
    n: usize,
    calls: &[u16],
    answers: &mut [u16],
    out: &mut [u8],
) -> Result<Result<usize, Refusal>, Refusal> {
    run_in_words(ONE_BEND.calls, n, calls, answers, out)
}

/// The same by a function of the library.
pub(crate) fn run_in_words(
    function: RunCalls,
    n: usize,
    calls: &[u16],
    answers: &mut [u16],
    out: &mut [u8],
) -> Result<Result<usize, Refusal>, Refusal> {
    let mut refusal = [0; 3];
    // SAFETY: pointers and lengths are those of borrowed slices.
    let written = unsafe {
        function(
            n,
            calls.as_ptr(),
            calls.len(),
            answers.as_mut_ptr(),
            answers.len(),
            out.as_mut_ptr(),
            out.len(),
            &mut refusal,
        )
    };
    let [number, place, buffer] = refusal;
    match Refusal::said(number, place) {
        Err(refusal) if number == 3 || buffer == SHORT_ANSWERS => Err(refusal),
        said => Ok(said.map(|()| written as usize)),
    }
}
