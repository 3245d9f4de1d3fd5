//! Look-ups: a point's place, a line, a cut line that ends at a point.

use crate::raw::{CallsLookUp, OrderLookUp, FOUND, LINE_WORDS, ONE_BEND};
use crate::refusal::{given_with, Refusal};

/// A place in grid units; y points up.
#[derive(Clone, Copy, Debug, PartialEq, Eq, Hash)]
pub struct Place {
    pub x: u16,
    pub y: u16,
}

/// Document 01: "A line's bend is at a left, right or middle port, or it has none", with the port's
/// index from 1.
#[derive(Clone, Copy, Debug, PartialEq, Eq, Hash)]
pub enum Bend {
    /// Line 1-2 only.
    None,
    /// Left port of the earlier point.
    Left(usize),
    /// Right port of the earlier point.
    Right(usize),
    /// Middle port of the later point.
    Middle(usize),
}

/// What an entry says of the line to its point. Document 02: "guide, plain and feeder".
#[derive(Clone, Copy, Debug, PartialEq, Eq, Hash)]
pub enum Kind {
    /// Not cut.
    Guide,
    /// Cut once.
    Plain,
    /// Cut twice, as a double groove.
    Feeder,
}

impl Kind {
    /// Whether a line of this kind is cut.
    ///
    /// ```
    /// use panel::Kind;
    ///
    /// assert!(Kind::Plain.is_cut() && Kind::Feeder.is_cut());
    /// assert!(!Kind::Guide.is_cut());
    /// ```
    pub fn is_cut(self) -> bool {
        match self {
            Kind::Guide => false,
            Kind::Plain | Kind::Feeder => true,
        }
    }
}

/// A line from a later point to an earlier one.
#[derive(Clone, Copy, Debug, PartialEq, Eq, Hash)]
pub struct Line {
    pub later: usize,
    pub earlier: usize,
    pub bend: Bend,
    /// The place of the bend; for line 1-2 that of point 1.
    pub bend_place: Place,
    /// Guide, plain or feeder.
    pub kind: Kind,
}

/// What a look-up returns, and the words that it puts into `seen`.
pub(crate) type Seen<const WORDS: usize> = (u64, [u64; WORDS]);

/// The place of a point, from 1, of the drawing of an order file. Refused are what
/// [`draw`](crate::draw) refuses, then 23 if there is no such point.
///
/// ```
/// use panel::{point, Place};
///
/// let order = b"HD\0\x03PT\0\0PT\0\x01\0\x01PT\0\x02\0\x01\0\x02EN";
/// assert_eq!(point(order, 3)?, Place { x: 3, y: 2 });
/// assert_eq!(point(order, 4).unwrap_err().number, 23);
/// # Ok::<(), panel::Refusal>(())
/// ```
pub fn point(order: &[u8], point: usize) -> Result<Place, Refusal> {
    of_order(ONE_BEND.point, order, point).map(place_seen)
}

/// A line, by number from 0, of the drawing of an order file. Refused are what
/// [`draw`](crate::draw) refuses, then 23 if there is no such line.
///
/// ```
/// use panel::{line, Bend, Kind, Place};
///
/// // The line from 3 to 1 is a guide, and the line from 3 to 2 a feeder.
/// let order = b"HD\0\x03PT\0\0PT\0\x01\0\x01PT\0\x02\x80\x01\x40\x02EN";
/// let last = line(order, 2)?;
/// assert_eq!((last.later, last.earlier, last.kind), (3, 2, Kind::Feeder));
/// assert_eq!((last.bend, last.bend_place), (Bend::Left(1), Place { x: 4, y: 1 }));
/// assert_eq!(line(order, 1)?.kind, Kind::Guide);
/// assert_eq!(line(order, 0)?.kind, Kind::Plain);
/// # Ok::<(), panel::Refusal>(())
/// ```
pub fn line(order: &[u8], number: usize) -> Result<Line, Refusal> {
    of_order(ONE_BEND.line, order, number).map(line_seen)
}

/// The number of a cut line, plain or feeder, that ends at a point, from 1, of the drawing of an
/// order file; which one is free, and none exactly if there is none. Refused are what
/// [`draw`](crate::draw) refuses, then 23 if there is no such point.
///
/// ```
/// use panel::cut_line;
///
/// // The line from 2 to 1 is a guide, and so is the line from 3 to 2; the one from 3 to 1 is plain.
/// let order = b"HD\0\x03PT\0\0PT\0\x01\x80\x01PT\0\x02\0\x01\x80\x02EN";
/// assert_eq!(cut_line(order, 1)?, Some(1));
/// assert_eq!(cut_line(order, 2)?, None);
///
/// // The same with a feeder from 3 to 2.
/// let order = b"HD\0\x03PT\0\0PT\0\x01\x80\x01PT\0\x02\0\x01\x40\x02EN";
/// assert_eq!(cut_line(order, 2)?, Some(2));
/// # Ok::<(), panel::Refusal>(())
/// ```
pub fn cut_line(order: &[u8], point: usize) -> Result<Option<usize>, Refusal> {
    of_order(ONE_BEND.cut_line, order, point).map(cut_line_seen)
}

/// [`point`] of the drawing that a list of calls leaves, in which points may be missing; calls and
/// answers in words as in [`calls_in_words`](crate::calls_in_words). Refused are 3, and 24 if
/// `answers` is too short, and nothing changes; then 23 if there is no such point, the answers
/// written all the same.
///
/// ```
/// use panel::{calls_point, Place};
///
/// let calls = [2, 1, 3, 2, 1, 2]; // two calls of two entries, the second one refused
/// let mut answers = [0; 4];
/// assert_eq!(calls_point(5, &calls, &mut answers, 4)?, Place { x: 4, y: 3 });
/// assert_eq!(answers, [0, 0, 8, 1]);
/// # Ok::<(), panel::Refusal>(())
/// ```
pub fn calls_point(
    n: usize,
    calls: &[u16],
    answers: &mut [u16],
    point: usize,
) -> Result<Place, Refusal> {
    of_calls(ONE_BEND.calls_point, n, calls, answers, point).map(place_seen)
}

/// [`line`](fn@line) of the drawing that a list of calls leaves, as in [`calls_point`].
///
/// ```
/// use panel::{calls_line, Bend, Kind, FEEDER};
///
/// let calls = [3, 1, FEEDER | 3, 2]; // one call of three entries
/// let mut answers = [0; 2];
/// let line = calls_line(5, &calls, &mut answers, 4)?;
/// assert_eq!((line.later, line.earlier, line.bend), (4, 3, Bend::Middle(1)));
/// assert_eq!(line.kind, Kind::Feeder);
/// # Ok::<(), panel::Refusal>(())
/// ```
pub fn calls_line(
    n: usize,
    calls: &[u16],
    answers: &mut [u16],
    number: usize,
) -> Result<Line, Refusal> {
    of_calls(ONE_BEND.calls_line, n, calls, answers, number).map(line_seen)
}

/// [`cut_line`] of the drawing that a list of calls leaves, as in [`calls_point`].
///
/// ```
/// use panel::{calls_cut_line, GUIDE};
///
/// let calls = [2, GUIDE | 1, GUIDE | 3]; // one call of two entries, both guides
/// let mut answers = [0; 2];
/// assert_eq!(calls_cut_line(5, &calls, &mut answers, 4)?, None);
/// assert!(calls_cut_line(5, &calls, &mut answers, 3)?.is_some());
/// # Ok::<(), panel::Refusal>(())
/// ```
pub fn calls_cut_line(
    n: usize,
    calls: &[u16],
    answers: &mut [u16],
    point: usize,
) -> Result<Option<usize>, Refusal> {
    of_calls(ONE_BEND.calls_cut_line, n, calls, answers, point).map(cut_line_seen)
}

/// Looks a number up in an order file's drawing.
pub(crate) fn of_order<const WORDS: usize>(
    look_up: OrderLookUp<WORDS>,
    order: &[u8],
    number: usize,
) -> Result<Seen<WORDS>, Refusal> {
    // SAFETY: pointer and length are those of a borrowed slice.
    given_with(|seen, refusal| unsafe {
        look_up(order.as_ptr(), order.len(), number, seen, refusal)
    })
}

/// Looks a number up in the drawing that a list of calls leaves.
pub(crate) fn of_calls<const WORDS: usize>(
    look_up: CallsLookUp<WORDS>,
    n: usize,
    calls: &[u16],
    answers: &mut [u16],
    number: usize,
) -> Result<Seen<WORDS>, Refusal> {
    // SAFETY: pointers and lengths are those of borrowed slices.
    given_with(|seen, refusal| unsafe {
        look_up(
            n,
            calls.as_ptr(),
            calls.len(),
            answers.as_mut_ptr(),
            answers.len(),
            number,
            seen,
            refusal,
        )
    })
}

/// The place in `seen`.
pub(crate) fn place_seen((_, [x, y]): Seen<2>) -> Place {
    Place {
        x: x as u16,
        y: y as u16,
    }
}

/// The line in `seen`.
fn line_seen((_, [later, earlier, bend, port, x, y, kind]): Seen<LINE_WORDS>) -> Line {
    let port = port as usize;
    Line {
        later: later as usize,
        earlier: earlier as usize,
        bend: match bend {
            0 => Bend::None,
            1 => Bend::Left(port),
            2 => Bend::Right(port),
            3 => Bend::Middle(port),
            _ => unreachable!("the library has no bend of kind {bend}"),
        },
        bend_place: Place {
            x: x as u16,
            y: y as u16,
        },
        kind: kind_seen(kind),
    }
}

/// A line's own kind in `seen`.
pub(crate) fn kind_seen(kind: u64) -> Kind {
    match kind {
        0 => Kind::Guide,
        1 => Kind::Plain,
        2 => Kind::Feeder,
        _ => unreachable!("the library has no line of kind {kind}"),
    }
}

/// The number in `seen`, if a line was found.
pub(crate) fn cut_line_seen((found, [number]): Seen<1>) -> Option<usize> {
    (found == FOUND).then_some(number as usize)
}
