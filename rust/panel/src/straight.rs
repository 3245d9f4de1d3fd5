//! Straight panels: document 02's "straight-line drawing of de Fraysseix, Pach and Pollack (1990) from
//! the same order file".
//!
//! A function here takes, gives and refuses what the crate's function of the same name does, but draws
//! and reads straight drawings, in which no line has a bend and nothing is refused with 25. A finished
//! panel of n points is 2n - 4 wide and n - 2 high. A plain line gives four moves, one of them a cut, and
//! none is left out. Each style's `undraw` refuses the other's drawing files with 2 at place 0.
//!
//! ```
//! use panel::straight::{draw, line, moves, point, undraw, Line};
//! use panel::{Kind, Move, Place, Refusal, Tool};
//!
//! // Three points: 1, then 2 joined to 1, then 3 joined to 1 by a feeder and to 2.
//! let order = b"HD\0\x03PT\0\0PT\0\x01\0\x01PT\0\x02\x40\x01\0\x02EN";
//! let drawing = [
//!     0x44, 0x53, 0, 3, 0, 1, 0, 2, 0, 1, // n, scale, width, height
//!     0x50, 0x4F, 0, 0, 0, 0, // point 1 at (0,0)
//!     0x50, 0x4F, 0, 2, 0, 0, // point 2 at (2,0)
//!     0x50, 0x4F, 0, 1, 0, 1, // point 3 at (1,1)
//!     0x4C, 0x4E, 0, 2, 0, 1, 0, 1, // line 2-1, plain
//!     0x4C, 0x4E, 0, 3, 0, 1, 0, 2, // line 3-1, a feeder
//!     0x4C, 0x4E, 0, 3, 0, 2, 0, 1, // line 3-2, plain
//!     0x45, 0x4E,
//! ];
//! assert_eq!(draw(order)?, drawing);
//! assert_eq!(undraw(&drawing)?, order);
//!
//! // Neither style reads the other's files.
//! let wrong_mark = Refusal { number: 2, place: 0 };
//! assert_eq!(panel::undraw(&drawing), Err(wrong_mark));
//! assert_eq!(undraw(&panel::draw(order)?), Err(wrong_mark));
//!
//! assert_eq!(point(order, 3)?, Place { x: 1, y: 1 });
//! let feeder = Line { later: 3, earlier: 1, kind: Kind::Feeder };
//! assert_eq!(line(order, 1)?, feeder);
//!
//! // Four moves a line, and a feeder's twice.
//! let tool = Tool { pitch: 8.0, depth: 4.0, clearance: 8.0 };
//! let moves = moves(order, tool)?;
//! assert_eq!(moves.len(), 16);
//! assert_eq!(moves[12], Move::Travel(1.0, 1.0));
//! assert_eq!(moves[14], Move::Cut(2.0, 0.0));
//! # Ok::<(), Refusal>(())
//! ```

use crate::calls::{run, run_in_words, Called};
use crate::files::{convert, converted};
use crate::lookups::{cut_line_seen, kind_seen, of_calls, of_order, place_seen, Kind, Place, Seen};
use crate::moves::{
    move_of_calls, move_of_order, moves_of_calls, moves_of_order, write_moves, Move, Tool,
};
use crate::raw::{STRAIGHT, STRAIGHT_LINE_WORDS};
use crate::refusal::Refusal;
use crate::sizes::{LONGEST_ORDER, MOST_POINTS};

/// The bytes of the longest drawing file.
pub const LONGEST_DRAWING: usize = drawing_length(MOST_POINTS);

/// The bytes of the drawing file of n points, n from 3 to 1,024.
///
/// ```
/// assert_eq!(panel::straight::drawing_length(panel::MOST_POINTS), 30_684);
/// ```
pub const fn drawing_length(n: usize) -> usize {
    30 * n - 36
}

/// A line from a later point to an earlier one. It has no bend.
#[derive(Clone, Copy, Debug, PartialEq, Eq, Hash)]
pub struct Line {
    pub later: usize,
    pub earlier: usize,
    /// Guide, plain or feeder.
    pub kind: Kind,
}

/// The drawing file of an order file, as [`panel::draw`](crate::draw).
pub fn draw(order: &[u8]) -> Result<Vec<u8>, Refusal> {
    converted(STRAIGHT.draw, order, LONGEST_DRAWING)
}

/// The order file of a drawing file, as [`panel::undraw`](crate::undraw). A one-bend file's mark is
/// refused with 2.
pub fn undraw(drawing: &[u8]) -> Result<Vec<u8>, Refusal> {
    converted(STRAIGHT.undraw, drawing, LONGEST_ORDER)
}

/// Draws into an output, as [`panel::draw_into`](crate::draw_into); [`drawing_length`] of its n.
///
/// ```
/// let order = b"HD\0\x03PT\0\0PT\0\x01\0\x01PT\0\x02\0\x01\0\x02EN";
/// let mut out = [0; panel::straight::LONGEST_DRAWING];
/// assert_eq!(panel::straight::draw_into(order, &mut out), Ok(54));
/// # Ok::<(), panel::Refusal>(())
/// ```
pub fn draw_into(order: &[u8], out: &mut [u8]) -> Result<usize, Refusal> {
    convert(STRAIGHT.draw, order, out)
}

/// Writes the order file into an output, as [`panel::undraw_into`](crate::undraw_into).
pub fn undraw_into(drawing: &[u8], out: &mut [u8]) -> Result<usize, Refusal> {
    convert(STRAIGHT.undraw, drawing, out)
}

/// Opens a straight drawing and makes the calls, as [`panel::calls`](crate::calls).
///
/// ```
/// let called = panel::straight::calls(4, &[[1, 3, 2]])?;
/// assert_eq!(called.answers, [Ok(())]);
/// assert_eq!(called.drawing?.len(), panel::straight::drawing_length(4));
/// # Ok::<(), panel::Refusal>(())
/// ```
///
/// # Panics
/// If a call has more than 65,535 entries.
pub fn calls<Entries: AsRef<[u16]>>(n: usize, calls: &[Entries]) -> Result<Called, Refusal> {
    run(STRAIGHT.calls, drawing_length, n, calls)
}

/// The same in words, as [`panel::calls_in_words`](crate::calls_in_words).
pub fn calls_in_words(
    n: usize,
    calls: &[u16],
    answers: &mut [u16],
    out: &mut [u8],
) -> Result<Result<usize, Refusal>, Refusal> {
    run_in_words(STRAIGHT.calls, n, calls, answers, out)
}

/// The place of a point, as [`panel::point`](crate::point).
pub fn point(order: &[u8], point: usize) -> Result<Place, Refusal> {
    of_order(STRAIGHT.point, order, point).map(place_seen)
}

/// A line by its number, as [`panel::line`](fn@crate::line).
pub fn line(order: &[u8], number: usize) -> Result<Line, Refusal> {
    of_order(STRAIGHT.line, order, number).map(line_seen)
}

/// A cut line that ends at a point, as [`panel::cut_line`](crate::cut_line).
pub fn cut_line(order: &[u8], point: usize) -> Result<Option<usize>, Refusal> {
    of_order(STRAIGHT.cut_line, order, point).map(cut_line_seen)
}

/// The place of a point after a list of calls, as [`panel::calls_point`](crate::calls_point).
///
/// ```
/// use panel::straight::calls_point;
/// use panel::Place;
///
/// let calls = [2, 1, 3, 2, 1, 2]; // two calls of two entries, the second one refused
/// let mut answers = [0; 4];
/// assert_eq!(calls_point(5, &calls, &mut answers, 4)?, Place { x: 2, y: 2 });
/// assert_eq!(answers, [0, 0, 8, 1]);
/// # Ok::<(), panel::Refusal>(())
/// ```
pub fn calls_point(
    n: usize,
    calls: &[u16],
    answers: &mut [u16],
    point: usize,
) -> Result<Place, Refusal> {
    of_calls(STRAIGHT.calls_point, n, calls, answers, point).map(place_seen)
}

/// A line by its number after a list of calls, as [`panel::calls_line`](crate::calls_line).
pub fn calls_line(
    n: usize,
    calls: &[u16],
    answers: &mut [u16],
    number: usize,
) -> Result<Line, Refusal> {
    of_calls(STRAIGHT.calls_line, n, calls, answers, number).map(line_seen)
}

/// A cut line after a list of calls, as [`panel::calls_cut_line`](crate::calls_cut_line).
pub fn calls_cut_line(
    n: usize,
    calls: &[u16],
    answers: &mut [u16],
    point: usize,
) -> Result<Option<usize>, Refusal> {
    of_calls(STRAIGHT.calls_cut_line, n, calls, answers, point).map(cut_line_seen)
}

/// A move by its number, as [`panel::move_at`](crate::move_at).
pub fn move_at(order: &[u8], tool: Tool, number: usize) -> Result<Move, Refusal> {
    move_of_order(STRAIGHT.order_move, order, tool, number)
}

/// A move after a list of calls, as [`panel::calls_move_at`](crate::calls_move_at).
pub fn calls_move_at(
    n: usize,
    calls: &[u16],
    answers: &mut [u16],
    tool: Tool,
    number: usize,
) -> Result<Move, Refusal> {
    move_of_calls(STRAIGHT.calls_move, n, calls, answers, tool, number)
}

/// All moves, as [`panel::moves`](crate::moves).
pub fn moves(order: &[u8], tool: Tool) -> Result<Vec<Move>, Refusal> {
    moves_of_order(STRAIGHT.order_moves, order, tool)
}

/// Writes all moves into two outputs, as [`panel::moves_into`](crate::moves_into).
///
/// ```
/// use panel::{most_moves, straight, Tool};
///
/// let order = b"HD\0\x03PT\0\0PT\0\x01\0\x01PT\0\x02\0\x01\0\x02EN";
/// let tool = Tool { pitch: 8.0, depth: 4.0, clearance: 8.0 };
/// let (mut kinds, mut at) = ([0; most_moves(3)], [0.0; 2 * most_moves(3)]);
/// let count = straight::moves_into(order, tool, &mut kinds, &mut at)?;
/// assert_eq!(kinds[..count], [1, 2, 3, 4, 1, 2, 3, 4, 1, 2, 3, 4]);
/// assert_eq!(at[..8], [2.0, 0.0, -0.5, 0.0, 0.0, 0.0, 1.0, 0.0]);
/// # Ok::<(), panel::Refusal>(())
/// ```
pub fn moves_into(
    order: &[u8],
    tool: Tool,
    kinds: &mut [u8],
    at: &mut [f32],
) -> Result<usize, Refusal> {
    write_moves(STRAIGHT.order_moves, order, tool, kinds, at)
}

/// All moves after a list of calls, as [`panel::calls_moves`](crate::calls_moves).
pub fn calls_moves(
    n: usize,
    calls: &[u16],
    answers: &mut [u16],
    tool: Tool,
) -> Result<Vec<Move>, Refusal> {
    moves_of_calls(STRAIGHT.calls_moves, n, calls, answers, tool)
}

/// The line in `seen`.
fn line_seen((_, [later, earlier, kind]): Seen<STRAIGHT_LINE_WORDS>) -> Line {
    Line {
        later: later as usize,
        earlier: earlier as usize,
        kind: kind_seen(kind),
    }
}
