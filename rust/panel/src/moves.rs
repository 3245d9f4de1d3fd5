//! Cutter moves.

use crate::raw::{CallsMove, CallsMoves, OrderMove, OrderMoves, Words, ONE_BEND};
use crate::refusal::{given, given_with, Refusal};
use crate::sizes::{most_moves, FEWEST_POINTS, MOST_POINTS};

/// Document 01: "a tool is three whole numbers of eighths of a millimetre, pitch 1 to 80, depth 1 to
/// 40, clearance 1 to 80, held as f32".
#[derive(Clone, Copy, Debug, PartialEq)]
pub struct Tool {
    pub pitch: f32,
    pub depth: f32,
    pub clearance: f32,
}

/// One move of the cutter, in millimetres.
#[derive(Clone, Copy, Debug, PartialEq)]
pub enum Move {
    /// Above the panel, to x and y.
    Travel(f32, f32),
    /// Down, to z.
    Plunge(f32),
    /// In the panel, to x and y.
    Cut(f32, f32),
    /// Up, to z.
    Lift(f32),
}

/// The move that the library's kind and numbers say.
fn move_said(kind: u64, [x, y]: [f32; 2]) -> Move {
    match kind {
        1 => Move::Travel(x, y),
        2 => Move::Plunge(x),
        3 => Move::Cut(x, y),
        4 => Move::Lift(x),
        _ => unreachable!("the library has no move of kind {kind}"),
    }
}

/// The move that a function of the library gives by its kind and numbers, unless it refuses.
fn given_move(call: impl FnOnce(&mut [f32; 2], &mut Words) -> u64) -> Result<Move, Refusal> {
    let (kind, at) = given_with(call)?;
    Ok(move_said(kind, at))
}

/// A move of the drawing of an order file, by number from 0. A plain line gives five moves, or four
/// where one of its two cuts would go to the place where the cutter already is; a feeder gives the same
/// twice in succession, a guide none. Refused are what [`draw`](crate::draw) refuses, then 12 for the
/// tool, 23 if there is no such move. Each call draws the order again; [`moves`] draws it once for all.
///
/// ```
/// use panel::{move_at, Move, Tool};
///
/// let order = b"HD\0\x03PT\0\0PT\0\x01\0\x01PT\0\x02\0\x01\0\x02EN";
/// let tool = Tool { pitch: 8.0, depth: 4.0, clearance: 8.0 };
/// assert_eq!(move_at(order, tool, 0)?, Move::Travel(6.0, 0.0));
/// assert_eq!(move_at(order, tool, 13)?, Move::Lift(1.0));
/// assert_eq!(move_at(order, tool, 14).unwrap_err().number, 23);
/// # Ok::<(), panel::Refusal>(())
/// ```
pub fn move_at(order: &[u8], tool: Tool, number: usize) -> Result<Move, Refusal> {
    move_of_order(ONE_BEND.order_move, order, tool, number)
}

/// The same by a function of the library.
pub(crate) fn move_of_order(
    function: OrderMove,
    order: &[u8],
    tool: Tool,
    number: usize,
) -> Result<Move, Refusal> {
    let (from, length) = (order.as_ptr(), order.len());
    let Tool {
        pitch,
        depth,
        clearance,
    } = tool;
    // SAFETY: pointer and length are those of a borrowed slice.
    given_move(|at, refusal| unsafe {
        function(from, length, pitch, depth, clearance, number, at, refusal)
    })
}

/// A move, by number from 0, of the drawing that a list of calls leaves; calls and answers in words
/// as in [`calls_in_words`](crate::calls_in_words). Refused are 3, and 24 if `answers` is too short,
/// and nothing changes; then 12 for the tool, 22 while points are missing, 23 if there is no such
/// move, the answers written all the same.
///
/// ```
/// use panel::{calls_move_at, Move, Tool};
///
/// let tool = Tool { pitch: 8.0, depth: 4.0, clearance: 8.0 };
/// let mut answers = [0; 2];
/// let first = calls_move_at(4, &[3, 1, 3, 2], &mut answers, tool, 0)?;
/// assert_eq!(first, Move::Travel(8.0, 0.0));
/// # Ok::<(), panel::Refusal>(())
/// ```
pub fn calls_move_at(
    n: usize,
    calls: &[u16],
    answers: &mut [u16],
    tool: Tool,
    number: usize,
) -> Result<Move, Refusal> {
    move_of_calls(ONE_BEND.calls_move, n, calls, answers, tool, number)
}

/// The same by a function of the library.
pub(crate) fn move_of_calls(
    function: CallsMove,
    n: usize,
    calls: &[u16],
    answers: &mut [u16],
    tool: Tool,
    number: usize,
) -> Result<Move, Refusal> {
    // SAFETY: pointers and lengths are those of borrowed slices.
    given_move(|at, refusal| unsafe {
        function(
            n,
            calls.as_ptr(),
            calls.len(),
            answers.as_mut_ptr(),
            answers.len(),
            tool.pitch,
            tool.depth,
            tool.clearance,
            number,
            at,
            refusal,
        )
    })
}

/// All moves of the drawing of an order file, in their order: what [`move_at`] gives for 0, 1, 2 and so
/// on, none for a drawing that has no cut line. Refused are what [`draw`](crate::draw) refuses, then 12
/// for the tool.
///
/// ```
/// use panel::{moves, Move, Tool};
///
/// let order = b"HD\0\x03PT\0\0PT\0\x01\0\x01PT\0\x02\0\x01\0\x02EN";
/// let tool = Tool { pitch: 8.0, depth: 4.0, clearance: 8.0 };
/// let steps = moves(order, tool)?;
/// assert_eq!(steps.len(), 14);
///
/// // Line 2-1 has no bend, and so one cut less than the other two.
/// let [down, up] = [Move::Plunge(-0.5), Move::Lift(1.0)];
/// assert_eq!(steps[..4], [Move::Travel(6.0, 0.0), down, Move::Cut(0.0, 0.0), up]);
/// assert_eq!(steps[7..9], [Move::Cut(0.0, 0.0), up]);
///
/// // The same with a guide from 2 to 1 and a feeder from 3 to 1, which is cut twice.
/// let order = b"HD\0\x03PT\0\0PT\0\x01\x80\x01PT\0\x02\x40\x01\0\x02EN";
/// let steps = moves(order, tool)?;
/// assert_eq!(steps.len(), 15);
/// assert_eq!(steps[..5], steps[5..10]);
/// assert_ne!(steps[5..10], steps[10..]);
/// # Ok::<(), panel::Refusal>(())
/// ```
pub fn moves(order: &[u8], tool: Tool) -> Result<Vec<Move>, Refusal> {
    moves_of_order(ONE_BEND.order_moves, order, tool)
}

/// The same by a function of the library.
pub(crate) fn moves_of_order(
    function: OrderMoves,
    order: &[u8],
    tool: Tool,
) -> Result<Vec<Move>, Refusal> {
    listed(points_of(order), |kinds, at| {
        write_moves(function, order, tool, kinds, at)
    })
}

/// Writes all moves of the drawing of an order file into two outputs, with no allocation; gives how many
/// there are. `kinds` gets a byte a move: 1 travel, 2 plunge, 3 cut, 4 lift. `at` gets two numbers a
/// move: x and y of travel and cut, z and 0 of plunge and lift. As many kinds as [`most_moves`] says of
/// n, and twice as many numbers, are always enough. Refused are what [`moves`] refuses, then 24 if
/// `kinds` or `at` is too short; a refusal changes neither.
///
/// ```
/// use panel::{most_moves, moves_into, Refusal, Tool};
///
/// let order = b"HD\0\x03PT\0\0PT\0\x01\0\x01PT\0\x02\0\x01\0\x02EN";
/// let tool = Tool { pitch: 8.0, depth: 4.0, clearance: 8.0 };
/// let (mut kinds, mut at) = ([0; most_moves(3)], [0.0; 2 * most_moves(3)]);
/// let count = moves_into(order, tool, &mut kinds, &mut at)?;
/// assert_eq!(kinds[..count], [1, 2, 3, 4, 1, 2, 3, 3, 4, 1, 2, 3, 3, 4]);
/// assert_eq!(at[8..14], [3.0, 2.0, -0.5, 0.0, 2.0, 1.0]);
///
/// let short = Refusal { number: 24, place: 0 };
/// assert_eq!(moves_into(order, tool, &mut kinds[..13], &mut at), Err(short));
/// assert_eq!(moves_into(order, tool, &mut kinds, &mut at[..27]), Err(short));
/// # Ok::<(), Refusal>(())
/// ```
pub fn moves_into(
    order: &[u8],
    tool: Tool,
    kinds: &mut [u8],
    at: &mut [f32],
) -> Result<usize, Refusal> {
    write_moves(ONE_BEND.order_moves, order, tool, kinds, at)
}

/// The same by a function of the library.
pub(crate) fn write_moves(
    function: OrderMoves,
    order: &[u8],
    tool: Tool,
    kinds: &mut [u8],
    at: &mut [f32],
) -> Result<usize, Refusal> {
    // SAFETY: pointers and lengths are those of borrowed slices.
    let count = given(|refusal| unsafe {
        function(
            order.as_ptr(),
            order.len(),
            tool.pitch,
            tool.depth,
            tool.clearance,
            kinds.as_mut_ptr(),
            kinds.len(),
            at.as_mut_ptr(),
            at.len(),
            refusal,
        )
    })?;
    Ok(count as usize)
}

/// All moves of the drawing that a list of calls leaves, in their order; calls and answers in words as in
/// [`calls_in_words`](crate::calls_in_words). Refused are 3, and 24 if `answers` is too short, and
/// nothing changes; then 12 for the tool, 22 while points are missing, the answers written all the same.
///
/// ```
/// use panel::{calls_moves, Move, Tool};
///
/// let tool = Tool { pitch: 8.0, depth: 4.0, clearance: 8.0 };
/// let mut answers = [0; 2];
/// let moves = calls_moves(4, &[3, 1, 3, 2], &mut answers, tool)?;
/// assert_eq!(moves.len(), 28);
/// assert_eq!(moves[0], Move::Travel(8.0, 0.0));
///
/// let unfinished = calls_moves(5, &[3, 1, 3, 2], &mut answers, tool);
/// assert_eq!(unfinished.unwrap_err().number, 22);
/// # Ok::<(), panel::Refusal>(())
/// ```
pub fn calls_moves(
    n: usize,
    calls: &[u16],
    answers: &mut [u16],
    tool: Tool,
) -> Result<Vec<Move>, Refusal> {
    moves_of_calls(ONE_BEND.calls_moves, n, calls, answers, tool)
}

/// The same by a function of the library.
pub(crate) fn moves_of_calls(
    function: CallsMoves,
    n: usize,
    calls: &[u16],
    answers: &mut [u16],
    tool: Tool,
) -> Result<Vec<Move>, Refusal> {
    listed(n, |kinds, at| {
        // SAFETY: pointers and lengths are those of borrowed slices.
        let count = given(|refusal| unsafe {
            function(
                n,
                calls.as_ptr(),
                calls.len(),
                answers.as_mut_ptr(),
                answers.len(),
                tool.pitch,
                tool.depth,
                tool.clearance,
                kinds.as_mut_ptr(),
                kinds.len(),
                at.as_mut_ptr(),
                at.len(),
                refusal,
            )
        })?;
        Ok(count as usize)
    })
}

/// n as the header of an order file has it, 0 if the file ends before it.
fn points_of(order: &[u8]) -> usize {
    match *order {
        [_, _, high, low, ..] => u16::from_be_bytes([high, low]).into(),
        _ => 0,
    }
}

/// The moves of n points that a call writes by kinds and numbers, with room for all of them; room for the
/// largest panel if n is out of range, which is refused.
fn listed(
    n: usize,
    write: impl FnOnce(&mut [u8], &mut [f32]) -> Result<usize, Refusal>,
) -> Result<Vec<Move>, Refusal> {
    let in_range = (FEWEST_POINTS..=MOST_POINTS).contains(&n);
    let most = most_moves(if in_range { n } else { MOST_POINTS });
    let (mut kinds, mut at) = (vec![0; most], vec![0.0; 2 * most]);
    let count = write(&mut kinds, &mut at)?;
    let numbers = at.chunks_exact(2).map(|at| [at[0], at[1]]);
    let written = kinds.into_iter().zip(numbers).take(count);
    let moves = written.map(|(kind, at)| move_said(kind.into(), at));
    Ok(moves.collect())
}
