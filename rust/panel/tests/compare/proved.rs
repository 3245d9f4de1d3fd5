//! The proved library's functions by style.

use panel::{straight, Bend, Called, Kind, Move, Place, Refusal, Tool};
use second::Style;

/// A line that a look-up gives, with its bend in a one-bend drawing.
#[derive(Clone, Copy, Debug, PartialEq)]
pub struct Line {
    pub later: usize,
    pub earlier: usize,
    pub bend: Option<(Bend, Place)>,
    pub kind: Kind,
}

/// A number is looked up in an order file's drawing.
type OfOrder<Seen> = fn(&[u8], usize) -> Result<Seen, Refusal>;

/// A number is looked up in the drawing that a list of calls leaves.
type OfCalls<Seen> = fn(usize, &[u16], &mut [u16], usize) -> Result<Seen, Refusal>;

/// A move of the drawing that a list of calls leaves.
type MoveOfCalls = fn(usize, &[u16], &mut [u16], Tool, usize) -> Result<Move, Refusal>;

/// All moves of an order file's drawing, written by kinds and numbers.
type MovesInto = fn(&[u8], Tool, &mut [u8], &mut [f32]) -> Result<usize, Refusal>;

/// All moves of the drawing that a list of calls leaves.
type MovesOfCalls = fn(usize, &[u16], &mut [u16], Tool) -> Result<Vec<Move>, Refusal>;

/// A drawing file, unless the list or the file is refused.
type Written = Result<Result<usize, Refusal>, Refusal>;

/// What the crate, or its module `straight`, offers beside `draw_into` and `undraw_into`.
pub struct Proved {
    pub drawing_length: fn(usize) -> usize,
    pub draw: fn(&[u8]) -> Result<Vec<u8>, Refusal>,
    pub undraw: fn(&[u8]) -> Result<Vec<u8>, Refusal>,
    pub calls: fn(usize, &[Vec<u16>]) -> Result<Called, Refusal>,
    pub calls_in_words: fn(usize, &[u16], &mut [u16], &mut [u8]) -> Written,
    pub point: OfOrder<Place>,
    pub line: OfOrder<Line>,
    pub cut_line: OfOrder<Option<usize>>,
    pub calls_point: OfCalls<Place>,
    pub calls_line: OfCalls<Line>,
    pub calls_cut_line: OfCalls<Option<usize>>,
    pub move_at: fn(&[u8], Tool, usize) -> Result<Move, Refusal>,
    pub calls_move_at: MoveOfCalls,
    pub moves: fn(&[u8], Tool) -> Result<Vec<Move>, Refusal>,
    pub moves_into: MovesInto,
    pub calls_moves: MovesOfCalls,
}

static ONE_BEND: Proved = Proved {
    drawing_length: panel::drawing_length,
    draw: panel::draw,
    undraw: panel::undraw,
    calls: panel::calls,
    calls_in_words: panel::calls_in_words,
    point: panel::point,
    line: |order, number| panel::line(order, number).map(bent),
    cut_line: panel::cut_line,
    calls_point: panel::calls_point,
    calls_line: |n, calls, answers, number| panel::calls_line(n, calls, answers, number).map(bent),
    calls_cut_line: panel::calls_cut_line,
    move_at: panel::move_at,
    calls_move_at: panel::calls_move_at,
    moves: panel::moves,
    moves_into: panel::moves_into,
    calls_moves: panel::calls_moves,
};

static STRAIGHT: Proved = Proved {
    drawing_length: straight::drawing_length,
    draw: straight::draw,
    undraw: straight::undraw,
    calls: straight::calls,
    calls_in_words: straight::calls_in_words,
    point: straight::point,
    line: |order, number| straight::line(order, number).map(unbent),
    cut_line: straight::cut_line,
    calls_point: straight::calls_point,
    calls_line: |n, calls, answers, number| {
        straight::calls_line(n, calls, answers, number).map(unbent)
    },
    calls_cut_line: straight::calls_cut_line,
    move_at: straight::move_at,
    calls_move_at: straight::calls_move_at,
    moves: straight::moves,
    moves_into: straight::moves_into,
    calls_moves: straight::calls_moves,
};

/// The functions of a style.
pub fn proved(style: Style) -> &'static Proved {
    match style {
        Style::OneBend => &ONE_BEND,
        Style::Straight => &STRAIGHT,
    }
}

/// A line of a one-bend drawing.
fn bent(line: panel::Line) -> Line {
    Line {
        later: line.later,
        earlier: line.earlier,
        bend: Some((line.bend, line.bend_place)),
        kind: line.kind,
    }
}

/// A line of a straight drawing.
fn unbent(line: straight::Line) -> Line {
    Line {
        later: line.later,
        earlier: line.earlier,
        bend: None,
        kind: line.kind,
    }
}
