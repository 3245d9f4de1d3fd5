//! Cutter moves.

use std::iter;

use crate::drawing::{Drawing, Line, Place};
use crate::drawing_file::written;
use crate::entry::Kind;
use crate::refusal::{Refusal, NO_SUCH, TOOL_NUMBER, UNFINISHED};

/// "a tool is three whole numbers of eighths of a millimetre, pitch 1 to 80, depth 1 to 40,
/// clearance 1 to 80, held as f32"
#[derive(Clone, Copy, Debug, PartialEq)]
pub struct Tool {
    pub pitch: f32,
    pub depth: f32,
    pub clearance: f32,
}

/// "travel and cut carry two f32, plunge and lift carry one"
#[derive(Clone, Copy, Debug, PartialEq)]
pub enum Move {
    Travel(f32, f32),
    Plunge(f32),
    Cut(f32, f32),
    Lift(f32),
}

/// "The moves given are exactly this list, in its order." Order of refusals: 12, 22.
pub fn all_moves(drawing: &Drawing, tool: Tool) -> Result<Vec<Move>, Refusal> {
    Ok(given(drawing, tool)?.collect())
}

/// "Moves are numbered over the shortened list, and refusal 23 follows that numbering." Order of
/// refusals: "12, 22, 23".
pub fn move_at(drawing: &Drawing, tool: Tool, number: usize) -> Result<Move, Refusal> {
    let found = given(drawing, tool)?.nth(number);
    found.ok_or(Refusal::new(NO_SUCH, 0))
}

/// How many moves a drawing gives; 22 while k < n. That is the same for every tool: places that differ
/// still do so times any pitch.
pub fn move_count(drawing: &Drawing) -> Result<usize, Refusal> {
    Ok(given(drawing, FINEST)?.count())
}

/// The least number of each range.
const FINEST: Tool = Tool {
    pitch: 1.0,
    depth: 1.0,
    clearance: 1.0,
};

/// The moves of "the cut lines in line order", without those that dwell; refused are 12, then 22.
fn given(drawing: &Drawing, tool: Tool) -> Result<impl Iterator<Item = Move> + '_, Refusal> {
    test_tool(tool)?;
    test_finished(drawing)?;
    let moves = cuts(drawing).flat_map(move |line| line_moves(drawing, tool, line));
    let mut place = None;
    Ok(moves.filter(move |step| !dwells(&mut place, step)))
}

/// "a cut move whose target equals the place before it is left out": whether a move is one, by the place
/// to which the last travel or cut went. That becomes the place after the move.
fn dwells(place: &mut Option<[f32; 2]>, step: &Move) -> bool {
    match *step {
        Move::Travel(x, y) => {
            *place = Some([x, y]);
            false
        }
        Move::Cut(x, y) => place.replace([x, y]) == Some([x, y]),
        Move::Plunge(_) | Move::Lift(_) => false,
    }
}

/// "travel to its later point, plunge to minus depth, cut to the bend, cut to the earlier point, lift to
/// clearance"; a straight line "has one cut move, to its earlier point".
fn line_moves<'a>(
    drawing: &'a Drawing,
    tool: Tool,
    line: &Line,
) -> impl Iterator<Item = Move> + 'a {
    let at = move |place: Place| [place.x, place.y].map(|xy| millimetres(drawing, tool, xy));
    let [later, earlier] = [line.later, line.earlier].map(|point| drawing.point(point).place);
    let [x, y] = at(later);
    let before = [Move::Travel(x, y), Move::Plunge(-tool.depth / 8.0)];
    let targets = drawing.bend_of(line).into_iter().chain([earlier]);
    let between = targets.map(at).map(|[x, y]| Move::Cut(x, y));
    let after = [Move::Lift(tool.clearance / 8.0)];
    before.into_iter().chain(between).chain(after)
}

/// "the cut lines in line order", each as often as it is cut.
fn cuts(drawing: &Drawing) -> impl Iterator<Item = &Line> {
    let lines = drawing.lines.iter();
    lines.flat_map(|line| iter::repeat_n(line, times_cut(line.kind)))
}

/// "A feeder gives its five moves twice in succession", or its four: "a plain line gives four moves or
/// five, a feeder twice as many".
fn times_cut(kind: Kind) -> usize {
    match kind {
        Kind::Guide => 0,
        Kind::Plain => 1,
        Kind::Feeder => 2,
    }
}

/// "Any other f32 there gives 12."
fn test_tool(tool: Tool) -> Result<(), Refusal> {
    let fits = |value: f32, most: f32| (1.0..=most).contains(&value) && value.fract() == 0.0;
    if fits(tool.pitch, 80.0) && fits(tool.depth, 40.0) && fits(tool.clearance, 80.0) {
        Ok(())
    } else {
        Err(Refusal::new(TOOL_NUMBER, 0))
    }
}

/// "22 drawing or moves wanted while k < n"
fn test_finished(drawing: &Drawing) -> Result<(), Refusal> {
    if drawing.is_finished() {
        Ok(())
    } else {
        Err(Refusal::new(UNFINISHED, 0))
    }
}

/// "Each f32 coordinate equals written coordinate times pitch over 8, with no error": the whole
/// product is below 2 to the 24th, so the cast and the division are exact.
fn millimetres(drawing: &Drawing, tool: Tool, coordinate: i64) -> f32 {
    let product = written(drawing, coordinate) * tool.pitch as i64;
    product as f32 / 8.0
}

#[cfg(test)]
mod tests {
    use super::*;
    use crate::{open, Style, STYLES};

    // A tool within its ranges.
    fn tool() -> Tool {
        Tool {
            pitch: 80.0,
            depth: 40.0,
            clearance: 80.0,
        }
    }

    // "Any other f32 there gives 12", before 22 and 23.
    #[test]
    fn other_tool_numbers_give_12() {
        let bad = [
            0.0,
            -0.0,
            -1.0,
            0.5,
            1.5,
            1.0 + f32::EPSILON,
            81.0,
            1e30,
            f32::NAN,
            f32::INFINITY,
            f32::NEG_INFINITY,
            f32::MIN_POSITIVE,
        ];
        let drawing = open(Style::Straight, 4).unwrap();
        for value in bad {
            for place in 0..3 {
                let mut tool = tool();
                match place {
                    0 => tool.pitch = value,
                    1 => tool.depth = value,
                    _ => tool.clearance = value,
                }
                let answer = move_at(&drawing, tool, usize::MAX);
                assert_eq!(answer, Err(Refusal::new(12, 0)));
                assert_eq!(all_moves(&drawing, tool), Err(Refusal::new(12, 0)));
            }
        }
        let deep = Tool {
            depth: 41.0,
            ..tool()
        };
        assert_eq!(move_at(&drawing, deep, 0), Err(Refusal::new(12, 0)));
        assert_eq!(move_at(&drawing, tool(), 0), Err(Refusal::new(22, 0)));
        assert_eq!(
            move_at(&drawing, tool(), usize::MAX),
            Err(Refusal::new(22, 0))
        );
        assert_eq!(all_moves(&drawing, tool()), Err(Refusal::new(22, 0)));
        assert_eq!(move_count(&drawing), Err(Refusal::new(22, 0)));
    }

    // "pitch 1 to 80, depth 1 to 40, clearance 1 to 80": every whole number in range is taken.
    #[test]
    fn all_tools_in_range_are_taken() {
        let drawing = open(Style::OneBend, 3).unwrap();
        for pitch in 1..=80u8 {
            let tool = Tool {
                pitch: pitch.into(),
                depth: pitch.div_ceil(2).into(),
                clearance: (81 - pitch).into(),
            };
            let unit = f32::from(pitch) / 8.0;
            let expected = Move::Cut(2.0 * unit, unit);
            assert_eq!(move_at(&drawing, tool, 6), Ok(expected));
        }
    }

    // "travel to its later point, plunge to minus depth, cut to the bend, cut to the earlier point, lift
    // to clearance": four moves of line 1-2, whose bend is written as the place of point 1, then five.
    #[test]
    fn moves_of_an_opened_drawing() {
        let expected = [
            Move::Travel(9.0, 0.0),
            Move::Plunge(-0.375),
            Move::Cut(0.0, 0.0),
            Move::Lift(1.125),
            Move::Travel(4.5, 3.0),
            Move::Plunge(-0.375),
            Move::Cut(6.0, 1.5),
            Move::Cut(9.0, 0.0),
            Move::Lift(1.125),
        ];
        assert_eq!(opened_moves(Style::OneBend), expected);
    }

    // "A line has one cut move, to its earlier point".
    #[test]
    fn moves_of_a_straight_opened_drawing() {
        let expected = [
            Move::Travel(3.0, 0.0),
            Move::Plunge(-0.375),
            Move::Cut(0.0, 0.0),
            Move::Lift(1.125),
            Move::Travel(1.5, 1.5),
            Move::Plunge(-0.375),
            Move::Cut(3.0, 0.0),
            Move::Lift(1.125),
        ];
        assert_eq!(opened_moves(Style::Straight), expected);
    }

    /// The moves of an opened drawing at scale 3, its line 3-1 a guide.
    fn opened_moves(style: Style) -> Vec<Move> {
        let mut drawing = open(style, 3).unwrap();
        drawing.lines[1].kind = Kind::Guide;
        drawing.s = 3;
        let tool = Tool {
            pitch: 4.0,
            depth: 3.0,
            clearance: 9.0,
        };
        all(&drawing, tool)
    }

    /// All moves of a drawing, which asking by number gives too; after the last comes 23.
    fn all(drawing: &Drawing, tool: Tool) -> Vec<Move> {
        let moves = all_moves(drawing, tool).unwrap();
        assert_eq!(move_count(drawing), Ok(moves.len()));
        for (number, &step) in moves.iter().enumerate() {
            assert_eq!(move_at(drawing, tool, number), Ok(step));
        }
        for number in [moves.len(), usize::MAX] {
            let end = move_at(drawing, tool, number);
            assert_eq!(end, Err(Refusal::new(23, 0)));
        }
        moves
    }

    /// The moves of each time that a line is cut, which begin with a travel.
    fn each_cut(moves: &[Move]) -> Vec<&[Move]> {
        let cuts = moves.chunk_by(|_, next| !matches!(next, Move::Travel(..)));
        cuts.collect()
    }

    /// A drawing of five points, the last two added by these entries.
    fn five_points(four: &[u16], five: &[u16]) -> Drawing {
        let mut drawing = open(Style::OneBend, 5).unwrap();
        drawing.add(four).unwrap();
        drawing.add(five).unwrap();
        drawing
    }

    /// Which moves are left out: the line, and which of its moves, both from 0.
    fn left_out(drawing: &Drawing) -> Vec<(usize, usize)> {
        let mut found = Vec::new();
        let mut place = None;
        for (line, on) in drawing.lines.iter().enumerate() {
            for (number, step) in line_moves(drawing, tool(), on).enumerate() {
                if dwells(&mut place, &step) {
                    found.push((line, number));
                }
            }
        }
        found
    }

    // "where a piece has no length, the cutter gets a move to the place where it already is": the second
    // cut of line 1-2, which is written with its bend at point 1, and of 5-4, which bends at point 4 by a
    // middle port; the first of 4-3, which bends at point 4 by a left port, and then by a right one.
    #[test]
    fn dwelling_cuts_are_left_out() {
        let [first, second] = [2, 3];
        let k4 = five_points(&[1, 3], &[1, 4, 3, 2]);
        assert_eq!(left_out(&k4), [(0, second), (4, first), (6, second)]);
        let mirrored = five_points(&[3, 2], &[1, 3, 4, 2]);
        assert_eq!(left_out(&mirrored), [(0, second), (3, first), (7, second)]);

        let moves = all(&k4, tool());
        let cuts = each_cut(&moves);
        let lengths: Vec<usize> = cuts.iter().map(|cut| cut.len()).collect();
        assert_eq!(lengths, [4, 5, 5, 5, 4, 5, 4, 5, 5]);
        let [down, up] = [Move::Plunge(-5.0), Move::Lift(10.0)];
        for (line, later, earlier) in [
            (0, (120.0, 0.0), (0.0, 0.0)),
            (4, (50.0, 30.0), (70.0, 20.0)),
            (6, (60.0, 50.0), (50.0, 30.0)),
        ] {
            let travel = Move::Travel(later.0, later.1);
            let cut = Move::Cut(earlier.0, earlier.1);
            assert_eq!(cuts[line], [travel, down, cut, up]);
        }
    }

    // Only cuts are left out, and each is compared with the place before it and no other.
    #[test]
    fn travel_plunge_and_lift_always_stay() {
        let mut place = None;
        let steps = [
            (Move::Travel(0.0, 0.0), false),
            (Move::Cut(0.0, 0.0), true),
            (Move::Cut(0.0, 1.0), false),
            (Move::Plunge(0.0), false),
            (Move::Plunge(0.0), false),
            (Move::Cut(0.0, 1.0), true),
            (Move::Cut(0.0, 1.0), true),
            (Move::Cut(0.0, 0.0), false),
            (Move::Lift(0.0), false),
            (Move::Lift(0.0), false),
            (Move::Travel(0.0, 0.0), false),
            (Move::Travel(0.0, 0.0), false),
        ];
        for (step, expected) in steps {
            assert_eq!(dwells(&mut place, &step), expected, "{step:?}");
        }
    }

    // "so a plain line gives four moves or five, a feeder twice as many": the four or five, then the same
    // again.
    #[test]
    fn the_moves_of_a_feeder_come_twice() {
        for style in STYLES {
            let mut drawing = open(style, 3).unwrap();
            let once = all(&drawing, tool());
            let [first, second, third] = each_cut(&once)[..] else {
                panic!("not three lines: {once:?}");
            };
            drawing.lines[1].kind = Kind::Feeder;
            let moves = all(&drawing, tool());
            assert_eq!(moves, [first, second, second, third].concat());
            drawing.lines[0].kind = Kind::Feeder;
            let moves = all(&drawing, tool());
            assert_eq!(moves, [first, first, second, second, third].concat());
            drawing.lines[0].kind = Kind::Guide;
            let moves = all(&drawing, tool());
            assert_eq!(moves, [second, second, third].concat());
            drawing.lines[2].kind = Kind::Feeder;
            let moves = all(&drawing, tool());
            assert_eq!(moves, [second, second, third, third].concat());
        }
    }

    // The same of all lines of a drawing, three of which lose a cut each time.
    #[test]
    fn feeders_only() {
        let mut drawing = five_points(&[1, 3], &[1, 4, 3, 2]);
        let once = all(&drawing, tool());
        for line in &mut drawing.lines {
            line.kind = Kind::Feeder;
        }
        let twice: Vec<Move> = each_cut(&once)
            .iter()
            .flat_map(|cut| cut.repeat(2))
            .collect();
        assert_eq!(twice.len(), 84);
        assert_eq!(all(&drawing, tool()), twice);
    }

    // A guide is "a line that isn't cut": a drawing of guides gives no move, which is no refusal.
    #[test]
    fn guides_only() {
        for style in STYLES {
            let mut drawing = open(style, 3).unwrap();
            for line in &mut drawing.lines {
                line.kind = Kind::Guide;
            }
            assert_eq!(all(&drawing, tool()), []);
        }
    }
}
