//! Demand 3, and what wish 2 promises of straight drawings, checked on a layout by trying every point,
//! line and pair of lines.

mod geometry;
mod layout;

use std::fmt;

use crate::drawing::Place;
use crate::style::Style;
use geometry::{Direction, Piece};

pub use layout::{Laid, Layout, Port};

/// A clause of the promise. "no two lines meet except at a shared end; the rest of demand 3 is about
/// one-bend drawings", but for the line count, which both styles have.
#[derive(Clone, Copy, Debug, PartialEq, Eq)]
pub enum Clause {
    /// x strictly grows along the boundary.
    BoundaryGrows,
    /// Every boundary step has a line, and its free piece has slope 1 or -1 or no length.
    BoundaryLine,
    /// Each free sector at a point has at most one line, and every line whose port isn't at the
    /// point leaves into one of the three.
    Sectors,
    /// Two different lines have no point in common but the place of a point where both end.
    Crossing,
    /// Two lines at a point stand at a wide enough angle.
    Angle,
    /// There are 3k - 3 - m lines.
    LineCount,
    /// All points and bends have x from 0 to W and 0 <= 2y <= W - 2; in a straight drawing 2y <= W.
    Frame,
    /// W is at most 5k - 9; in a straight drawing it is 2k - 4.
    Width,
    /// Straight: x + y is even along the boundary.
    Even,
    /// Straight: a finished panel is n - 2 high.
    Height,
}

/// A violated clause, with what was found.
#[derive(Clone, Debug, PartialEq, Eq)]
pub struct Violation {
    pub clause: Clause,
    pub message: String,
}

impl fmt::Display for Violation {
    /// The clause and the message.
    fn fmt(&self, f: &mut fmt::Formatter<'_>) -> fmt::Result {
        write!(f, "{:?}: {}", self.clause, self.message)
    }
}

/// The free sectors at a point.
#[derive(Clone, Copy, Debug, PartialEq, Eq)]
enum Sector {
    Left,
    Right,
    Middle,
}

/// "Demand 3 comes in full": all violated clauses, none if the layout keeps the promise of its style.
pub fn check(layout: &Layout) -> Vec<Violation> {
    let mut check = Check {
        layout,
        found: Vec::new(),
    };
    check.crossings();
    check.line_count();
    check.frame();
    check.width();
    match layout.style {
        Style::OneBend => {
            check.boundary_grows();
            check.boundary_lines();
            check.sectors();
            check.angles();
        }
        Style::Straight => {
            check.even_boundary();
            check.height();
        }
    }
    check.found
}

/// The layout under test and the violations found so far.
struct Check<'a> {
    layout: &'a Layout,
    found: Vec<Violation>,
}

impl Check<'_> {
    /// Notes a violation.
    fn note(&mut self, clause: Clause, message: String) {
        self.found.push(Violation { clause, message });
    }

    /// Demand 3: x strictly grows along the boundary.
    fn boundary_grows(&mut self) {
        for step in self.layout.boundary.windows(2) {
            let from = self.layout.place(step[0]);
            let to = self.layout.place(step[1]);
            if from.x >= to.x {
                self.note(
                    Clause::BoundaryGrows,
                    format!(
                        "x of {} is {}, x of {} is {}",
                        step[0], from.x, step[1], to.x
                    ),
                );
            }
        }
    }

    /// "Boundary lines join wi and w(i+1)": each is there, its free piece has slope 1 or -1 or none.
    fn boundary_lines(&mut self) {
        for step in self.layout.boundary.windows(2) {
            let joins = |line: &&Laid| line.ends_at(step[0]) && line.ends_at(step[1]);
            let Some(line) = self.layout.lines.iter().find(joins) else {
                let message = format!("no line joins {} and {}", step[0], step[1]);
                self.note(Clause::BoundaryLine, message);
                continue;
            };
            let free = self.layout.free_piece(line).direction();
            if free.u.abs() != free.v.abs() {
                let message = format!("free piece of {} goes ({},{})", line.name(), free.u, free.v);
                self.note(Clause::BoundaryLine, message);
            }
        }
    }

    /// "A line whose port isn't at the point (1-2 at both its ends) counts in the sector of the
    /// direction in which it leaves." "Every such line leaves into one of the three."
    fn sectors(&mut self) {
        for point in 1..=self.layout.k() {
            let mut taken: Vec<Sector> = Vec::new();
            for line in self.layout.lines_at(point) {
                if line.port.is_some_and(|port| port.owner == point) {
                    continue;
                }
                let direction = self.layout.leaving(line, point);
                match sector(direction) {
                    None => self.note(
                        Clause::Sectors,
                        format!(
                            "{} leaves {point} towards ({},{}), in no sector",
                            line.name(),
                            direction.u,
                            direction.v
                        ),
                    ),
                    Some(sector) if taken.contains(&sector) => self.note(
                        Clause::Sectors,
                        format!(
                            "{} is not the only line in {sector:?} of {point}",
                            line.name()
                        ),
                    ),
                    Some(sector) => taken.push(sector),
                }
            }
        }
    }

    /// "Two different lines have no point in common but the place of a point where both end."
    fn crossings(&mut self) {
        let layout = self.layout;
        let drawn: Vec<(&Laid, Vec<Piece>)> = layout
            .lines
            .iter()
            .map(|line| (line, layout.pieces(line)))
            .collect();
        for (index, one) in drawn.iter().enumerate() {
            for two in &drawn[index + 1..] {
                if !apart(layout, one, two) {
                    let message = format!("{} and {} meet", one.0.name(), two.0.name());
                    self.note(Clause::Crossing, message);
                }
            }
        }
    }

    /// "Two different lines that end at a point leave it in directions a and b. These stand at 90
    /// degrees or more if the dot product is 0 or less; else (2d - 1) times the size of the cross
    /// product is at least the dot product." "d counts the lines placed so far that end at the
    /// point."
    fn angles(&mut self) {
        for point in 1..=self.layout.k() {
            let lines: Vec<&Laid> = self.layout.lines_at(point).collect();
            let factor = 2 * lines.len() as i128 - 1;
            for (index, one) in lines.iter().enumerate() {
                let a = self.layout.leaving(one, point);
                for two in &lines[index + 1..] {
                    let b = self.layout.leaving(two, point);
                    let dot = a.dot(b);
                    if dot > 0 && factor * a.cross(b).abs() < dot {
                        let message = format!(
                            "{} and {} stand too close at {point}",
                            one.name(),
                            two.name()
                        );
                        self.note(Clause::Angle, message);
                    }
                }
            }
        }
    }

    /// Demand 3: the lines number 3k - 3 - m.
    fn line_count(&mut self) {
        let k = self.layout.places.len();
        let m = self.layout.boundary.len();
        let count = self.layout.lines.len();
        if count + 3 + m != 3 * k {
            let message = format!("{count} lines with k = {k} and m = {m}");
            self.note(Clause::LineCount, message);
        }
    }

    /// "Between the heights of demand 3, and at x from 0 to W, lie all points and bends; W/2 isn't
    /// rounded."
    fn frame(&mut self) {
        for point in 1..=self.layout.k() {
            let place = self.layout.place(point);
            self.in_frame(place, format!("point {point}"));
        }
        for line in &self.layout.lines {
            if let Some(port) = line.port {
                self.in_frame(port.place, format!("bend of {}", line.name()));
            }
        }
    }

    /// The same sentence for one place.
    fn in_frame(&mut self, place: Place, what: String) {
        let width = self.layout.width();
        let twice_highest = match self.layout.style {
            Style::OneBend => width - 2,
            Style::Straight => width,
        };
        let inside = (0..=width).contains(&place.x) && (0..=twice_highest).contains(&(2 * place.y));
        if !inside {
            let message = format!("{what} is at ({},{}), W = {width}", place.x, place.y);
            self.note(Clause::Frame, message);
        }
    }

    /// Demand 3: W is at most 5k - 9. "A finished panel is 2n - 4 wide" if it is straight, and grows to
    /// that by 2 a point.
    fn width(&mut self) {
        let width = self.layout.width();
        let k = i64::from(self.layout.k());
        let fits = match self.layout.style {
            Style::OneBend => width <= 5 * k - 9,
            Style::Straight => width == 2 * k - 4,
        };
        if !fits {
            self.note(Clause::Width, format!("W = {width} with k = {k}"));
        }
    }

    /// A line of slope 1 through a boundary point and one of slope -1 through another meet at a grid
    /// point: x + y is even along the boundary.
    fn even_boundary(&mut self) {
        for &point in &self.layout.boundary {
            let Place { x, y } = self.layout.place(point);
            if (x + y) % 2 != 0 {
                self.note(Clause::Even, format!("point {point} is at ({x},{y})"));
            }
        }
    }

    /// "A finished panel is 2n - 4 wide and n - 2 high."
    fn height(&mut self) {
        let Layout { n, places, .. } = self.layout;
        let highest = places.iter().map(|place| place.y).max();
        if self.layout.k() == *n && highest != Some(i64::from(*n) - 2) {
            self.note(Clause::Height, format!("{highest:?} high with n = {n}"));
        }
    }
}

/// "Free sectors at a point, for a direction (u,v) not (0,0): left: u < 0, v <= 0, -v <= -u; right:
/// u > 0, v <= 0, -v <= u; middle: v > 0, |u| <= v."
fn sector(direction: Direction) -> Option<Sector> {
    let Direction { u, v } = direction;
    if u < 0 && v <= 0 && -v <= -u {
        Some(Sector::Left)
    } else if u > 0 && v <= 0 && -v <= u {
        Some(Sector::Right)
    } else if v > 0 && u.abs() <= v {
        Some(Sector::Middle)
    } else {
        None
    }
}

/// The same sentence for two lines with their pieces.
fn apart(layout: &Layout, one: &(&Laid, Vec<Piece>), two: &(&Laid, Vec<Piece>)) -> bool {
    let only_at_end = |p: &Piece, q: &Piece| {
        [one.0.later, one.0.earlier]
            .into_iter()
            .filter(|&end| two.0.ends_at(end))
            .any(|end| p.meets_only_at(q, layout.place(end)))
    };
    one.1
        .iter()
        .all(|p| two.1.iter().all(|q| !p.meets(q) || only_at_end(p, q)))
}

#[cfg(test)]
mod tests {
    use super::*;
    use crate::{open, Bend, Drawing, STYLES};

    // K4's drawing.
    fn drawing() -> Drawing {
        drawn(Style::OneBend)
    }

    // The same calls in either style.
    fn drawn(style: Style) -> Drawing {
        let mut drawing = open(style, 5).unwrap();
        drawing.add(&[1, 3]).unwrap();
        drawing.add(&[1, 4, 3, 2]).unwrap();
        drawing
    }

    // Whether the check finds the clause violated.
    fn finds(drawing: &Drawing, clause: Clause) -> bool {
        check(&drawing.into()).iter().any(|v| v.clause == clause)
    }

    // The drawing as the rules give it keeps every clause.
    #[test]
    fn a_right_drawing_passes() {
        for style in STYLES {
            assert_eq!(check(&(&drawn(style)).into()), Vec::new());
        }
    }

    // The same for straight drawings: places 1 (0,0), 2 (6,0), 3 (4,1), 4 (3,2), 5 (3,3).
    #[test]
    fn each_clause_of_straight_drawings_can_fail() {
        let right = drawn(Style::Straight);
        let places: Vec<(i64, i64)> = (right.points.iter())
            .map(|point| (point.place.x, point.place.y))
            .collect();
        assert_eq!(places, [(0, 0), (6, 0), (4, 1), (3, 2), (3, 3)]);
        let moved = |point: usize, x: i64, y: i64| {
            let mut wrong = right.clone();
            wrong.points[point - 1].place = Place { x, y };
            wrong
        };
        // Point 4 beyond line 5-3, on line 2-1, at point 3.
        for (x, y) in [(5, 2), (5, 0), (4, 1)] {
            assert!(finds(&moved(4, x, y), Clause::Crossing));
        }
        let mut wrong = right.clone();
        wrong.lines.pop();
        assert!(finds(&wrong, Clause::LineCount));
        for (x, y) in [(3, 4), (-1, 1), (7, 1), (3, -1)] {
            assert!(finds(&moved(5, x, y), Clause::Frame));
        }
        for x in [5, 7, 8] {
            assert!(finds(&moved(2, x, 0), Clause::Width));
        }
        assert!(finds(&moved(5, 4, 3), Clause::Even));
        assert!(finds(&moved(5, 3, 1), Clause::Height));
        let mut unfinished = moved(5, 3, 1);
        unfinished.n = 6;
        assert!(!finds(&unfinished, Clause::Height));
    }

    // Each clause is found violated in a drawing that was changed to break it.
    #[test]
    fn each_clause_can_fail() {
        let mut wrong = drawing();
        wrong.points[4].place.x = 12;
        assert!(finds(&wrong, Clause::BoundaryGrows));

        let mut wrong = drawing();
        wrong.points[4].place.x += 1;
        assert!(finds(&wrong, Clause::BoundaryLine));
        wrong.lines.pop();
        assert!(finds(&wrong, Clause::BoundaryLine));
        assert!(finds(&wrong, Clause::LineCount));

        let mut wrong = drawing();
        wrong.points[3].place.y += 4;
        assert!(finds(&wrong, Clause::Sectors));

        let mut wrong = drawing();
        wrong.lines[6].bend = Bend::Middle(3);
        assert!(finds(&wrong, Clause::Crossing));

        let mut wrong = drawing();
        wrong.lines[1].bend = wrong.lines[3].bend;
        assert!(finds(&wrong, Clause::Angle));

        let mut wrong = drawing();
        wrong.points[4].place.y = 6;
        assert!(finds(&wrong, Clause::Frame));
        let mut wrong = drawing();
        wrong.points[2].place.y = -1;
        assert!(finds(&wrong, Clause::Frame));

        let mut wrong = drawing();
        wrong.points[1].place.x = 17;
        assert!(finds(&wrong, Clause::Width));
    }

    // The sectors' borders, direction by direction.
    #[test]
    fn sector_borders() {
        let cases = [
            (-1, 0, Some(Sector::Left)),
            (-2, -2, Some(Sector::Left)),
            (-2, -3, None),
            (0, -1, None),
            (2, -3, None),
            (2, -2, Some(Sector::Right)),
            (1, 0, Some(Sector::Right)),
            (3, 2, None),
            (2, 2, Some(Sector::Middle)),
            (0, 1, Some(Sector::Middle)),
            (-2, 2, Some(Sector::Middle)),
            (-3, 2, None),
        ];
        for (u, v, expected) in cases {
            assert_eq!(sector(Direction { u, v }), expected);
        }
    }
}
