//! Points, boundary, owners, ports, opening and look-ups.

use crate::entry::Kind;
use crate::refusal::{Refusal, NO_SUCH, OUT_OF_RANGE};
use crate::style::Style;

/// A place in grid units; "y points up".
#[derive(Clone, Copy, Debug, PartialEq, Eq, PartialOrd, Ord)]
pub struct Place {
    pub x: i64,
    pub y: i64,
}

/// A placed point. A straight drawing has no ports: there `dl`, `dr` and `h` stay 0.
#[derive(Clone, Copy, Debug, PartialEq, Eq)]
pub struct Point {
    pub place: Place,
    /// The left count.
    pub dl: u16,
    /// The right count.
    pub dr: u16,
    /// How far the middle row lies below the point; 0 for points 1 to 3, which have no middle row.
    pub h: u16,
    /// The point that covered this one, if it is covered.
    pub owner: Option<u16>,
}

/// "A line's bend is at a left, right or middle port, or it has none", with the port's index.
#[derive(Clone, Copy, Debug, PartialEq, Eq)]
pub enum Bend {
    /// Line 1-2, and every line of a straight drawing.
    None,
    /// Left port of the earlier point.
    Left(u16),
    /// Right port of the earlier point.
    Right(u16),
    /// Middle port of the later point.
    Middle(u16),
}

/// A line from a later point to an earlier one.
#[derive(Clone, Copy, Debug, PartialEq, Eq)]
pub struct Line {
    pub later: u16,
    pub earlier: u16,
    pub bend: Bend,
    pub kind: Kind,
}

/// What the look-up of a line gives.
#[derive(Clone, Copy, Debug, PartialEq, Eq)]
pub struct LineAnswer {
    pub later: u16,
    pub earlier: u16,
    /// The bend and its place; a straight drawing "gives no bend".
    pub bend: Option<(Bend, Place)>,
    pub kind: Kind,
}

/// A drawing; k is the number of `points`, and point p is `points[p - 1]`.
#[derive(Clone, Debug, PartialEq, Eq)]
pub struct Drawing {
    pub style: Style,
    pub n: u16,
    pub s: u16,
    /// w1, .., wm, left to right.
    pub boundary: Vec<u16>,
    pub points: Vec<Point>,
    pub lines: Vec<Line>,
}

/// "A drawing is opened for n points, n from 3 to 1,024."
pub fn open(style: Style, n: u16) -> Result<Drawing, Refusal> {
    if !(3..=1024).contains(&n) {
        return Err(Refusal::new(OUT_OF_RANGE, 0));
    }
    let (points, bends) = opening(style);
    let ends = [(2, 1), (3, 1), (3, 2)];
    let lines = ends.into_iter().zip(bends);
    Ok(Drawing {
        style,
        n,
        s: 1,
        boundary: vec![1, 3, 2],
        points: points.into(),
        lines: lines.map(|(ends, bend)| plain_line(ends, bend)).collect(),
    })
}

/// "Opening places points 1, 2, 3", "after opening, dr of point 1 and dl of point 2 are 1"; "line 1-2
/// without a port, 3-1 at right port 1 of point 1, 3-2 at left port 1 of point 2". Straight: "Points 1,
/// 2, 3 start at (0,0), (2,0), (1,1)."
fn opening(style: Style) -> ([Point; 3], [Bend; 3]) {
    let point = |x: i64, y: i64, dl: u16, dr: u16| Point {
        dl,
        dr,
        ..Point::new(Place { x, y })
    };
    match style {
        Style::OneBend => (
            [point(0, 0, 0, 1), point(6, 0, 1, 0), point(3, 2, 0, 0)],
            [Bend::None, Bend::Right(1), Bend::Left(1)],
        ),
        Style::Straight => (
            [point(0, 0, 0, 0), point(2, 0, 0, 0), point(1, 1, 0, 0)],
            [Bend::None; 3],
        ),
    }
}

/// "all cut": none of opening's lines is marked, so all are plain.
fn plain_line((later, earlier): (u16, u16), bend: Bend) -> Line {
    Line {
        later,
        earlier,
        bend,
        kind: Kind::Plain,
    }
}

impl Point {
    /// "a left count dl and a right count dr, both 0 when it is placed", and no middle row.
    pub(crate) fn new(place: Place) -> Self {
        Point {
            place,
            dl: 0,
            dr: 0,
            h: 0,
            owner: None,
        }
    }

    /// "Right port j (1 to dr) of a point (x,y) is (x + dr + 1, y + j), with the dr of now."
    pub fn right_port(&self, j: u16) -> Place {
        Place {
            x: self.place.x + i64::from(self.dr) + 1,
            y: self.place.y + i64::from(j),
        }
    }

    /// "Left port j (1 to dl) is (x - dl - 1, y + j)."
    pub fn left_port(&self, j: u16) -> Place {
        Place {
            x: self.place.x - i64::from(self.dl) - 1,
            y: self.place.y + i64::from(j),
        }
    }

    /// "Middle port i (1 to 2h - 1) is (x - h + i, y - h)."
    pub fn middle_port(&self, i: u16) -> Place {
        Place {
            x: self.place.x - i64::from(self.h) + i64::from(i),
            y: self.place.y - i64::from(self.h),
        }
    }
}

impl Line {
    /// "A port is at the point that owns it": the owner of the line's port, if it has one.
    pub fn port_owner(&self) -> Option<u16> {
        match self.bend {
            Bend::None => None,
            Bend::Left(_) | Bend::Right(_) => Some(self.earlier),
            Bend::Middle(_) => Some(self.later),
        }
    }
}

impl Drawing {
    /// "k is how many are placed."
    pub fn k(&self) -> u16 {
        self.points.len() as u16
    }

    /// Whether all n points are placed, k = n.
    pub fn is_finished(&self) -> bool {
        self.k() == self.n
    }

    /// A point from 1 to k.
    pub fn point(&self, point: u16) -> &Point {
        &self.points[usize::from(point) - 1]
    }

    /// A point from 1 to k, to be changed.
    pub(crate) fn point_mut(&mut self, point: u16) -> &mut Point {
        &mut self.points[usize::from(point) - 1]
    }

    /// "W is the x of point 2."
    pub fn width(&self) -> i64 {
        self.point(2).place.x
    }

    /// "height (the largest y)"
    pub fn height(&self) -> i64 {
        self.points.iter().map(|p| p.place.y).max().unwrap_or(0)
    }

    /// "A line's bend is at a left, right or middle port, or it has none (line 1-2 only; its bend
    /// is written as the place of point 1)." A straight drawing "takes no bends".
    pub fn bend_of(&self, line: &Line) -> Option<Place> {
        self.style.has_bends().then(|| match line.bend {
            Bend::None => self.point(1).place,
            Bend::Left(j) => self.point(line.earlier).left_port(j),
            Bend::Right(j) => self.point(line.earlier).right_port(j),
            Bend::Middle(i) => self.point(line.later).middle_port(i),
        })
    }

    /// "Look-ups give, in grid units, a point's place"; 23 if there is no such point.
    pub fn place_of(&self, point: u16) -> Result<Place, Refusal> {
        self.known_point(point)?;
        Ok(self.point(point).place)
    }

    /// "a line's ends, bend" and its kind, "a drawing keeps the outcome for each line, and the line's
    /// look-up gives it"; 23 if there is no such line.
    pub fn line(&self, number: usize) -> Result<LineAnswer, Refusal> {
        let line = self.lines.get(number).ok_or(Refusal::new(NO_SUCH, 0))?;
        Ok(LineAnswer {
            later: line.later,
            earlier: line.earlier,
            bend: self.bend_of(line).map(|place| (line.bend, place)),
            kind: line.kind,
        })
    }

    /// "some cut line ending at a given point, or none exactly if there is none", feeders among them;
    /// 23 if there is no such point.
    pub fn cut_line_at(&self, point: u16) -> Result<Option<usize>, Refusal> {
        self.known_point(point)?;
        Ok(self
            .lines
            .iter()
            .position(|l| l.kind.is_cut() && [l.later, l.earlier].contains(&point)))
    }

    /// "23 no such point": only points 1 to k are there.
    fn known_point(&self, point: u16) -> Result<(), Refusal> {
        if (1..=self.k()).contains(&point) {
            Ok(())
        } else {
            Err(Refusal::new(NO_SUCH, 0))
        }
    }
}

#[cfg(test)]
mod tests {
    use super::*;
    use crate::STYLES;

    // "A drawing is opened for n points, n from 3 to 1,024."
    #[test]
    fn n_from_3_to_1024_opens() {
        for style in STYLES {
            for n in 0..=u16::MAX {
                let opened = open(style, n).map(|drawing| (drawing.style, drawing.n));
                let expected = if (3..=1024).contains(&n) {
                    Ok((style, n))
                } else {
                    Err(Refusal::new(3, 0))
                };
                assert_eq!(opened, expected);
            }
        }
    }

    // "23 no such point, line or move", for points and lines.
    #[test]
    fn unknown_points_and_lines_give_23() {
        for style in STYLES {
            let drawing = open(style, 10).unwrap();
            let none = Refusal::new(23, 0);
            for point in [0, 4, 10, 11, u16::MAX] {
                assert_eq!(drawing.place_of(point), Err(none));
                assert_eq!(drawing.cut_line_at(point), Err(none));
            }
            assert_eq!(drawing.line(3), Err(none));
            assert_eq!(drawing.line(usize::MAX), Err(none));
        }
    }

    // The bends of an opened drawing; a straight one has none, also for line 1-2.
    #[test]
    fn bends_of_an_opened_drawing() {
        let bends = |style| {
            let drawing = open(style, 10).unwrap();
            [0, 1, 2].map(|number| drawing.line(number).unwrap().bend)
        };
        let expected = [
            (Bend::None, Place { x: 0, y: 0 }),
            (Bend::Right(1), Place { x: 2, y: 1 }),
            (Bend::Left(1), Place { x: 4, y: 1 }),
        ];
        assert_eq!(bends(Style::OneBend), expected.map(Some));
        assert_eq!(bends(Style::Straight), [None; 3]);
    }

    // "or none exactly if there is none"
    #[test]
    fn a_point_with_guides_only_has_no_cut_line() {
        for style in STYLES {
            let mut drawing = open(style, 6).unwrap();
            drawing.add(&[0x8001, 0x8003]).unwrap();
            drawing.add(&[0x8004, 3]).unwrap();
            assert_eq!(drawing.cut_line_at(4), Ok(None));
            let number = drawing.cut_line_at(5).unwrap().unwrap();
            let line = drawing.line(number).unwrap();
            assert_eq!((line.kind, line.later), (Kind::Plain, 5));
        }
    }

    // "A feeder is a cut line"
    #[test]
    fn a_point_with_a_feeder_has_a_cut_line() {
        for style in STYLES {
            let mut drawing = open(style, 6).unwrap();
            drawing.add(&[0x8001, 0x4003]).unwrap();
            assert_eq!(drawing.cut_line_at(4), Ok(Some(4)));
            assert_eq!(drawing.line(3).unwrap().kind, Kind::Guide);
            assert_eq!(drawing.line(4).unwrap().kind, Kind::Feeder);
        }
    }
}
