//! What the promise speaks of: places of points and bends, and the pieces between them.

use super::geometry::{Direction, Piece};
use crate::drawing::{Drawing, Place};
use crate::style::Style;

/// What the promise speaks of, as places only: from a drawing, or from the numbers of a drawing file.
#[derive(Clone, Debug, PartialEq, Eq)]
pub struct Layout {
    pub style: Style,
    pub n: u16,
    /// w1, .., wm, left to right.
    pub boundary: Vec<u16>,
    /// The places of points 1 to k.
    pub places: Vec<Place>,
    pub lines: Vec<Laid>,
}

/// A line of a layout.
#[derive(Clone, Copy, Debug, PartialEq, Eq)]
pub struct Laid {
    pub later: u16,
    pub earlier: u16,
    /// None for line 1-2 and for straight lines.
    pub port: Option<Port>,
}

/// Where a line bends. "A port is at the point that owns it".
#[derive(Clone, Copy, Debug, PartialEq, Eq)]
pub struct Port {
    pub owner: u16,
    pub place: Place,
}

impl From<&Drawing> for Layout {
    /// The places of a drawing's points and bends.
    fn from(drawing: &Drawing) -> Self {
        let laid = drawing.lines.iter().map(|line| Laid {
            later: line.later,
            earlier: line.earlier,
            port: line
                .port_owner()
                .zip(drawing.bend_of(line))
                .map(|(owner, place)| Port { owner, place }),
        });
        Layout {
            style: drawing.style,
            n: drawing.n,
            boundary: drawing.boundary.clone(),
            places: drawing.points.iter().map(|point| point.place).collect(),
            lines: laid.collect(),
        }
    }
}

impl Layout {
    /// The place of a point from 1 to k.
    pub fn place(&self, point: u16) -> Place {
        self.places[usize::from(point) - 1]
    }

    /// "k is how many are placed."
    pub fn k(&self) -> u16 {
        self.places.len() as u16
    }

    /// "W is the x of point 2."
    pub fn width(&self) -> i64 {
        self.place(2).x
    }

    /// The lines that end at a point.
    pub fn lines_at(&self, point: u16) -> impl Iterator<Item = &Laid> {
        self.lines.iter().filter(move |line| line.ends_at(point))
    }

    /// "the rest, up to the other end, is the free piece"; "Line 1-2 is one free piece", and so is every
    /// straight line.
    pub(super) fn free_piece(&self, line: &Laid) -> Piece {
        match line.port {
            Some(port) => Piece {
                from: port.place,
                to: self.place(line.other_end(port.owner)),
            },
            None => Piece {
                from: self.place(line.earlier),
                to: self.place(line.later),
            },
        }
    }

    /// "The piece from the port's owner to the port is the port piece"; with the free piece.
    pub(super) fn pieces(&self, line: &Laid) -> Vec<Piece> {
        let port_piece = line.port.map(|port| Piece {
            from: self.place(port.owner),
            to: port.place,
        });
        let mut pieces = vec![self.free_piece(line)];
        pieces.extend(port_piece);
        pieces
    }

    /// "a line whose port is at the point leaves towards that port"; else along the free piece, and "if
    /// its free piece has no length, that is towards the port's owner".
    pub(super) fn leaving(&self, line: &Laid, point: u16) -> Direction {
        let place = self.place(point);
        let to_port = line.port.map(|port| Direction::between(place, port.place));
        let to_other = Direction::between(place, self.place(line.other_end(point)));
        to_port.filter(|way| !way.is_zero()).unwrap_or(to_other)
    }
}

impl Laid {
    /// Whether the line ends at the point.
    pub fn ends_at(&self, point: u16) -> bool {
        self.later == point || self.earlier == point
    }

    /// The end of the line that isn't the given end.
    fn other_end(&self, point: u16) -> u16 {
        if self.later == point {
            self.earlier
        } else {
            self.later
        }
    }

    /// A line's name in messages, "later-earlier".
    pub fn name(&self) -> String {
        format!("{}-{}", self.later, self.earlier)
    }
}
