//! Whole-number geometry: directions, orientation and common points of straight pieces.

use crate::drawing::Place;

/// A direction (u,v).
#[derive(Clone, Copy, Debug, PartialEq, Eq)]
pub struct Direction {
    pub u: i128,
    pub v: i128,
}

/// A straight piece of a line; it may have no length.
#[derive(Clone, Copy, Debug, PartialEq, Eq)]
pub struct Piece {
    pub from: Place,
    pub to: Place,
}

impl Direction {
    /// The direction from one place to another.
    pub fn between(from: Place, to: Place) -> Self {
        Direction {
            u: i128::from(to.x) - i128::from(from.x),
            v: i128::from(to.y) - i128::from(from.y),
        }
    }

    /// "for a direction (u,v) not (0,0)": whether it is (0,0).
    pub fn is_zero(self) -> bool {
        self.u == 0 && self.v == 0
    }

    /// The cross product.
    pub fn cross(self, other: Self) -> i128 {
        self.u * other.v - self.v * other.u
    }

    /// The dot product.
    pub fn dot(self, other: Self) -> i128 {
        self.u * other.u + self.v * other.v
    }
}

impl Piece {
    /// The direction of the piece.
    pub fn direction(&self) -> Direction {
        Direction::between(self.from, self.to)
    }

    /// "decided by the signs of whole-number cross products": the side on which a place lies.
    fn side(&self, place: Place) -> i128 {
        self.direction()
            .cross(Direction::between(self.from, place))
            .signum()
    }

    /// Whether the place lies on the piece, ends included.
    fn holds(&self, place: Place) -> bool {
        self.side(place) == 0 && self.box_meets(&Piece::at(place))
    }

    /// A piece without length.
    fn at(place: Place) -> Self {
        Piece {
            from: place,
            to: place,
        }
    }

    /// Whether the upright rectangles around two pieces have a point in common.
    fn box_meets(&self, other: &Piece) -> bool {
        let overlap = |a: i64, b: i64, c: i64, d: i64| a.min(b) <= c.max(d) && c.min(d) <= a.max(b);
        overlap(self.from.x, self.to.x, other.from.x, other.to.x)
            && overlap(self.from.y, self.to.y, other.from.y, other.to.y)
    }

    /// "Two pieces meet if they have a point of the real plane in common, decided by the signs of
    /// whole-number cross products and, on one straight line, by overlap."
    pub fn meets(&self, other: &Piece) -> bool {
        self.box_meets(other)
            && self.side(other.from) * self.side(other.to) <= 0
            && other.side(self.from) * other.side(self.to) <= 0
    }

    /// Whether two pieces that meet have the given place in common and no other point.
    pub fn meets_only_at(&self, other: &Piece, place: Place) -> bool {
        if !self.holds(place) || !other.holds(place) {
            return false;
        }
        if self.direction().cross(other.direction()) != 0 {
            return true;
        }
        // On one straight line the order of places by x and then y is the order along it.
        let first = self.from.min(self.to).max(other.from.min(other.to));
        let last = self.from.max(self.to).min(other.from.max(other.to));
        first == last
    }
}

#[cfg(test)]
mod tests {
    use super::*;

    // A piece from four coordinates.
    fn piece(a: i64, b: i64, c: i64, d: i64) -> Piece {
        Piece {
            from: Place { x: a, y: b },
            to: Place { x: c, y: d },
        }
    }

    // Crossing, touching, parallel, overlapping and lengthless pieces.
    #[test]
    fn pieces_meet() {
        let cases = [
            (piece(0, 0, 4, 4), piece(0, 4, 4, 0), true),
            (piece(0, 0, 4, 4), piece(2, 2, 5, 0), true),
            (piece(0, 0, 4, 4), piece(3, 2, 5, 0), false),
            (piece(0, 0, 4, 0), piece(0, 1, 4, 1), false),
            (piece(0, 0, 4, 4), piece(4, 4, 6, 6), true),
            (piece(0, 0, 4, 4), piece(5, 5, 6, 6), false),
            (piece(0, 0, 4, 4), piece(1, 1, 2, 2), true),
            (piece(0, 0, 4, 4), piece(2, 2, 2, 2), true),
            (piece(0, 0, 4, 4), piece(2, 3, 2, 3), false),
            (piece(2, 3, 2, 3), piece(2, 3, 2, 3), true),
            (piece(2, 3, 2, 3), piece(2, 4, 2, 4), false),
            (piece(0, 0, 3, 1), piece(1, 0, 2, 1), true),
        ];
        for (one, two, expected) in cases {
            assert_eq!(one.meets(&two), expected, "{one:?} {two:?}");
            assert_eq!(two.meets(&one), expected, "{two:?} {one:?}");
        }
    }

    // A shared place alone, or a longer overlap.
    #[test]
    fn pieces_meet_only_at_a_place() {
        let origin = Place { x: 0, y: 0 };
        let cases = [
            (piece(0, 0, 4, 4), piece(0, 0, 4, 0), true),
            (piece(0, 0, 4, 4), piece(0, 0, -4, -4), true),
            (piece(0, 0, 4, 4), piece(0, 0, 2, 2), false),
            (piece(0, 0, 4, 4), piece(0, 0, 0, 0), true),
            (piece(0, 0, 0, 0), piece(0, 0, 0, 0), true),
            (piece(0, 0, 4, 4), piece(0, 4, 4, 0), false),
            (piece(-4, 4, 4, -4), piece(4, 4, -4, -4), true),
        ];
        for (one, two, expected) in cases {
            assert_eq!(one.meets_only_at(&two, origin), expected);
            assert_eq!(two.meets_only_at(&one, origin), expected);
        }
    }
}
