//! A drawing file as the library reads it.

use panel::{straight, Bend, Kind, Place, Refusal};

/// The mark of a straight drawing file.
const STRAIGHT_MARK: &[u8] = b"DS";

/// What a picture shows.
pub struct Drawing {
    pub n: usize,
    /// The scale, and width and height as the file has them: times the scale.
    pub scale: u16,
    pub width: u16,
    pub height: u16,
    /// The place of point p is `places[p - 1]`.
    pub places: Vec<Place>,
    /// The lines by their numbers.
    pub lines: Vec<Line>,
}

/// A line of the picture.
pub struct Line {
    pub later: usize,
    pub earlier: usize,
    /// The place of the bend; none for line 1-2 and for straight lines.
    pub bend: Option<Place>,
    pub kind: Kind,
}

/// The library's functions for one style of drawing.
struct Library {
    undraw: fn(&[u8]) -> Result<Vec<u8>, Refusal>,
    point: fn(&[u8], usize) -> Result<Place, Refusal>,
    line: fn(&[u8], usize) -> Result<Line, Refusal>,
}

const ONE_BEND: Library = Library {
    undraw: panel::undraw,
    point: panel::point,
    line: |order, number| {
        let line = panel::line(order, number)?;
        Ok(Line {
            later: line.later,
            earlier: line.earlier,
            bend: (line.bend != Bend::None).then_some(line.bend_place),
            kind: line.kind,
        })
    },
};

const STRAIGHT: Library = Library {
    undraw: straight::undraw,
    point: straight::point,
    line: |order, number| {
        let line = straight::line(order, number)?;
        Ok(Line {
            later: line.later,
            earlier: line.earlier,
            bend: None,
            kind: line.kind,
        })
    },
};

impl Drawing {
    /// Reads a drawing file, whose mark says the style: the library judges it, and every point and line
    /// is looked up in the drawing of its order file.
    pub fn read(file: &[u8]) -> Result<Drawing, Refusal> {
        let library = if file.starts_with(STRAIGHT_MARK) {
            STRAIGHT
        } else {
            ONE_BEND
        };
        let order = (library.undraw)(file)?;
        let header = |at: usize| u16::from_be_bytes([file[at], file[at + 1]]);
        let n = usize::from(header(2));
        let places = (1..=n).map(|point| (library.point)(&order, point));
        let lines = (0..panel::line_count(n)).map(|number| (library.line)(&order, number));
        Ok(Drawing {
            n,
            scale: header(4),
            width: header(6),
            height: header(8),
            places: places.collect::<Result<Vec<Place>, Refusal>>()?,
            lines: lines.collect::<Result<Vec<Line>, Refusal>>()?,
        })
    }

    /// The place of a point from 1 to n.
    pub fn place(&self, point: usize) -> Place {
        self.places[point - 1]
    }

    /// Where the lines that end at a point go first: to the bend, or to the other end where there is no
    /// bend or it is at the point.
    pub fn ways_from(&self, point: usize) -> impl Iterator<Item = Place> + '_ {
        let ends_here = move |line: &&Line| [line.later, line.earlier].contains(&point);
        self.lines.iter().filter(ends_here).map(move |line| {
            let other = line.later + line.earlier - point;
            let bend = line.bend.filter(|&bend| bend != self.place(point));
            bend.unwrap_or(self.place(other))
        })
    }
}
