//! "Refused because of the input" and "Refused because of the state".

use std::fmt;

/// 1: file ends inside a record or before its mark.
pub const FILE_ENDS: u16 = 1;
/// 2: wrong mark.
pub const WRONG_MARK: u16 = 2;
/// 3: n or s out of range.
pub const OUT_OF_RANGE: u16 = 3;
/// 4: points 1 to 3 listed otherwise.
pub const LISTED_OTHERWISE: u16 = 4;
/// 5: fewer than two entries.
pub const FEW_ENTRIES: u16 = 5;
/// 6: an entry is 0 or not yet placed.
pub const NOT_PLACED: u16 = 6;
/// 7: an entry is covered.
pub const COVERED: u16 = 7;
/// 8: entries aren't a run, left to right.
pub const NO_RUN: u16 = 8;
/// 9: point n's run isn't the whole boundary.
pub const NOT_WHOLE: u16 = 9;
/// 10: bytes after the end.
pub const BYTES_AFTER: u16 = 10;
/// 11: not the drawing of its order.
pub const NOT_ITS_DRAWING: u16 = 11;
/// 12: tool number out of range.
pub const TOOL_NUMBER: u16 = 12;
/// 13: an entry marked both guide and feeder.
pub const BOTH_MARKS: u16 = 13;
/// 14: wrong opening characters, n out of range, a neighbour above n, missing bytes or bytes left over.
pub const BAD_CODE: u16 = 14;
/// 15: a net that isn't taken.
pub const NO_NET: u16 = 15;
/// 21: adding when k = n.
pub const FINISHED: u16 = 21;
/// 22: drawing or moves wanted while k < n.
pub const UNFINISHED: u16 = 22;
/// 23: no such point, line or move.
pub const NO_SUCH: u16 = 23;
/// 24: output too short.
pub const OUTPUT_SHORT: u16 = 24;
/// 25: an inner point reaches neither port i nor port i + 1.
pub const NO_PORT: u16 = 25;

/// "A refusal returns number and place."
#[derive(Clone, Copy, Debug, PartialEq, Eq)]
pub struct Refusal {
    pub number: u16,
    pub place: usize,
}

impl Refusal {
    /// A refusal with its number and place.
    pub fn new(number: u16, place: usize) -> Self {
        Refusal { number, place }
    }

    /// "Place in a file: offset of the record's mark": the same number at another place.
    pub fn at(self, place: usize) -> Self {
        Refusal { place, ..self }
    }
}

impl fmt::Display for Refusal {
    /// "writes the drawing, or the line `refused N at P`"
    fn fmt(&self, f: &mut fmt::Formatter<'_>) -> fmt::Result {
        write!(f, "refused {} at {}", self.number, self.place)
    }
}

impl std::error::Error for Refusal {}
