//! Entries of point records and of adding calls.

/// The top bit of an entry.
pub(crate) const GUIDE_BIT: u16 = 0x8000;

/// "the next bit below the guide bit now says feeder"
pub(crate) const FEEDER_BIT: u16 = 0x4000;

/// "the point number is the low 14 bits"
pub(crate) const POINT_BITS: u16 = 0x3FFF;

/// "The reading of one entry has three outcomes, guide, plain and feeder"; a line keeps it.
#[derive(Clone, Copy, Debug, PartialEq, Eq)]
pub enum Kind {
    /// "a line that isn't cut"
    Guide,
    /// Cut once.
    Plain,
    /// Cut twice: "A feeder is a cut line".
    Feeder,
}

impl Kind {
    /// Whether a line of this kind is cut.
    pub fn is_cut(self) -> bool {
        match self {
            Kind::Guide => false,
            Kind::Plain | Kind::Feeder => true,
        }
    }
}

/// An earlier neighbour and the kind of the line to it.
///
/// In an entry word `point` has 14 bits; read from a drawing file it is "a plain 16-bit number".
#[derive(Clone, Copy, Debug, PartialEq, Eq)]
pub struct Entry {
    pub point: u16,
    pub kind: Kind,
}

impl Entry {
    /// The entry that a word says, none if it is "marked both guide and feeder".
    pub fn split(word: u16) -> Option<Self> {
        let kind = match (word & GUIDE_BIT != 0, word & FEEDER_BIT != 0) {
            (false, false) => Kind::Plain,
            (true, false) => Kind::Guide,
            (false, true) => Kind::Feeder,
            (true, true) => return None,
        };
        let point = word & POINT_BITS;
        Some(Entry { point, kind })
    }

    /// The same the other way: the word that an order file holds.
    pub fn join(self) -> u16 {
        let mark = match self.kind {
            Kind::Guide => GUIDE_BIT,
            Kind::Plain => 0,
            Kind::Feeder => FEEDER_BIT,
        };
        self.point | mark
    }
}

#[cfg(test)]
mod tests {
    use super::*;

    // Every 16-bit word with one mark at most splits and joins to itself; the others are no entry.
    #[test]
    fn every_word_comes_back() {
        for word in 0..=u16::MAX {
            let entry = Entry::split(word);
            let kind = match word {
                0..=0x3FFF => Kind::Plain,
                0x4000..=0x7FFF => Kind::Feeder,
                0x8000..=0xBFFF => Kind::Guide,
                0xC000..=0xFFFF => {
                    assert_eq!(entry, None);
                    continue;
                }
            };
            let point = word % 16384;
            assert_eq!(entry, Some(Entry { point, kind }));
            assert_eq!(entry.map(Entry::join), Some(word));
        }
    }

    // "A feeder is a cut line"
    #[test]
    fn all_but_guides_are_cut() {
        let kinds = [Kind::Guide, Kind::Plain, Kind::Feeder];
        assert_eq!(kinds.map(Kind::is_cut), [false, true, true]);
    }
}
