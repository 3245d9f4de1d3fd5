//! The two styles of drawing "from the same order file".

use crate::records::{DRAWING_HEADER, STRAIGHT_HEADER};

/// How a drawing is drawn. Where this isn't asked, both styles have the same rules.
#[derive(Clone, Copy, Debug, PartialEq, Eq)]
pub enum Style {
    /// "One-bend panel drawings"
    OneBend,
    /// "the straight-line drawing of de Fraysseix, Pach and Pollack (1990)"
    Straight,
}

/// Both styles.
pub const STYLES: [Style; 2] = [Style::OneBend, Style::Straight];

impl Style {
    /// The drawing file's mark: "44 48", and "44 53 in place of 44 48".
    pub(crate) fn mark(self) -> [u8; 2] {
        match self {
            Style::OneBend => DRAWING_HEADER,
            Style::Straight => STRAIGHT_HEADER,
        }
    }

    /// Whether line records, moves and look-ups have a bend: "line records without a bend", "A line has
    /// one cut move, to its earlier point, and its look-up gives no bend."
    pub(crate) fn has_bends(self) -> bool {
        match self {
            Style::OneBend => true,
            Style::Straight => false,
        }
    }
}
