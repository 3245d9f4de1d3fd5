//! Panel drawings by the proved library: order files to drawing files and back, lists of adding calls,
//! look-ups of points and lines, cutter moves, and order files from the nets of graph generators.
//!
//! An order file can be drawn in two styles. The functions here draw lines with one bend at most; those
//! of the same names in [`straight`] draw straight lines, as wish 2 of document 02 says.
//!
//! Every answer is a value or a [`Refusal`] with document 01's number and place. A refusal changes no
//! byte of an output, and bytes past the written ones stay. Functions whose names begin with `calls`
//! take a list of adding calls where the others take an order file.
//!
//! A line is a guide, plain or a feeder, as its entry says: a guide isn't cut, a feeder is cut twice. No
//! cut goes to the place where the cutter already is: it is left out, as wish 3 of document 02 says.
//!
//! ```
//! use panel::{draw, line, moves, point, undraw, Bend, Move, Place, Refusal, Tool};
//!
//! // Three points: 1, then 2 joined to 1, then 3 joined to 1 and 2.
//! let order = [
//!     0x48, 0x44, 0, 3, // n
//!     0x50, 0x54, 0, 0, // point 1
//!     0x50, 0x54, 0, 1, 0, 1, // point 2
//!     0x50, 0x54, 0, 2, 0, 1, 0, 2, // point 3
//!     0x45, 0x4E,
//! ];
//! let drawing = [
//!     0x44, 0x48, 0, 3, 0, 1, 0, 6, 0, 2, // n, scale, width, height
//!     0x50, 0x4F, 0, 0, 0, 0, // point 1 at (0,0)
//!     0x50, 0x4F, 0, 6, 0, 0, // point 2 at (6,0)
//!     0x50, 0x4F, 0, 3, 0, 2, // point 3 at (3,2)
//!     0x4C, 0x4E, 0, 2, 0, 1, 0, 0, 0, 0, 0, 1, // line 2-1, plain
//!     0x4C, 0x4E, 0, 3, 0, 1, 0, 2, 0, 1, 0, 1, // line 3-1 bends at (2,1)
//!     0x4C, 0x4E, 0, 3, 0, 2, 0, 4, 0, 1, 0, 1, // line 3-2 bends at (4,1)
//!     0x45, 0x4E,
//! ];
//!
//! assert_eq!(draw(&order)?, drawing);
//! assert_eq!(undraw(&drawing)?, order);
//!
//! // A file that ends inside the record at offset 8 is refused.
//! let refused = Refusal { number: 1, place: 8 };
//! assert_eq!(draw(&order[..10]), Err(refused));
//! assert_eq!(refused.to_string(), "refused 1 at 8");
//!
//! // Points count from 1, lines from 0.
//! assert_eq!(point(&order, 3)?, Place { x: 3, y: 2 });
//! assert_eq!(line(&order, 1)?.bend, Bend::Right(1));
//!
//! // A grid unit of one millimetre, half a millimetre deep, one above the panel between lines.
//! let tool = Tool { pitch: 8.0, depth: 4.0, clearance: 8.0 };
//! let moves = moves(&order, tool)?;
//! assert_eq!(moves.len(), 14);
//! assert_eq!(moves[4], Move::Travel(3.0, 2.0));
//! assert_eq!(moves[5], Move::Plunge(-0.5));
//! assert_eq!(moves[6], Move::Cut(2.0, 1.0));
//! # Ok::<(), Refusal>(())
//! ```
//!
//! A net in planar_code becomes an order file by [`import`], as wish 4 of document 02 says.

mod calls;
mod files;
mod lookups;
mod moves;
mod planar_code;
pub mod raw;
mod refusal;
mod sizes;
pub mod straight;

pub use calls::{calls, calls_in_words, Called, FEEDER, GUIDE};
pub use files::{draw, draw_into, undraw, undraw_into};
pub use lookups::{
    calls_cut_line, calls_line, calls_point, cut_line, line, point, Bend, Kind, Line, Place,
};
pub use moves::{calls_move_at, calls_moves, move_at, moves, moves_into, Move, Tool};
pub use planar_code::{import, import_into, Import};
pub use refusal::Refusal;
pub use sizes::{
    drawing_length, imported_length, line_count, most_moves, ANSWER_WORDS, FEWEST_POINTS,
    FEWEST_VERTICES, LONGEST_DRAWING, LONGEST_ORDER, LONGEST_PLANAR_CODE, MOST_POINTS,
    MOST_VERTICES,
};
