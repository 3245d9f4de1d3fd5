//! A second implementation of document 01, "One-bend panel drawings", with wishes 1 to 4 of document 02,
//! "Double grooves for feeders", "Straight panels", "The cutter dwells" and "Files from the graph
//! generators".

pub mod drawing;
pub mod drawing_file;
pub mod generate;
pub mod moves;
pub mod order_file;
pub mod planar_code;
pub mod promise;
pub mod refusal;

mod adding;
mod convert;
mod entry;
mod records;
mod style;

pub use convert::{draw, undraw};
pub use drawing::{open, Bend, Drawing, Line, LineAnswer, Place, Point};
pub use entry::Kind;
pub use refusal::Refusal;
pub use style::{Style, STYLES};
