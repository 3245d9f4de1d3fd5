//! From an order file to its drawing file and back.

use crate::{drawing_file, order_file, Refusal, Style};

/// "reads an order file ... and writes the drawing"; gives the number of bytes written.
pub fn draw(style: Style, order: &[u8], out: &mut [u8]) -> Result<usize, Refusal> {
    let drawing = order_file::read(style, order)?;
    drawing_file::write_into(&drawing, out)
}

/// Reads a drawing file of the style and writes its order file; gives the number of bytes written.
pub fn undraw(style: Style, drawing: &[u8], out: &mut [u8]) -> Result<usize, Refusal> {
    let drawing = drawing_file::read(style, drawing)?;
    order_file::write_into(&drawing, out)
}
