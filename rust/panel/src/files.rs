//! Order files to drawing files and back.

use crate::raw::{Convert, ONE_BEND};
use crate::refusal::{given, Refusal};
use crate::sizes::{LONGEST_DRAWING, LONGEST_ORDER};

/// The drawing file of an order file. A line's last field there is 0 for a guide, 1 for a plain line
/// and 2 for a feeder.
///
/// ```
/// let order = b"HD\0\x03PT\0\0PT\0\x01\0\x01PT\0\x02\0\x01\0\x02EN";
/// let drawing = panel::draw(order)?;
/// assert_eq!(drawing.len(), panel::drawing_length(3));
/// assert_eq!(panel::undraw(&drawing)?, order);
///
/// // The line from 3 to 2 marked both guide and feeder, in the record at offset 14.
/// let order = b"HD\0\x03PT\0\0PT\0\x01\0\x01PT\0\x02\0\x01\xC0\x02EN";
/// assert_eq!(panel::draw(order), Err(panel::Refusal { number: 13, place: 14 }));
/// # Ok::<(), panel::Refusal>(())
/// ```
pub fn draw(order: &[u8]) -> Result<Vec<u8>, Refusal> {
    converted(ONE_BEND.draw, order, LONGEST_DRAWING)
}

/// The order file of a drawing file. A straight one's mark is refused with 2.
///
/// ```
/// let cut_off = panel::undraw(b"DH\0\x03");
/// assert_eq!(cut_off, Err(panel::Refusal { number: 1, place: 0 }));
/// ```
pub fn undraw(drawing: &[u8]) -> Result<Vec<u8>, Refusal> {
    converted(ONE_BEND.undraw, drawing, LONGEST_ORDER)
}

/// Draws an order file into an output, with no allocation; gives the number of bytes written,
/// [`drawing_length`](crate::drawing_length) of its n. 24 if the output is too short.
///
/// ```
/// let order = b"HD\0\x03PT\0\0PT\0\x01\0\x01PT\0\x02\0\x01\0\x02EN";
/// let mut out = [0; panel::LONGEST_DRAWING];
/// let length = panel::draw_into(order, &mut out)?;
/// assert_eq!(out[..length], panel::draw(order)?);
/// # Ok::<(), panel::Refusal>(())
/// ```
pub fn draw_into(order: &[u8], out: &mut [u8]) -> Result<usize, Refusal> {
    convert(ONE_BEND.draw, order, out)
}

/// Writes the order file of a drawing file into an output, with no allocation; gives the number of
/// bytes written, [`LONGEST_ORDER`] at most. 24 if the output is too short.
///
/// ```
/// let order = b"HD\0\x03PT\0\0PT\0\x01\0\x01PT\0\x02\0\x01\0\x02EN";
/// let drawing = panel::draw(order)?;
/// let mut out = [0; 24];
/// assert_eq!(panel::undraw_into(&drawing, &mut out), Ok(24));
/// assert_eq!(&out, order);
/// let short = panel::undraw_into(&drawing, &mut out[..23]);
/// assert_eq!(short, Err(panel::Refusal { number: 24, place: 0 }));
/// # Ok::<(), panel::Refusal>(())
/// ```
pub fn undraw_into(drawing: &[u8], out: &mut [u8]) -> Result<usize, Refusal> {
    convert(ONE_BEND.undraw, drawing, out)
}

/// Calls one of them.
pub(crate) fn convert(function: Convert, input: &[u8], out: &mut [u8]) -> Result<usize, Refusal> {
    let (from, to) = (input.as_ptr(), out.as_mut_ptr());
    // SAFETY: pointers and lengths are those of borrowed slices.
    let written = given(|refusal| unsafe { function(from, input.len(), to, out.len(), refusal) })?;
    Ok(written as usize)
}

/// What one of them writes, no longer than the longest file of its kind.
pub(crate) fn converted(
    function: Convert,
    input: &[u8],
    longest: usize,
) -> Result<Vec<u8>, Refusal> {
    let mut out = vec![0; longest];
    let length = convert(function, input, &mut out)?;
    out.truncate(length);
    out.shrink_to_fit();
    Ok(out)
}
