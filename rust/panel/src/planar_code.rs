//! Nets in planar_code to order files.

use crate::raw::panel_import;
use crate::refusal::{given, Refusal};
use crate::sizes::{imported_length, MOST_VERTICES};

/// What a net in planar_code becomes.
#[derive(Clone, Debug, PartialEq, Eq, Hash)]
pub struct Import {
    /// The order file, all lines plain.
    pub order: Vec<u8>,
    /// The file vertices by point: that of point p is `vertices[p - 1]`.
    pub vertices: Vec<u8>,
}

/// The order file of a net in planar_code, as the graph generators write it, and its vertices by point.
///
/// Refused are 14 for bytes that aren't one net in planar_code (the opening characters, n from 4 to 255,
/// a neighbour above n, bytes missing or left over), then 15 for a net that isn't triangulated: a list
/// names its own vertex or one vertex twice, a line stands in one list only, not all is connected, there
/// aren't 3n - 6 lines, or a face hasn't three sides. Every other net is taken, and its order file can be
/// drawn in both styles.
///
/// ```
/// use panel::{draw, import, Refusal};
///
/// // Four vertices, each joined to the three others.
/// let net = b">>planar_code<<\x04\x02\x04\x03\0\x01\x03\x04\0\x01\x04\x02\0\x01\x02\x03\0";
/// let imported = import(net)?;
/// assert_eq!(imported.vertices, [1, 2, 3, 4]);
/// assert_eq!(draw(&imported.order)?.len(), panel::drawing_length(4));
///
/// // Without its last byte it is no planar_code; with two neighbours exchanged it has other faces.
/// let [bad_code, no_net] = [14, 15].map(|number| Refusal { number, place: 0 });
/// assert_eq!(import(&net[..31]), Err(bad_code));
/// let mut exchanged = *net;
/// exchanged.swap(17, 18);
/// assert_eq!(import(&exchanged), Err(no_net));
/// # Ok::<(), Refusal>(())
/// ```
pub fn import(file: &[u8]) -> Result<Import, Refusal> {
    let mut order = vec![0; imported_length(MOST_VERTICES)];
    let mut vertices = vec![0; MOST_VERTICES];
    let length = import_into(file, &mut order, &mut vertices)?;
    order.truncate(length);
    order.shrink_to_fit();
    vertices.truncate((length + 6) / 10);
    vertices.shrink_to_fit();
    Ok(Import { order, vertices })
}

/// Imports a net into two outputs, with no allocation; gives the number of bytes of the order file,
/// [`imported_length`] of its n, and n vertices are written. Refused are what [`import`] refuses, then 24
/// if `order` or `vertices` is too short; a refusal changes neither.
///
/// ```
/// use panel::{import_into, imported_length, Refusal, MOST_VERTICES};
///
/// let net = b">>planar_code<<\x04\x02\x04\x03\0\x01\x03\x04\0\x01\x04\x02\0\x01\x02\x03\0";
/// let (mut order, mut vertices) = ([0; imported_length(MOST_VERTICES)], [0; MOST_VERTICES]);
/// let length = import_into(net, &mut order, &mut vertices)?;
/// assert_eq!(length, imported_length(4));
/// assert!(order.starts_with(b"HD\0\x04PT\0\0PT\0\x01\0\x01"));
/// assert_eq!(vertices[..5], [1, 2, 3, 4, 0]);
///
/// let short = Refusal { number: 24, place: 0 };
/// assert_eq!(import_into(net, &mut order[..33], &mut vertices), Err(short));
/// assert_eq!(import_into(net, &mut order, &mut vertices[..3]), Err(short));
/// # Ok::<(), Refusal>(())
/// ```
pub fn import_into(file: &[u8], order: &mut [u8], vertices: &mut [u8]) -> Result<usize, Refusal> {
    // SAFETY: pointers and lengths are those of borrowed slices.
    let written = given(|refusal| unsafe {
        panel_import(
            file.as_ptr(),
            file.len(),
            order.as_mut_ptr(),
            order.len(),
            vertices.as_mut_ptr(),
            vertices.len(),
            refusal,
        )
    })?;
    Ok(written as usize)
}
