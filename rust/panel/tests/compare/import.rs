//! One net in planar_code on both sides: the proved library, as C and as Rust calls it, and the second
//! implementation.

use panel::raw::{panel_import, Words, SHORT_OUT, SHORT_VERTICES};
use panel::{imported_length, MOST_VERTICES};
use second::planar_code::{import, Imported};

use crate::both::refusal;

/// How long the two buffers are.
#[derive(Clone, Copy, Debug)]
pub struct Room {
    pub order: usize,
    pub vertices: usize,
}

/// Enough for every net, and a few bytes more.
pub const ENOUGH: Room = Room {
    order: imported_length(MOST_VERTICES) + 5,
    vertices: MOST_VERTICES + 5,
};

/// Bytes on both sides of a buffer, which must stay.
const MARGIN: usize = 8;

/// The order file and the vertices, or the refusal.
pub type Answer = Result<Imported, panel::Refusal>;

/// What a call returns, and what stands in its memory: a refusal and two buffers, with the bytes on both
/// sides of them.
#[derive(PartialEq)]
struct Left {
    returned: u64,
    refusal: Words,
    order: Vec<u8>,
    vertices: Vec<u8>,
}

impl Left {
    /// What stands there before a call.
    fn before(room: Room) -> Self {
        let bytes =
            |length: usize, mask: u8| (0..length + 2 * MARGIN).map(move |at| at as u8 ^ mask);
        Left {
            returned: 0,
            refusal: [u64::MAX; 3],
            order: bytes(room.order, 0xA5).collect(),
            vertices: bytes(room.vertices, 0x5A).collect(),
        }
    }

    /// What a call leaves.
    fn by(room: Room, call: impl FnOnce(&mut [u8], &mut [u8], &mut Words) -> u64) -> Self {
        let mut left = Left::before(room);
        left.returned = call(
            &mut left.order[MARGIN..][..room.order],
            &mut left.vertices[MARGIN..][..room.vertices],
            &mut left.refusal,
        );
        left
    }

    /// What it must leave with this answer: 24 for the order file comes before 24 for the vertices, and a
    /// refusal changes neither.
    fn wanted(room: Room, answer: &Answer) -> Self {
        let mut left = Left::before(room);
        left.refusal = match answer {
            Err(refusal) => [refusal.number.into(), refusal.place as u64, 0],
            Ok(imported) if room.order < imported.order.len() => [24, 0, SHORT_OUT],
            Ok(imported) if room.vertices < imported.vertices.len() => [24, 0, SHORT_VERTICES],
            Ok(Imported { order, vertices }) => {
                left.returned = order.len() as u64;
                left.order[MARGIN..][..order.len()].copy_from_slice(order);
                left.vertices[MARGIN..][..vertices.len()].copy_from_slice(vertices);
                [0; 3]
            }
        };
        left
    }

    /// It in a line, with the first bytes that differ from another's.
    fn shown(&self, other: &Left) -> String {
        let first = |own: &[u8], other: &[u8]| own.iter().zip(other).position(|(a, b)| a != b);
        format!(
            "{} {:?}, first difference in the order file {:?}, in the vertices {:?}",
            self.returned,
            self.refusal,
            first(&self.order, &other.order),
            first(&self.vertices, &other.vertices)
        )
    }
}

/// What the library leaves as C calls it.
fn left_as_c(file: &[u8], room: Room) -> Left {
    // SAFETY: pointers and lengths are those of slices, and the array is lent.
    Left::by(room, |order, vertices, refusal| unsafe {
        panel_import(
            file.as_ptr(),
            file.len(),
            order.as_mut_ptr(),
            order.len(),
            vertices.as_mut_ptr(),
            vertices.len(),
            refusal,
        )
    })
}

/// What it leaves as Rust calls it; the refusal doesn't say which buffer was short.
fn left_as_rust(file: &[u8], room: Room, short: u64) -> Left {
    Left::by(room, |order, vertices, refusal| {
        let written = panel::import_into(file, order, vertices);
        *refusal = match written {
            Ok(_) => [0; 3],
            Err(why) => [why.number.into(), why.place as u64, short],
        };
        written.unwrap_or(0) as u64
    })
}

/// The answer of both sides to a file, with buffers of each of these lengths, or how they differ.
pub fn compare_import(file: &[u8], rooms: &[Room]) -> Result<Answer, String> {
    let answer = import(file).map_err(refusal);
    for &room in rooms {
        let wanted = Left::wanted(room, &answer);
        let [_, _, short] = wanted.refusal;
        for left in [left_as_c(file, room), left_as_rust(file, room, short)] {
            if left != wanted {
                return Err(format!(
                    "{room:?}\n  proved: {}\n  second: {}",
                    left.shown(&wanted),
                    wanted.shown(&left)
                ));
            }
        }
    }
    Ok(answer)
}
