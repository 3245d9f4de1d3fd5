//! Draws and reads back what libFuzzer hands in, on both sides and in both styles, and imports it as a net;
//! a difference aborts.
#![no_main]

#[path = "../../../panel/tests/compare/both.rs"]
mod both;
#[path = "../../../panel/tests/compare/import.rs"]
mod import;

use std::slice;

use both::{compare, Answer, Way};
use import::{compare_import, Room, ENOUGH};
use second::generate::nets::net_by;
use second::generate::order_by;
use second::planar_code::{Imported, OPENING};
use second::{Style, STYLES};

/// Bytes that choose runs, two a point, or the steps that make a net, two a step.
const CHOICES: usize = 128;

/// libFuzzer's entry: the bytes as a file, and, if they have no file's mark or opening, as choices of runs,
/// as a net without its opening, and as choices of a net.
///
/// # Safety
/// `data` points to so many bytes, lent for the time of the call.
#[no_mangle]
pub unsafe extern "C" fn LLVMFuzzerTestOneInput(data: *const u8, size: usize) -> i32 {
    // SAFETY: as the function asks.
    let input = unsafe { slice::from_raw_parts(data, size) };
    let marks: [&[u8]; 4] = [b"HD", b"DH", b"DS", &OPENING];
    let no_file = !marks.iter().any(|mark| input.starts_with(mark));
    let choices = &input[..size.min(CHOICES)];
    let chosen = no_file.then(|| order_by(choices).bytes());
    for style in STYLES {
        comes_back(style, Way::Draw, Way::Undraw, input);
        comes_back(style, Way::Undraw, Way::Draw, input);
        if let Some(order) = &chosen {
            comes_back(style, Way::Draw, Way::Undraw, order);
        }
    }
    is_imported(input);
    if no_file {
        is_imported(&[&OPENING, input].concat());
        is_imported(&net_by(choices).bytes());
    }
    0
}

/// Both sides answer alike, also with a byte too few for the order file or the vertices, and what is
/// imported can be drawn.
fn is_imported(file: &[u8]) {
    let answer = |rooms: &[Room]| {
        let answer = compare_import(file, rooms);
        answer.unwrap_or_else(|why| panic!("{why}\n  for {file:02x?}"))
    };
    let Ok(Imported { order, vertices }) = answer(&[ENOUGH]) else {
        return;
    };
    let (length, n) = (order.len(), vertices.len());
    let rooms = [(length, n), (length - 1, n), (length, n - 1)];
    let rooms = rooms.map(|(order, vertices)| Room { order, vertices });
    assert!(answer(&rooms).is_ok());
    for style in STYLES {
        assert!(same(style, Way::Draw, &order, Way::Draw.room(&order)).is_ok());
    }
}

/// Both sides answer alike, also with a byte too few for the output, and an accepted file comes back
/// the other way.
fn comes_back(style: Style, way: Way, other: Way, input: &[u8]) {
    if let Ok(output) = same(style, way, input, way.room(input)) {
        let back = same(style, other, &output, other.room(&output));
        assert_eq!(back.as_deref(), Ok(input));
        assert!(same(style, way, input, output.len() - 1).is_err());
    }
}

/// The answer of both sides with an output of so many bytes.
fn same(style: Style, way: Way, input: &[u8], room: usize) -> Answer {
    compare(style, way, input, room).unwrap_or_else(|why| panic!("{why}\n  for {input:02x?}"))
}
