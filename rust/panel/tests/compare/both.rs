//! One file on both sides: the proved library and the second implementation.

use panel::{straight, Refusal};
use second::Style;

/// Which way a file goes.
#[derive(Clone, Copy, Debug, PartialEq, Eq)]
pub enum Way {
    Draw,
    Undraw,
}

/// The bytes written, or the refusal.
pub type Answer = Result<Vec<u8>, Refusal>;

/// Bytes on both sides of an output, which must stay.
const MARGIN: usize = 8;

impl Way {
    /// Output bytes enough for any file of the input's length, and a few more.
    pub fn room(self, input: &[u8]) -> usize {
        match self {
            Way::Draw => 5 * input.len() + 8,
            Way::Undraw => input.len() + 8,
        }
    }
}

/// The answer of both sides to a file with an output of so many bytes, or how they differ.
pub fn compare(style: Style, way: Way, input: &[u8], room: usize) -> Result<Answer, String> {
    let proved = answer(room, |out| match (style, way) {
        (Style::OneBend, Way::Draw) => panel::draw_into(input, out),
        (Style::OneBend, Way::Undraw) => panel::undraw_into(input, out),
        (Style::Straight, Way::Draw) => straight::draw_into(input, out),
        (Style::Straight, Way::Undraw) => straight::undraw_into(input, out),
    });
    let second = answer(room, |out| {
        let answer = match way {
            Way::Draw => second::draw(style, input, out),
            Way::Undraw => second::undraw(style, input, out),
        };
        answer.map_err(refusal)
    });
    if proved != second {
        return Err(format!(
            "{style:?}, {way:?} into {room} bytes\n  proved: {}\n  second: {}{}",
            shown(&proved),
            shown(&second),
            first_difference(&proved, &second)
        ));
    }
    proved
}

/// An answer in a line.
fn shown(answer: &Result<Answer, String>) -> String {
    match answer {
        Err(why) => why.clone(),
        Ok(Err(refusal)) => refusal.to_string(),
        Ok(Ok(bytes)) => format!(
            "{} bytes {:02x?}",
            bytes.len(),
            &bytes[..bytes.len().min(150)]
        ),
    }
}

/// Where the bytes of two answers differ first, if both have bytes.
fn first_difference(one: &Result<Answer, String>, two: &Result<Answer, String>) -> String {
    let (Ok(Ok(one)), Ok(Ok(two))) = (one, two) else {
        return String::new();
    };
    let place = one.iter().zip(two).position(|(a, b)| a != b);
    place.map_or(String::new(), |place| {
        format!("\n  first difference at byte {place}")
    })
}

/// A refusal of the second implementation.
pub fn refusal(refusal: second::Refusal) -> Refusal {
    Refusal {
        number: refusal.number,
        place: refusal.place,
    }
}

/// What a call answers with an output of so many bytes; an error if it changes a byte that must
/// stay: all on a refusal, else those past the written ones.
fn answer(
    room: usize,
    call: impl Fn(&mut [u8]) -> Result<usize, Refusal>,
) -> Result<Answer, String> {
    let before: Vec<u8> = (0..room + 2 * MARGIN).map(|at| at as u8 ^ 0xA5).collect();
    let mut buffer = before.clone();
    let answer = call(&mut buffer[MARGIN..MARGIN + room]);
    let end = MARGIN + *answer.as_ref().unwrap_or(&0);
    if buffer[..MARGIN] != before[..MARGIN] || buffer[end..] != before[end..] {
        return Err(format!("{answer:?} with bytes changed that must stay"));
    }
    Ok(answer.map(|_| buffer[MARGIN..end].to_vec()))
}
