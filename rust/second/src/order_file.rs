//! "Order file: 48 44 and n; optionally 53 43 and a scale s from 2 to 8 (absent means 1); n point
//! records 50 54, a count c, c entries; 45 4E."

use crate::drawing::{open, Drawing};
use crate::entry::Entry;
use crate::records::{put, put_out, Reader, END, ORDER_HEADER, ORDER_POINT, SCALE};
use crate::refusal::{Refusal, OUT_OF_RANGE, UNFINISHED};
use crate::style::Style;

/// "In an order file, record by record: 1 if fewer than two bytes are left, 2, then 1 for the rest,
/// then the others; 10 last." The order is drawn in the style.
pub fn read(style: Style, bytes: &[u8]) -> Result<Drawing, Refusal> {
    let mut reader = Reader::new(bytes);
    let header = reader.mark(ORDER_HEADER)?;
    let n = reader.number()?;
    let mut drawing = open(style, n).map_err(|refusal| refusal.at(header))?;
    if reader.mark_is(SCALE) {
        drawing.s = read_scale(&mut reader)?;
    }
    for point in 1..=n {
        let (place, entries) = read_point(&mut reader)?;
        drawing
            .list_point(point, &entries)
            .map_err(|refusal| refusal.at(place))?;
    }
    reader.mark(END)?;
    reader.end()?;
    Ok(drawing)
}

/// "optionally 53 43 and a scale s from 2 to 8"
fn read_scale(reader: &mut Reader) -> Result<u16, Refusal> {
    let place = reader.mark(SCALE)?;
    let s = reader.number()?;
    if !(2..=8).contains(&s) {
        return Err(Refusal::new(OUT_OF_RANGE, place));
    }
    Ok(s)
}

/// "50 54, a count c, c entries", with the offset of the mark; an entry marked both is none.
fn read_point(reader: &mut Reader) -> Result<(usize, Vec<Option<Entry>>), Refusal> {
    let place = reader.mark(ORDER_POINT)?;
    let count = reader.number()?;
    let entries = (0..count)
        .map(|_| reader.number().map(Entry::split))
        .collect::<Result<Vec<Option<Entry>>, Refusal>>()?;
    Ok((place, entries))
}

/// The order file in an output; gives the number of bytes written. "Then 22, then 24."
pub fn write_into(drawing: &Drawing, out: &mut [u8]) -> Result<usize, Refusal> {
    put_out(&write(drawing)?, out)
}

/// The order file of a finished drawing; 22 while k < n.
pub fn write(drawing: &Drawing) -> Result<Vec<u8>, Refusal> {
    if !drawing.is_finished() {
        return Err(Refusal::new(UNFINISHED, 0));
    }
    let mut bytes = Vec::new();
    put(&mut bytes, ORDER_HEADER, &[drawing.n]);
    if drawing.s != 1 {
        put(&mut bytes, SCALE, &[drawing.s]);
    }
    let mut rest = &drawing.lines[..];
    for point in 1..=drawing.n {
        let count = rest.iter().take_while(|line| line.later == point).count();
        let (lines, after) = rest.split_at(count);
        rest = after;
        let mut numbers = vec![count as u16];
        numbers.extend(lines.iter().map(|line| {
            let entry = Entry {
                point: line.earlier,
                kind: line.kind,
            };
            entry.join()
        }));
        put(&mut bytes, ORDER_POINT, &numbers);
    }
    put(&mut bytes, END, &[]);
    Ok(bytes)
}
