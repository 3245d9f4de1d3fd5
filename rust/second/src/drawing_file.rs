//! "Drawing file, finished drawings only: 44 48, n, s, width, height (the largest y); per point
//! 50 4F, x, y; per line 4C 4E, later point, earlier point, bend x, bend y, 1 for cut or 0 for
//! guide; 45 4E." "A line's last field in a drawing file is 2 for a feeder". A straight drawing's "file
//! has mark 44 53 in place of 44 48, and line records without a bend".

use crate::drawing::{open, Drawing, Place};
use crate::entry::{Entry, Kind};
use crate::promise::{Laid, Layout, Port};
use crate::records::{put, put_out, Reader, DRAWING_LINE, DRAWING_POINT, END};
use crate::refusal::{Refusal, NOT_ITS_DRAWING, OUT_OF_RANGE, UNFINISHED};
use crate::style::Style;

/// What a line record says.
struct LineRecord {
    place: usize,
    later: u16,
    entry: Entry,
    bend: Option<[u16; 2]>,
}

/// What the records of a file say, before 4 to 9 and 11 are judged.
struct Records {
    /// Opened for the header's n, with its s.
    opened: Drawing,
    points: Vec<[u16; 2]>,
    lines: Vec<LineRecord>,
    /// The offset of the end record.
    end: usize,
}

/// "Every length and coordinate is written times s."
pub(crate) fn written(drawing: &Drawing, length: i64) -> i64 {
    length * i64::from(drawing.s)
}

/// A written length or coordinate as a file number; none is above 8 times 5,111.
fn number(drawing: &Drawing, length: i64) -> u16 {
    written(drawing, length) as u16
}

/// Both coordinates of a place as file numbers.
fn numbers(drawing: &Drawing, place: Place) -> [u16; 2] {
    [number(drawing, place.x), number(drawing, place.y)]
}

/// A line's last field: "1 for cut or 0 for guide", "2 for a feeder".
fn field_of(kind: Kind) -> u16 {
    match kind {
        Kind::Guide => 0,
        Kind::Plain => 1,
        Kind::Feeder => 2,
    }
}

/// The same the other way: "a line field above 2 is read as plain".
fn kind_of(field: u16) -> Kind {
    match field {
        0 => Kind::Guide,
        2 => Kind::Feeder,
        _ => Kind::Plain,
    }
}

/// The drawing file in an output; gives the number of bytes written. "Then 22, then 24."
pub fn write_into(drawing: &Drawing, out: &mut [u8]) -> Result<usize, Refusal> {
    put_out(&write(drawing)?, out)
}

/// The drawing file; 22 while k < n.
pub fn write(drawing: &Drawing) -> Result<Vec<u8>, Refusal> {
    if !drawing.is_finished() {
        return Err(Refusal::new(UNFINISHED, 0));
    }
    let mut bytes = Vec::new();
    let header = [
        drawing.n,
        drawing.s,
        number(drawing, drawing.width()),
        number(drawing, drawing.height()),
    ];
    put(&mut bytes, drawing.style.mark(), &header);
    for point in &drawing.points {
        put(&mut bytes, DRAWING_POINT, &numbers(drawing, point.place));
    }
    for line in &drawing.lines {
        let bend = drawing.bend_of(line).map(|place| numbers(drawing, place));
        let mut record = vec![line.later, line.earlier];
        record.extend(bend.into_iter().flatten());
        record.push(field_of(line.kind));
        put(&mut bytes, DRAWING_LINE, &record);
    }
    put(&mut bytes, END, &[]);
    Ok(bytes)
}

/// "1, 2, 3 on the header (s from 1 to 8), 1 and 2 on all other records, 10, then 4 to 9 on each
/// point's group of lines in turn, then 11". Each style has "a reader of its own": it gives 2 to the
/// other's mark.
pub fn read(style: Style, bytes: &[u8]) -> Result<Drawing, Refusal> {
    let records = read_records(style, bytes)?;
    let mut drawing = records.opened;
    list_groups(&mut drawing, &records.lines, records.end)?;
    match first_difference(bytes, &write(&drawing)?) {
        Some(place) => Err(Refusal::new(NOT_ITS_DRAWING, place)),
        None => Ok(drawing),
    }
}

/// The layout of a finished drawing by the numbers of its file alone; nothing is drawn again. In a
/// one-bend drawing the first and the last line of a point bend at a port of the earlier point, the
/// others at one of the later point; the boundary is 1, n, 2.
pub fn layout(style: Style, bytes: &[u8]) -> Result<Layout, Refusal> {
    let records = read_records(style, bytes)?;
    let Drawing { n, s, .. } = records.opened;
    let places = records.points.iter().map(|&xy| unscaled(xy, s));
    let mut lines = Vec::new();
    for group in records.lines.chunk_by(|one, two| one.later == two.later) {
        for (index, line) in group.iter().enumerate() {
            let outer = index == 0 || index == group.len() - 1;
            let (later, earlier) = (line.later, line.entry.point);
            let owner = if outer { earlier } else { later };
            let bend = line.bend.map(|xy| unscaled(xy, s)).transpose()?;
            let port = bend.map(|place| Port { owner, place });
            lines.push(Laid {
                later,
                earlier,
                port: port.filter(|_| later > 2),
            });
        }
    }
    Ok(Layout {
        style,
        n,
        boundary: vec![1, n, 2],
        places: places.collect::<Result<Vec<Place>, Refusal>>()?,
        lines,
    })
}

/// A place in grid units from written coordinates; 11 if they aren't multiples of s.
fn unscaled(written: [u16; 2], s: u16) -> Result<Place, Refusal> {
    if written.iter().any(|coordinate| coordinate % s != 0) {
        return Err(Refusal::new(NOT_ITS_DRAWING, 0));
    }
    let [x, y] = written.map(|coordinate| i64::from(coordinate / s));
    Ok(Place { x, y })
}

/// "1, 2, 3 on the header (s from 1 to 8), 1 and 2 on all other records, 10"
fn read_records(style: Style, bytes: &[u8]) -> Result<Records, Refusal> {
    let mut reader = Reader::new(bytes);
    let opened = read_header(style, &mut reader)?;
    let points = (0..opened.n)
        .map(|_| read_point(&mut reader))
        .collect::<Result<Vec<[u16; 2]>, Refusal>>()?;
    let lines = (0..3 * opened.n - 6)
        .map(|_| read_line(style, &mut reader))
        .collect::<Result<Vec<LineRecord>, Refusal>>()?;
    let end = reader.mark(END)?;
    reader.end()?;
    Ok(Records {
        opened,
        points,
        lines,
        end,
    })
}

/// "1, 2, 3 on the header (s from 1 to 8)"; width and height are judged by 11.
fn read_header(style: Style, reader: &mut Reader) -> Result<Drawing, Refusal> {
    let place = reader.mark(style.mark())?;
    let n = reader.number()?;
    let s = reader.number()?;
    reader.number()?;
    reader.number()?;
    let mut drawing = open(style, n).map_err(|refusal| refusal.at(place))?;
    if !(1..=8).contains(&s) {
        return Err(Refusal::new(OUT_OF_RANGE, place));
    }
    drawing.s = s;
    Ok(drawing)
}

/// "per point 50 4F, x, y"; x and y are judged by 11.
fn read_point(reader: &mut Reader) -> Result<[u16; 2], Refusal> {
    reader.mark(DRAWING_POINT)?;
    Ok([reader.number()?, reader.number()?])
}

/// "On reading, the earlier point is a plain 16-bit number without a guide bit", and without a feeder
/// bit; the bend, and a last field above 2, are judged by 11.
fn read_line(style: Style, reader: &mut Reader) -> Result<LineRecord, Refusal> {
    let place = reader.mark(DRAWING_LINE)?;
    let later = reader.number()?;
    let point = reader.number()?;
    let bend = match style.has_bends() {
        true => Some([reader.number()?, reader.number()?]),
        false => None,
    };
    let kind = kind_of(reader.number()?);
    Ok(LineRecord {
        place,
        later,
        entry: Entry { point, kind },
        bend,
    })
}

/// "4 to 9 on each point's group of lines in turn (the lines in succession that name it as later,
/// perhaps none; place, the offset where the group starts or would start)"; no field can mark a line
/// both guide and feeder, so 13 is never given.
fn list_groups(drawing: &mut Drawing, lines: &[LineRecord], end: usize) -> Result<(), Refusal> {
    let mut rest = lines;
    for point in 1..=drawing.n {
        let place = rest.first().map_or(end, |line| line.place);
        let count = rest.iter().take_while(|line| line.later == point).count();
        let (group, after) = rest.split_at(count);
        rest = after;
        let entries: Vec<Option<Entry>> = group.iter().map(|line| Some(line.entry)).collect();
        drawing
            .list_point(point, &entries)
            .map_err(|refusal| refusal.at(place))?;
    }
    Ok(())
}

/// "11: the first differing byte"; both files have the same length.
fn first_difference(given: &[u8], expected: &[u8]) -> Option<usize> {
    given.iter().zip(expected).position(|(g, e)| g != e)
}
