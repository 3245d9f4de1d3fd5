//! Guides, feeders and entries marked both: every entry there can be, and every last field.

use panel::{FEEDER, GUIDE};
use second::generate::{record_places, Order};
use second::Style;

use crate::both::{compare, Way};
use crate::calls::{agree, needed, words_of};
use crate::damage::with_number;
use crate::orders::drawn;
use crate::proved::proved;
use crate::shrink::keeps;
use crate::tally::in_each_style;

/// Both sides answer a file alike.
fn same_file(style: Style, way: Way, bytes: &[u8]) {
    let answer = compare(style, way, bytes, way.room(bytes));
    keeps(
        answer
            .map(|_| ())
            .map_err(|why| format!("{why}\n  for {bytes:02x?}")),
    );
}

/// Both sides answer a list of calls for five points alike, with room for answers and file.
fn same_calls(style: Style, list: &[Vec<u16>]) {
    let answer = agree(style, 5, &words_of(list), 2 * list.len(), needed(style, 5));
    keeps(answer.map_err(|why| format!("{why}\n  for {list:x?}")));
}

// Every 16-bit number as each entry of a call, which a call that finishes the drawing follows.
#[test]
fn every_entry_of_a_call() {
    in_each_style("feeders, every entry of a call", |style, tally| {
        for entry in 0..=u16::MAX {
            for (call, next) in [
                (vec![entry], vec![1, 3, 2]),
                (vec![1, entry], vec![1, 4, 3, 2]),
                (vec![entry, 3], vec![1, 4, 3, 2]),
                (vec![3, entry], vec![1, 3, 4, 2]),
                (vec![1, entry, 2], vec![1, 4, 2]),
                (vec![entry; 2], vec![1, 3]),
                (vec![0xC000, entry], vec![1, 3]),
                (vec![entry, 0xC003, 0], vec![1, 3]),
            ] {
                same_calls(style, &[call, next]);
                tally.count();
            }
        }
    });
}

// Every 16-bit number as an entry of a call to a drawing that has a covered point, and to a finished
// drawing.
#[test]
fn every_entry_beside_a_covered_point() {
    let what = "feeders, every entry beside a covered point";
    in_each_style(what, |style, tally| {
        for entry in 0..=u16::MAX {
            let calls = [
                vec![1, 3, 2],
                vec![entry, 3],
                vec![3, entry],
                vec![1, entry],
                vec![1, entry, 2],
                vec![entry, entry],
            ];
            same_calls(style, &calls);
            tally.count();
        }
    });
}

/// An order of four points with one record's entries changed.
fn order_file(point: usize, entries: &[u16]) -> Vec<u8> {
    let mut points: [&[u16]; 4] = [&[], &[1], &[1, 2], &[1, 3, 2]];
    points[point - 1] = entries;
    let mut bytes = b"HD\0\x04".to_vec();
    for entries in points {
        bytes.extend(b"PT");
        bytes.extend((entries.len() as u16).to_be_bytes());
        bytes.extend(entries.iter().flat_map(|entry| entry.to_be_bytes()));
    }
    bytes.extend(b"EN");
    bytes
}

// Every 16-bit number as each entry of each point's record, alone, beside others, and beside one that
// is marked both.
#[test]
fn every_entry_of_an_order_file() {
    let what = "feeders, every entry of an order file";
    in_each_style(what, |style, tally| {
        for entry in 0..=u16::MAX {
            let records: [(usize, &[u16]); 15] = [
                (1, &[entry]),
                (1, &[entry, 0xC001]),
                (2, &[entry]),
                (2, &[1, entry]),
                (2, &[entry, 0xC001]),
                (3, &[entry]),
                (3, &[entry, 2]),
                (3, &[1, entry]),
                (3, &[1, 2, entry]),
                (3, &[entry, 0xC002]),
                (4, &[entry]),
                (4, &[entry, 3, 2]),
                (4, &[1, entry, 2]),
                (4, &[1, 3, entry]),
                (4, &[entry, 0xC003]),
            ];
            for (point, entries) in records {
                same_file(style, Way::Draw, &order_file(point, entries));
                tally.count();
            }
        }
    });
}

/// K4 of document 01 with feeders, guides and plain lines.
fn k4() -> Order {
    Order {
        n: 5,
        s: 1,
        opening: [FEEDER | 1, GUIDE | 1, FEEDER | 2],
        calls: vec![vec![FEEDER | 1, 3], vec![1, FEEDER | 4, GUIDE | 3, 2]],
    }
}

/// A drawing file, and the offsets of its line records and of the end record behind them.
fn lines_of(style: Style, order: &Order) -> (Vec<u8>, Vec<usize>) {
    let (_, drawing) = drawn(style, order);
    let mut places = record_places(&drawing);
    (drawing, places.split_off(usize::from(order.n) + 1))
}

// Each line's last field: 0, 1 and 2 are read, all others give 11 at their first byte that differs
// from plain's.
#[test]
fn last_fields_of_lines() {
    in_each_style("feeders, last fields of lines", |style, tally| {
        let (drawing, places) = lines_of(style, &k4());
        assert_eq!(places.len(), 10);
        for next in &places[1..] {
            let at = next - 2;
            for field in [
                0, 1, 2, 3, 4, 255, 256, 257, 258, 0x4000, 0x8000, 0xC000, 65535,
            ] {
                let changed = with_number(&drawing, at, field);
                same_file(style, Way::Undraw, &changed);
                let told = (proved(style).undraw)(&changed).map_err(|refusal| refusal.to_string());
                match field {
                    0..=2 => {
                        let order = told.expect("a field up to 2 is read");
                        assert_eq!((proved(style).draw)(&order), Ok(changed));
                    }
                    3..=255 => assert_eq!(told, Err(format!("refused 11 at {}", at + 1))),
                    _ => assert_eq!(told, Err(format!("refused 11 at {at}"))),
                }
                tally.count();
            }
        }
    });
}

/// Every 16-bit number in place of one number of some lines of a drawing file, which stands where the
/// function says of the offsets of the line and of the record behind it.
fn every_number_in_lines(
    what: &'static str,
    lines: &[usize],
    number_at: impl Fn(usize, usize) -> usize,
) {
    in_each_style(what, |style, tally| {
        let (drawing, places) = lines_of(style, &k4());
        for number in 0..=u16::MAX {
            for &line in lines {
                let at = number_at(places[line], places[line + 1]);
                same_file(style, Way::Undraw, &with_number(&drawing, at, number));
                tally.count();
            }
        }
    });
}

// The last field of a feeder, a guide and a plain line.
#[test]
fn every_last_field() {
    let what = "feeders, every last field";
    every_number_in_lines(what, &[0, 1, 4], |_, next| next - 2);
}

// An earlier point, where no bit is a mark.
#[test]
fn every_earlier_point_of_a_drawing_file() {
    let what = "feeders, every earlier point of a drawing file";
    every_number_in_lines(what, &[0, 1, 2, 3, 6], |line, _| line + 4);
}
