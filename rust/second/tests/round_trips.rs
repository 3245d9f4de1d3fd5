//! Order files to drawing files and back, sizes, output lengths, broken files.

use second::generate::{all_orders, order, record_places, Order, Random, RUNS};
use second::{draw, drawing_file, open, order_file, undraw, Kind, Refusal, Style, STYLES};

/// `draw` or `undraw`.
type Convert = fn(Style, &[u8], &mut [u8]) -> Result<usize, Refusal>;

/// Random orders with runs of every sort.
fn random_orders(sizes: &[u16]) -> Vec<Order> {
    let mut random = Random::new(11);
    RUNS.iter()
        .flat_map(|&runs| sizes.iter().map(move |&n| (runs, n)))
        .map(|(runs, n)| order(n, runs, &mut random))
        .collect()
}

/// The same for each style: the order, its order file and its drawing file.
fn random_files(sizes: &[u16]) -> Vec<(Style, Order, Vec<u8>, Vec<u8>)> {
    let mut files = Vec::new();
    for order in random_orders(sizes) {
        for style in STYLES {
            let bytes = order.bytes();
            let drawing = drawing_of(style, &bytes, order.n);
            files.push((style, order.clone(), bytes, drawing));
        }
    }
    files
}

/// The bytes of a line record: mark, two ends, the bend's two numbers in a one-bend file, last field.
fn line_length(style: Style) -> usize {
    match style {
        Style::OneBend => 12,
        Style::Straight => 8,
    }
}

/// "Size: 42n - 60 bytes"; of a straight drawing it "is then 4 bytes a line less".
fn drawing_length(style: Style, n: u16) -> usize {
    let lines = 3 * usize::from(n) - 6;
    42 * usize::from(n) - 60 - (12 - line_length(style)) * lines
}

/// The drawing file of an order file.
fn drawing_of(style: Style, order: &[u8], n: u16) -> Vec<u8> {
    let mut drawing = vec![0xAA; drawing_length(style, n)];
    assert_eq!(draw(style, order, &mut drawing), Ok(drawing.len()));
    drawing
}

/// The order comes back from its drawing in each style, byte for byte.
fn comes_back(order: &Order) {
    let bytes = order.bytes();
    for style in STYLES {
        let drawing = drawing_of(style, &bytes, order.n);
        let mut back = vec![0xAA; bytes.len()];
        assert_eq!(undraw(style, &drawing, &mut back), Ok(bytes.len()));
        assert_eq!(back, bytes);
    }
}

// Round trips of every order of a few points.
#[test]
fn every_order_of_up_to_8_points_comes_back() {
    for n in 3..=8 {
        all_orders(n).iter().for_each(comes_back);
    }
}

// Round trips of random orders with runs of each sort, up to 1,024 points.
#[test]
fn random_orders_come_back() {
    random_orders(&[3, 4, 5, 6, 9, 14, 23, 40, 60, 150, 1024])
        .iter()
        .for_each(comes_back);
}

// "no accepted order file is longer than 10,238"
#[test]
fn sizes_of_order_files() {
    for order in random_orders(&[3, 10, 1024]) {
        let scale_record = if order.s == 1 { 0 } else { 4 };
        let expected = 10 * usize::from(order.n) - 6 + scale_record;
        assert_eq!(order.bytes().len(), expected);
        assert!(expected <= 10238);
    }
}

// The size of a straight drawing file: 30n - 36 bytes.
#[test]
fn sizes_of_straight_drawing_files() {
    for n in 3..=1024 {
        let size = drawing_length(Style::Straight, n);
        assert_eq!(size, 30 * usize::from(n) - 36);
    }
}

// Calls and the file of the same order give the same drawing, but for s and the first three lines.
#[test]
fn calls_give_the_drawing_of_the_file() {
    for (style, order, bytes, _) in random_files(&[3, 4, 12, 40, 100]) {
        let mut called = open(style, order.n).unwrap();
        for call in &order.calls {
            called.add(call).unwrap();
        }
        let read = order_file::read(style, &bytes).unwrap();
        called.s = read.s;
        for (line, entry) in called.lines.iter_mut().zip(order.opening) {
            line.kind = match entry >> 14 {
                0 => Kind::Plain,
                1 => Kind::Feeder,
                2 => Kind::Guide,
                _ => panic!("{entry:x} is marked both"),
            };
        }
        assert_eq!(called, read);
    }
}

// "24 output too short", last and at place 0; nothing is written, and bytes past the end stay.
#[test]
fn output_lengths() {
    for (style, _, bytes, drawing) in random_files(&[12]) {
        let calls: [(&[u8], &[u8], Convert); 2] =
            [(&bytes, &drawing, draw), (&drawing, &bytes, undraw)];
        for (input, expected, call) in calls {
            for length in 0..expected.len() + 5 {
                let mut out = vec![0xAA; length];
                let answer = call(style, input, &mut out);
                if length < expected.len() {
                    assert_eq!(answer, Err(Refusal::new(24, 0)));
                    assert!(out.iter().all(|&byte| byte == 0xAA));
                } else {
                    assert_eq!(answer, Ok(expected.len()));
                    assert_eq!(&out[..expected.len()], expected);
                    assert!(out[expected.len()..].iter().all(|&byte| byte == 0xAA));
                }
            }
            let cut_short = &input[..input.len() - 1];
            assert_eq!(call(style, cut_short, &mut []).unwrap_err().number, 1);
        }
    }
}

// "22 drawing or moves wanted while k < n"
#[test]
fn unfinished_drawings_are_not_written() {
    for style in STYLES {
        let drawing = open(style, 4).unwrap();
        assert_eq!(drawing_file::write(&drawing), Err(Refusal::new(22, 0)));
        assert_eq!(order_file::write(&drawing), Err(Refusal::new(22, 0)));
    }
}

// "1 file ends inside a record or before its mark", at every length.
#[test]
fn files_cut_short() {
    for (style, _, bytes, drawing) in random_files(&[3, 5, 11]) {
        let places = record_places(&bytes);
        for length in 0..bytes.len() {
            let place = *places.iter().rfind(|&&place| place <= length).unwrap();
            let answer = order_file::read(style, &bytes[..length]);
            assert_eq!(answer, Err(Refusal::new(1, place)));
        }
        let places = record_places(&drawing);
        for length in 0..drawing.len() {
            let place = *places.iter().rfind(|&&place| place <= length).unwrap();
            let answer = drawing_file::read(style, &drawing[..length]);
            assert_eq!(answer, Err(Refusal::new(1, place)));
        }
    }
}

// "2 wrong mark", at every record.
#[test]
fn wrong_marks() {
    for (style, _, bytes, drawing) in random_files(&[3, 7]) {
        for place in record_places(&bytes) {
            let mut wrong = bytes.clone();
            wrong[place + 1] ^= 0x80;
            let answer = order_file::read(style, &wrong);
            assert_eq!(answer, Err(Refusal::new(2, place)));
        }
        for place in record_places(&drawing) {
            let mut wrong = drawing.clone();
            wrong[place] ^= 0x80;
            let answer = drawing_file::read(style, &wrong);
            assert_eq!(answer, Err(Refusal::new(2, place)));
        }
    }
}

// "a reader of its own that gives 2 to mark 44 48", and the other gives 2 to mark 44 53, whatever
// follows; one byte is 1 to both, and order files are 2 to both.
#[test]
fn each_reader_refuses_the_other_style() {
    for (style, _, bytes, drawing) in random_files(&[3, 7, 1024]) {
        let other = match style {
            Style::OneBend => Style::Straight,
            Style::Straight => Style::OneBend,
        };
        for length in [2, 3, 10, drawing.len() - 1, drawing.len()] {
            let answer = drawing_file::read(other, &drawing[..length]);
            assert_eq!(answer, Err(Refusal::new(2, 0)));
        }
        let answer = drawing_file::read(other, &drawing[..1]);
        assert_eq!(answer, Err(Refusal::new(1, 0)));
        let answer = drawing_file::read(style, &bytes);
        assert_eq!(answer, Err(Refusal::new(2, 0)));
    }
}

// Files with one changed byte: an accepted one is the file that the drawing is written to again.
#[test]
fn files_with_a_changed_byte() {
    let mut random = Random::new(23);
    for (style, _, bytes, drawing) in random_files(&[3, 4, 6, 15]) {
        for _ in 0..2000 {
            let mut changed = bytes.clone();
            let at = random.below(changed.len());
            changed[at] = random.below(256) as u8;
            if let Ok(read) = order_file::read(style, &changed) {
                assert_eq!(order_file::write(&read), Ok(changed));
            }
            let mut changed = drawing.clone();
            let at = random.below(changed.len());
            changed[at] = random.below(256) as u8;
            if let Ok(read) = drawing_file::read(style, &changed) {
                assert_eq!(drawing_file::write(&read), Ok(changed));
            }
        }
    }
}

// "11: the first differing byte": coordinates, width, height are compared last, and so is the high
// byte of a line's last field.
#[test]
fn changed_coordinates_give_11() {
    for (style, _, _, drawing) in random_files(&[3, 8]) {
        for place in record_places(&drawing) {
            let compared = match &drawing[place..place + 2] {
                [0x44, 0x48 | 0x53] => 6..10,
                [0x50, 0x4F] => 2..6,
                [0x4C, 0x4E] => 6..line_length(style) - 1,
                _ => 0..0,
            };
            for offset in compared {
                let mut wrong = drawing.clone();
                wrong[place + offset] ^= 1;
                let expected = Err(Refusal::new(11, place + offset));
                assert_eq!(drawing_file::read(style, &wrong), expected);
            }
        }
    }
}

// "A line's last field in a drawing file is 2 for a feeder", "a line field above 2 is read as plain and
// so stays 11": at its first byte that isn't that of 1.
#[test]
fn last_fields_of_lines() {
    for (style, order, _, drawing) in random_files(&[3, 4, 9]) {
        let lines = record_places(&drawing).split_off(usize::from(order.n) + 1);
        for (line, place) in lines[..3 * usize::from(order.n) - 6].iter().enumerate() {
            let last = place + line_length(style) - 2;
            for field in [0, 1, 2, 3, 4, 255, 256, 257, 258, 0x0200, 0x8000, 65535u16] {
                let mut changed = drawing.clone();
                changed[last..last + 2].copy_from_slice(&field.to_be_bytes());
                let kind = match field {
                    0 => Kind::Guide,
                    1 => Kind::Plain,
                    2 => Kind::Feeder,
                    _ => {
                        let at = last + usize::from(field < 256);
                        let expected = Err(Refusal::new(11, at));
                        assert_eq!(drawing_file::read(style, &changed), expected);
                        continue;
                    }
                };
                let read = drawing_file::read(style, &changed).unwrap();
                assert_eq!(read.lines[line].kind, kind);
                assert_eq!(drawing_file::write(&read), Ok(changed));
            }
        }
    }
}

/// A record of point 2 or 3, or one of another point, by its index from 0, and the entries it gets.
type Listed<'a> = (usize, &'a [u16]);

/// The answer to an order file of five points, one of whose records has other entries.
fn listed(style: Style, (point, entries): Listed) -> Result<usize, Refusal> {
    let mut points: [&[u16]; 5] = [&[], &[1], &[1, 2], &[1, 3, 2], &[1, 4, 2]];
    points[point] = entries;
    let mut bytes = vec![0x48, 0x44, 0, 5];
    for entries in points {
        bytes.extend([0x50, 0x54]);
        bytes.extend((entries.len() as u16).to_be_bytes());
        bytes.extend(entries.iter().flat_map(|entry| entry.to_be_bytes()));
    }
    bytes.extend([0x45, 0x4E]);
    draw(style, &bytes, &mut [0; 150])
}

// "13, an entry marked both guide and feeder", "tested for each entry before 6, and in the records of
// points 2 and 3 before 4", whatever else is wrong with them; point 1's record knows only 4.
#[test]
fn records_with_entries_marked_both() {
    assert_eq!(listed(Style::OneBend, (0, &[])), Ok(150));
    assert_eq!(listed(Style::Straight, (0, &[])), Ok(114));
    let places = [4, 8, 14, 22, 32];
    let cases: [(Listed, u16); 27] = [
        ((0, &[1]), 4),
        ((0, &[0xC001]), 4),
        ((0, &[0xFFFF; 2000]), 4),
        ((1, &[]), 4),
        ((1, &[0x4002]), 4),
        ((1, &[0x5001]), 4),
        ((1, &[0xC001]), 13),
        ((1, &[0xC000]), 13),
        ((1, &[0xFFFF]), 13),
        ((1, &[1, 0xC001]), 13),
        ((1, &[9, 9, 9, 0xC009, 9]), 13),
        ((1, &[0xC001; 2000]), 13),
        ((1, &[0x4001; 2000]), 4),
        ((2, &[0xC001, 2]), 13),
        ((2, &[1, 0xC002]), 13),
        ((2, &[0xC001]), 13),
        ((2, &[2, 1, 0xC000]), 13),
        ((2, &[0x4002, 0x4001]), 4),
        ((3, &[]), 5),
        ((3, &[0xC001]), 5),
        ((3, &[0, 0xC001]), 6),
        ((3, &[0xC000, 0]), 13),
        ((3, &[1, 2, 0xC003]), 13),
        ((3, &[0xC001; 2000]), 13),
        ((4, &[1, 3, 0xC002]), 7),
        ((4, &[1, 0xC003, 2]), 13),
        ((4, &[1, 2, 0xC004]), 13),
    ];
    for ((point, entries), number) in cases {
        let expected = Err(Refusal::new(number, places[point]));
        for style in STYLES {
            let answer = listed(style, (point, entries));
            assert_eq!(answer, expected, "point {}: {entries:x?}", point + 1);
        }
    }
}

/// A line number and the later and earlier point that its record gets.
type Change = (usize, u16, u16);

/// The answer to a drawing file of four points whose line records are changed.
fn changed_lines(style: Style, changes: &[Change]) -> Result<usize, Refusal> {
    let order = &all_orders(4)[0];
    let mut drawing = drawing_of(style, &order.bytes(), 4);
    for &(line, later, earlier) in changes {
        let at = 34 + line_length(style) * line + 2;
        drawing[at..at + 2].copy_from_slice(&later.to_be_bytes());
        drawing[at + 2..at + 4].copy_from_slice(&earlier.to_be_bytes());
    }
    undraw(style, &drawing, &mut [0; 100])
}

// "4 to 9 on each point's group of lines in turn", at "the offset where the group starts or would
// start"; an earlier point above 16,383 is not placed, and no number there is marked both.
#[test]
fn groups_of_lines() {
    let cases: [(&[Change], u16, usize); 23] = [
        (&[(0, 1, 1)], 4, 0),
        (&[(0, 3, 1)], 4, 0),
        (&[(0, 2, 0x8001)], 4, 0),
        (&[(0, 2, 0x4001)], 4, 0),
        (&[(0, 2, 0xC001)], 4, 0),
        (&[(1, 3, 0x8001)], 4, 1),
        (&[(1, 3, 0x4001)], 4, 1),
        (&[(2, 3, 0xC002)], 4, 1),
        (&[(1, 3, 2)], 4, 1),
        (&[(1, 2, 1)], 4, 0),
        (&[(2, 4, 2)], 4, 1),
        (&[(3, 3, 1)], 4, 1),
        (&[(3, 5, 1)], 5, 3),
        (&[(4, 0, 3)], 5, 3),
        (&[(3, 4, 0)], 6, 3),
        (&[(5, 4, 0x8002)], 6, 3),
        (&[(5, 4, 0x4002)], 6, 3),
        (&[(5, 4, 0xC002)], 6, 3),
        (&[(5, 4, 0x3FFF)], 6, 3),
        (&[(4, 4, 4)], 6, 3),
        (&[(4, 4, 2)], 8, 3),
        (&[(5, 5, 2)], 9, 3),
        (&[(3, 4, 3), (4, 4, 2), (5, 9, 9)], 9, 3),
    ];
    for style in STYLES {
        assert_eq!(changed_lines(style, &[]), Ok(34));
        for (changes, number, line) in cases {
            let expected = Err(Refusal::new(number, 34 + line_length(style) * line));
            assert_eq!(changed_lines(style, changes), expected, "{changes:?}");
        }
    }
}
