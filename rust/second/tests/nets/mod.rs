//! Worked cases of nets in planar_code.

use second::planar_code::{import, import_into, Net};
use second::{order_file, Refusal, Style};

use crate::state_told;
use crate::worked::{from_hex, to_hex, Case};

/// What an answer's rows say; a refusal has the row `out` only.
struct Rows {
    order: String,
    list: String,
    places: Option<String>,
}

/// The one case whose file and answer are told in words.
const LARGEST: &str = "net 255 vertices: ";

/// "'net' takes the bytes of a file; the answer is the order file and the list of file vertices by point."
pub fn check_net(case: &Case) {
    if case.title.starts_with(LARGEST) {
        return check_largest(case);
    }
    let file = from_hex(row(case, "in ").unwrap());
    let answer = answered(&file, room(case));
    match (answer, row(case, "out ")) {
        (Err(refusal), wanted) => assert_eq!(Some(&*refusal.to_string()), wanted, "{}", case.title),
        (Ok(rows), None) => {
            assert_eq!(Some(&*rows.order), row(case, "order "), "{}", case.title);
            assert_eq!(Some(&*rows.list), row(case, "list "), "{}", case.title);
            assert_eq!(
                rows.places.as_deref(),
                row(case, "places "),
                "{}",
                case.title
            );
        }
        (Ok(_), Some(refusal)) => panic!("{}: not {refusal}", case.title),
    }
}

/// What stands in a row that begins with a word.
fn row<'a>(case: &Case<'a>, word: &str) -> Option<&'a str> {
    let mut found = case.rows.iter().filter_map(|row| row.strip_prefix(word));
    found.next().map(str::trim)
}

/// "'room' is the length of the output; without it there is room enough": of the order file and the list.
fn room(case: &Case) -> [usize; 2] {
    row(case, "room ").map_or([3000, 300], |text| {
        let (order, list) = text.split_once(" for the order file, ").unwrap();
        let list = list.strip_suffix(" for the list").unwrap();
        [order, list].map(|number| number.parse().unwrap())
    })
}

/// The rows of what comes of a file; bytes past the written ones stay, all of them after a refusal.
fn answered(file: &[u8], room: [usize; 2]) -> Result<Rows, Refusal> {
    let [mut order, mut list] = room.map(|length| vec![0xAA; length]);
    let result = import_into(file, &mut order, &mut list);
    let written = *result.as_ref().unwrap_or(&0);
    let listed = result.as_ref().map_or(0, |length| (length + 6) / 10);
    let after = order[written..].iter().chain(&list[listed..]);
    assert!(after.copied().all(|byte| byte == 0xAA));
    result.map(|_| Rows {
        order: to_hex(&order[..written]),
        list: to_hex(&list[..listed]),
        places: places(&order[..written]),
    })
}

/// "'places' are those of the order file's one-bend drawing."
fn places(order: &[u8]) -> Option<String> {
    let drawing = order_file::read(Style::OneBend, order).ok()?;
    Some(state_told(&drawing, "places"))
}

/// "255 vertices: 1 has 2, 255, 254, .., 3; 2 has 1, 3, 4, .., 255; 3 has 1, 4, 2; v from 4 to 254 has 1,
/// v + 1, 2, v - 1; 255 has 1, 2, 254"
fn largest() -> Net {
    let one = [2].into_iter().chain((3..=255).rev()).collect();
    let two = [1].into_iter().chain(3..=255).collect();
    let mut lists = vec![one, two, vec![1, 4, 2]];
    lists.extend((4..=254).map(|v| vec![1, v + 1, 2, v - 1]));
    lists.push(vec![1, 2, 254]);
    Net { lists }
}

/// "order 2544 bytes; every point v from 4 on has entries 1, v - 1, 2; list 01 02 .. ff"
fn check_largest(case: &Case) {
    let imported = import(&largest().bytes()).unwrap();
    assert_eq!(row(case, "order ").unwrap().split(' ').next(), Some("2544"));
    assert_eq!(imported.order.len(), 2544);
    assert!(imported.vertices.into_iter().eq(1..=255));
    let drawing = order_file::read(Style::OneBend, &imported.order).unwrap();
    for (lines, point) in drawing.lines[3..].chunks(3).zip(4..) {
        let ends: Vec<(u16, u16)> = lines.iter().map(|l| (l.later, l.earlier)).collect();
        assert_eq!(ends, [(point, 1), (point, point - 1), (point, 2)]);
    }
}
