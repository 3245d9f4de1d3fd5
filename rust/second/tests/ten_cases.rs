//! K1 to K10, "Ten drawings and refusals".

use second::{open, Bend, Drawing, Kind, Place, Refusal, Style};

/// A drawing of n points after the given calls, all accepted.
fn drawn(n: u16, calls: &[&[u16]]) -> Drawing {
    let mut drawing = open(Style::OneBend, n).unwrap();
    for call in calls {
        drawing.add(call).unwrap();
    }
    drawing
}

/// The places of points 1 to k.
fn places(drawing: &Drawing) -> Vec<(i64, i64)> {
    (1..=drawing.k())
        .map(|point| drawing.place_of(point).unwrap())
        .map(|place| (place.x, place.y))
        .collect()
}

/// The bend of the line that joins a later and an earlier point.
fn bend(drawing: &Drawing, later: u16, earlier: u16) -> (i64, i64) {
    let line = drawing
        .lines
        .iter()
        .find(|line| line.later == later && line.earlier == earlier)
        .unwrap();
    let Place { x, y } = drawing.bend_of(line).unwrap();
    (x, y)
}

/// The answer of a call that is refused, which changes nothing.
fn refused(drawing: &mut Drawing, entries: &[u16]) -> Refusal {
    let before = drawing.clone();
    let refusal = drawing.add(entries).unwrap_err();
    assert_eq!(*drawing, before);
    refusal
}

// "K1 opening."
#[test]
fn k1_opening() {
    let drawing = drawn(3, &[]);
    assert_eq!(places(&drawing), [(0, 0), (6, 0), (3, 2)]);
    assert_eq!(drawing.boundary, [1, 3, 2]);
    assert_eq!((drawing.n, drawing.s, drawing.k()), (3, 1, 3));
    let counts: Vec<(u16, u16)> = drawing.points.iter().map(|p| (p.dl, p.dr)).collect();
    assert_eq!(counts, [(0, 1), (1, 0), (0, 0)]);
    let lines: Vec<(u16, u16, Bend, Kind)> = drawing
        .lines
        .iter()
        .map(|line| (line.later, line.earlier, line.bend, line.kind))
        .collect();
    let expected = [
        (2, 1, Bend::None, Kind::Plain),
        (3, 1, Bend::Right(1), Kind::Plain),
        (3, 2, Bend::Left(1), Kind::Plain),
    ];
    assert_eq!(lines, expected);
    assert_eq!(bend(&drawing, 2, 1), (0, 0));
    assert_eq!(bend(&drawing, 3, 1), (2, 1));
    assert_eq!(bend(&drawing, 3, 2), (4, 1));
}

// "K2 n = 4, add 1,3,2."
#[test]
fn k2_point_4_over_the_whole_boundary() {
    let drawing = drawn(4, &[&[1, 3, 2]]);
    assert_eq!(places(&drawing), [(0, 0), (8, 0), (4, 2), (4, 3)]);
    assert_eq!(bend(&drawing, 4, 3), (4, 2));
    assert_eq!(drawing.boundary, [1, 4, 2]);
    assert_eq!(drawing.point(3).owner, Some(4));
}

// "K3 n = 5, add 1,3."
#[test]
fn k3_point_4_on_the_left() {
    let drawing = drawn(5, &[&[1, 3]]);
    assert_eq!(places(&drawing), [(0, 0), (9, 0), (6, 2), (4, 3)]);
    assert_eq!(bend(&drawing, 4, 3), (4, 3));
}

// "K4 then add 1,4,3,2."
#[test]
fn k4_point_5_over_both() {
    let drawing = drawn(5, &[&[1, 3], &[1, 4, 3, 2]]);
    let expected = [(0, 0), (12, 0), (7, 2), (5, 3), (6, 5)];
    assert_eq!(places(&drawing), expected);
    let bends = [(5, 1), (5, 4), (5, 3), (5, 2), (3, 2)].map(|(l, e)| bend(&drawing, l, e));
    assert_eq!(bends, [(4, 3), (5, 3), (6, 3), (9, 2), (9, 1)]);
}

// "K5 n = 4, add 1,3: 9."
#[test]
fn k5_the_last_run_too_short() {
    let mut drawing = drawn(4, &[]);
    assert_eq!(refused(&mut drawing, &[1, 3]), Refusal::new(9, 0));
}

// "K6 n = 5, add 1,2: 8 at 1."
#[test]
fn k6_no_run() {
    let mut drawing = drawn(5, &[]);
    assert_eq!(refused(&mut drawing, &[1, 2]), Refusal::new(8, 1));
}

// "K7 add 1: 5."
#[test]
fn k7_one_entry() {
    let mut drawing = drawn(5, &[]);
    assert_eq!(refused(&mut drawing, &[1]), Refusal::new(5, 0));
}

// "K8 n = 6, after 1,3,2 add 1,3,2: 7 at 1."
#[test]
fn k8_a_covered_entry() {
    let mut drawing = drawn(6, &[&[1, 3, 2]]);
    assert_eq!(refused(&mut drawing, &[1, 3, 2]), Refusal::new(7, 1));
}

// "K9 n = 1,024 opens; 2 and 1,025 give 3."
#[test]
fn k9_range_of_n() {
    assert!(open(Style::OneBend, 1024).is_ok());
    assert_eq!(open(Style::OneBend, 2), Err(Refusal::new(3, 0)));
    assert_eq!(open(Style::OneBend, 1025), Err(Refusal::new(3, 0)));
}

// "K10 adding to a finished drawing: 21."
#[test]
fn k10_a_finished_drawing() {
    let mut drawing = drawn(4, &[&[1, 3, 2]]);
    assert_eq!(refused(&mut drawing, &[1, 4, 2]), Refusal::new(21, 0));
}
