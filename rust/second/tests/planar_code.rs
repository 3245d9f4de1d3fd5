//! Nets in planar_code: generated ones, those of examples/planar_code, and files that are refused.

mod stored;

use std::collections::BTreeSet;

use second::generate::faulty_nets::{faulty_net, FAULTS};
use second::generate::nets::{net, net_by, Shape, SHAPES};
use second::generate::Random;
use second::planar_code::{import, import_into, read, Imported, Net};
use second::{order_file, Kind, Line, Refusal, STYLES};
use stored::examples;

/// The pairs of points, the earlier first, that a line of the order file joins; it is accepted in both
/// styles, with all lines plain.
fn joined_points(order: &[u8]) -> BTreeSet<(u16, u16)> {
    let [one_bend, straight] = STYLES.map(|style| order_file::read(style, order).unwrap());
    let ends = |line: &Line| (line.earlier, line.later);
    assert!(one_bend.is_finished() && one_bend.s == 1);
    assert!(one_bend.lines.iter().all(|line| line.kind == Kind::Plain));
    let straight_ends = straight.lines.iter().map(ends);
    assert!(one_bend.lines.iter().map(ends).eq(straight_ends));
    one_bend.lines.iter().map(ends).collect()
}

/// Every vertex is listed once, and points are joined exactly if their vertices are.
fn is_the_net(imported: &Imported, net: &Net) {
    let Imported { order, vertices } = imported;
    let n = usize::from(net.n());
    assert_eq!((order.len(), vertices.len()), (10 * n - 6, n));
    let listed: BTreeSet<u8> = vertices.iter().copied().collect();
    assert!(listed.into_iter().eq(1..=net.n()));
    let joined = joined_points(order);
    for (later, v) in (1..).zip(vertices) {
        for (earlier, w) in (1..later).zip(vertices) {
            let named = net.neighbours(*v).contains(w);
            assert_eq!(joined.contains(&(earlier, later)), named);
        }
    }
}

/// "File vertex 1 becomes point 1, and its first listed neighbour becomes point 2. The neighbour listed
/// next after that one, cyclically, becomes point n."
fn begins_and_ends_as_listed(imported: &Imported, net: &Net) {
    let Imported { vertices, .. } = imported;
    let list = net.neighbours(1);
    assert_eq!(vertices[..2], [1, list[0]]);
    assert_eq!(vertices.last(), Some(&list[1]));
}

/// The net is taken, and is the net of its order file.
fn taken(net: &Net) {
    let bytes = net.bytes();
    assert_eq!(read(&bytes).as_ref(), Ok(net));
    let imported = import(&bytes).unwrap();
    is_the_net(&imported, net);
    begins_and_ends_as_listed(&imported, net);
}

// Every shape, many n, and mirrored ones.
#[test]
fn generated_nets_are_imported() {
    for shape in SHAPES {
        for n in (4..=40).chain([64, 100, 128, 200, 254, 255]) {
            let net = net(n, shape, &mut Random::new(200 + u64::from(n)));
            taken(&net);
            taken(&net.mirrored());
        }
    }
}

// Many small nets.
#[test]
fn many_small_nets() {
    let mut random = Random::new(201);
    for _ in 0..300 {
        for shape in SHAPES {
            taken(&net(random.between(4, 14) as u8, shape, &mut random));
        }
        let choices: Vec<u8> = (0..random.below(60))
            .map(|_| random.number() as u8)
            .collect();
        taken(&net_by(&choices));
    }
}

// Where a list begins doesn't matter but for vertex 1, whose first neighbour is point 2.
#[test]
fn where_lists_begin() {
    let net = net(9, Shape::Turned, &mut Random::new(202));
    let imported = import(&net.bytes()).unwrap();
    for vertex in 0..9 {
        for steps in 1..net.lists[vertex].len() {
            let mut turned = net.clone();
            turned.lists[vertex].rotate_left(steps);
            let other = import(&turned.bytes()).unwrap();
            assert_eq!(other == imported, vertex > 0);
            is_the_net(&other, &net);
        }
    }
}

/// The answer's number, at place 0.
fn refused(file: &[u8]) -> u16 {
    let Refusal { number, place } = import(file).unwrap_err();
    assert_eq!(place, 0);
    number
}

// Each condition broken, and mirrored: 15, and 14 if a byte is missing or left over.
#[test]
fn faulty_nets_give_15() {
    let mut random = Random::new(203);
    for n in (10..=60).chain([128, 255]) {
        for fault in FAULTS {
            let net = faulty_net(n, fault, &mut random);
            let bytes = net.bytes();
            assert_eq!(refused(&bytes), 15);
            assert_eq!(refused(&net.mirrored().bytes()), 15);
            assert_eq!(refused(&bytes[..bytes.len() - 1]), 14);
            assert_eq!(refused(&[&bytes[..], &[0]].concat()), 14);
        }
    }
}

// "14, wrong opening characters, n out of range, a neighbour above n, missing bytes or bytes left over"
#[test]
fn broken_files_give_14() {
    let bytes = net(7, Shape::Turned, &mut Random::new(204)).bytes();
    for length in 0..bytes.len() {
        assert_eq!(refused(&bytes[..length]), 14);
    }
    for at in 0..15 {
        let mut changed = bytes.clone();
        changed[at] ^= 0x20;
        assert_eq!(refused(&changed), 14);
    }
    for n in (0..7).chain(8..=255) {
        let mut changed = bytes.clone();
        changed[15] = n;
        assert_eq!(refused(&changed), 14);
    }
    for at in (16..bytes.len()).filter(|&at| bytes[at] > 0) {
        for above in 8..=255 {
            let mut changed = bytes.clone();
            changed[at] = above;
            assert_eq!(refused(&changed), 14);
        }
    }
}

// "If either buffer is too short, 24 comes after all other tests."
#[test]
fn short_buffers_give_24() {
    let bytes = net(6, Shape::Turned, &mut Random::new(205)).bytes();
    let Imported { order, vertices } = import(&bytes).unwrap();
    for order_room in 0..order.len() + 3 {
        for list_room in 0..vertices.len() + 3 {
            let (mut out, mut list) = (vec![0xAA; order_room], vec![0xAA; list_room]);
            let answer = import_into(&bytes, &mut out, &mut list);
            if order_room < order.len() || list_room < vertices.len() {
                assert_eq!(answer, Err(Refusal::new(24, 0)));
                assert!(out.iter().chain(&list).all(|&byte| byte == 0xAA));
            } else {
                assert_eq!(answer, Ok(order.len()));
                assert!(out.starts_with(&order) && list.starts_with(&vertices));
                let after = out[order.len()..].iter().chain(&list[vertices.len()..]);
                assert!(after.copied().all(|byte| byte == 0xAA));
            }
        }
    }
    let mut broken = bytes;
    broken.swap(16, 17);
    assert_eq!(
        import_into(&broken, &mut [], &mut []),
        Err(Refusal::new(15, 0))
    );
}

// The files of examples/planar_code.
#[test]
fn stored_files() {
    for example in examples() {
        if example.is_taken() {
            taken(&read(&example.bytes).unwrap());
        } else {
            assert_eq!(refused(&example.bytes), 15, "{}", example.name);
        }
    }
}
