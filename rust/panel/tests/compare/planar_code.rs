//! Nets in planar_code on both sides, and what is imported drawn in both styles.

#[path = "../../../second/tests/stored/mod.rs"]
mod stored;

use std::collections::BTreeSet;

use second::generate::nets::{net, net_by, Shape, SHAPES};
use second::generate::{record_places, Random};
use second::planar_code::{read, Imported, Net};
use second::STYLES;

use crate::import::{compare_import, Answer, Room, ENOUGH};
use crate::promise::keeps_the_promise;
use crate::proved::proved;
use crate::shrink::{keeps, list_keeps, Kept};
use crate::tally::{once, Tally};

/// The answer of both sides with room enough; the library gives the same in vectors.
fn same(file: &[u8]) -> Result<Answer, String> {
    let answer = compare_import(file, &[ENOUGH])?;
    let vectors = panel::import(file).map(|made| Imported {
        order: made.order,
        vertices: made.vertices,
    });
    if vectors != answer {
        return Err(format!(
            "in vectors\n  proved: {vectors:?}\n  second: {answer:?}"
        ));
    }
    Ok(answer)
}

/// Both sides agree on the bytes, one case more.
pub fn agree(file: &[u8], tally: &mut Tally) {
    list_keeps(file, |file| same(file).map(|_| ()));
    tally.count();
}

/// Both sides refuse the bytes with a number at place 0, one case more.
pub fn refused(file: &[u8], number: u16, tally: &mut Tally) {
    agree(file, tally);
    let refusal = panel::Refusal { number, place: 0 };
    assert_eq!(panel::import(file), Err(refusal), "for {file:02x?}");
}

/// The lines of a drawing file by the vertices of their ends, the lower first.
fn lines_by_vertices(drawing: &[u8], vertices: &[u8]) -> Vec<(u8, u8)> {
    let point = |at: usize| usize::from(u16::from_be_bytes([drawing[at], drawing[at + 1]]));
    let lines = record_places(drawing).split_off(vertices.len() + 1);
    let (_, lines) = lines.split_last().expect("an end record");
    let ends = lines
        .iter()
        .map(|line| [line + 2, line + 4].map(|at| vertices[point(at) - 1]));
    ends.map(|[v, w]| (v.min(w), v.max(w))).collect()
}

/// The library draws what was imported in both styles; its lines join exactly the vertices that the net
/// joins, each once, and every vertex is listed once. Up to 60 points the promise is tried.
fn drawn_as_joined(net: &Net, imported: &Imported) -> Kept {
    let listed: BTreeSet<u8> = imported.vertices.iter().copied().collect();
    if !listed.into_iter().eq(1..=net.n()) {
        return Err("the list isn't all vertices".into());
    }
    let joined = net.ends().filter(|(v, w)| v < w);
    let joined: BTreeSet<(u8, u8)> = joined.collect();
    for style in STYLES {
        let drawing = (proved(style).draw)(&imported.order);
        let drawing = drawing.map_err(|refusal| format!("{style:?}: {refusal}"))?;
        let mut lines = lines_by_vertices(&drawing, &imported.vertices);
        lines.sort();
        if !lines.iter().eq(&joined) {
            return Err(format!("{style:?}: other lines than the net's"));
        }
        if net.n() <= 60 {
            keeps_the_promise(style, &drawing)?;
        }
    }
    Ok(())
}

/// Both sides take the file, and what they write is its net, one case more.
fn taken(file: &[u8], tally: &mut Tally) {
    let kept = || {
        let imported = same(file)?.map_err(|refusal| refusal.to_string())?;
        let net = read(file).map_err(|refusal| refusal.to_string())?;
        drawn_as_joined(&net, &imported)
    };
    keeps(kept().map_err(|why: String| format!("{why}\n  for {file:02x?}")));
    tally.count();
}

// The files of examples/planar_code, from nauty's planarg for the most part.
#[test]
fn stored_files() {
    once("nets, the files of examples/planar_code", |tally| {
        for example in stored::examples() {
            if example.is_taken() {
                taken(&example.bytes, tally);
            } else {
                refused(&example.bytes, 15, tally);
            }
        }
    });
}

// The files of the worked cases of request 4, which the second implementation answers as they say.
#[test]
fn worked_cases() {
    let text = include_str!("../../../second/tests/vectors-requests.txt");
    let rows = text
        .lines()
        .filter_map(|line| line.strip_prefix("  in    "));
    let files = rows.filter(|digits| digits.starts_with("3e3e706c616e6172"));
    let byte = |two: &[u8]| u8::from_str_radix(str::from_utf8(two).unwrap(), 16).unwrap();
    let files: Vec<Vec<u8>> = files
        .map(|digits| digits.as_bytes().chunks(2).map(byte).collect())
        .collect();
    assert_eq!(files.len(), 25);
    once("nets, the worked cases of request 4", |tally| {
        for file in &files {
            agree(file, tally);
            keeps(compare_import(file, &rooms(4)).map(|_| ()));
        }
    });
}

/// Random nets of every shape and mirrored, so many of each, of the sizes that `size` gives.
fn random_nets(what: &str, seed: u64, count: u64, size: impl Fn(&mut Random) -> usize) {
    once(what, |tally| {
        for round in 0..tally.rounds(count) {
            let mut random = Random::new(seed + round);
            for shape in SHAPES {
                let net = net(size(&mut random) as u8, shape, &mut random);
                taken(&net.bytes(), tally);
                taken(&net.mirrored().bytes(), tally);
            }
        }
    });
}

// Many small ones.
#[test]
fn random_nets_of_up_to_20_vertices() {
    let what = "nets, random ones of up to 20 vertices";
    random_nets(what, 150_000, 500, |random| random.between(4, 20));
}

// Some of middle size.
#[test]
fn random_nets_of_up_to_254_vertices() {
    let what = "nets, random ones of 21 to 254 vertices";
    random_nets(what, 151_000, 60, |random| random.between(21, 254));
}

// The largest.
#[test]
fn random_nets_of_255_vertices() {
    let what = "nets, random ones of 255 vertices";
    random_nets(what, 152_000, 15, |_| 255);
}

// Nets that bytes choose, as the fuzzer does, with lists that begin where they were made.
#[test]
fn nets_that_bytes_choose() {
    once("nets, those that bytes choose", |tally| {
        for round in 0..tally.rounds(300) {
            let mut random = Random::new(153_000 + round);
            let count = random.below(300);
            let choices: Vec<u8> = (0..count).map(|_| random.number() as u8).collect();
            taken(&net_by(&choices).bytes(), tally);
        }
    });
}

/// Lengths around a needed one: exactly, one short, none, one, and more.
fn lengths(needed: usize) -> [usize; 5] {
    [needed, needed - 1, 0, 1, needed + 7]
}

/// Buffers around what a net of n vertices needs, each with each.
fn rooms(n: usize) -> Vec<Room> {
    let each = |order| lengths(n).map(|vertices| Room { order, vertices });
    let order = lengths(panel::imported_length(n));
    order.into_iter().flat_map(each).collect()
}

// Short, exact and longer buffers, each with each: 24 for the order file before 24 for the vertices.
#[test]
fn short_and_longer_buffers() {
    once("nets, short and longer buffers", |tally| {
        let mut random = Random::new(154_000);
        for n in (4..=40).chain([127, 128, 254, 255]) {
            for shape in SHAPES {
                let file = net(n, shape, &mut random).bytes();
                keeps(compare_import(&file, &rooms(n.into())).map(|_| ()));
                tally.count();
            }
        }
    });
}

// Buffers of every length up to three more than is needed, each with each.
#[test]
fn buffers_of_all_lengths() {
    let what = "nets, buffers of all lengths for up to 6 vertices";
    once(what, |tally| {
        let mut random = Random::new(155_000);
        for n in 4..=6 {
            let file = net(n, Shape::Turned, &mut random).bytes();
            let n = usize::from(n);
            for order in 0..panel::imported_length(n) + 4 {
                let rooms = (0..n + 4).map(|vertices| Room { order, vertices });
                let rooms: Vec<Room> = rooms.collect();
                keeps(compare_import(&file, &rooms).map(|_| ()));
                tally.count();
            }
        }
    });
}

// 14 and 15 come before 24, and leave buffers of every sort.
#[test]
fn refused_files_and_short_buffers() {
    once("nets, refused files and short buffers", |tally| {
        let file = net(6, Shape::Turned, &mut Random::new(156_000)).bytes();
        for at in 0..file.len() {
            for change in [1, 2, 3, 7, 0x80] {
                let mut wrong = file.clone();
                wrong[at] ^= change;
                let kept = compare_import(&wrong, &rooms(6)).map(|_| ());
                keeps(kept.map_err(|why| format!("{why}\n  for {wrong:02x?}")));
                tally.count();
            }
        }
    });
}
