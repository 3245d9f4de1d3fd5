//! Nets that aren't taken and damaged files: both sides give 14 or 15 alike, or take the same.

use second::generate::faulty_nets::{faulty_net, FAULTS};
use second::generate::nets::{all_orders_of_lists, net, Shape, SHAPES};
use second::generate::Random;
use second::planar_code::OPENING;

use crate::planar_code::{agree, refused};
use crate::tally::once;

// Each condition broken, and mirrored: 15; the torus of seven points beside a triangle, the smallest that
// isn't connected, is among them. With a byte missing or left over 14 comes first.
#[test]
fn faulty_nets() {
    once("nets, each condition broken", |tally| {
        for round in 0..tally.rounds(4) {
            let mut random = Random::new(157_000 + round);
            for n in (10..=40).chain([100, 255]) {
                for fault in FAULTS {
                    let net = faulty_net(n, fault, &mut random);
                    let file = net.bytes();
                    refused(&file, 15, tally);
                    refused(&net.mirrored().bytes(), 15, tally);
                    refused(&file[..file.len() - 1], 14, tally);
                    refused(&[&file[..], &[0]].concat(), 14, tally);
                }
            }
        }
    });
}

// Lists in every order: all but two give 15.
#[test]
fn lists_in_every_order() {
    let what = "nets, lists in every order for up to 6 vertices";
    once(what, |tally| {
        for (n, shape) in [(4, Shape::Row), (5, Shape::Row), (6, Shape::Strip)] {
            let net = net(n, shape, &mut Random::new(165_000));
            let mut accepted = 0;
            for other in all_orders_of_lists(&net) {
                let file = other.bytes();
                agree(&file, tally);
                accepted += usize::from(panel::import(&file).is_ok());
            }
            assert_eq!(accepted, 2);
        }
    });
}

// Every two neighbours of a list exchanged, each neighbour left out, named twice, or its list's own vertex.
#[test]
fn lists_changed() {
    once("nets, lists changed for up to 12 vertices", |tally| {
        for n in 4..=12 {
            let net = net(n, Shape::Turned, &mut Random::new(158_000 + u64::from(n)));
            for vertex in 0..net.lists.len() {
                for one in 0..net.lists[vertex].len() {
                    for changed in changed_lists(&net.lists[vertex], one, vertex as u8 + 1) {
                        let mut other = net.clone();
                        other.lists[vertex] = changed;
                        agree(&other.bytes(), tally);
                    }
                }
            }
        }
    });
}

/// A vertex's list changed in several ways at an index.
fn changed_lists(list: &[u8], at: usize, own: u8) -> Vec<Vec<u8>> {
    let changed = |change: &dyn Fn(&mut Vec<u8>)| {
        let mut list = list.to_vec();
        change(&mut list);
        list
    };
    let mut lists = vec![
        changed(&|list| {
            list.remove(at);
        }),
        changed(&|list| list.insert(at, own)),
        changed(&|list| list[at] = own),
        changed(&|list| list.rotate_left(at)),
        changed(&|list| list.reverse()),
    ];
    for other in 0..list.len() {
        lists.push(changed(&|list| list.swap(at, other)));
        lists.push(changed(&|list| list.insert(at, list[other])));
        lists.push(changed(&|list| list[at] = list[other]));
    }
    lists
}

// A list that goes round twice or more names the same neighbours in the same order, but each twice.
#[test]
fn lists_that_go_round_twice() {
    once("nets, lists that go round twice or more", |tally| {
        for n in (4..=20).chain([100, 255]) {
            let net = net(n, Shape::Turned, &mut Random::new(164_000 + u64::from(n)));
            for vertex in 0..net.lists.len() {
                let mut other = net.clone();
                other.lists[vertex] = net.lists[vertex].repeat(2);
                refused(&other.bytes(), 15, tally);
            }
            for times in [2, 3, 50] {
                let mut other = net.clone();
                let lists = other.lists.iter_mut();
                lists.for_each(|list| *list = list.repeat(times));
                refused(&other.bytes(), 15, tally);
            }
        }
    });
}

/// A net of each shape and size.
fn files(sizes: &[u8], seed: u64) -> Vec<Vec<u8>> {
    let each = |&n: &u8| SHAPES.map(|shape| net(n, shape, &mut Random::new(seed + u64::from(n))));
    sizes.iter().flat_map(each).map(|net| net.bytes()).collect()
}

// Each byte changed to every other value.
#[test]
fn each_byte_changed() {
    let what = "nets, each byte to every other value for up to 7 vertices";
    once(what, |tally| {
        for file in files(&[4, 5, 6, 7], 159_000) {
            for at in 0..file.len() {
                for change in 1..=u8::MAX {
                    let mut changed = file.clone();
                    changed[at] ^= change;
                    agree(&changed, tally);
                }
            }
        }
    });
}

// Cut short at every length, and bytes added: 14.
#[test]
fn cut_short_and_bytes_added() {
    once("nets, every shorter length and bytes added", |tally| {
        for file in files(&[4, 5, 6, 8, 20, 60], 160_000) {
            for length in 0..file.len() {
                refused(&file[..length], 14, tally);
            }
            for tail in [&[0][..], &[1], &[0xFF; 3], &file, &file[15..]] {
                refused(&[&file, tail].concat(), 14, tally);
            }
        }
    });
}

// Other opening characters, and every n.
#[test]
fn openings_and_every_n() {
    once("nets, other openings and every n", |tally| {
        for file in files(&[4, 5, 9], 161_000) {
            for opening in [
                &b""[..],
                b">",
                b">>planar_code<",
                b">>planar_code le<<",
                b">>edge_code<<",
            ] {
                refused(&[opening, &file[15..]].concat(), 14, tally);
            }
            for n in 0..=u8::MAX {
                let mut changed = file.clone();
                changed[15] = n;
                agree(&changed, tally);
                agree(&[&OPENING[..], &[n]].concat(), tally);
                agree(&[&OPENING[..], &[n], &vec![0; n.into()]].concat(), tally);
            }
        }
    });
}

/// A file of n lists of so many entries, which go through the vertices over and over.
fn long_lists(n: u8, entries: usize) -> Vec<u8> {
    let mut file = [&OPENING[..], &[n]].concat();
    for vertex in 0..usize::from(n) {
        let others = (0..entries).map(|at| ((vertex + 1 + at) % usize::from(n)) as u8 + 1);
        file.extend(others);
        file.push(0);
    }
    file
}

// Lists much longer than any net has, and files of up to two million bytes.
#[test]
fn long_lists_and_long_files() {
    once("nets, long lists and long files", |tally| {
        for n in [4, 5, 7, 16, 254, 255] {
            for entries in [n.into(), 253, 254, 255, 256, 257, 1000, 8192] {
                let file = long_lists(n, entries);
                refused(&file[..file.len() - 1], 14, tally);
                refused(&[&file[..], &[0]].concat(), 14, tally);
                refused(&file, 15, tally);
            }
        }
        for file in files(&[4, 255], 162_000) {
            for length in [1789, 32_768, 65_536, 200_000] {
                refused(&[&file[..], &vec![1; length]].concat(), 14, tally);
            }
        }
    });
}

/// The file with damage of a random kind at random places behind the opening.
fn damaged(file: &[u8], random: &mut Random) -> Vec<u8> {
    let mut changed = file.to_vec();
    let places = [(); 3].map(|()| random.between(16, file.len() - 1));
    let [one, two, three] = places;
    match random.below(6) {
        0 => changed.swap(one, two),
        1 => changed.swap(one, (one + 1).min(file.len() - 1)),
        2 => {
            changed.remove(one);
        }
        3 => changed.insert(one, file[two]),
        4 => places.iter().for_each(|&at| changed[at] = file[three]),
        _ => changed[one] = random.number() as u8,
    }
    changed
}

// Random damage to nets of all sizes.
#[test]
fn random_damage() {
    once("nets, random damage for up to 255 vertices", |tally| {
        for (index, file) in files(&[4, 6, 9, 20, 60, 128, 255], 163_000)
            .iter()
            .enumerate()
        {
            let mut random = Random::new(163_000 + index as u64);
            for _ in 0..tally.rounds(500) {
                agree(&damaged(file, &mut random), tally);
            }
        }
    });
}
