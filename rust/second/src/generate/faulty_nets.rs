//! Nets for tests that aren't taken, each condition in turn.

use super::nets::{from_faces, net, Shape};
use super::Random;
use crate::planar_code::Net;

/// The condition that fails, and in what way.
#[derive(Clone, Copy, Debug, PartialEq, Eq)]
pub enum Fault {
    /// "no list names its own vertex"
    OwnVertex,
    /// "or one vertex twice": a line is turned to where there is one already.
    Doubled,
    /// The same, and nothing else: two nets that would be taken share a vertex. Its list goes round the one
    /// and then the other, and names a neighbour in each three times more, so that all lists together have
    /// as many names as those of a net that is taken.
    Shared,
    /// "every line stands in both lists": one list lacks a neighbour.
    LeftOut,
    /// The same: one list names another vertex in the place of a neighbour.
    Replaced,
    /// "all is connected", and nothing else: a torus beside a net that would be taken.
    Apart,
    /// "there are 3n - 6 lines", and nothing else: a torus, which has 3n.
    LineCount,
    /// "every face has three sides", and nothing else: two neighbours are exchanged.
    Face,
}

/// All of them.
pub const FAULTS: [Fault; 8] = [
    Fault::OwnVertex,
    Fault::Doubled,
    Fault::Shared,
    Fault::LeftOut,
    Fault::Replaced,
    Fault::Apart,
    Fault::LineCount,
    Fault::Face,
];

/// A net of n vertices, n from 10 to 255, with a fault; else as [`net`] makes them.
pub fn faulty_net(n: u8, fault: Fault, random: &mut Random) -> Net {
    match fault {
        Fault::Apart => apart(n, random).mixed(random),
        Fault::Shared => shared(n, random).renumbered(random),
        Fault::LineCount => {
            let mut net = torus();
            net.grow(n, random);
            net.mixed(random)
        }
        Fault::Doubled => {
            let mut net = net(n, Shape::Stacked, random);
            net.double_line(random);
            net
        }
        Fault::OwnVertex | Fault::LeftOut | Fault::Replaced | Fault::Face => {
            let mut net = net(n, Shape::Turned, random);
            net.spoil_list(fault, random);
            net
        }
    }
}

/// A torus of some of the vertices beside a net of the others.
fn apart(n: u8, random: &mut Random) -> Net {
    let on_torus = random.between(7, usize::from(n) - 3) as u8;
    let mut net = torus();
    net.grow(on_torus, random);
    net.lists.extend(small(n - on_torus, on_torus, random));
    net
}

/// Two nets that share vertex 1.
fn shared(n: u8, random: &mut Random) -> Net {
    let in_one = random.between(3, usize::from(n) - 2) as u8;
    let mut lists = small(in_one, 0, random);
    let mut others = small(n + 1 - in_one, in_one - 1, random);
    for neighbour in others.iter_mut().flatten() {
        if *neighbour == in_one {
            *neighbour = 1;
        }
    }
    let round = |list: &[u8]| [list, &[list[0]; 3]].concat();
    lists[0] = [round(&lists[0]), round(&others[0])].concat();
    lists.extend(others.drain(1..));
    Net { lists }
}

/// The lists of a net of n vertices, n at least 3, each number raised by as much.
fn small(n: u8, raised: u8, random: &mut Random) -> Vec<Vec<u8>> {
    let mut net = from_faces(&[[1, 2, 3], [1, 3, 2]]);
    net.grow(n, random);
    let numbers = net.lists.iter_mut().flatten();
    numbers.for_each(|number| *number += raised);
    net.lists
}

/// Seven vertices on a torus, each joined to all others; every face has three sides.
fn torus() -> Net {
    let on = |v: u8, step: u8| (v - 1 + step) % 7 + 1;
    let faces = (1..=7).flat_map(|v| [[v, on(v, 1), on(v, 3)], [v, on(v, 3), on(v, 2)]]);
    from_faces(&faces.collect::<Vec<_>>())
}

impl Net {
    /// Turns a random line whose other two corners are joined already. A stacked net has some: all lines of
    /// the vertex that came last.
    fn double_line(&mut self, random: &mut Random) {
        let mut sides: Vec<(u8, u8)> = self.ends().collect();
        let start = random.below(sides.len());
        sides.rotate_left(start);
        let found = sides.into_iter().find(|&(v, w)| {
            let [one, two] = self.beside(v, w);
            self.neighbours(one).contains(&two)
        });
        let (v, w) = found.expect("a stacked net");
        self.turn_anyway(v, w);
    }

    /// Puts a random vertex into its own list, takes a neighbour out of its list, replaces one by a vertex
    /// that is none, or exchanges two.
    fn spoil_list(&mut self, fault: Fault, random: &mut Random) {
        let (vertex, stranger) = self.random_strangers(random);
        let list = &mut self.lists[usize::from(vertex) - 1];
        let at = random.below(list.len());
        let next = (at + 1) % list.len();
        match fault {
            Fault::OwnVertex => list.insert(at, vertex),
            Fault::LeftOut => {
                list.remove(at);
            }
            Fault::Replaced => list[at] = stranger,
            _ => list.swap(at, next),
        }
    }

    /// Two vertices that aren't joined, at random.
    fn random_strangers(&self, random: &mut Random) -> (u8, u8) {
        let [v, w] = [(); 2].map(|()| random.between(1, self.lists.len()) as u8);
        if v == w || self.neighbours(v).contains(&w) {
            return self.random_strangers(random);
        }
        (v, w)
    }
}

#[cfg(test)]
mod tests {
    use super::*;

    /// The conditions that fail; faces are asked only where every line stands in both lists.
    fn failing(net: &Net) -> Vec<&'static str> {
        let both_lists = net.is_in_both_lists();
        let conditions = [
            ("names", net.names_others_once()),
            ("both lists", both_lists),
            ("connected", net.is_connected()),
            ("line count", net.has_3n_minus_6_lines()),
            ("faces", !both_lists || net.has_faces_of_three()),
        ];
        let failing = conditions.into_iter().filter(|(_, holds)| !holds);
        failing.map(|(name, _)| name).collect()
    }

    // Each fault fails its own condition; most fail no other.
    #[test]
    fn faults_are_what_they_say() {
        let mut random = Random::new(4);
        for n in (10..60).chain([255]) {
            for fault in FAULTS {
                let net = faulty_net(n, fault, &mut random);
                assert!(net.n() == n && !net.is_taken());
                let expected: &[&str] = match fault {
                    Fault::OwnVertex => &["names", "line count", "faces"],
                    Fault::Doubled => &["names", "faces"],
                    Fault::Shared => &["names"],
                    Fault::LeftOut => &["both lists", "line count"],
                    Fault::Replaced => &["both lists"],
                    Fault::Apart => &["connected"],
                    Fault::LineCount => &["line count"],
                    Fault::Face => &["faces"],
                };
                assert_eq!(failing(&net), expected, "{fault:?} in {net:?}");
            }
        }
    }

    // The torus has seven vertices, each joined to the six others.
    #[test]
    fn seven_vertices_on_the_torus() {
        let torus = torus();
        assert!(torus.lists.len() == 7 && torus.lists.iter().all(|list| list.len() == 6));
        assert_eq!(failing(&torus), ["line count"]);
    }
}
