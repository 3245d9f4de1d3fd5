//! Nets for tests: random ones from fixed seeds, and regular families.

use super::Random;
use crate::planar_code::{Net, OPENING};

/// How a net is made.
#[derive(Clone, Copy, Debug, PartialEq, Eq)]
pub enum Shape {
    /// A vertex is put into a face, over and over.
    Stacked,
    /// The same, and then lines are turned at random.
    Turned,
    /// Two hubs that aren't joined, each joined to every vertex of a ring.
    DoubleWheel,
    /// Two hubs that are joined, each joined to every vertex of a row.
    Row,
    /// Rings of three vertices, each ring in the next one as in the octahedron.
    Strip,
}

/// All of them.
pub const SHAPES: [Shape; 5] = [
    Shape::Stacked,
    Shape::Turned,
    Shape::DoubleWheel,
    Shape::Row,
    Shape::Strip,
];

/// A net of n vertices, n from 4 to 255, that is taken. Its vertices are numbered at random, its lists
/// begin at random, and one of two is mirrored.
pub fn net(n: u8, shape: Shape, random: &mut Random) -> Net {
    let mut net = match shape {
        Shape::Stacked | Shape::Turned => from_faces(&[[1, 2, 3], [1, 3, 2]]),
        Shape::DoubleWheel if n > 4 => double_wheel(n),
        Shape::Row | Shape::DoubleWheel => row(n),
        Shape::Strip => strip(n / 3),
    };
    net.grow(n, random);
    if shape == Shape::Turned {
        for _ in 0..random.below(6 * usize::from(n)) {
            let (v, w) = net.random_side(random);
            net.turn(v, w);
        }
    }
    net.mixed(random)
}

/// The net that bytes choose, of up to 255 vertices: two bytes for each step, which puts a vertex into a
/// face or turns a line.
pub fn net_by(choices: &[u8]) -> Net {
    let mut net = from_faces(&[[1, 2, 3], [1, 3, 2]]);
    net.insert(1, 2);
    for choice in choices.chunks_exact(2) {
        let [vertex, index] = [choice[0], choice[1] >> 1].map(usize::from);
        let list = &net.lists[vertex % net.lists.len()];
        let v = (vertex % net.lists.len()) as u8 + 1;
        let w = list[index % list.len()];
        if choice[1] % 2 == 1 {
            net.turn(v, w);
        } else if net.n() < u8::MAX {
            net.insert(v, w);
        }
    }
    net
}

/// Every net with the same neighbours of each vertex and the same first neighbour, in every order of the
/// others.
pub fn all_orders_of_lists(net: &Net) -> Vec<Net> {
    let mut nets = vec![Net { lists: Vec::new() }];
    for list in &net.lists {
        let lists = all_orders_of(&list[1..]);
        let with = |net: &Net, rest: &Vec<u8>| {
            let mut net = net.clone();
            net.lists.push([&list[..1], rest].concat());
            net
        };
        let longer = |net| lists.iter().map(move |rest| with(net, rest));
        nets = nets.iter().flat_map(longer).collect();
    }
    nets
}

/// A list in every order.
fn all_orders_of(list: &[u8]) -> Vec<Vec<u8>> {
    if list.is_empty() {
        return vec![Vec::new()];
    }
    let mut orders = Vec::new();
    for at in 0..list.len() {
        let others = [&list[..at], &list[at + 1..]].concat();
        for rest in all_orders_of(&others) {
            orders.push([&list[at..=at], &rest].concat());
        }
    }
    orders
}

/// The net that has these faces, each by its vertices in turn, so that each side of a line is a side of
/// one face: the first vertex of a face lists the third next after the second.
pub(super) fn from_faces(faces: &[[u8; 3]]) -> Net {
    let mut listed_after = [[0; 256]; 256];
    for &[a, b, c] in faces {
        for [v, w, next] in [[a, b, c], [b, c, a], [c, a, b]] {
            listed_after[usize::from(v)][usize::from(w)] = next;
        }
    }
    let n = faces.iter().flatten().copied().max().unwrap_or(0);
    let lists = listed_after[1..=usize::from(n)].iter().map(|after| {
        let first = after.iter().copied().find(|&w| w > 0).unwrap_or(0);
        let mut list = vec![first];
        let mut next = after[usize::from(first)];
        while next != first {
            list.push(next);
            next = after[usize::from(next)];
        }
        list
    });
    Net {
        lists: lists.collect(),
    }
}

/// Hubs 1 and 2, and the ring 3, .., n; n at least 5.
fn double_wheel(n: u8) -> Net {
    let next = |v: u8| if v == n { 3 } else { v + 1 };
    let faces = (3..=n).flat_map(|v| [[1, v, next(v)], [2, next(v), v]]);
    from_faces(&faces.collect::<Vec<_>>())
}

/// Hubs 1 and 2, and the row 3, .., n; n at least 4.
fn row(n: u8) -> Net {
    let inner = (3..n).flat_map(|v| [[1, v, v + 1], [2, v + 1, v]]);
    let faces = inner.chain([[1, n, 2], [1, 2, 3]]);
    from_faces(&faces.collect::<Vec<_>>())
}

/// So many rings of three, at least one.
fn strip(rings: u8) -> Net {
    let at = |ring: u8, i: u8| 3 * ring + i % 3 + 1;
    let mut faces = vec![[1, 2, 3]];
    for ring in 1..rings {
        for i in 0..3 {
            let [a, next_a] = [i, i + 1].map(|i| at(ring - 1, i));
            let [b, next_b] = [i, i + 1].map(|i| at(ring, i));
            faces.extend([[next_a, a, b], [next_a, b, next_b]]);
        }
    }
    let last = rings - 1;
    faces.push([at(last, 0), at(last, 2), at(last, 1)]);
    from_faces(&faces)
}

impl Net {
    /// The file: the opening characters, n, "then for each vertex its neighbours in clockwise order, one
    /// byte each, ended by 0".
    pub fn bytes(&self) -> Vec<u8> {
        let mut bytes = [&OPENING[..], &[self.n()]].concat();
        for list in &self.lists {
            bytes.extend(list);
            bytes.push(0);
        }
        bytes
    }

    /// The net seen from behind: every list the other way.
    pub fn mirrored(mut self) -> Net {
        self.lists.iter_mut().for_each(|list| list.reverse());
        self
    }

    /// The net with its vertices numbered at random, each list begun at random, and perhaps mirrored.
    pub(super) fn mixed(self, random: &mut Random) -> Net {
        let mut net = self.renumbered(random);
        for list in &mut net.lists {
            let start = random.below(list.len());
            list.rotate_left(start);
        }
        match random.below(2) {
            0 => net,
            _ => net.mirrored(),
        }
    }

    /// The net with its vertices numbered at random.
    pub(super) fn renumbered(self, random: &mut Random) -> Net {
        let mut numbers: Vec<u8> = (1..=self.n()).collect();
        for last in (1..numbers.len()).rev() {
            numbers.swap(last, random.below(last + 1));
        }
        let number = |v: u8| numbers[usize::from(v) - 1];
        let mut net = self.clone();
        for (list, v) in self.lists.into_iter().zip(1..) {
            let renamed = list.into_iter().map(number).collect();
            net.lists[usize::from(number(v)) - 1] = renamed;
        }
        net
    }

    /// A vertex and one of its neighbours, at random.
    fn random_side(&self, random: &mut Random) -> (u8, u8) {
        let v = random.between(1, self.lists.len()) as u8;
        let list = self.neighbours(v);
        (v, list[random.below(list.len())])
    }

    /// Puts vertices into random faces until there are n.
    pub(super) fn grow(&mut self, n: u8, random: &mut Random) {
        while self.n() < n {
            let (v, w) = self.random_side(random);
            self.insert(v, w);
        }
    }

    /// Puts a new vertex into the face of v, its neighbour w, and the one that is listed next.
    fn insert(&mut self, v: u8, w: u8) {
        let x = self.listed_after(v, w);
        let new = self.n() + 1;
        self.list_after(v, w, new);
        self.list_after(w, x, new);
        self.list_after(x, v, new);
        self.lists.push(vec![v, w, x]);
    }

    /// Lists a new neighbour of a vertex next after another one.
    fn list_after(&mut self, vertex: u8, neighbour: u8, new: u8) {
        let list = &mut self.lists[usize::from(vertex) - 1];
        let at = list.iter().position(|&w| w == neighbour);
        list.insert(at.expect("a neighbour") + 1, new);
    }

    /// The third vertices of the two faces of a line.
    pub(super) fn beside(&self, v: u8, w: u8) -> [u8; 2] {
        [self.listed_after(w, v), self.listed_after(v, w)]
    }

    /// Turns a line: its two faces become one of four sides, and the line now joins the other two corners.
    /// Nothing changes if these are joined already.
    fn turn(&mut self, v: u8, w: u8) {
        let [one, two] = self.beside(v, w);
        if !self.neighbours(one).contains(&two) {
            self.turn_anyway(v, w);
        }
    }

    /// The same, also if they are joined.
    pub(super) fn turn_anyway(&mut self, v: u8, w: u8) {
        let [one, two] = self.beside(v, w);
        self.list_after(one, w, two);
        self.list_after(two, v, one);
        self.lists[usize::from(v) - 1].retain(|&x| x != w);
        self.lists[usize::from(w) - 1].retain(|&x| x != v);
    }
}

#[cfg(test)]
mod tests {
    use super::*;

    // The same seed gives the same net, and other seeds give other nets.
    #[test]
    fn seeds_decide() {
        let make = |seed| net(30, Shape::Turned, &mut Random::new(seed)).bytes();
        assert_eq!(make(5), make(5));
        assert_ne!(make(5), make(6));
    }

    // The regular families as they are before their vertices are mixed: the lines at each vertex.
    #[test]
    fn lines_at_each_vertex() {
        let degrees = |net: Net| net.lists.iter().map(Vec::len).collect::<Vec<usize>>();
        assert_eq!(degrees(double_wheel(7)), [5, 5, 4, 4, 4, 4, 4]);
        assert_eq!(degrees(row(7)), [6, 6, 3, 4, 4, 4, 3]);
        assert_eq!(degrees(strip(2)), [4; 6]);
        assert_eq!(degrees(strip(4)), [4, 4, 4, 6, 6, 6, 6, 6, 6, 4, 4, 4]);
    }

    // Every shape and n: n lists, and a file of 7n + 4 bytes; the mirrored net is taken too.
    #[test]
    fn all_shapes_are_taken() {
        for shape in SHAPES {
            for n in 4..=255 {
                let net = net(n, shape, &mut Random::new(n.into()));
                assert!(net.n() == n && net.is_taken());
                assert_eq!(net.bytes().len(), 7 * usize::from(n) + 4);
                assert!(net.mirrored().is_taken());
            }
        }
    }

    // Turning lines makes nets that putting vertices into faces can't: without a vertex of three lines, as
    // the octahedron.
    #[test]
    fn lines_are_turned() {
        let fewest = |net: Net| net.lists.iter().map(Vec::len).min();
        let made = |shape| move |seed| fewest(net(6, shape, &mut Random::new(seed)));
        assert!((0..200).map(made(Shape::Stacked)).all(|few| few == Some(3)));
        assert!((0..200).map(made(Shape::Turned)).any(|few| few > Some(3)));
    }

    // A net that is taken is so seen from the front and from behind, and with its lists in no other order.
    #[test]
    fn two_orders_of_lists_are_taken() {
        let taken = |net: &Net| {
            let nets = all_orders_of_lists(net);
            let count = nets.iter().filter(|net| net.is_taken()).count();
            (nets.len(), count)
        };
        assert_eq!(taken(&row(4)), (16, 2));
        assert_eq!(taken(&row(5)), (864, 2));
        assert_eq!(taken(&strip(2)), (46_656, 2));
    }

    // Any bytes choose a net that is taken.
    #[test]
    fn bytes_choose_nets() {
        let mut random = Random::new(3);
        let mut largest = 0;
        for length in (0..50).chain([500, 2000, 3000]) {
            let choices: Vec<u8> = (0..length).map(|_| random.number() as u8).collect();
            let net = net_by(&choices);
            assert!(net.is_taken());
            largest = largest.max(net.n());
        }
        assert_eq!(largest, 255);
    }
}
