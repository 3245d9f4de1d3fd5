//! "Files from the graph generators": a net in planar_code becomes an order file and the list of its
//! vertices by point.

use crate::records::{put, put_out, END, ORDER_HEADER, ORDER_POINT};
use crate::refusal::{Refusal, BAD_CODE, NO_NET, OUTPUT_SHORT};

/// "the 15 characters `>>planar_code<<`"
pub const OPENING: [u8; 15] = *b">>planar_code<<";

/// "for each vertex its neighbours in clockwise order": those of file vertex v are `lists[v - 1]`.
#[derive(Clone, Debug, PartialEq, Eq)]
pub struct Net {
    pub lists: Vec<Vec<u8>>,
}

/// What a net that is taken becomes.
#[derive(Clone, Debug, PartialEq, Eq)]
pub struct Imported {
    /// "the order file, all lines plain, without a scale record"
    pub order: Vec<u8>,
    /// "the list of file vertices by point, one byte each from point 1 on"
    pub vertices: Vec<u8>,
}

/// The order file and the list of vertices of a file; "14 ... tested first; 15 ... tested after 14; place
/// 0 for both".
pub fn import(file: &[u8]) -> Result<Imported, Refusal> {
    let net = read(file)?;
    if !net.is_taken() {
        return Err(Refusal::new(NO_NET, 0));
    }
    Ok(net.numbered())
}

/// The same in two outputs; gives the number of bytes of the order file. "If either buffer is too short,
/// 24 comes after all other tests."
pub fn import_into(file: &[u8], order: &mut [u8], vertices: &mut [u8]) -> Result<usize, Refusal> {
    let imported = import(file)?;
    if order.len() < imported.order.len() || vertices.len() < imported.vertices.len() {
        return Err(Refusal::new(OUTPUT_SHORT, 0));
    }
    put_out(&imported.vertices, vertices)?;
    put_out(&imported.order, order)
}

/// "14, wrong opening characters, n out of range, a neighbour above n, missing bytes or bytes left over"
pub fn read(file: &[u8]) -> Result<Net, Refusal> {
    net_of(file).ok_or(Refusal::new(BAD_CODE, 0))
}

/// "Read one net: the 15 characters `>>planar_code<<`, one byte n from 4 to 255, then for each vertex its
/// neighbours in clockwise order, one byte each, ended by 0."
fn net_of(file: &[u8]) -> Option<Net> {
    let (&n, mut rest) = file.strip_prefix(&OPENING)?.split_first()?;
    if n < 4 {
        return None;
    }
    let mut lists = Vec::new();
    for _ in 0..n {
        let end = rest.iter().position(|&byte| byte == 0)?;
        lists.push(rest[..end].to_vec());
        rest = &rest[end + 1..];
    }
    let none_above = lists.iter().flatten().all(|&neighbour| neighbour <= n);
    (none_above && rest.is_empty()).then_some(Net { lists })
}

impl Net {
    /// n as a byte.
    pub fn n(&self) -> u8 {
        self.lists.len() as u8
    }

    /// The neighbours of a vertex, from 1 to n.
    pub fn neighbours(&self, vertex: u8) -> &[u8] {
        &self.lists[usize::from(vertex) - 1]
    }

    /// The two ends of each line as each list names it: the list's vertex, and its neighbour.
    pub fn ends(&self) -> impl Iterator<Item = (u8, u8)> + '_ {
        (1..=self.n()).flat_map(|v| self.neighbours(v).iter().map(move |&w| (v, w)))
    }

    /// "A net is taken exactly if no list names its own vertex or one vertex twice, every line stands in
    /// both lists, all is connected, there are 3n - 6 lines, and every face has three sides."
    pub fn is_taken(&self) -> bool {
        self.names_others_once()
            && self.is_in_both_lists()
            && self.is_connected()
            && self.has_3n_minus_6_lines()
            && self.has_faces_of_three()
    }

    /// "no list names its own vertex or one vertex twice"
    pub(crate) fn names_others_once(&self) -> bool {
        (1..=self.n()).all(|v| {
            let list = self.neighbours(v);
            let named = |w| list.iter().filter(|&&x| x == w).count();
            named(v) == 0 && list.iter().all(|&w| named(w) == 1)
        })
    }

    /// "every line stands in both lists"
    pub(crate) fn is_in_both_lists(&self) -> bool {
        self.ends().all(|(v, w)| self.neighbours(w).contains(&v))
    }

    /// "all is connected": every vertex is found from vertex 1 along lines.
    pub(crate) fn is_connected(&self) -> bool {
        let mut found = vec![1];
        let mut at = 0;
        while at < found.len() {
            for &w in self.neighbours(found[at]) {
                if !found.contains(&w) {
                    found.push(w);
                }
            }
            at += 1;
        }
        found.len() == self.lists.len()
    }

    /// "there are 3n - 6 lines", each of which stands in two lists.
    pub(crate) fn has_3n_minus_6_lines(&self) -> bool {
        self.ends().count() == 2 * (3 * self.lists.len() - 6)
    }

    /// "every face has three sides": three sides on from a side comes the same side.
    pub(crate) fn has_faces_of_three(&self) -> bool {
        let next = |side| self.next_side(side);
        self.ends().all(|side| next(next(next(side))) == side)
    }

    /// The side that follows the side from v to w along their face: from w to its neighbour that is listed
    /// next after v, cyclically.
    fn next_side(&self, (v, w): (u8, u8)) -> (u8, u8) {
        (w, self.listed_after(w, v))
    }

    /// The neighbour of a vertex that is listed next after another one, cyclically.
    pub(crate) fn listed_after(&self, vertex: u8, neighbour: u8) -> u8 {
        let list = self.neighbours(vertex);
        let at = list.iter().position(|&w| w == neighbour);
        list[(at.expect("a neighbour") + 1) % list.len()]
    }

    /// "File vertex 1 becomes point 1, and its first listed neighbour becomes point 2. The neighbour listed
    /// next after that one, cyclically, becomes point n." These three are the boundary of the whole net, so
    /// point n is what the rule for the numbers below it finds there. "Counting down", a vertex with its
    /// number leaves the boundary, and the neighbours that it covered come in.
    fn numbered(&self) -> Imported {
        let two = self.neighbours(1)[0];
        let mut boundary = vec![1, self.listed_after(1, two), two];
        let mut vertices = Vec::new();
        let mut runs = Vec::new();
        for _ in 3..=self.n() {
            let at = self.next_to_go(&boundary);
            let run = self.run(boundary[at - 1], boundary[at], boundary[at + 1]);
            vertices.push(boundary[at]);
            boundary.splice(at - 1..=at + 1, run.iter().copied());
            runs.push(run);
        }
        vertices.extend([two, 1]);
        vertices.reverse();
        runs.reverse();
        Imported {
            order: order_file(&vertices, &runs),
            vertices,
        }
    }

    /// "the boundary vertex with the lowest file number, points 1 and 2 excepted, that is joined to no
    /// boundary vertex but its two neighbours there", by its place on the boundary, whose ends are points 1
    /// and 2. "That such a net always yields an order is part of the wish."
    fn next_to_go(&self, boundary: &[u8]) -> usize {
        let joined_to_no_other = |&at: &usize| {
            let beside = [boundary[at - 1], boundary[at + 1]];
            let mut joined = self.neighbours(boundary[at]).iter();
            joined.all(|w| beside.contains(w) || !boundary.contains(w))
        };
        (1..boundary.len() - 1)
            .filter(joined_to_no_other)
            .min_by_key(|&at| boundary[at])
            .expect("such a net always yields an order")
    }

    /// The run of a vertex that leaves the boundary, between its neighbours there, left to right. Points 1
    /// and 2 are below and point n above, so clockwise from the neighbour on the right to the one on the
    /// left its neighbours stand right to left.
    fn run(&self, left: u8, vertex: u8, right: u8) -> Vec<u8> {
        let clockwise = self.neighbours(vertex).iter().copied().cycle();
        let from_right = clockwise.skip_while(|&w| w != right);
        let mut run: Vec<u8> = from_right.take_while(|&w| w != left).collect();
        run.push(left);
        run.reverse();
        run
    }
}

/// "the order file, all lines plain, without a scale record", from the vertices by point and the runs of
/// points 3 to n.
fn order_file(vertices: &[u8], runs: &[Vec<u8>]) -> Vec<u8> {
    let point = |vertex: &u8| vertices.iter().position(|v| v == vertex).unwrap() as u16 + 1;
    let mut bytes = Vec::new();
    put(&mut bytes, ORDER_HEADER, &[vertices.len() as u16]);
    put(&mut bytes, ORDER_POINT, &[0]);
    put(&mut bytes, ORDER_POINT, &[1, 1]);
    for run in runs {
        let mut numbers = vec![run.len() as u16];
        numbers.extend(run.iter().map(point));
        put(&mut bytes, ORDER_POINT, &numbers);
    }
    put(&mut bytes, END, &[]);
    bytes
}
