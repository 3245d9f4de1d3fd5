//! Times draw, undraw and all moves of the proved library and of the second implementation on the same
//! files, in both styles of drawing; and the import of nets, which has no style.

use std::hint::black_box;
use std::time::{Duration, Instant};

use panel::{imported_length, most_moves, straight, MOST_VERTICES};
use second::generate::nets::{net, Shape};
use second::generate::{order, Random, Runs};
use second::{drawing_file, moves, order_file, planar_code, Style, STYLES};

const SIZES: [u16; 3] = [64, 256, 1024];
const NET_SIZES: [u8; 3] = [64, 128, 255];
const BATCHES: usize = 100;
const BATCH: Duration = Duration::from_millis(1);

/// A table for each way and sort of runs.
fn main() {
    println!("Microseconds a call in {BATCHES} batches of {BATCH:?} or one call each:");
    println!("of the quickest batch, and in brackets of the one in the middle.");
    println!("Both sides and both styles take turns on the same order file, or its drawings,");
    println!("and write into the same buffers, which are kept from call to call and not cleared.");
    println!("The last column has what the straight style takes for what the other takes.");
    println!("Importing a net has no style.");
    for (runs, name) in [
        (Runs::Short, "random short runs"),
        (Runs::Whole, "runs over the whole boundary"),
    ] {
        let files = SIZES.map(|n| Files::new(n, runs));
        print_table(&format!("draw, {name}"), files.iter().map(Files::draws));
        print_table(&format!("undraw, {name}"), files.iter().map(Files::undraws));
        print_table(
            &format!("all moves, {name}"),
            files.iter().map(Files::moves),
        );
    }
    for (shape, name) in [
        (Shape::Turned, "random nets"),
        (Shape::Stacked, "vertices put into faces"),
        (Shape::DoubleWheel, "double wheels"),
        (Shape::Row, "rows between two hubs"),
    ] {
        print_imports(name, NET_SIZES.map(|n| import_times(n, shape)));
    }
}

/// An order file of n points and its two drawing files.
struct Files {
    n: u16,
    order: Vec<u8>,
    one_bend: Vec<u8>,
    straight: Vec<u8>,
}

impl Files {
    /// The files of a random order.
    fn new(n: u16, runs: Runs) -> Self {
        let order = order(n, runs, &mut Random::new(1)).bytes();
        let [one_bend, straight] = STYLES.map(|style| {
            let drawing = order_file::read(style, &order).expect("an accepted order");
            drawing_file::write(&drawing).expect("a finished drawing")
        });
        Files {
            n,
            order,
            one_bend,
            straight,
        }
    }

    /// The times of drawing the order file.
    fn draws(&self) -> Times {
        let order = &self.order;
        let calls: [&dyn Call<Vec<u8>>; 4] = [
            &|out| panel::draw_into(black_box(order), out).ok(),
            &|out| straight::draw_into(black_box(order), out).ok(),
            &|out| second::draw(Style::OneBend, black_box(order), out).ok(),
            &|out| second::draw(Style::Straight, black_box(order), out).ok(),
        ];
        times(calls, vec![0; panel::LONGEST_DRAWING])
    }

    /// The times of reading the drawing files back.
    fn undraws(&self) -> Times {
        let [bent, unbent] = [&self.one_bend, &self.straight];
        let calls: [&dyn Call<Vec<u8>>; 4] = [
            &|out| panel::undraw_into(black_box(bent), out).ok(),
            &|out| straight::undraw_into(black_box(unbent), out).ok(),
            &|out| second::undraw(Style::OneBend, black_box(bent), out).ok(),
            &|out| second::undraw(Style::Straight, black_box(unbent), out).ok(),
        ];
        times(calls, vec![0; panel::LONGEST_ORDER])
    }

    /// The times of all moves of the order file.
    fn moves(&self) -> Times {
        let order = &self.order;
        let calls: [&dyn Call<Moves>; 4] = [
            &|out| panel::moves_into(black_box(order), TOOL, &mut out.kinds, &mut out.at).ok(),
            &|out| straight::moves_into(black_box(order), TOOL, &mut out.kinds, &mut out.at).ok(),
            &|out| second_moves(Style::OneBend, black_box(order), out),
            &|out| second_moves(Style::Straight, black_box(order), out),
        ];
        let most = most_moves(self.n.into());
        let out = Moves {
            kinds: vec![0; most],
            at: vec![0.0; 2 * most],
        };
        times(calls, out)
    }
}

/// The tool of all moves.
const TOOL: panel::Tool = panel::Tool {
    pitch: 8.0,
    depth: 4.0,
    clearance: 8.0,
};

/// All moves: their kinds, and two numbers of each.
#[derive(Clone, PartialEq)]
struct Moves {
    kinds: Vec<u8>,
    at: Vec<f32>,
}

/// Writes all moves of an order file by the second implementation, and gives how many.
fn second_moves(style: Style, order: &[u8], out: &mut Moves) -> Option<usize> {
    let tool = moves::Tool {
        pitch: TOOL.pitch,
        depth: TOOL.depth,
        clearance: TOOL.clearance,
    };
    let drawing = order_file::read(style, order).ok()?;
    let list = moves::all_moves(&drawing, tool).ok()?;
    let places = out.kinds.iter_mut().zip(out.at.chunks_exact_mut(2));
    for (given, (kind, at)) in list.iter().zip(places) {
        let (number, xy) = match *given {
            moves::Move::Travel(x, y) => (1, [x, y]),
            moves::Move::Plunge(z) => (2, [z, 0.0]),
            moves::Move::Cut(x, y) => (3, [x, y]),
            moves::Move::Lift(z) => (4, [z, 0.0]),
        };
        *kind = number;
        at.copy_from_slice(&xy);
    }
    Some(list.len())
}

/// A call that writes into an output and gives the number of bytes or moves.
trait Call<Out>: Fn(&mut Out) -> Option<usize> {}
impl<Out, F: Fn(&mut Out) -> Option<usize>> Call<Out> for F {}

/// Microseconds of a call.
#[derive(Clone, Copy)]
struct Time {
    best: f64,
    middle: f64,
}

/// The times of both styles by the proved library, then by the second implementation.
type Times = [[Time; 2]; 2];

/// The times of four calls in that order; in a style both sides must write the same.
fn times<Out: Clone + PartialEq>(calls: [&dyn Call<Out>; 4], out: Out) -> Times {
    let [one, two, three, four] = calls.map(|call| written(call, &out));
    assert!(one == three && two == four, "the two sides differ");
    let [one, two, three, four] = in_turns(calls, out);
    [[one, two], [three, four]]
}

/// What a call gives and writes.
fn written<Out: Clone>(call: &dyn Call<Out>, out: &Out) -> (usize, Out) {
    let mut out = out.clone();
    let written = call(&mut out).expect("a file that is accepted");
    (written, out)
}

/// The times of calls that take turns.
fn in_turns<Out, const CALLS: usize>(
    calls: [&dyn Call<Out>; CALLS],
    mut out: Out,
) -> [Time; CALLS] {
    let mut batches = [(); CALLS].map(|()| Vec::new());
    for _ in 0..BATCHES {
        for (times, call) in batches.iter_mut().zip(calls) {
            times.push(batch(call, &mut out));
        }
    }
    batches.map(|mut times| {
        times.sort_by(f64::total_cmp);
        Time {
            best: times[0],
            middle: times[BATCHES / 2],
        }
    })
}

/// The times of importing a net by the proved library and by the second implementation.
fn import_times(n: u8, shape: Shape) -> [Time; 2] {
    let file = &net(n, shape, &mut Random::new(1)).bytes();
    let calls: [&dyn Call<Imported>; 2] = [
        &|(order, vertices)| panel::import_into(black_box(file), order, vertices).ok(),
        &|(order, vertices)| planar_code::import_into(black_box(file), order, vertices).ok(),
    ];
    let out = (
        vec![0; imported_length(MOST_VERTICES)],
        vec![0; MOST_VERTICES],
    );
    let [proved, second] = calls.map(|call| written(call, &out));
    assert!(proved == second, "the two sides differ");
    in_turns(calls, out)
}

/// The order file and the vertices.
type Imported = (Vec<u8>, Vec<u8>);

/// Microseconds of one call, by the mean of a batch.
fn batch<Out>(call: &dyn Call<Out>, out: &mut Out) -> f64 {
    let started = Instant::now();
    let mut calls = 0;
    while calls == 0 || started.elapsed() < BATCH {
        black_box(call(black_box(out)));
        calls += 1;
    }
    started.elapsed().as_secs_f64() * 1e6 / f64::from(calls)
}

/// A row for each n and style; the last column is the ratio of the proved library's quickest batches.
fn print_table(title: &str, times: impl Iterator<Item = Times>) {
    println!("\n{title}");
    println!(
        "     n    style               proved  growth               second  growth  \
         second/proved  straight/one-bend"
    );
    let mut before = None;
    for (n, now) in SIZES.into_iter().zip(times) {
        let [one_bend, straight] = [0, 1].map(|style| row(style, &now, before.as_ref()));
        let ratio = now[0][1].best / now[0][0].best;
        println!("{n:6} one-bend {one_bend}");
        println!("{n:6} straight {straight} {ratio:18.2}");
        before = Some(now);
    }
}

/// A row for each n of the nets of one shape.
fn print_imports(name: &str, times: [[Time; 2]; 3]) {
    println!("\nimport, {name}");
    println!("     n               proved  growth               second  growth  second/proved");
    let mut before = None;
    for (n, now) in NET_SIZES.into_iter().zip(times) {
        println!("{n:6} {}", sides(now, before));
        before = Some(now);
    }
}

/// The times of a style on both sides, each with the growth from the n before, and their ratio.
fn row(style: usize, now: &Times, before: Option<&Times>) -> String {
    let of_style = |times: &Times| times.map(|side| side[style]);
    sides(of_style(now), before.map(of_style))
}

/// The times of both sides, each with the growth from those before, and their ratio.
fn sides(now: [Time; 2], before: Option<[Time; 2]>) -> String {
    let [proved, second] = [0, 1].map(|side| {
        let Time { best, middle } = now[side];
        let growth = before.map_or(String::new(), |before| {
            format!("x{:.1}", best / before[side].best)
        });
        format!("{best:9.2} ({middle:8.2}) {growth:>7}")
    });
    let ratio = now[1].best / now[0].best;
    format!("{proved} {second} {ratio:14.1}")
}
