//! The program `picture`.

use std::io::Write;
use std::process::{Command, Output, Stdio};

use panel::straight;
use second::generate::{order, Order, Random, Runs};
use second::{order_file, Drawing, Kind, Style};

/// K4 of document 01, its lines 4 and 7 guides.
fn k4() -> Order {
    Order {
        n: 5,
        s: 1,
        opening: [1, 1, 2],
        calls: vec![vec![1, 0x8003], vec![1, 4, 0x8003, 2]],
    }
}

/// The same with feeders for lines 2 and 6.
fn k4_with_feeders() -> Order {
    let mut order = k4();
    order.opening[2] |= 0x4000;
    order.calls[1][1] |= 0x4000;
    order
}

/// The drawing file of an order.
fn drawing_file(order: &Order) -> Vec<u8> {
    panel::draw(&order.bytes()).unwrap()
}

/// The straight drawing file of an order.
fn straight_file(order: &Order) -> Vec<u8> {
    straight::draw(&order.bytes()).unwrap()
}

/// A drawing file of 40 points.
fn forty() -> Vec<u8> {
    drawing_file(&order(40, Runs::Mixed, &mut Random::new(40)))
}

/// What the program gives for arguments, and bytes on its standard input.
fn run(arguments: &[&str], input: &[u8]) -> Output {
    let mut child = Command::new(env!("CARGO_BIN_EXE_picture"))
        .args(arguments)
        .stdin(Stdio::piped())
        .stdout(Stdio::piped())
        .stderr(Stdio::piped())
        .spawn()
        .unwrap();
    child.stdin.take().unwrap().write_all(input).unwrap();
    child.wait_with_output().unwrap()
}

/// The picture of a drawing file.
fn picture(file: &[u8]) -> String {
    let output = run(&[], file);
    assert!(output.status.success() && output.stderr.is_empty());
    String::from_utf8(output.stdout).unwrap()
}

/// How often a part stands in a picture.
fn count(text: &str, part: &str) -> usize {
    text.matches(part).count()
}

// A dot, a number and a title for each point; a line with its title for each line, a tick for each
// bend.
#[test]
fn everything_is_in_the_picture() {
    let text = picture(&drawing_file(&k4()));
    assert_eq!(count(&text, "<circle"), 5);
    assert_eq!(count(&text, "class=\"number\""), 5);
    assert_eq!(count(&text, "<g class=\"line\">"), 9);
    assert_eq!(count(&text, "class=\"plain\""), 7);
    assert_eq!(count(&text, "class=\"guide\""), 2);
    assert_eq!(count(&text, "class=\"feeder\""), 0);
    assert_eq!(count(&text, "class=\"between\""), 0);
    assert_eq!(count(&text, "class=\"tick\""), 8);
    assert_eq!(count(&text, "class=\"frame\""), 1);
    assert_eq!(count(&text, "<title>"), 14);
    assert!(text.starts_with("<svg ") && text.ends_with("</svg>\n"));
}

// The example of the tree, document 01's K4: the places of its points and bends.
#[test]
fn the_example_gives_its_picture() {
    let path = concat!(env!("CARGO_MANIFEST_DIR"), "/../../examples/k4.drawing");
    let text = picture(&std::fs::read(path).unwrap());
    assert_eq!(count(&text, "class=\"plain\""), 9);
    assert!(text.contains("5 points, scale 1, width 12, height 5"));
    // Points (6,5) and (12,0); line 5-1 by (4,3), 5-2 by (9,2), 3-2 by (9,1), all from (48,168) up.
    for part in [
        "cx=\"192\" cy=\"48\"",
        "cx=\"336\" cy=\"168\"",
        "class=\"plain\" points=\"192,48 144,96 48,168\"",
        "class=\"plain\" points=\"192,48 264,120 336,168\"",
        "class=\"plain\" points=\"216,120 264,144 336,168\"",
    ] {
        assert_eq!(count(&text, part), 1, "{part}");
    }
}

// Titles say a line's number, ends and kind, and a point's number and place.
#[test]
fn titles_of_lines_and_points() {
    let text = picture(&drawing_file(&k4()));
    for title in [
        "line 0: 2 to 1, plain",
        "line 4: 4 to 3, guide",
        "line 6: 5 to 4, plain",
        "line 7: 5 to 3, guide",
        "point 1 at (0,0)",
        "point 4 at (5,3)",
        "point 5 at (6,5)",
    ] {
        let part = format!("<title>{title}</title>");
        assert_eq!(count(&text, &part), 1, "{title}");
    }
}

// A line is one group with what catches the pointer, what is seen, and the tick; the style makes
// all that is seen of it stand out.
#[test]
fn a_line_under_the_pointer_stands_out() {
    let text = picture(&drawing_file(&k4()));
    let points = "points=\"192,48 192,96 216,120\"";
    let group = format!(
        "<g class=\"line\"><title>line 7: 5 to 3, guide</title>\
         <polyline class=\"near\" {points}/><polyline class=\"guide\" {points}/>\
         <line class=\"tick\" "
    );
    assert_eq!(count(&text, &group), 1);
    for part in [".plain", ".guide", ".feeder", ".tick"] {
        assert!(text.contains(&format!(".line:hover {part}")));
    }
    assert!(text.contains(".near{fill:none;stroke:transparent;"));
}

// A feeder is a double groove: a wide stroke, and over it, along the same way, a narrower one in the
// colour of the plate. Nothing else in the picture changes.
#[test]
fn a_feeder_is_a_double_groove() {
    let text = picture(&drawing_file(&k4_with_feeders()));
    assert_eq!(count(&text, "class=\"feeder\""), 2);
    assert_eq!(count(&text, "class=\"between\""), 2);
    assert_eq!(count(&text, "class=\"plain\""), 5);
    assert_eq!(count(&text, "class=\"guide\""), 2);
    let plate = "width=\"384\" height=\"216\" fill=\"#ffffff\"";
    let wide = ".feeder{fill:none;stroke:#202020;stroke-width:4.4;";
    let narrow = ".between{fill:none;stroke:#ffffff;stroke-width:2;";
    for part in [plate, wide, narrow] {
        assert_eq!(count(&text, part), 1, "{part}");
    }

    let mut changed = picture(&drawing_file(&k4()));
    for (title, points) in [
        ("line 2: 3 to 2", "216,120 264,144 336,168"),
        ("line 6: 5 to 4", "192,48 168,96 168,96"),
    ] {
        let near = format!("<polyline class=\"near\" points=\"{points}\"/>");
        let line = |kind: &str, strokes: &[&str]| {
            let strokes = strokes.iter();
            let strokes: String = strokes
                .map(|class| format!("<polyline class=\"{class}\" points=\"{points}\"/>"))
                .collect();
            format!("<title>{title}, {kind}</title>{near}{strokes}<line class=\"tick\"")
        };
        let (plain, feeder) = (
            line("plain", &["plain"]),
            line("feeder", &["feeder", "between"]),
        );
        assert_eq!(count(&changed, &plain), 1, "{plain}");
        changed = changed.replace(&plain, &feeder);
    }
    assert_eq!(text, changed);
}

// Only the caption tells the scale: places are shown in grid units.
#[test]
fn every_scale_gives_the_same_picture() {
    let plain = picture(&drawing_file(&k4()));
    for s in 2..=8 {
        let scaled = picture(&drawing_file(&Order { s, ..k4() }));
        let caption = format!("scale {s}, width {}, height {}<", 12 * s, 5 * s);
        let changed = plain.replace("scale 1, width 12, height 5<", &caption);
        assert_eq!(scaled, changed);
    }
}

// A straight drawing: every line from end to end, kinds and titles as in the other style, and no tick.
#[test]
fn a_straight_drawing() {
    let text = picture(&straight_file(&k4_with_feeders()));
    assert!(text.contains("5 points, scale 1, width 6, height 3"));
    for (part, times) in [
        ("<circle", 5),
        ("<g class=\"line\">", 9),
        ("class=\"near\"", 9),
        ("class=\"plain\"", 5),
        ("class=\"guide\"", 2),
        ("class=\"feeder\"", 2),
        ("class=\"between\"", 2),
        ("class=\"tick\"", 0),
    ] {
        assert_eq!(count(&text, part), times, "{part}");
    }
    // Points 1 (0,0), 2 (6,0), 3 (4,1), 4 (3,2), 5 (3,3), from (48,120) up; line 3-2 is a feeder.
    for (title, class, points) in [
        ("line 0: 2 to 1, plain", "plain", "192,120 48,120"),
        ("line 2: 3 to 2, feeder", "feeder", "144,96 192,120"),
        ("line 7: 5 to 3, guide", "guide", "120,48 144,96"),
    ] {
        let part = format!(
            "<title>{title}</title><polyline class=\"near\" points=\"{points}\"/>\
             <polyline class=\"{class}\" points=\"{points}\"/>"
        );
        assert_eq!(count(&text, &part), 1, "{part}");
    }
    assert_eq!(count(&text, "<title>point 4 at (3,2)</title>"), 1);
}

// The example of the tree: the same net drawn straight.
#[test]
fn the_straight_example_gives_its_picture() {
    let path = concat!(
        env!("CARGO_MANIFEST_DIR"),
        "/../../examples/feeders.straight"
    );
    let text = picture(&std::fs::read(path).unwrap());
    assert!(text.contains("5 points, scale 1, width 6, height 3"));
    assert_eq!(count(&text, "class=\"feeder\""), 4);
    assert_eq!(count(&text, "class=\"guide\""), 2);
    assert_eq!(count(&text, "class=\"tick\""), 0);
}

// The largest drawing of each style: every point and every line, by the second implementation's
// numbers.
#[test]
fn a_drawing_of_1024_points() {
    let order = order(1024, Runs::Short, &mut Random::new(1024));
    let text = picture(&drawing_file(&order));
    let drawing = order_file::read(Style::OneBend, &order.bytes()).unwrap();
    has_all_titles(&text, &drawing);
    assert_eq!(count(&text, "class=\"tick\""), 3065);

    let text = picture(&straight_file(&order));
    let drawing = order_file::read(Style::Straight, &order.bytes()).unwrap();
    has_all_titles(&text, &drawing);
    assert_eq!(count(&text, "class=\"tick\""), 0);
}

/// A picture has the titles of a drawing's lines and points, and no other.
fn has_all_titles(text: &str, drawing: &Drawing) {
    let mut titles = text.split("<title>").skip(1);
    for (number, line) in drawing.lines.iter().enumerate() {
        let kind = match line.kind {
            Kind::Guide => "guide",
            Kind::Plain => "plain",
            Kind::Feeder => "feeder",
        };
        let (later, earlier) = (line.later, line.earlier);
        let title = format!("line {number}: {later} to {earlier}, {kind}</title>");
        assert!(titles.next().unwrap().starts_with(&title), "{title}");
    }
    for (index, point) in drawing.points.iter().enumerate() {
        let (x, y) = (point.place.x, point.place.y);
        let title = format!("point {} at ({x},{y})</title>", index + 1);
        assert!(titles.next().unwrap().starts_with(&title), "{title}");
    }
    assert_eq!(titles.next(), None);
}

// A path argument.
#[test]
fn a_path_gives_the_same_picture() {
    let path = std::path::Path::new(env!("CARGO_TARGET_TMPDIR")).join("forty.drawing");
    std::fs::write(&path, forty()).unwrap();
    let output = run(&[path.to_str().unwrap()], &[]);
    assert!(output.status.success());
    assert_eq!(output.stdout, picture(&forty()).into_bytes());
}

// A message on standard error, nothing on standard output, exit status 1.
#[test]
fn a_broken_file_is_refused() {
    let mut bytes = forty();
    bytes.push(0);
    let cut_short = &straight_file(&k4())[..100];
    let no_mark = [b"DX", &straight_file(&k4())[2..]].concat();
    let wrong_calls = [
        (run(&[], &bytes), "picture: refused 10 at 1620\n"),
        (run(&[], cut_short), "picture: refused 1 at 96\n"),
        (run(&[], &no_mark), "picture: refused 2 at 0\n"),
        (
            run(&["one", "two"], &[]),
            "picture: usage: picture [drawing file]\n",
        ),
        (run(&["/no/such/file"], &[]), "picture: /no/such/file: "),
    ];
    for (output, message) in wrong_calls {
        assert_eq!(output.status.code(), Some(1));
        assert!(output.stdout.is_empty());
        assert!(output.stderr.starts_with(message.as_bytes()), "{message}");
    }
}
