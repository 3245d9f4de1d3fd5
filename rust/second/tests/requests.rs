//! Every case of vectors-requests.txt, which has the sections of the requests that have landed.

mod nets;
mod worked;

use std::iter::Peekable;

use nets::check_net;
use second::moves::{all_moves, move_at, move_count, Move, Tool};
use second::{drawing_file, open, order_file, Bend, Drawing, Kind, Refusal, Style};
use worked::{cases, check_file, from_hex, text_of, Case};

/// The cases of a request's section, which begins with a heading and a few words.
fn section(text: &str, request: usize) -> Vec<Case<'_>> {
    let heading = format!("## Request {request}: ");
    let (_, from_heading) = text.split_once(&heading).unwrap();
    let (_, from_first_case) = from_heading.split_once("\n\n").unwrap();
    let section = from_first_case.split("\n## ").next();
    cases(section.unwrap())
}

/// Entries from hexadecimal digits.
fn entries(words: &[&str]) -> Vec<u16> {
    let entry = |word: &&str| u16::from_str_radix(word, 16).unwrap();
    words.iter().map(entry).collect()
}

/// The words of the file for a call that is accepted or refused; a refused one changes nothing.
fn added(drawing: &mut Drawing, entries: &[u16]) -> String {
    let before = drawing.clone();
    match drawing.add(entries) {
        Ok(()) => "accepted".into(),
        Err(refusal) => {
            assert_eq!(*drawing, before);
            refusal.to_string()
        }
    }
}

/// The words of the file for a line.
fn line_told(drawing: &Drawing, number: usize) -> Result<String, Refusal> {
    let line = drawing.line(number)?;
    let owner = drawing.lines[number].port_owner().unwrap_or(0);
    let bend = line.bend.map_or("no bend".into(), |(bend, place)| {
        let port = match bend {
            Bend::None => "no port, bend written".into(),
            Bend::Left(j) => format!("left port {j} of {owner}, bend"),
            Bend::Right(j) => format!("right port {j} of {owner}, bend"),
            Bend::Middle(i) => format!("middle port {i} of {owner}, bend"),
        };
        format!("{port} {} {}", place.x, place.y)
    });
    let kind = match line.kind {
        Kind::Guide => "guide",
        Kind::Plain => "plain",
        Kind::Feeder => "feeder",
    };
    Ok(format!("{}-{}, {bend}, {kind}", line.later, line.earlier))
}

/// The words of the file for some cut line that ends at a point.
fn cut_line_told(drawing: &Drawing, point: u16) -> Result<String, Refusal> {
    let found = drawing.cut_line_at(point)?;
    Ok(found.map_or("none".into(), |number| format!("line {number}")))
}

/// The words of the file for a point's place.
fn place_told(drawing: &Drawing, point: u16) -> Result<String, Refusal> {
    let place = drawing.place_of(point)?;
    Ok(format!("{} {}", place.x, place.y))
}

/// The words of the file for the drawing file in an output of so many bytes; a refusal leaves them.
fn drawing_told(drawing: &Drawing, room: usize) -> Result<String, Refusal> {
    let mut out = vec![0xAA; room];
    let written = drawing_file::write_into(drawing, &mut out);
    assert!(written.is_ok() || out.iter().all(|&byte| byte == 0xAA));
    Ok(format!("{} bytes", written?))
}

/// The words of the file for a move.
fn step_told(step: Move) -> String {
    match step {
        Move::Travel(x, y) => format!("travel {x} {y}"),
        Move::Plunge(z) => format!("plunge {z}"),
        Move::Cut(x, y) => format!("cut {x} {y}"),
        Move::Lift(z) => format!("lift {z}"),
    }
}

/// The same by its number.
fn move_told(drawing: &Drawing, tool: Tool, number: usize) -> Result<String, Refusal> {
    Ok(step_told(move_at(drawing, tool, number)?))
}

/// The words of the file for how many moves each line gives, by a drawing in which all others are
/// guides, and how many there are together.
fn counts_told(drawing: &Drawing) -> Result<String, Refusal> {
    let count_alone = |number| {
        let mut alone = drawing.clone();
        for (line, other) in alone.lines.iter_mut().enumerate() {
            if line != number {
                other.kind = Kind::Guide;
            }
        }
        Ok(move_count(&alone)?.to_string())
    };
    let each: Result<Vec<String>, Refusal> = (0..drawing.lines.len()).map(count_alone).collect();
    let together = move_count(drawing)?;
    Ok(format!("{}, together {together}", each?.join(" ")))
}

/// The answer to a call or a look-up, in the words of the file.
fn told(drawing: &mut Drawing, asked: &str) -> String {
    let words: Vec<&str> = asked.split([' ', ',']).filter(|w| !w.is_empty()).collect();
    let number = |word: &str| word.parse().unwrap();
    let told = match words.as_slice() {
        ["add", words @ ..] => Ok(added(drawing, &entries(words))),
        ["line", line] => line_told(drawing, number(line)),
        ["cut", "line", "at", point] => cut_line_told(drawing, point.parse().unwrap()),
        ["place", "of", point] => place_told(drawing, point.parse().unwrap()),
        ["drawing", "room", room] => drawing_told(drawing, number(room)),
        ["move", step, "tool", words @ ..] => move_told(drawing, tool(words), number(step)),
        ["number", "of", "moves", "of", "each", "line"] => counts_told(drawing),
        _ => panic!("unknown call: {asked}"),
    };
    told.unwrap_or_else(|refusal| refusal.to_string())
}

/// The tool of three numbers.
fn tool(words: &[&str]) -> Tool {
    let numbers: Vec<f32> = words.iter().map(|word| word.parse().unwrap()).collect();
    let [pitch, depth, clearance] = numbers[..] else {
        panic!("not a tool: {words:?}");
    };
    Tool {
        pitch,
        depth,
        clearance,
    }
}

/// All moves with their numbers, in the words of the file; after the last comes 23.
fn moves_told(drawing: &Drawing, tool: Tool) -> String {
    let moves = all_moves(drawing, tool).unwrap();
    assert_eq!(move_count(drawing), Ok(moves.len()));
    let end = move_at(drawing, tool, moves.len());
    assert_eq!(end, Err(Refusal::new(23, 0)));
    let told = moves.into_iter().enumerate().map(|(number, step)| {
        assert_eq!(move_at(drawing, tool, number), Ok(step));
        format!("{number} {}", step_told(step))
    });
    told.collect::<Vec<String>>().join("; ")
}

/// The words of the file for all places, the boundary or the owners.
fn state_told(drawing: &Drawing, what: &str) -> String {
    let numbered = || (1..=drawing.k()).map(|point| (point, drawing.point(point)));
    let owned = || numbered().filter_map(|(point, at)| Some((point, at.owner?)));
    let (told, between): (Vec<String>, &str) = match what {
        "places" => {
            let places = numbered().map(|(point, at)| (point, at.place));
            let told = places.map(|(point, place)| format!("{point} ({},{})", place.x, place.y));
            (told.collect(), " ")
        }
        "boundary" => (drawing.boundary.iter().map(u16::to_string).collect(), " "),
        "owned" if owned().count() == 0 => (vec!["none".into()], ""),
        "owned" => {
            let told = owned().map(|(point, owner)| format!("{point} by {owner}"));
            (told.collect(), ", ")
        }
        _ => panic!("unknown row: {what}"),
    };
    told.join(between)
}

/// The drawing that a case's first row begins with.
fn begun(row: &str) -> Drawing {
    let words: Vec<&str> = row.split(' ').collect();
    let opened = |style, n: &str| open(style, n.parse().unwrap());
    let drawing = match words.as_slice() {
        ["open", n] => opened(Style::OneBend, n),
        ["open", n, "straight"] => opened(Style::Straight, n),
        ["drawn", "from", order] => order_file::read(Style::OneBend, &from_hex(order)),
        ["drawn", "straight", "from", order] => order_file::read(Style::Straight, &from_hex(order)),
        _ => panic!("unknown beginning: {row}"),
    };
    drawing.unwrap()
}

/// The rows up to the next one with an answer.
fn moves_wanted<'a>(rows: &mut Peekable<impl Iterator<Item = &'a str>>) -> String {
    let no_answer = |row: &&str| !row.contains("->");
    let wanted: Vec<&str> = std::iter::from_fn(|| rows.next_if(no_answer)).collect();
    wanted.join("; ")
}

/// Runs a case of calls on one drawing; gives how many answers it has.
fn check_calls(case: &Case) -> usize {
    let mut rows = case.rows.iter().copied().peekable();
    let mut drawing = begun(rows.next().unwrap());
    let mut answers = 0;
    while let Some(row) = rows.next() {
        let (told, expected) = if let Some(words) = row.strip_prefix("all moves, tool ") {
            let words: Vec<&str> = words.split(' ').collect();
            (moves_told(&drawing, tool(&words)), moves_wanted(&mut rows))
        } else if let Some((asked, expected)) = row.split_once("->") {
            (told(&mut drawing, asked), expected.trim().into())
        } else {
            let (what, expected) = row.split_once(' ').unwrap();
            (state_told(&drawing, what), expected.trim().into())
        };
        assert_eq!(told, expected, "{}: {row}", case.title);
        answers += 1;
    }
    answers
}

/// Runs a section: files, "draw: an order file and its drawing; read: a drawing file and its order
/// file", and "calls: a list of calls on one drawing, with the answers"; gives how many of each, and how
/// many answers the calls have.
fn run_section(request: usize) -> [usize; 3] {
    let text = text_of("vectors-requests.txt");
    let (mut files, mut calls, mut answers) = (0, 0, 0);
    for case in section(&text, request) {
        if case.title.starts_with("calls ") {
            answers += check_calls(&case);
            calls += 1;
        } else {
            check_file(&case);
            files += 1;
        }
    }
    [files, calls, answers]
}

// "Request 1: feeders"
#[test]
fn every_case_of_request_1() {
    assert_eq!(run_section(1), [20, 2, 19]);
}

// "Request 2: straight panels"
#[test]
fn every_case_of_request_2() {
    assert_eq!(run_section(2), [17, 2, 29]);
}

// "Request 3: no move to where the cutter is"
#[test]
fn every_case_of_request_3() {
    assert_eq!(run_section(3), [0, 10, 25]);
}

// "Request 4: nets in planar_code"
#[test]
fn every_case_of_request_4() {
    let text = text_of("vectors-requests.txt");
    let cases = section(&text, 4);
    assert_eq!(cases.len(), 26);
    cases.iter().for_each(check_net);
}

// "Request 5: the cut line with the lowest number"
#[test]
fn every_case_of_request_5() {
    assert_eq!(run_section(5), [0, 6, 32]);
}
