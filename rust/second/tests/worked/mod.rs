//! Worked cases from a file of text.

use second::{draw, undraw, Refusal, Style};

/// A worked case: its kind and name, and the rows below them, without their indent.
pub struct Case<'a> {
    pub title: &'a str,
    pub rows: Vec<&'a str>,
}

/// A file of this folder.
pub fn text_of(file: &str) -> String {
    let folder = concat!(env!("CARGO_MANIFEST_DIR"), "/tests/");
    std::fs::read_to_string(format!("{folder}{file}")).unwrap()
}

/// The cases of a text, with blank lines between them; lines that begin with # are comments.
pub fn cases(text: &str) -> Vec<Case<'_>> {
    let lines: Vec<&str> = text.lines().filter(|line| !line.starts_with('#')).collect();
    lines
        .split(|line| line.is_empty())
        .filter_map(|lines| lines.split_first())
        .map(|(title, rows)| Case {
            title,
            rows: rows.iter().map(|row| row.trim_start()).collect(),
        })
        .collect()
}

/// Bytes from hexadecimal digits.
pub fn from_hex(text: &str) -> Vec<u8> {
    assert!(text.len().is_multiple_of(2), "odd number of digits: {text}");
    (0..text.len())
        .step_by(2)
        .map(|at| u8::from_str_radix(&text[at..at + 2], 16).unwrap())
        .collect()
}

/// Hexadecimal digits of bytes.
pub fn to_hex(bytes: &[u8]) -> String {
    bytes.iter().map(|byte| format!("{byte:02x}")).collect()
}

/// What a call gave, in the form of the file; the bytes past the written ones must stay.
fn answer(result: Result<usize, Refusal>, out: &[u8]) -> String {
    let written = *result.as_ref().unwrap_or(&0);
    assert!(out[written..].iter().all(|&byte| byte == 0xAA));
    match result {
        Ok(length) => to_hex(&out[..length]),
        Err(refusal) => refusal.to_string(),
    }
}

/// Runs a case of one file: two rows, "out is the file that comes back or the refusal". "'draw straight'
/// and 'read straight' are the new pair".
pub fn check_file(case: &Case) {
    let [input, expected] = case.rows[..] else {
        panic!("not two rows: {}", case.title);
    };
    let input = from_hex(input.strip_prefix("in ").unwrap().trim());
    let expected = expected.strip_prefix("out ").unwrap();
    let mut out = [0xAA; 1000];
    let mut words = case.title.split(' ');
    let way = words.next();
    let style = match words.next() {
        Some("straight") => Style::Straight,
        _ => Style::OneBend,
    };
    let result = match way {
        Some("draw") => draw(style, &input, &mut out),
        Some("read") => undraw(style, &input, &mut out),
        _ => panic!("unknown kind: {}", case.title),
    };
    assert_eq!(answer(result, &out), expected, "{}", case.title);
}
