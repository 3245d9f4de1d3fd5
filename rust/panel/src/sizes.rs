//! Sizes of drawings, files, nets, answers and lists of moves.

/// Document 01: "n from 3 to 1,024".
pub const FEWEST_POINTS: usize = 3;

/// The same sentence's other number.
pub const MOST_POINTS: usize = 1024;

/// The bytes of the longest order file.
pub const LONGEST_ORDER: usize = 10_238;

/// The bytes of the longest drawing file.
pub const LONGEST_DRAWING: usize = drawing_length(MOST_POINTS);

/// Document 02, of a net in planar_code: "n from 4 to 255".
pub const FEWEST_VERTICES: usize = 4;

/// The same sentence's other number.
pub const MOST_VERTICES: usize = 255;

/// The bytes of the longest file in planar_code that is taken: one of n vertices has 7n + 4.
pub const LONGEST_PLANAR_CODE: usize = 7 * MOST_VERTICES + 4;

/// The words of an answer to a call: number and place.
pub const ANSWER_WORDS: usize = 2;

/// The bytes of the drawing file of n points, n from 3 to 1,024.
///
/// ```
/// assert_eq!(panel::drawing_length(panel::MOST_POINTS), 42_948);
/// ```
pub const fn drawing_length(n: usize) -> usize {
    42 * n - 60
}

/// The bytes of the order file that a net of n vertices becomes, n from 4 to 255.
///
/// ```
/// assert_eq!(panel::imported_length(panel::MOST_VERTICES), 2_544);
/// ```
pub const fn imported_length(n: usize) -> usize {
    10 * n - 6
}

/// The lines of a finished drawing of n points, n from 3 to 1,024.
///
/// ```
/// assert_eq!(panel::line_count(5), 9);
/// ```
pub const fn line_count(n: usize) -> usize {
    3 * n - 6
}

/// The most moves of a finished drawing of n points, n from 3 to 1,024, in either style: every line a
/// feeder that gives its five moves twice. All moves of a drawing fit so many kinds, and twice as many
/// numbers.
///
/// ```
/// assert_eq!(panel::most_moves(5), 90);
/// ```
pub const fn most_moves(n: usize) -> usize {
    10 * line_count(n)
}
