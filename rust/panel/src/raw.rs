//! The library's functions as C sees them: a slice is a pointer and a length, a refusal three words:
//! number, place, and with number 24 which buffer was short, else 0; all 0 for none.
//!
//! A function has a namesake for straight drawings, with the same parameters; only a line's words differ.
//! [`ONE_BEND`] and [`STRAIGHT`] have the functions of each style. [`panel_import`] draws nothing and has
//! no namesake.

/// The three words of a refusal.
pub type Words = [u64; 3];

/// The third word where the output was short; of all moves, the kinds, and of an import, the order file.
pub const SHORT_OUT: u64 = 1;

/// The third word where the answers were short.
pub const SHORT_ANSWERS: u64 = 2;

/// The third word where the numbers of all moves were short, and the kinds were not.
pub const SHORT_AT: u64 = 3;

/// The third word where the list of an import's vertices was short, and the order file's output was not.
pub const SHORT_VERTICES: u64 = 4;

/// What a look-up returns if it finds what was asked.
pub const FOUND: u64 = 1;

/// What a look-up of a cut line returns if there is none.
pub const NONE: u64 = 2;

/// The words of a line of a one-bend drawing.
pub const LINE_WORDS: usize = 7;

/// The words of a line of a straight drawing.
pub const STRAIGHT_LINE_WORDS: usize = 3;

/// Reads one file and writes another.
pub type Convert = unsafe extern "C" fn(*const u8, usize, *mut u8, usize, *mut Words) -> u64;

/// Makes a list of calls and writes the drawing file.
pub type RunCalls = unsafe extern "C" fn(
    usize,
    *const u16,
    usize,
    *mut u16,
    usize,
    *mut u8,
    usize,
    *mut Words,
) -> u64;

/// A move of an order file's drawing.
pub type OrderMove =
    unsafe extern "C" fn(*const u8, usize, f32, f32, f32, usize, *mut [f32; 2], *mut Words) -> u64;

/// A move of the drawing that a list of calls leaves.
pub type CallsMove = unsafe extern "C" fn(
    usize,
    *const u16,
    usize,
    *mut u16,
    usize,
    f32,
    f32,
    f32,
    usize,
    *mut [f32; 2],
    *mut Words,
) -> u64;

/// All moves of an order file's drawing.
pub type OrderMoves = unsafe extern "C" fn(
    *const u8,
    usize,
    f32,
    f32,
    f32,
    *mut u8,
    usize,
    *mut f32,
    usize,
    *mut Words,
) -> u64;

/// All moves of the drawing that a list of calls leaves.
pub type CallsMoves = unsafe extern "C" fn(
    usize,
    *const u16,
    usize,
    *mut u16,
    usize,
    f32,
    f32,
    f32,
    *mut u8,
    usize,
    *mut f32,
    usize,
    *mut Words,
) -> u64;

/// A look-up in an order file's drawing, which puts so many words into `seen`.
pub type OrderLookUp<const WORDS: usize> =
    unsafe extern "C" fn(*const u8, usize, usize, *mut [u64; WORDS], *mut Words) -> u64;

/// A look-up in the drawing that a list of calls leaves.
pub type CallsLookUp<const WORDS: usize> = unsafe extern "C" fn(
    usize,
    *const u16,
    usize,
    *mut u16,
    usize,
    usize,
    *mut [u64; WORDS],
    *mut Words,
) -> u64;

/// The functions of a style; a line is so many words.
pub struct Functions<const LINE: usize> {
    pub draw: Convert,
    pub undraw: Convert,
    pub calls: RunCalls,
    pub order_move: OrderMove,
    pub calls_move: CallsMove,
    pub order_moves: OrderMoves,
    pub calls_moves: CallsMoves,
    pub point: OrderLookUp<2>,
    pub line: OrderLookUp<LINE>,
    pub cut_line: OrderLookUp<1>,
    pub calls_point: CallsLookUp<2>,
    pub calls_line: CallsLookUp<LINE>,
    pub calls_cut_line: CallsLookUp<1>,
}

/// The functions of one-bend drawings.
pub static ONE_BEND: Functions<LINE_WORDS> = Functions {
    draw: panel_draw,
    undraw: panel_undraw,
    calls: panel_calls,
    order_move: panel_move,
    calls_move: panel_calls_move,
    order_moves: panel_moves,
    calls_moves: panel_calls_moves,
    point: panel_point,
    line: panel_line,
    cut_line: panel_cut_line,
    calls_point: panel_calls_point,
    calls_line: panel_calls_line,
    calls_cut_line: panel_calls_cut_line,
};

/// The functions of straight drawings.
pub static STRAIGHT: Functions<STRAIGHT_LINE_WORDS> = Functions {
    draw: panel_straight_draw,
    undraw: panel_straight_undraw,
    calls: panel_straight_calls,
    order_move: panel_straight_move,
    calls_move: panel_straight_calls_move,
    order_moves: panel_straight_moves,
    calls_moves: panel_straight_calls_moves,
    point: panel_straight_point,
    line: panel_straight_line,
    cut_line: panel_straight_cut_line,
    calls_point: panel_straight_calls_point,
    calls_line: panel_straight_calls_line,
    calls_cut_line: panel_straight_calls_cut_line,
};

/// Declares functions, each with its namesake for straight drawings.
macro_rules! declare {
    ($(
        $(#[$doc:meta])*
        fn $name:ident, $straight:ident($($parameter:ident: $type:ty,)+);
    )+) => {
        extern "C" {
            $(
                $(#[$doc])*
                pub fn $name($($parameter: $type),+) -> u64;

                #[doc = concat!("[`", stringify!($name), "`] of straight drawings.")]
                pub fn $straight($($parameter: $type),+) -> u64;
            )+
        }
    };
}

declare! {
    /// Draws an order file: the number of bytes written, or 0 and a refusal.
    fn panel_draw, panel_straight_draw(
        order: *const u8,
        order_len: usize,
        out: *mut u8,
        out_len: usize,
        refusal: *mut Words,
    );

    /// Writes the order file of a drawing file: the number of bytes, or 0 and a refusal.
    fn panel_undraw, panel_straight_undraw(
        drawing: *const u8,
        drawing_len: usize,
        out: *mut u8,
        out_len: usize,
        refusal: *mut Words,
    );

    /// Makes a list of calls, each a count and its entries, with two words of answer a call, and
    /// writes the drawing file: the number of bytes, or 0 and a refusal.
    fn panel_calls, panel_straight_calls(
        n: usize,
        calls: *const u16,
        calls_len: usize,
        answers: *mut u16,
        answers_len: usize,
        out: *mut u8,
        out_len: usize,
        refusal: *mut Words,
    );

    /// A move of the drawing of an order file: 1 travel, 2 plunge, 3 cut, 4 lift, or 0 and a
    /// refusal, which leaves `at`. Travel and cut put x and y there, plunge and lift z and 0. A plain
    /// line gives four moves or five, in a straight drawing four, a feeder the same twice in succession.
    fn panel_move, panel_straight_move(
        order: *const u8,
        order_len: usize,
        pitch: f32,
        depth: f32,
        clearance: f32,
        number: usize,
        at: *mut [f32; 2],
        refusal: *mut Words,
    );

    /// The same of the drawing that a list of calls leaves, with calls and answers as in
    /// [`panel_calls`].
    fn panel_calls_move, panel_straight_calls_move(
        n: usize,
        calls: *const u16,
        calls_len: usize,
        answers: *mut u16,
        answers_len: usize,
        pitch: f32,
        depth: f32,
        clearance: f32,
        number: usize,
        at: *mut [f32; 2],
        refusal: *mut Words,
    );

    /// All moves of the drawing of an order file, in their order: how many, with the kind of each in
    /// `kinds` and its two numbers in `at`, as [`panel_move`] gives them; or 0 and a refusal, which
    /// leaves both. Short `kinds` ([`SHORT_OUT`]) are told before short `at` ([`SHORT_AT`]).
    fn panel_moves, panel_straight_moves(
        order: *const u8,
        order_len: usize,
        pitch: f32,
        depth: f32,
        clearance: f32,
        kinds: *mut u8,
        kinds_len: usize,
        at: *mut f32,
        at_len: usize,
        refusal: *mut Words,
    );

    /// The same of the drawing that a list of calls leaves, with calls and answers as in
    /// [`panel_calls`].
    fn panel_calls_moves, panel_straight_calls_moves(
        n: usize,
        calls: *const u16,
        calls_len: usize,
        answers: *mut u16,
        answers_len: usize,
        pitch: f32,
        depth: f32,
        clearance: f32,
        kinds: *mut u8,
        kinds_len: usize,
        at: *mut f32,
        at_len: usize,
        refusal: *mut Words,
    );

    /// The place of a point of an order file's drawing: 1, with x and y in `seen`; or 0 and a
    /// refusal, which leaves `seen`.
    fn panel_point, panel_straight_point(
        order: *const u8,
        order_len: usize,
        point: usize,
        seen: *mut [u64; 2],
        refusal: *mut Words,
    );

    /// A cut line, plain or feeder, that ends at a point of an order file's drawing: 1, with the
    /// line's number in `seen`; 2 if there is none, or 0 and a refusal, which both leave `seen`.
    fn panel_cut_line, panel_straight_cut_line(
        order: *const u8,
        order_len: usize,
        point: usize,
        seen: *mut [u64; 1],
        refusal: *mut Words,
    );

    /// [`panel_point`] of the drawing that a list of calls leaves, with calls and answers as in
    /// [`panel_calls`]; points may be missing.
    fn panel_calls_point, panel_straight_calls_point(
        n: usize,
        calls: *const u16,
        calls_len: usize,
        answers: *mut u16,
        answers_len: usize,
        point: usize,
        seen: *mut [u64; 2],
        refusal: *mut Words,
    );

    /// [`panel_cut_line`] of the same drawing.
    fn panel_calls_cut_line, panel_straight_calls_cut_line(
        n: usize,
        calls: *const u16,
        calls_len: usize,
        answers: *mut u16,
        answers_len: usize,
        point: usize,
        seen: *mut [u64; 1],
        refusal: *mut Words,
    );
}

extern "C" {
    /// A line of an order file's drawing: 1, with later point, earlier point, kind of bend (0 none,
    /// 1 left port, 2 right port, 3 middle port), the port's index (0 for none), bend x, bend y, the
    /// line's own kind (0 guide, 1 plain, 2 feeder) in `seen`; or 0 and a refusal, which leaves
    /// `seen`.
    pub fn panel_line(
        order: *const u8,
        order_len: usize,
        line: usize,
        seen: *mut [u64; LINE_WORDS],
        refusal: *mut Words,
    ) -> u64;

    /// [`panel_line`] of straight drawings: later point, earlier point, the line's own kind.
    pub fn panel_straight_line(
        order: *const u8,
        order_len: usize,
        line: usize,
        seen: *mut [u64; STRAIGHT_LINE_WORDS],
        refusal: *mut Words,
    ) -> u64;

    /// [`panel_line`] of the drawing that a list of calls leaves.
    pub fn panel_calls_line(
        n: usize,
        calls: *const u16,
        calls_len: usize,
        answers: *mut u16,
        answers_len: usize,
        line: usize,
        seen: *mut [u64; LINE_WORDS],
        refusal: *mut Words,
    ) -> u64;

    /// [`panel_straight_line`] of the drawing that a list of calls leaves.
    pub fn panel_straight_calls_line(
        n: usize,
        calls: *const u16,
        calls_len: usize,
        answers: *mut u16,
        answers_len: usize,
        line: usize,
        seen: *mut [u64; STRAIGHT_LINE_WORDS],
        refusal: *mut Words,
    ) -> u64;

    /// Imports a net in planar_code: the number of bytes of its order file, with that file in `order` and
    /// its vertices by point in `vertices`; or 0 and a refusal, which leaves both.
    pub fn panel_import(
        file: *const u8,
        file_len: usize,
        order: *mut u8,
        order_len: usize,
        vertices: *mut u8,
        vertices_len: usize,
        refusal: *mut Words,
    ) -> u64;
}
