/* What target/staticlib/libpanel_c.a offers to C and C++; `tools/make panel_c` makes it.
   Files, numbers and places are those of document 01 (../shared/01-scope.md). README.md says what to do about each refusal.
   An order file is drawn in one of two styles: `panel_X` draws lines with one bend at most, `panel_straight_X` straight lines.
   `panel_import` makes the order file of a net from a graph generator.

   Lengths count bytes, or 16-bit words or floats where the pointer is one to these. No pointer may be null, also with length 0.
   What a function writes to (`out`, `order` and `vertices` of `panel_import`, `answers`, `kinds`, `at`, `place`, `line`,
   `refusal`) may not overlap anything else that it is given.
   A call takes no heap and at most 80 KB of stack, the same for every n. Nothing is kept from one call to the next.

   Every call fills `refusal`, with zeros if nothing is refused.
   A refusal leaves `out`, `order`, `vertices`, `kinds`, `at`, `place` and `line` as they were. In the functions on lists of
   calls, 3 and 24 for short answers leave `answers` too; every other refusal comes after the answers were written.
   Bytes, words and floats past the written ones stay. */
#ifndef PANEL_H
#define PANEL_H

#include <stddef.h>
#include <stdint.h>

/* The range of n. */
#define PANEL_FEWEST_POINTS 3
#define PANEL_MOST_POINTS 1024

/* The lines of a finished drawing, and the bytes of its drawing file, one-bend and straight. */
#define PANEL_LINE_COUNT(n) (3 * (n) - 6)
#define PANEL_DRAWING_LENGTH(n) (42 * (n) - 60)
#define PANEL_STRAIGHT_LENGTH(n) (30 * (n) - 36)

/* The most moves of a finished drawing, in either style: every line a feeder that gives five moves twice. */
#define PANEL_MOST_MOVES(n) (10 * PANEL_LINE_COUNT(n))

/* The bytes of the longest files, and how many bytes of an order file the program `draw` judges as the whole file. */
#define PANEL_LONGEST_ORDER 10238
#define PANEL_LONGEST_DRAWING 42948
#define PANEL_LONGEST_STRAIGHT 30684
#define PANEL_ORDER_INPUT 32768

/* The range of n of a net in planar_code, the bytes of its order file, the bytes of the longest file in planar_code that is
   taken (one of n vertices has 7n + 4), and how many bytes the program `import` judges as the whole file. */
#define PANEL_FEWEST_VERTICES 4
#define PANEL_MOST_VERTICES 255
#define PANEL_IMPORTED_LENGTH(n) (10 * (n) - 6)
#define PANEL_LONGEST_PLANAR_CODE 1789
#define PANEL_PLANAR_CODE_INPUT 32768

/* The words of an answer: number and place. */
#define PANEL_ANSWER_WORDS 2

/* An entry is an earlier point in its low 14 bits, with one of these bits or neither for a plain line. Both give 13. */
#define PANEL_GUIDE 0x8000
#define PANEL_FEEDER 0x4000

/* A refusal: its number, its place, and with number 24 which buffer was short, else 0. */
struct panel_refusal {
    uint64_t number, place, buffer;
};

/* Numbers of refusals, 0 for none. */
#define PANEL_FILE_ENDS 1
#define PANEL_WRONG_MARK 2
#define PANEL_OUT_OF_RANGE 3
#define PANEL_OTHER_START 4
#define PANEL_FEW_ENTRIES 5
#define PANEL_NOT_PLACED 6
#define PANEL_COVERED 7
#define PANEL_NO_RUN 8
#define PANEL_NOT_WHOLE 9
#define PANEL_EXTRA_BYTES 10
#define PANEL_OTHER_DRAWING 11
#define PANEL_BAD_TOOL 12
#define PANEL_BOTH_MARKS 13
#define PANEL_BAD_CODE 14
#define PANEL_NO_NET 15
#define PANEL_FINISHED 21
#define PANEL_UNFINISHED 22
#define PANEL_NO_SUCH 23
#define PANEL_OUTPUT_SHORT 24
#define PANEL_NO_REACH 25

/* Which buffer was short: `out`, `kinds` or the `order` of an import, `answers`, `at`, `vertices`. */
#define PANEL_SHORT_OUT 1
#define PANEL_SHORT_ANSWERS 2
#define PANEL_SHORT_AT 3
#define PANEL_SHORT_VERTICES 4

/* Kinds of move, 0 for a refusal. */
#define PANEL_MOVE_TRAVEL 1
#define PANEL_MOVE_PLUNGE 2
#define PANEL_MOVE_CUT 3
#define PANEL_MOVE_LIFT 4

/* What a look-up returns, 0 for a refusal. Only a cut line may be missing. */
#define PANEL_FOUND 1
#define PANEL_NONE 2

/* A place in grid units; y points up. */
struct panel_place {
    uint64_t x, y;
};

/* A line: its ends, the kind of its bend, the port's index from 1 (0 for none), the place of the bend, the line's own kind.
   A left or right port is the earlier point's, a middle port the later point's.
   Line 1-2 has no bend; the place of point 1 stands for it. */
struct panel_seen_line {
    uint64_t later, earlier, bend, port, bend_x, bend_y, kind;
};

/* A line of a straight drawing: its ends and its own kind. */
struct panel_straight_seen_line {
    uint64_t later, earlier, kind;
};

/* Kinds of bend. */
#define PANEL_BEND_NONE 0
#define PANEL_BEND_LEFT 1
#define PANEL_BEND_RIGHT 2
#define PANEL_BEND_MIDDLE 3

/* Kinds of line. A guide isn't cut; plain lines and feeders are cut lines, a feeder is cut twice. */
#define PANEL_KIND_GUIDE 0
#define PANEL_KIND_PLAIN 1
#define PANEL_KIND_FEEDER 2

#ifdef __cplusplus
extern "C" {
#endif

/* Order file to drawing file, and back: the number of bytes written, 0 for a refusal. 24 if `out` is too short.
   The last field of a line in a drawing file is its kind. */
uint64_t panel_draw(const uint8_t *order, size_t order_length, uint8_t *out, size_t out_length,
                    struct panel_refusal *refusal);
uint64_t panel_undraw(const uint8_t *drawing, size_t drawing_length, uint8_t *out, size_t out_length,
                      struct panel_refusal *refusal);

/* A net in planar_code to its order file: the number of bytes written to `order`, PANEL_IMPORTED_LENGTH(n), 0 for a refusal.
   `vertices` gets n bytes, the file vertex of each point from point 1 on. The file is `>>planar_code<<`, n, and for each vertex
   its neighbours clockwise, ended by 0. Vertex 1 becomes point 1, its first neighbour point 2, the next one point n.
   Refused are, all with place 0: 14 if the bytes aren't one such net (other opening characters, n out of range, a neighbour
   above n, bytes missing or left over); 15 if it isn't triangulated (a list names its own vertex or one vertex twice, a line
   stands in one list only, not all is connected, there aren't 3n - 6 lines, a face hasn't three sides); 24 if `order` is too
   short, then 24 if `vertices` is. Every other net is taken, and its order file can be drawn. */
uint64_t panel_import(const uint8_t *file, size_t file_length, uint8_t *order, size_t order_length,
                      uint8_t *vertices, size_t vertices_length, struct panel_refusal *refusal);

/* Cutter move `number`, from 0, of the drawing of an order file: its kind.
   Travel and cut put x and y into `at`, plunge and lift the height and 0, in millimetres.
   A plain line gives travel, plunge, cut to the bend, cut to the earlier point and lift, without a cut to the place where the
   cutter already is: four moves or five. A feeder gives the same twice in succession, a guide none.
   Refused are the order file, then 12 for the tool, 23 if there is no such move. */
uint64_t panel_move(const uint8_t *order, size_t order_length, float pitch, float depth, float clearance,
                    size_t number, float at[2], struct panel_refusal *refusal);

/* All cutter moves of the drawing of an order file, in their order, which is what `panel_move` gives for 0, 1, 2, ..: how many
   there are, 0 also if nothing is cut. `kinds[i]` gets the kind of move i, `at[2 * i]` and `at[2 * i + 1]` its two numbers.
   PANEL_MOST_MOVES(n) kinds and twice as many floats are always enough.
   Refused are the order file, then 12 for the tool, 24 if `kinds` is too short, then 24 if `at` is. */
uint64_t panel_moves(const uint8_t *order, size_t order_length, float pitch, float depth, float clearance,
                     uint8_t *kinds, size_t kinds_length, float *at, size_t at_length,
                     struct panel_refusal *refusal);

/* Look-ups of the drawing of an order file. Points count from 1, lines from 0.
   `panel_cut_line` gives the number of a cut line, plain or feeder, that ends at the point, one of them if there are more;
   if there is none, it returns PANEL_NONE and `line` stays. Refused are the order file, then 23 if there is no such point or line. */
uint64_t panel_point(const uint8_t *order, size_t order_length, size_t point, struct panel_place *place,
                     struct panel_refusal *refusal);
uint64_t panel_line(const uint8_t *order, size_t order_length, size_t number, struct panel_seen_line *line,
                    struct panel_refusal *refusal);
uint64_t panel_cut_line(const uint8_t *order, size_t order_length, size_t point, uint64_t *line,
                        struct panel_refusal *refusal);

/* Lists of calls: a drawing is opened for n points, and point after point is added.
   `calls` has a count, then that many entries, call after call. A last call that is cut off has the entries that are left;
   nothing else is said of it. `answers` gets two words a call: number and place of its refusal, 0 and 0 if it is accepted.
   A refused call leaves the drawing as it is, and the next call is made.
   Refused is the whole list with 3 if n is out of range, then with 24 if `answers` is too short; then nothing changes.
   Else the answers are written, also where what is asked of the drawing is refused. */

/* The drawing file: the number of bytes written, 0 for a refusal. 22 while points are missing, 24 if `out` is too short. */
uint64_t panel_calls(size_t n, const uint16_t *calls, size_t calls_length, uint16_t *answers, size_t answers_length,
                     uint8_t *out, size_t out_length, struct panel_refusal *refusal);

/* A cutter move, as `panel_move` gives it. 12 for the tool, 22 while points are missing, 23 if there is no such move. */
uint64_t panel_calls_move(size_t n, const uint16_t *calls, size_t calls_length, uint16_t *answers, size_t answers_length,
                          float pitch, float depth, float clearance, size_t number, float at[2],
                          struct panel_refusal *refusal);

/* All cutter moves, as `panel_moves` gives them. 12 for the tool, 22 while points are missing, 24 if `kinds` is too short,
   then 24 if `at` is. */
uint64_t panel_calls_moves(size_t n, const uint16_t *calls, size_t calls_length, uint16_t *answers, size_t answers_length,
                           float pitch, float depth, float clearance, uint8_t *kinds, size_t kinds_length, float *at,
                           size_t at_length, struct panel_refusal *refusal);

/* Look-ups, as those of an order file's drawing; points may still be missing. 23 if there is no such point or line. */
uint64_t panel_calls_point(size_t n, const uint16_t *calls, size_t calls_length, uint16_t *answers, size_t answers_length,
                           size_t point, struct panel_place *place, struct panel_refusal *refusal);
uint64_t panel_calls_line(size_t n, const uint16_t *calls, size_t calls_length, uint16_t *answers, size_t answers_length,
                          size_t number, struct panel_seen_line *line, struct panel_refusal *refusal);
uint64_t panel_calls_cut_line(size_t n, const uint16_t *calls, size_t calls_length, uint16_t *answers,
                              size_t answers_length, size_t point, uint64_t *line, struct panel_refusal *refusal);

/* Straight drawings: each function below takes, gives and refuses what its namesake above does, but for the following.
   A drawing file begins with 44 53, its lines have no bend, and it has PANEL_STRAIGHT_LENGTH(n) bytes; a panel is
   2n - 4 wide and n - 2 high. `panel_straight_undraw` gives 2 to the mark 44 48, as `panel_undraw` gives 2 to 44 53.
   A plain line gives four moves, one of them a cut, a feeder the same four twice; none is left out.
   Nothing is refused with 25. */
uint64_t panel_straight_draw(const uint8_t *order, size_t order_length, uint8_t *out, size_t out_length,
                             struct panel_refusal *refusal);
uint64_t panel_straight_undraw(const uint8_t *drawing, size_t drawing_length, uint8_t *out, size_t out_length,
                               struct panel_refusal *refusal);
uint64_t panel_straight_move(const uint8_t *order, size_t order_length, float pitch, float depth, float clearance,
                             size_t number, float at[2], struct panel_refusal *refusal);
uint64_t panel_straight_moves(const uint8_t *order, size_t order_length, float pitch, float depth, float clearance,
                              uint8_t *kinds, size_t kinds_length, float *at, size_t at_length,
                              struct panel_refusal *refusal);
uint64_t panel_straight_point(const uint8_t *order, size_t order_length, size_t point, struct panel_place *place,
                              struct panel_refusal *refusal);
uint64_t panel_straight_line(const uint8_t *order, size_t order_length, size_t number,
                             struct panel_straight_seen_line *line, struct panel_refusal *refusal);
uint64_t panel_straight_cut_line(const uint8_t *order, size_t order_length, size_t point, uint64_t *line,
                                 struct panel_refusal *refusal);
uint64_t panel_straight_calls(size_t n, const uint16_t *calls, size_t calls_length, uint16_t *answers,
                              size_t answers_length, uint8_t *out, size_t out_length, struct panel_refusal *refusal);
uint64_t panel_straight_calls_move(size_t n, const uint16_t *calls, size_t calls_length, uint16_t *answers,
                                   size_t answers_length, float pitch, float depth, float clearance, size_t number,
                                   float at[2], struct panel_refusal *refusal);
uint64_t panel_straight_calls_moves(size_t n, const uint16_t *calls, size_t calls_length, uint16_t *answers,
                                    size_t answers_length, float pitch, float depth, float clearance, uint8_t *kinds,
                                    size_t kinds_length, float *at, size_t at_length, struct panel_refusal *refusal);
uint64_t panel_straight_calls_point(size_t n, const uint16_t *calls, size_t calls_length, uint16_t *answers,
                                    size_t answers_length, size_t point, struct panel_place *place,
                                    struct panel_refusal *refusal);
uint64_t panel_straight_calls_line(size_t n, const uint16_t *calls, size_t calls_length, uint16_t *answers,
                                   size_t answers_length, size_t number, struct panel_straight_seen_line *line,
                                   struct panel_refusal *refusal);
uint64_t panel_straight_calls_cut_line(size_t n, const uint16_t *calls, size_t calls_length, uint16_t *answers,
                                       size_t answers_length, size_t point, uint64_t *line,
                                       struct panel_refusal *refusal);

#ifdef __cplusplus
}
#endif
#endif
