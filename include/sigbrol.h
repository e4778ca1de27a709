/* Sigbrol: pieces given as pixels, shifted along the rows and columns of a sheet until no two share a pixel, or come within a gap.
 *
 * Link with crates/sigbrol/out/libsigbrol.a, which `rt lib` makes in crates/sigbrol. Every function is proved to do what its comment says
 * for every content and every length of what it is lent: it trusts no byte.
 *
 * Words.
 * - x counts columns along the length L of the sheet, y rows across its width W, both from 0 at the bottom left. A piece's corner is the
 *   bottom-left pixel of its turned box. Turns are counterclockwise and stand as degrees: 0, 90, 180, 270.
 * - A job is lent as eight arguments, which SIGBROL_LENT takes from a sigbrol_job: W, L, n and the gap, the piece table with its length
 *   (an entry {l, w, o, lock} a piece) and the pixel bytes with their length (1 or 0, row by row, piece after piece). sigbrol_read_job
 *   fills all of it. Table and pixels may be longer than the job needs; what lies beyond is not looked at.
 * - A piece is locked (SIGBROL_LOCKED in its entry) once it is under the knife, else free (SIGBROL_FREE). Start, compaction, descent and
 *   guided run leave locked pieces where they are given, and a locked piece is not withdrawn. Every other call treats it as any piece: it
 *   is a part of the layout, and its conflicts count. sigbrol_set_lock sets a lock; no call clears one but sigbrol_read_job, which fills
 *   the table anew.
 * - Two pieces conflict when some pixel of one is at most `gap` columns and at most `gap` rows from some pixel of the other. With a gap
 *   of 0, which every job text of version 1 has, that is: when they share a pixel. There is no gap to the sheet's edge, and none in the
 *   sheet's counts.
 * - A layout has an entry {turn, x, y} a piece, weights one number (1 to 65,535) a pair in the order (0,1), (0,2), .., (1,2), ..:
 *   both have exactly that length, SIGBROL_PAIRS(n) for the weights. Where a call only reads a layout that is not const, C up to C17
 *   asks for a cast: SIGBROL_PLACES(layout) has it, SIGBROL_LINES(lines) that of a line buffer, and SIGBROL_LENT and
 *   SIGBROL_READ_STORES have theirs.
 * - A strip is {line, first, count}: in a row store {y, first x, count}, in a column store {x, first y, count}.
 * - `vertical` is 0 for a shift along the rows (horizontal) and any other number for one along the columns.
 *
 * Replies. A call replies {0, 0, 0} when it did its work. Otherwise it is refused: `number` says why, `first` and `second` where (0
 * unless said below), and not a byte of the caller's memory has changed. Of several causes the first in the order that the comment
 * gives wins; README.md has a table of all numbers with what to do. Every call that is lent a job begins with cause 8: the job, its gap
 * and its locks included, is none that sigbrol_read_job gives. Where a comment says 9 and 10 and no more, 9 is a turn of the layout that is
 * not allowed and 10 a placement that leaves the sheet.
 *
 * Memory. A call writes what its comment says that it fills, and nothing else: what lies beyond the front of a buffer stays untouched.
 *
 * Workspace. sigbrol_descent, sigbrol_guided_run and sigbrol_program are lent words to work in, of any content and any number, 0 included.
 * What a call replies and fills does not depend on them; more of them is faster, up to what the job's pieces need. They need not be cleared,
 * and one workspace may serve call after call. After a call that is not refused they hold anything; a refusal leaves them as they were.
 *
 * What the caller sees to: a pointer has as many elements behind it as its length says (it may be null where that is 0), one without
 * a length has one element (a record sixty-four entries), and no buffer that a call writes overlaps another of its arguments. A pointer
 * is never kept. No function allocates, keeps state or does input and output, so any number of threads may call. A thread needs up to
 * 1.5 MB of stack: sigbrol_descent, sigbrol_guided_run and sigbrol_program take the most, 1.4 MB as measured. This, and the lengths below that
 * suffice, are counted and not proved; that SIGBROL_CUT_LINES suffices is proved. */
#ifndef SIGBROL_H
#define SIGBROL_H

#include <stddef.h>
#include <stdint.h>

#ifdef __cplusplus
extern "C" {
#endif

/* The version of this interface. It grows by 1 where anything below changes for a caller. */
#define SIGBROL_VERSION 9

/* The largest numbers of a job: pieces, bytes of all boxes together, bytes of a job text that the program reads. */
#define SIGBROL_PIECES 64
#define SIGBROL_PIXELS 65536
#define SIGBROL_TEXT 65536

/* The largest gap, depth and penalty of two pieces of a job: two pieces of 255 columns with a gap of 8 may have a depth of 263 along the
 * rows; full boxes of 255 by 128 and 128 by 255 pixels, one in the middle of the other, a penalty of 199. */
#define SIGBROL_GAP 8
#define SIGBROL_DEPTH 263
#define SIGBROL_PENALTY 199

/* Lengths that suffice for every job: strips of a store, its starts, runs of a no-fit row or column, bytes of a layout text and of the
 * program's output. */
#define SIGBROL_STRIPS SIGBROL_PIXELS
#define SIGBROL_STARTS (SIGBROL_PIECES + 1)
#define SIGBROL_RUNS 255
#define SIGBROL_LAYOUT_TEXT 2048
#define SIGBROL_OUTPUT 4096

/* Words of a workspace: fewer than the first are not used; the second hold the maps of a job of middle size, 2 MB. */
#define SIGBROL_WORKSPACE_LEAST 29061
#define SIGBROL_WORKSPACE 262144

/* How many lines suffice for the cut list of every layout on a sheet. */
#define SIGBROL_CUT_LINES(rows, columns) (((size_t)(rows) + 1) * ((size_t)(columns) + 1))

/* How many pairs n pieces have, so how many weights, and the largest weight. */
#define SIGBROL_PAIRS(n) ((size_t)(n) * ((size_t)(n) - 1) / 2)
#define SIGBROL_WEIGHT 65535

/* Turns, in degrees, and each one's part of the sum o of the turns that a piece may take. */
#define SIGBROL_TURN_0 0
#define SIGBROL_TURN_90 90
#define SIGBROL_TURN_180 180
#define SIGBROL_TURN_270 270
#define SIGBROL_ALLOWS(turn) (1 << (turn) / 90)

/* The lock of a piece, the last number of its entry of the table. */
#define SIGBROL_FREE 0
#define SIGBROL_LOCKED 1

/* Stations, for `station`: the planner's may not set a lock, the cutter's may. */
#define SIGBROL_PLANNER 0
#define SIGBROL_CUTTER 1

/* Directions, for `vertical`. */
#define SIGBROL_HORIZONTAL 0
#define SIGBROL_VERTICAL 1

/* What the knife does at a step. */
#define SIGBROL_STEP_DONE 0
#define SIGBROL_STEP_LIFT 1
#define SIGBROL_STEP_CUT 2

/* The largest pitch: the side of a pixel in sixty-fourths of a millimetre. */
#define SIGBROL_PITCH 4096

/* The numbers of refusals. README.md says what to do about each. */
#define SIGBROL_DONE 0
#define SIGBROL_WRONG_FORM 1
#define SIGBROL_OUT_OF_RANGE 2
#define SIGBROL_SHEET_TOO_LARGE 3
#define SIGBROL_BOXES_TOO_LARGE 4
#define SIGBROL_LOOSE_BOX 5
#define SIGBROL_BOX_TOO_LARGE 6
#define SIGBROL_WRONG_LENGTH 7
#define SIGBROL_NOT_OURS 8
#define SIGBROL_NO_SUCH_PIECE 9
#define SIGBROL_OUTSIDE 10
#define SIGBROL_EMPTY_LINE 11
#define SIGBROL_SHARED_PIXEL 12 /* two pieces conflict; the name is that of a gap of 0 */
#define SIGBROL_LAID_ALREADY 13
#define SIGBROL_NOT_LAID 14
#define SIGBROL_PIECE_LOCKED 15
#define SIGBROL_NOT_THE_CUTTER 16

/* What a call replies: number 0, or why and where it is refused. */
typedef struct {
    uint32_t number;
    uint32_t first;
    uint32_t second;
} sigbrol_reply;

/* A job in the caller's memory, and the eight arguments that lend it: to a call that only reads it, and to sigbrol_set_lock, which writes
 * its table. */
typedef struct {
    size_t rows;
    size_t columns;
    size_t count;
    size_t gap;
    uint8_t table[SIGBROL_PIECES][4];
    uint8_t pixels[SIGBROL_PIXELS];
} sigbrol_job;

#define SIGBROL_LENT(job) \
    (job)->rows, (job)->columns, (job)->count, (job)->gap, (const uint8_t(*)[4])(job)->table, (size_t)SIGBROL_PIECES, \
        (job)->pixels, (size_t)SIGBROL_PIXELS

#define SIGBROL_LENT_TO_LOCK(job) \
    (job)->rows, (job)->columns, (job)->count, (job)->gap, (job)->table, (size_t)SIGBROL_PIECES, (job)->pixels, (size_t)SIGBROL_PIXELS

/* A layout as an argument of a call that only reads it. */
#define SIGBROL_PLACES(layout) ((const uint16_t(*)[3])(layout))

/* The lines of a cut list as an argument of a call that only reads them. */
#define SIGBROL_LINES(lines) ((const uint16_t(*)[4])(lines))

/* The strips of all pieces in the caller's memory: the row store and the column store, each with its starts. The eight arguments by which
 * sigbrol_strips fills them, and those by which sigbrol_stretch and sigbrol_stretch_refusal read them. */
typedef struct {
    uint8_t row_strips[SIGBROL_STRIPS][3];
    uint32_t row_starts[SIGBROL_STARTS];
    uint8_t column_strips[SIGBROL_STRIPS][3];
    uint32_t column_starts[SIGBROL_STARTS];
} sigbrol_stores;

#define SIGBROL_FILL_STORES(stores) \
    (stores)->row_strips, (size_t)SIGBROL_STRIPS, (stores)->row_starts, (size_t)SIGBROL_STARTS, (stores)->column_strips, \
        (size_t)SIGBROL_STRIPS, (stores)->column_starts, (size_t)SIGBROL_STARTS

#define SIGBROL_READ_STORES(stores) \
    (const uint8_t(*)[3])(stores)->row_strips, (size_t)SIGBROL_STRIPS, (stores)->row_starts, (size_t)SIGBROL_STARTS, \
        (const uint8_t(*)[3])(stores)->column_strips, (size_t)SIGBROL_STRIPS, (stores)->column_starts, (size_t)SIGBROL_STARTS

/* The first strip of a stretch, as an argument: `first` is what sigbrol_stretch has filled. */
#define SIGBROL_STRETCH(stores, vertical, first) \
    ((const uint8_t(*)[3])((vertical) ? (stores)->column_strips : (stores)->row_strips) + (first))

/* ---- a job ---- */

/* Reads a job text of any length: fills `rows` (W), `columns` (L), `count` (n), `gap` (0 for version 1), the front of the table (n
 * entries, all free for versions 1 and 2) and the front of the pixels (a byte a box pixel). A table of SIGBROL_PIECES and SIGBROL_PIXELS
 * bytes suffice for every job.
 * Refused, by line, first = the line from 1: 1 wrong form, an unknown version, a missing or an extra line; 2 a number out of range, a
 * gap above SIGBROL_GAP and a lock above 1 among them, a wrong piece number, an even o; 3 W x L above 65,536; 6 a box longer or wider
 * than the sheet; 4 box areas above 65,536; 5 a loose box (the line of its last row). Then 7, first = 0: the table or the pixel buffer is
 * too short. */
sigbrol_reply sigbrol_read_job(const uint8_t *text, size_t text_length, uint8_t (*table)[4], size_t table_length, uint8_t *pixels,
                               size_t pixels_length, size_t *rows, size_t *columns, size_t *count, size_t *gap);

/* Locks a piece from a station: its entry of the table gets SIGBROL_LOCKED, nothing else in the table changes. A piece that is locked
 * already stays so. Lend the job by SIGBROL_LENT_TO_LOCK.
 * Refused: 8 the job; 2 a station other than SIGBROL_PLANNER and SIGBROL_CUTTER; 9 no such piece; 16 the station is the planner's. */
sigbrol_reply sigbrol_set_lock(size_t rows, size_t columns, size_t count, size_t gap, uint8_t (*table)[4], size_t table_length,
                               const uint8_t *pixels, size_t pixels_length, size_t piece, size_t station);

/* ---- strips ---- */

/* Fills the front of the row store and of the column store with the strips of all pieces in the given turns (n degrees), piece after
 * piece, and the front of the starts of each with n + 1 numbers: where each piece's strips begin, and the total. SIGBROL_STRIPS strips
 * a store and SIGBROL_STARTS starts suffice for every job.
 * Refused: 8 the job; 9 not n turns, or a turn that is not allowed; 7 a store or starts too short. */
sigbrol_reply sigbrol_strips(size_t rows, size_t columns, size_t count, size_t gap, const uint8_t (*table)[4], size_t table_length,
                             const uint8_t *pixels, size_t pixels_length, const uint16_t *turns, size_t turns_length,
                             uint8_t (*row_strips)[3], size_t row_strips_length, uint32_t *row_starts, size_t row_starts_length,
                             uint8_t (*column_strips)[3], size_t column_strips_length, uint32_t *column_starts,
                             size_t column_starts_length);

/* The stretch of a piece: how many strips it has, and in `first` where they begin in the row store, or in the column store if vertical.
 * 0 means refused (every piece has a strip): `first` is untouched, and sigbrol_stretch_refusal tells the number. */
size_t sigbrol_stretch(size_t rows, size_t columns, size_t count, size_t gap, const uint8_t (*table)[4], size_t table_length,
                       const uint8_t *pixels, size_t pixels_length, const uint16_t *turns, size_t turns_length,
                       const uint8_t (*row_strips)[3], size_t row_strips_length, const uint32_t *row_starts, size_t row_starts_length,
                       const uint8_t (*column_strips)[3], size_t column_strips_length, const uint32_t *column_starts,
                       size_t column_starts_length, size_t piece, uint8_t vertical, size_t *first);

/* The number by which sigbrol_stretch is refused on the same arguments, 0 where it is not: 8 the job; 9 no such piece, not n turns, or
 * a turn that is not allowed; 8 stores or starts that are not the job's in these turns. Writes nothing. */
uint32_t sigbrol_stretch_refusal(size_t rows, size_t columns, size_t count, size_t gap, const uint8_t (*table)[4], size_t table_length,
                                 const uint8_t *pixels, size_t pixels_length, const uint16_t *turns, size_t turns_length,
                                 const uint8_t (*row_strips)[3], size_t row_strips_length, const uint32_t *row_starts,
                                 size_t row_starts_length, const uint8_t (*column_strips)[3], size_t column_strips_length,
                                 const uint32_t *column_starts, size_t column_starts_length, size_t piece, uint8_t vertical);

/* The pixels of the one piece with a box of `rows` by `columns` that has just these row strips (column strips if vertical): fills the
 * front of `pixels`, rows x columns bytes, 1 or 0, row by row. No job is lent.
 * Refused: 2 a side that is none of 1 to 255; 8 no piece of that box has just these strips; 7 the buffer is too short. */
sigbrol_reply sigbrol_rebuild(uint16_t rows, uint16_t columns, uint8_t vertical, const uint8_t (*strips)[3], size_t strips_length,
                              uint8_t *pixels, size_t pixels_length);

/* ---- two pieces ---- */

/* The column offsets at which pieces i and k, turned, conflict when k's corner is `offset` rows above i's: fills the front of `runs`
 * with {first, count}, ascending, and `runs_count`. Every offset lies between -(254 + gap) and 254 + gap, so that 16 bits hold it. The
 * strips are the pieces' stretches from the row store. SIGBROL_RUNS runs suffice for every two pieces.
 * Refused: 8 the job; 9 no such piece, or a turn that is not allowed; 8 a stretch that is not that piece's; 7 `runs` is too short. */
sigbrol_reply sigbrol_no_fit_row(size_t rows, size_t columns, size_t count, size_t gap, const uint8_t (*table)[4], size_t table_length,
                                 const uint8_t *pixels, size_t pixels_length, size_t i, uint16_t i_turn, const uint8_t (*i_strips)[3],
                                 size_t i_strips_length, size_t k, uint16_t k_turn, const uint8_t (*k_strips)[3],
                                 size_t k_strips_length, int32_t offset, int32_t (*runs)[2], size_t runs_length, size_t *runs_count);

/* The same along a column: the row offsets at which they conflict when k's corner is `offset` columns to the right of i's. The
 * strips are the pieces' stretches from the column store. Fills and is refused as sigbrol_no_fit_row. */
sigbrol_reply sigbrol_no_fit_column(size_t rows, size_t columns, size_t count, size_t gap, const uint8_t (*table)[4],
                                    size_t table_length, const uint8_t *pixels, size_t pixels_length, size_t i, uint16_t i_turn,
                                    const uint8_t (*i_strips)[3], size_t i_strips_length, size_t k, uint16_t k_turn,
                                    const uint8_t (*k_strips)[3], size_t k_strips_length, int32_t offset, int32_t (*runs)[2],
                                    size_t runs_length, size_t *runs_count);

/* Whether pieces i and k conflict in the layout, which with a gap of 0 is whether they share a pixel: fills `shares` with 1 or 0.
 * Refused: 8 the job; 7 the layout's length; 9 no such piece, i = k, or a turn of the layout that is not allowed; 10 a placement
 * outside, of any piece. */
sigbrol_reply sigbrol_shares_pixel(size_t rows, size_t columns, size_t count, size_t gap, const uint8_t (*table)[4],
                                   size_t table_length, const uint8_t *pixels, size_t pixels_length, const uint16_t (*layout)[3],
                                   size_t layout_length, size_t i, size_t k, uint8_t *shares);

/* The least number of pixels by which piece k has to be shifted along the rows (the columns if vertical), either way, until it does not
 * conflict with i, be it over the sheet's edge: fills `depth`, at most SIGBROL_DEPTH. Refused as sigbrol_shares_pixel. */
sigbrol_reply sigbrol_depth(size_t rows, size_t columns, size_t count, size_t gap, const uint8_t (*table)[4], size_t table_length,
                            const uint8_t *pixels, size_t pixels_length, const uint16_t (*layout)[3], size_t layout_length, size_t i,
                            size_t k, uint8_t vertical, uint32_t *depth);

/* The penalty of pieces i and k, the smaller of the two depths: fills `penalty`, at most SIGBROL_PENALTY. Refused as
 * sigbrol_shares_pixel. */
sigbrol_reply sigbrol_penalty(size_t rows, size_t columns, size_t count, size_t gap, const uint8_t (*table)[4], size_t table_length,
                              const uint8_t *pixels, size_t pixels_length, const uint16_t (*layout)[3], size_t layout_length, size_t i,
                              size_t k, uint32_t *penalty);

/* ---- a layout ---- */

/* Weight x penalty over all pairs: fills `sum`.
 * Refused: 8 the job; 7 the length of the layout or the weights; 2 a weight that is none of 1 to 65,535; 9; 10. */
sigbrol_reply sigbrol_weighted_sum(size_t rows, size_t columns, size_t count, size_t gap, const uint8_t (*table)[4],
                                   size_t table_length, const uint8_t *pixels, size_t pixels_length, const uint16_t (*layout)[3],
                                   size_t layout_length, const uint32_t *weights, size_t weights_length, uint64_t *sum);

/* The penalties of all pairs together: fills `sum`. Refused: 8 the job; 7 the layout's length; 9; 10. */
sigbrol_reply sigbrol_plain_sum(size_t rows, size_t columns, size_t count, size_t gap, const uint8_t (*table)[4], size_t table_length,
                                const uint8_t *pixels, size_t pixels_length, const uint16_t (*layout)[3], size_t layout_length,
                                uint64_t *sum);

/* The columns of cloth that the layout spends, from the smallest corner x to the largest right end of a piece: fills `used`. What is
 * blank left of the first piece goes back to the roll. Refused: 8 the job; 7 the layout's length; 9; 10. */
sigbrol_reply sigbrol_used_length(size_t rows, size_t columns, size_t count, size_t gap, const uint8_t (*table)[4], size_t table_length,
                                  const uint8_t *pixels, size_t pixels_length, const uint16_t (*layout)[3], size_t layout_length,
                                  size_t *used);

/* A move before it is made: fills `sum` and `used` with what sigbrol_weighted_sum and sigbrol_used_length would fill them with if `piece` lay
 * in `turn` with its corner at (x, y) and the others where they are. The layout stays as it is; the sum is 0 exactly when no two pieces
 * would conflict. Made for every step of a drag: only pieces whose boxes come within the gap are measured.
 * Refused: 8 the job; 7 the length of the layout or the weights; 2 a weight; 9 no such piece, a turn that is not allowed, here or in the
 * layout; 10 a placement outside, of the layout as it is, this piece's among them, or the new one. */
sigbrol_reply sigbrol_preview(size_t rows, size_t columns, size_t count, size_t gap, const uint8_t (*table)[4], size_t table_length,
                              const uint8_t *pixels, size_t pixels_length, const uint16_t (*layout)[3], size_t layout_length,
                              const uint32_t *weights, size_t weights_length, size_t piece, uint16_t turn, uint16_t x, uint16_t y,
                              uint64_t *sum, size_t *used);

/* Passes exactly the layouts that the knife may follow: all inside in allowed turns, and no two pieces conflict. Writes nothing.
 * Refused: 8 the job; 7 the layout's length; 9; 10; 12 two pieces conflict, first and second = the pair with the lowest first number,
 * then the lowest second. */
sigbrol_reply sigbrol_check(size_t rows, size_t columns, size_t count, size_t gap, const uint8_t (*table)[4], size_t table_length,
                            const uint8_t *pixels, size_t pixels_length, const uint16_t (*layout)[3], size_t layout_length);

/* The start layout: stacks the free pieces from the left, as if they were alone, and fills their entries of `layout`. The entries of
 * locked pieces are read and stay: they say where these lie, and free pieces may be stacked on them. Those of free pieces are not read, so
 * that without locks the layout may hold anything.
 * Refused: 8 the job; 7 the layout's length; 9 a locked piece's turn that is not allowed; 10 a locked piece's placement outside. */
sigbrol_reply sigbrol_start(size_t rows, size_t columns, size_t count, size_t gap, const uint8_t (*table)[4], size_t table_length,
                            const uint8_t *pixels, size_t pixels_length, uint16_t (*layout)[3], size_t layout_length);

/* Pushes everything left and down, of a layout that passes sigbrol_check. A pass takes the free pieces in number order: each slides left pixel
 * by pixel while it stays inside and conflicts with none, then down likewise, until neither moves it. Passes repeat until one moves nothing.
 * The layout becomes the one at the end: it passes sigbrol_check, no turn has changed, no corner has a larger x or y, locked pieces lie where
 * they were given, and no free piece can slide one pixel further left or down. Fills `slid`, the pixels slid: the fall in the sum of all
 * corner coordinates. The largest right end never grows; the used length may, since the leftmost piece slides too.
 * Refused: 8 the job; 7 the layout's length; 9; 10; 12 as sigbrol_check. */
sigbrol_reply sigbrol_compact(size_t rows, size_t columns, size_t count, size_t gap, const uint8_t (*table)[4], size_t table_length,
                              const uint8_t *pixels, size_t pixels_length, uint16_t (*layout)[3], size_t layout_length, uint64_t *slid);

/* The layout as text: fills the front of `text` and `written`, how many bytes. SIGBROL_LAYOUT_TEXT bytes suffice for
 * every layout.
 * Refused: 8 the job; 7 the layout's length; 9; 10; 7 the text buffer is too short. */
sigbrol_reply sigbrol_write_layout(size_t rows, size_t columns, size_t count, size_t gap, const uint8_t (*table)[4],
                                   size_t table_length, const uint8_t *pixels, size_t pixels_length, const uint16_t (*layout)[3],
                                   size_t layout_length, uint8_t *text, size_t text_length, size_t *written);

/* Reads a layout text of this job: fills `layout`.
 * Refused: 8 the job; by line, first = the line from 1: 1 wrong form, a missing or an extra line; 2 W, L, n or a piece number unlike
 * the job's, or a turn that is none of the four; 9 a turn that is not allowed; 10 outside. Then 7, first = 0: the layout's length. */
sigbrol_reply sigbrol_read_layout(size_t rows, size_t columns, size_t count, size_t gap, const uint8_t (*table)[4], size_t table_length,
                                  const uint8_t *pixels, size_t pixels_length, const uint8_t *text, size_t text_length,
                                  uint16_t (*layout)[3], size_t layout_length);

/* ---- the cut list ---- */

/* The lines to cut of a layout that passes sigbrol_check: fills the front of `lines` and `lines_count`, how many there are. An entry is
 * {direction, line, first, last}, the last three in pixel lines, 0 to W or L: row y lies between the lines y and y + 1. A horizontal line
 * (0) stands at y = line from x = first to x = last, a vertical one (1) at x = line from y = first to y = last. Horizontals come first, by
 * y, then x; verticals by x, then y. Every side between a pixel of a piece and one that is not of that piece, or the sheet's outside, lies
 * on just one line, nothing else is cut, and no two lines could be joined. SIGBROL_CUT_LINES(rows, columns) lines suffice for every layout.
 * Refused: 8 the job; 7 the layout's length; 9; 10; 12 as sigbrol_check; 7 the line buffer is too short. */
sigbrol_reply sigbrol_cut_lines(size_t rows, size_t columns, size_t count, size_t gap, const uint8_t (*table)[4], size_t table_length,
                                const uint8_t *pixels, size_t pixels_length, const uint16_t (*layout)[3], size_t layout_length,
                                uint16_t (*lines)[4], size_t lines_length, size_t *lines_count);

/* Step number `step`, from 0, of the cut list of a layout that passes sigbrol_check: fills `word` with SIGBROL_STEP_LIFT or
 * SIGBROL_STEP_CUT, and `x` and `y` with the point to lift or to cut to in millimetres, exactly pixel line x pitch / 64; or `word` alone
 * with SIGBROL_STEP_DONE, for every number past the last. Steps 2k and 2k + 1 are a lift to the smaller end of line k and a cut to the
 * other. Each call makes the whole list: for more than a few steps make the lines once and ask sigbrol_line_step.
 * Refused: 8 the job; 7 the layout's length; 2 a pitch that is none of 1 to SIGBROL_PITCH; 9; 10; 12 as sigbrol_check. */
sigbrol_reply sigbrol_cut_step(size_t rows, size_t columns, size_t count, size_t gap, const uint8_t (*table)[4], size_t table_length,
                               const uint8_t *pixels, size_t pixels_length, const uint16_t (*layout)[3], size_t layout_length,
                               uint32_t pitch, uint64_t step, uint8_t *word, double *x, double *y);

/* The same step of lines that are lent, found without a search. Lend just the `lines_count` lines that sigbrol_cut_lines filled, not the
 * whole buffer: every entry that is lent is a line, whatever it holds, and a direction other than 0 is vertical.
 * Refused: 2 a pitch that is none of 1 to SIGBROL_PITCH. */
sigbrol_reply sigbrol_line_step(const uint16_t (*lines)[4], size_t lines_length, uint32_t pitch, uint64_t step, uint8_t *word,
                                double *x, double *y);

/* ---- search ---- */

/* The best place of a piece on a line, the others fixed: over every inside corner in row `held` (in column `held` if vertical), in the
 * turn, fills `sum` with the least weighted sum of this piece's pairs and `at` with the smallest coordinate that has it.
 * Refused: 8 the job; 7 the length of the layout or the weights; 2 a weight; 9 no such piece, a turn that is not allowed, here or in
 * the layout; 10 a placement of the layout outside; 11 no inside corner lies on the line. */
sigbrol_reply sigbrol_line_search(size_t rows, size_t columns, size_t count, size_t gap, const uint8_t (*table)[4], size_t table_length,
                                  const uint8_t *pixels, size_t pixels_length, const uint16_t (*layout)[3], size_t layout_length,
                                  const uint32_t *weights, size_t weights_length, size_t piece, uint16_t turn, uint8_t vertical,
                                  uint16_t held, uint64_t *sum, size_t *at);

/* How a descent ended: its sum is 0; no trial moves any more, or every piece is locked and there is none; the budget is used up. */
#define SIGBROL_CLEAR 0
#define SIGBROL_SETTLED 1
#define SIGBROL_SPENT 2

/* A descent of at most `budget` trials (0 to 1,000,000,000). A trial searches one line for a better place of one free piece in one turn;
 * a move is a trial that found one. The layout becomes the one at the end, in which locked pieces lie where they were given; fills `end`,
 * `sum` (its weighted sum), `trials` and `moves`.
 * Refused: 8 the job; 7 the length of the layout or the weights; 2 a weight or the budget; 9; 10. */
sigbrol_reply sigbrol_descent(size_t rows, size_t columns, size_t count, size_t gap, const uint8_t (*table)[4], size_t table_length,
                              const uint8_t *pixels, size_t pixels_length, uint16_t (*layout)[3], size_t layout_length,
                              const uint32_t *weights, size_t weights_length, uint32_t budget, uint64_t *workspace,
                              size_t workspace_length, uint8_t *end, uint64_t *sum, uint64_t *trials, uint64_t *moves);

/* A guided run of at most `rounds` descents (1 to 1,000), each of at most `budget` trials; after each that is not clear the weight of
 * every pair that conflicts grows by 1, up to 65,535. The layout becomes the best one, in which locked pieces lie where they were given,
 * the weights the new ones; fills `sum` (the best layout's plain sum), `trials` and `moves` of all rounds.
 * Refused: 8 the job; 7 the length of the layout or the weights; 2 a weight, the budget or the rounds; 9; 10. */
sigbrol_reply sigbrol_guided_run(size_t rows, size_t columns, size_t count, size_t gap, const uint8_t (*table)[4], size_t table_length,
                                 const uint8_t *pixels, size_t pixels_length, uint16_t (*layout)[3], size_t layout_length,
                                 uint32_t *weights, size_t weights_length, uint32_t rounds, uint32_t budget, uint64_t *workspace,
                                 size_t workspace_length, uint64_t *sum, uint64_t *trials, uint64_t *moves);

/* The whole program on a job text: fills the front of `output` with what `nest` prints for this input and `written` with how many bytes
 * that are, at most SIGBROL_OUTPUT. Locked pieces lie where the start layout of the same job without locks has them. A job that is refused
 * is told in that text. The workspace is used where the output buffer has room for SIGBROL_OUTPUT bytes, so that no refusal comes after it
 * was written.
 * Refused: 7 the output buffer is shorter than the text. */
sigbrol_reply sigbrol_program(const uint8_t *input, size_t input_length, uint8_t *output, size_t output_length, uint64_t *workspace,
                              size_t workspace_length, size_t *written);

/* ---- the sheet of cover counts ---- */

/* The sheet record: for each piece number {laid (1 or 0), turn, x, y}. A piece that is not laid has {0, 0, 0, 0}. */
typedef uint16_t sigbrol_record[SIGBROL_PIECES][4];

/* A fresh sheet: fills the record, nothing laid, and the counts, W x L zeros; pixel (x, y) has the count at y x L + x.
 * Refused: 8 the job; 7 not W x L counts. */
sigbrol_reply sigbrol_fresh(size_t rows, size_t columns, size_t count, size_t gap, const uint8_t (*table)[4], size_t table_length,
                            const uint8_t *pixels, size_t pixels_length, uint16_t (*record)[4], uint8_t *counts, size_t counts_length);

/* Lays a piece: its entry of the record becomes {1, turn, x, y}, and each pixel that it covers counts one more, whatever the gap is.
 * Laid pieces may share pixels: a count above 1 says where.
 * Refused: 8 the job; 7 not W x L counts; 8 a record or counts that no list of calls gives; 9 no such piece, or a turn that is not
 * allowed; 13 laid already; 10 outside. */
sigbrol_reply sigbrol_lay(size_t rows, size_t columns, size_t count, size_t gap, const uint8_t (*table)[4], size_t table_length,
                          const uint8_t *pixels, size_t pixels_length, uint16_t (*record)[4], uint8_t *counts, size_t counts_length,
                          size_t piece, uint16_t turn, uint16_t x, uint16_t y);

/* Withdraws a piece: its entry becomes {0, 0, 0, 0}, and each pixel that it covered counts one less.
 * Refused: 8 the job; 7 not W x L counts; 8 a record or counts that no list of calls gives; 9 no such piece; 14 not laid; 15 locked. */
sigbrol_reply sigbrol_withdraw(size_t rows, size_t columns, size_t count, size_t gap, const uint8_t (*table)[4], size_t table_length,
                               const uint8_t *pixels, size_t pixels_length, uint16_t (*record)[4], uint8_t *counts,
                               size_t counts_length, size_t piece);

#ifdef __cplusplus
}
#endif

#endif
