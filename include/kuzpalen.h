/* Control sheets for brine plans: the calls, for C.
 *
 * The library is crates/capi/out/libcapi.a, which `rt lib` builds there for x86-64 Linux.
 *
 * A lent buffer is a pointer and the number of its elements, not of its bytes. The pointer must be good
 * for that many, aligned for its type and not NULL, even where the number is 0. A buffer that a call
 * writes may share no byte with another buffer of the call. Nothing else is asked of a caller, and each
 * call answers on every input; none keeps a pointer, allocates or fails otherwise.
 *
 * Every answer but a label's part begins with a refusal: `number` is 0, or the number of the first
 * question answered "no" (1 to 22), and `cell` is then the lowest cell at fault, 0 where no cell is
 * concerned. All other fields of a refusal are 0, and every lent buffer is then as it was before the call.
 */
#ifndef KUZPALEN_H
#define KUZPALEN_H

#include <stddef.h>
#include <stdint.h>

#ifdef __cplusplus
extern "C" {
#endif

#define KUZPALEN_CELLS 256u           /* the most cells of a plan; the records that Read's, Join's and Report's tables need */
#define KUZPALEN_SCRATCH 16384u       /* the numbers that the scratch of Layout, Frame, Mark, Start, Step, Reach and Report needs */
#define KUZPALEN_SECOND 1024u         /* the numbers that the second scratch of Start, Step and Reach needs */
#define KUZPALEN_LISTING_SIZE 17408u  /* the bytes that List's output needs, whatever the file */
#define KUZPALEN_COPY_SIZE 16384u     /* the bytes that Copy's output needs, whatever the plan */
#define KUZPALEN_MENDED_SIZE 16384u   /* the bytes that Mend's output needs, whatever the file, */
#define KUZPALEN_LINES_SIZE 6144u     /* and those that its lines need */
#define KUZPALEN_NO_PARENT 65535u
#define KUZPALEN_DRILL_RECORDS 4096u  /* the most steps that a drill records; the numbers that its list needs */
#define KUZPALEN_DRILL_ANSWERS 4096u  /* the most answer bytes of a drill */
#define KUZPALEN_WIDEST 1023u         /* the greatest width in a table; a file of the old form has at most 255 */
#define KUZPALEN_FARTHEST 262143      /* a coordinate that is lent lies from its negative to it */

/* One record of a table, which has one for each cell: cell 0 is the root. */
typedef struct {
    uint16_t parent;       /* KUZPALEN_NO_PARENT for the root, else less than the cell's own number */
    uint8_t kind;          /* 1 step, 2 run, 3 repeat, 4 choice, 5 wait */
    uint8_t rank;          /* 0 to 255, to be set always: siblings stand by rank, then by number; 0 where a file is of the old form */
    uint16_t width;        /* 1 to KUZPALEN_WIDEST */
    uint8_t depth;         /* 1 to 15 */
    uint8_t label_length;  /* the label: so many bytes of the file, */
    uint16_t label_start; /* from this one on. Read and Report write the two label fields; Copy reads them, Join copies them, no other call that takes a table looks at them */
} kuzpalen_record;

typedef struct {
    uint8_t number;
    uint16_t cell;
    uint16_t allowance;
    size_t count;          /* the number of cells */
} kuzpalen_read_answer;

typedef struct {
    uint8_t number;
    uint16_t cell;
} kuzpalen_label_answer;

typedef struct {
    size_t start;
    size_t end;
} kuzpalen_label_part;

typedef struct {
    uint8_t number;
    uint16_t cell;
    uint32_t width;
    uint32_t rows;
} kuzpalen_layout_answer;

typedef struct {
    uint8_t number;
    uint16_t cell;
    uint8_t rule;          /* 0 for "kept"; 1 to 5 for "broken", the lowest rule broken, */
    uint16_t a;            /* then the lowest a, */
    uint16_t b;            /* then the lowest b; 0 for "kept" */
    uint32_t width;        /* of a placement that is kept, else 0 */
    uint32_t rows;
} kuzpalen_check_answer;

typedef struct {
    uint8_t number;
    uint16_t cell;
    int32_t from_x;        /* on the last row of the parent's box */
    int32_t from_y;
    int32_t to_x;          /* on the first row of the cell's box */
    int32_t to_y;
} kuzpalen_ends_answer;

typedef struct {
    uint8_t number;
    uint16_t cell;
    size_t length;         /* of the listing, in bytes */
} kuzpalen_list_answer;

#define KUZPALEN_FRAME_ALLOWANCE 1u  /* Frame's outcome: the least allowance that fits, */
#define KUZPALEN_FRAME_NONE 2u       /* or none does. 0 with a refusal */

typedef struct {
    uint8_t number;
    uint16_t cell;
    uint8_t outcome;       /* KUZPALEN_FRAME_ALLOWANCE or KUZPALEN_FRAME_NONE */
    uint32_t allowance;    /* 0 to 65535 with the first, else 0 */
} kuzpalen_frame_answer;

#define KUZPALEN_MARK_FULL 1u    /* Mark's outcome: it keeps the rules, and no placement that does is narrower; */
#define KUZPALEN_MARK_WIDE 2u    /* it keeps the rules, and a narrower one was possible; */
#define KUZPALEN_MARK_BROKEN 3u  /* a rule is broken. 0 with a refusal */

typedef struct {
    uint8_t number;
    uint16_t cell;
    uint8_t outcome;       /* one of the three above */
    uint8_t rule;          /* with KUZPALEN_MARK_BROKEN rule and cells, as Check has them, else 0 */
    uint16_t a;
    uint16_t b;
    uint32_t width;        /* of a drawing that keeps the rules, else 0 */
    uint32_t least;        /* with KUZPALEN_MARK_WIDE the least width of all that keep them, else 0 */
    uint32_t rows;         /* of a drawing that keeps the rules, else 0 */
} kuzpalen_mark_answer;

typedef struct {
    uint8_t number;
    uint16_t cell;
    size_t length;         /* of the clean copy, in bytes */
} kuzpalen_copy_answer;

typedef struct {
    uint8_t number;
    uint16_t cell;
    size_t length;         /* of the mended file, in bytes: that of the file */
    size_t lines;          /* of the lines, in bytes; 0 where no cell is altered */
} kuzpalen_mend_answer;

/* The page of a plotter, in millimetres. A margin of -0.0 is a margin from 0. */
typedef struct {
    double pitch;          /* the length of a lattice unit: 0.25 to 16 */
    double margin_x;       /* 0 to 100 */
    double margin_y;       /* 0 to 100 */
} kuzpalen_page;

#define KUZPALEN_STROKE_MOVE 1u  /* what a stroke is: a move of the pen to a point, */
#define KUZPALEN_STROKE_LINE 2u  /* a line to a point, */
#define KUZPALEN_STROKE_LIFT 3u  /* or a lift of the pen. 0 with a refusal */

typedef struct {
    uint8_t number;
    uint16_t cell;
    uint8_t what;          /* KUZPALEN_STROKE_MOVE, KUZPALEN_STROKE_LINE or KUZPALEN_STROKE_LIFT */
    double x;              /* the point, in millimetres from the page's upper left corner; 0 for a lift */
    double y;
} kuzpalen_stroke_answer;

typedef struct {
    uint8_t number;
    uint16_t cell;
} kuzpalen_strip_answer;

typedef struct {
    uint8_t number;
    uint16_t cell;
    size_t count;          /* the number of joined records */
} kuzpalen_join_answer;

#define KUZPALEN_DRILL_FINISHED 1u   /* a drill's outcome: nothing is left to do; */
#define KUZPALEN_DRILL_SPENT 2u      /* a byte is needed and none is left; */
#define KUZPALEN_DRILL_WRONG 3u      /* a choice's byte has no child, or a wait's is above 1; */
#define KUZPALEN_DRILL_FULL 4u       /* a step comes after KUZPALEN_DRILL_RECORDS records. 0 with a refusal */

typedef struct {
    uint8_t number;
    uint16_t cell;
    uint8_t outcome;       /* one of the four above */
    size_t used;           /* answer bytes, a wrong one included */
    size_t records;        /* numbers written to the list */
} kuzpalen_drill_answer;

typedef struct {
    uint8_t number;
    uint16_t cell;
} kuzpalen_start_answer;

#define KUZPALEN_STEP_FINISHED 1u    /* Step's outcome: a cell was finished, */
#define KUZPALEN_STEP_DONE 2u        /* or all are. 0 with a refusal */

typedef struct {
    uint8_t number;
    uint16_t cell;
    uint8_t outcome;       /* KUZPALEN_STEP_FINISHED or KUZPALEN_STEP_DONE */
    uint16_t finished;     /* the cell that was finished with the first, else 0 */
} kuzpalen_step_answer;

typedef struct {
    uint8_t number;
    uint16_t cell;
    uint32_t left;         /* the top cell's x less the least x of its subtree */
    uint32_t right;        /* the greatest right edge of its subtree less the top cell's x */
} kuzpalen_reach_answer;

#define KUZPALEN_PLANS 1024u          /* the most plans of a report */

/* The figures of some plans, zeros throughout for none. Beside each the most that KUZPALEN_PLANS plans make
 * of it. Pass every field on as it was answered. */
typedef struct {
    uint32_t plans;        /* 1,024 */
    uint32_t cells;        /* 262,144 */
    uint32_t widths;       /* the sum of the sheets' widths: 268,434,432 */
    uint64_t areas;        /* the sum of width times rows: 68,719,214,592 */
    uint32_t least;        /* the least width: 262,143 */
    uint32_t greatest;     /* the greatest width: 262,143 */
    uint32_t mean;         /* the mean width: widths divided by plans, 262,143, */
    uint32_t rest;         /* and what is left over: 1,023 */
} kuzpalen_folder;

typedef struct {
    uint8_t number;
    uint16_t cell;
    kuzpalen_folder report;
} kuzpalen_report_answer;

/* A plan file is of one of two forms, which its last two bytes tell, or question 3 refuses. Both have the
 * label bytes first, then the records, then a trailer of 8 bytes. Hexadecimal 53 54: records of 8 bytes,
 * parent (2), kind, width, depth, label length, label start (2), and so widths to 255. Hexadecimal 53 55:
 * records of 10 bytes, parent (2), kind, depth, width (2), label length, rank, label start (2), and widths
 * to KUZPALEN_WIDEST; in the old form every rank is 0. Question 4 reckons with the size of the form's
 * records; question 8 refuses a width or a depth that is not allowed; none asks about a rank. Read, Label
 * and List take either form, and a table does not tell from which it was read. */

/* Read: a plan file into a table. `table_len` is at least KUZPALEN_CELLS, or question 1 refuses. The
 * first `count` records are written, and no other. */
kuzpalen_read_answer kuzpalen_read(const uint8_t *file, size_t file_len,
                                   kuzpalen_record *table, size_t table_len);

/* Label: where a cell's label stands in the file, from byte `start` to before byte `end`. Refused, the
 * empty part at byte 0. */
kuzpalen_label_part kuzpalen_label(const uint8_t *file, size_t file_len, size_t cell);

/* Why Label refuses, or 0 and 0. */
kuzpalen_label_answer kuzpalen_label_refusal(const uint8_t *file, size_t file_len, size_t cell);

/* Layout: a table to positions, x then y of each cell, by S1 to S5 and as narrow as they permit. By S2 a
 * choice (kind 4) has the x of its first child, any other cell with k children that of number (k+1)/2,
 * rounded up. Children are counted, and stand from left to right, by rank, those of one rank by their own
 * numbers. `positions_len` is at least twice `table_len`, and `scratch_len` at least KUZPALEN_SCRATCH,
 * or question 1 refuses. Positions past those of the cells stay as they were; the first KUZPALEN_SCRATCH
 * numbers of the scratch become 0, later ones stay. */
kuzpalen_layout_answer kuzpalen_layout(const kuzpalen_record *table, size_t table_len, uint32_t allowance,
                                       uint32_t *scratch, size_t scratch_len,
                                       int32_t *positions, size_t positions_len);

/* Check: whether positions keep S1 to S5, with S2 and the order of siblings as Layout has them; a and b are
 * the lowest by their numbers, whatever the ranks. `positions_len` is at least twice
 * `table_len`, or question 1 refuses; question 15 refuses a coordinate past KUZPALEN_FARTHEST or its
 * negative. Numbers past those of the cells are not looked at. */
kuzpalen_check_answer kuzpalen_check(const kuzpalen_record *table, size_t table_len,
                                     const int32_t *positions, size_t positions_len, uint32_t allowance);

/* Ends: of the connector from a cell's parent to the cell, which is not the root. It begins at the parent's
 * x plus half the parent's width, y plus depth, and ends at the cell's x plus half the cell's width, y. Half
 * a width is the nearer whole number, a tie going to the even one (1 gives 0, 3 and 5 give 2, 7 gives 4);
 * it is rounded before it is added. Positions as for Check, by questions 1 and 15. */
kuzpalen_ends_answer kuzpalen_ends(const kuzpalen_record *table, size_t table_len,
                                   const int32_t *positions, size_t positions_len, size_t cell);

/* List: the listing of a plan file, byte for byte what the program `sheet` prints: the lines of its sheet,
 * or the line `refused`, number, cell of the refusal by Read, each ended by a line feed. `out_len` is at
 * least KUZPALEN_LISTING_SIZE, enough for 256 lines with the widest boxes and longest labels, or question 1
 * refuses, which is List's only refusal: that a plan is refused is told by the listing. The first
 * `length` bytes of `out` are the listing, with no 0 after it; later ones stay as they were. */
kuzpalen_list_answer kuzpalen_list(const uint8_t *file, size_t file_len,
                                   uint8_t *out, size_t out_len);

/* Frame: the least allowance from 0 to 65535 whose sheet is no wider than a frame of so many squares, or
 * none, where the sheet at 65535 is wider. Question 19 refuses a frame of 0. `scratch_len` is at least
 * KUZPALEN_SCRATCH, or question 1 refuses; the scratch is left as Layout leaves it, with none too. It
 * costs at most 17 Layouts. */
kuzpalen_frame_answer kuzpalen_frame(const kuzpalen_record *table, size_t table_len, uint32_t squares,
                                     uint32_t *scratch, size_t scratch_len);

/* Mark: the mark of a drawing. It is full exactly where the positions keep S1 to S5 and no placement that
 * keeps them, whole numbers of any size, is narrower; wide exactly where they keep them and the least width
 * of all that do, `least`, is less than theirs; broken as Check has it. Positions and allowance as for Check,
 * by the same questions; the positions are only read. `scratch_len` is at least KUZPALEN_SCRATCH, or
 * question 1 refuses, before all others; the scratch is left as Layout leaves it, with each of the three.
 * What Layout writes gets full marks at the same allowance. It costs a Check, and where that keeps the
 * drawing a Layout. */
kuzpalen_mark_answer kuzpalen_mark(const kuzpalen_record *table, size_t table_len,
                                   const int32_t *positions, size_t positions_len, uint32_t allowance,
                                   uint32_t *scratch, size_t scratch_len);

/* Copy: the clean copy of a plan, from a table, label bytes and an allowance: the file with the labels in the
 * order of the cells, back to back, none shared and no byte unused; an empty label's start is where a next
 * label would begin. It is of the old form where every width is at most 255 and every rank 0, the root's too,
 * else of the wide form. The records' label fields say parts of the label bytes; those of a file are its
 * first bytes, as many as the first two bytes of its trailer say. Put are question 1 (`out_len` is at least
 * KUZPALEN_COPY_SIZE), 4 of the number of cells, 5 of every label byte lent, 6 to 10 record by record, with
 * 9 and 10 against the label bytes lent, of which there may be more than a file can have, and 11 to 14. What
 * Read accepts, Copy accepts with the same label bytes; Read accepts what Copy writes, with the same parents,
 * kinds, widths, depths, ranks, label texts and allowance; plans that agree in these have the same copy, and
 * a copy has itself. The first `length` bytes of `out` are the file; later ones stay as they were. */
kuzpalen_copy_answer kuzpalen_copy(const kuzpalen_record *table, size_t table_len,
                                   const uint8_t *letters, size_t letters_len, uint32_t allowance,
                                   uint8_t *out, size_t out_len);

/* Mend: a plan file, of either form, with each box that is too narrow for its label widened to the label's
 * length plus the kind's border, and each depth 0 raised to 1; no other byte is altered. Not altered are a
 * depth above 15, a cell whose kind is unknown or whose label is over 40 bytes, and a file that questions 2
 * to 4 refuse. If Read accepts the file then, the first `length` bytes of `out` are the mended file, and the
 * first `lines` bytes of `text` one line for each altered cell, in the order of the cells: its number, old
 * width and depth, new width and depth, in decimal, with single spaces and a line feed at the end; later
 * bytes stay as they were. Otherwise the answer is the refusal that Read gives the mended file. An accepted
 * file comes out byte for byte, with no lines. Question 1 is put first: `out_len` is at least
 * KUZPALEN_MENDED_SIZE and `text_len` at least KUZPALEN_LINES_SIZE. */
kuzpalen_mend_answer kuzpalen_mend(const uint8_t *file, size_t file_len,
                                   uint8_t *out, size_t out_len, uint8_t *text, size_t text_len);

/* Stroke: number `s`, from 0, of the 9n - 3 strokes that draw a sheet of n cells on a page. Each box, in the
 * order of the cells: a move to its upper left corner, lines to its upper right, lower right, lower left and
 * upper left corner, a lift. Then each connector, in the order of the children's numbers: a move to the end
 * at the parent, a line to the end at the child, a lift; the ends are those of Ends. A lattice x is taken
 * less the least x of all cells, a y as it is; turned into a double, times the pitch, rounded once, plus the
 * margin, rounded once (IEEE 754, to the nearest, ties to even): the bits are those of these two operations.
 * Positions as for Check, by questions 1 and 15; any placement will do. Question 17 refuses a pitch or a
 * margin out of its range, a NaN too; question 18 an `s` of 9n - 3 or more. */
kuzpalen_stroke_answer kuzpalen_stroke(const kuzpalen_record *table, size_t table_len,
                                       const int32_t *positions, size_t positions_len,
                                       kuzpalen_page page, size_t s);

/* Strip: one lattice row of a drawn sheet, for a raster printer. Byte i holds the eight columns from
 * `first` + 8i on, the leftmost in the highest bit; columns are counted from 0 at the least x of all cells,
 * rows are y. A bit is set exactly if that point is on the boundary of some box; connectors are not printed,
 * and points outside the sheet give 0, as do columns past what 32 bits hold. The bytes may be of any number,
 * 0 too, and all are written. A strip may be made in parts: the part from byte m on has the first column
 * `first` + 8m, where that fits 32 bits. Positions as for Check, by questions 1 and 15; a refusal leaves the
 * bytes as they were. It costs the bytes, and the boxes that meet the row. */
kuzpalen_strip_answer kuzpalen_strip(const kuzpalen_record *table, size_t table_len,
                                     const int32_t *positions, size_t positions_len,
                                     uint32_t row, uint32_t first, uint8_t *bytes, size_t bytes_len);

/* Join: the second plan hung under a cell of the first. The table to fill gets the first's records, then the
 * second's with their parents raised by `first_len`, the second's root under the cell; all other fields are
 * copied, the rank too, by which the root stands among the cell's children, the last of its rank. The label
 * fields are copied as they are, and so still point into the bytes of two files. `table_len` is at least
 * KUZPALEN_CELLS, or question 1 refuses; the first `count` records are written, and no other. Questions 4 and
 * 6 to 8 are put to the first table, then to the second, whose cells are named by their own numbers, then 16 to
 * the cell, then 4 and 11 to 13 to the joined table, whose cells are named by theirs. The first table need not
 * be a plan by itself (11 to 13), if the joined one is. The two tables may be the same memory. */
kuzpalen_join_answer kuzpalen_join(const kuzpalen_record *first, size_t first_len,
                                   const kuzpalen_record *second, size_t second_len, size_t cell,
                                   kuzpalen_record *table, size_t table_len);

/* Drill: the plan is followed with the answer bytes, from the root on. A step records its own number; a run
 * does its children in order; a choice takes the next byte and does the child with that place, counted from
 * 0; a repeat takes a byte and does its child so many times; a wait takes a byte: 0 goes on, 1 does its child,
 * if it has one. Children are counted by rank, then by number. `list_len` is at least
 * KUZPALEN_DRILL_RECORDS, or question 1 refuses; question 21 refuses more than KUZPALEN_DRILL_ANSWERS
 * answer bytes. With every outcome the first `records` numbers of the list are the recorded steps, and
 * later ones stay as they were. Bytes after the last one used are not looked at. */
kuzpalen_drill_answer kuzpalen_drill(const kuzpalen_record *table, size_t table_len,
                                     const uint8_t *answers, size_t answers_len,
                                     uint16_t *list, size_t list_len);

/* A sheet that is made a cell a step, and may be read meanwhile: Start, then Step as often as there are
 * cells, with Reach before, between and after the steps as one likes. `scratch_len` is at least
 * KUZPALEN_SCRATCH and `second_len` at least KUZPALEN_SECOND, or question 1 refuses; later numbers stay.
 * What is promised supposes the same table and allowance from Start to the last Step or Reach, and both
 * scratches untouched between the calls. Without that the calls still put every question but 20, a
 * refusal still alters nothing, and no call reads or writes outside what it was lent; the answer is free. */

/* Start: the first KUZPALEN_SCRATCH and KUZPALEN_SECOND numbers of the scratches are cleared. */
kuzpalen_start_answer kuzpalen_start(const kuzpalen_record *table, size_t table_len, uint32_t allowance,
                                     uint32_t *scratch, size_t scratch_len,
                                     uint32_t *second, size_t second_len);

/* Step: finishes one cell and tells its number: children before their parent, each sibling's whole
 * subtree before the next's. The last also writes x then y of each cell into the positions, as Layout
 * does; `positions_len` is at least 2 * table_len in every step, or question 1 refuses. A further step
 * says KUZPALEN_STEP_DONE and alters nothing. */
kuzpalen_step_answer kuzpalen_step(const kuzpalen_record *table, size_t table_len, uint32_t allowance,
                                   uint32_t *scratch, size_t scratch_len,
                                   uint32_t *second, size_t second_len,
                                   int32_t *positions, size_t positions_len);

/* Reach: how far the subtree of a finished cell reaches to the left and to the right of the cell's x, in
 * the complete sheet. Question 16 refuses a cell that is not in the table, and 20, with the cell, one
 * that is not finished yet. Nothing is written. */
kuzpalen_reach_answer kuzpalen_reach(const kuzpalen_record *table, size_t table_len, uint32_t allowance,
                                     const uint32_t *scratch, size_t scratch_len,
                                     const uint32_t *second, size_t second_len, size_t cell);

/* Report: the report of the one plan in a file, with its sheet at its own allowance. It is Read and then
 * Layout: the table is left as Read leaves it, the scratch and the positions as Layout leaves them.
 * `table_len` is at least KUZPALEN_CELLS and `scratch_len` at least KUZPALEN_SCRATCH, or question 1
 * refuses; `positions_len` is at least twice the file's number of cells (512 always suffices), or question 1
 * refuses right after 4. A file that Read refuses gets that refusal. */
kuzpalen_report_answer kuzpalen_report(const uint8_t *file, size_t file_len,
                                       kuzpalen_record *table, size_t table_len,
                                       uint32_t *scratch, size_t scratch_len,
                                       int32_t *positions, size_t positions_len);

/* Pool: the report of two folders together, the same whichever comes first. The mean is worked out afresh.
 * Question 22 refuses where one of the two has over KUZPALEN_PLANS plans, or per plan over 256 cells,
 * 262,143 of width or 67,108,608 of width times rows, or no plan and a figure that is not 0; then question 4
 * where both together have over KUZPALEN_PLANS plans. Cell 0 is named.
 *
 * A folder: begin with zeros, the report of no plan, and for each file that Report answers with number 0
 * pool its report with what there is so far; a refused file is passed over. What comes out is the report of
 * the files that Read accepts; or number 4, at which to stop, once there are more than KUZPALEN_PLANS of
 * them (crates/demands/proofs/Calls.antt: `folder_pools`, `folder_too_many`). */
kuzpalen_report_answer kuzpalen_pool(kuzpalen_folder a, kuzpalen_folder b);

#ifdef __cplusplus
}
#endif

#endif
