/* Worked sheet B of document 01 and its file with labels, in both forms, through the C header. */
#include "../include/kuzpalen.h"
#include <stdio.h>
#include <string.h>

static const uint8_t file[38] = {
    'U', 'p', 'A', 'R', 'u', 'n',
    0xFF, 0xFF, 2, 4, 1, 2, 0, 0,
    0, 0, 1, 3, 1, 1, 2, 0,
    0, 0, 1, 5, 1, 3, 3, 0,
    6, 0, 3, 0, 0, 0, 0x53, 0x54,
};

/* The same plan in the form for wider boxes, with the root as wide as a box can be. */
static const uint8_t wide[44] = {
    'U', 'p', 'A', 'R', 'u', 'n',
    0xFF, 0xFF, 2, 1, 0xFF, 3, 2, 0, 0, 0,
    0, 0, 1, 1, 3, 0, 1, 0, 2, 0,
    0, 0, 1, 1, 5, 0, 3, 0, 3, 0,
    6, 0, 3, 0, 0, 0, 0x53, 0x55,
};

static int wide_good(void) {
    static kuzpalen_record table[KUZPALEN_CELLS];
    uint8_t other[sizeof wide];
    kuzpalen_read_answer plan = kuzpalen_read(wide, sizeof wide, table, KUZPALEN_CELLS);
    kuzpalen_label_part run = kuzpalen_label(wide, sizeof wide, 2);
    int good = plan.number == 0 && plan.count == 3 && table[0].width == KUZPALEN_WIDEST && table[0].depth == 1
        && table[2].width == 5 && table[2].label_length == 3 && table[2].label_start == 3 && run.start == 3 && run.end == 6;
    memcpy(other, wide, sizeof wide);
    other[11] = 4; /* W 1,279 */
    good = good && kuzpalen_read(other, sizeof other, table, KUZPALEN_CELLS).number == 8;
    memcpy(other, wide, sizeof wide);
    other[23] = 255; /* byte 7 of cell 1 */
    good = good && kuzpalen_read(other, sizeof other, table, KUZPALEN_CELLS).number == 0
        && table[0].rank == 0 && table[1].rank == 255 && table[2].rank == 0 && sizeof table[0] == 10;
    memcpy(other, wide, sizeof wide);
    other[43] = 0x54;
    return good && kuzpalen_read(other, sizeof other, table, KUZPALEN_CELLS).number == 4;
}

static int file_good(void) {
    static kuzpalen_record table[KUZPALEN_CELLS];
    kuzpalen_read_answer plan = kuzpalen_read(file, sizeof file, table, KUZPALEN_CELLS);
    kuzpalen_label_part run = kuzpalen_label(file, sizeof file, 2);
    kuzpalen_label_part none = kuzpalen_label(file, sizeof file, 3);
    return plan.number == 0 && plan.count == 3 && plan.allowance == 0 && table[2].width == 5 && table[2].label_start == 3
        && run.start == 3 && run.end == 6 && none.start == 0 && none.end == 0
        && kuzpalen_label_refusal(file, sizeof file, 2).number == 0 && kuzpalen_label_refusal(file, sizeof file, 3).number == 16
        && kuzpalen_read(file, 15, table, KUZPALEN_CELLS).number == 2;
}

static int listing_good(void) {
    static const char sheet[] = "sheet 3 0 9 4\n0 0 0 4 1 Up\n1 -4 2 3 1 A\n2 0 2 5 1 Run\n";
    static uint8_t out[KUZPALEN_LISTING_SIZE + 1];
    memset(out, '~', sizeof out);
    kuzpalen_list_answer small = kuzpalen_list(file, sizeof file, out, KUZPALEN_LISTING_SIZE - 1);
    int good = small.number == 1 && small.cell == 0 && small.length == 0 && out[0] == '~';
    kuzpalen_list_answer refused = kuzpalen_list(file, 15, out, sizeof out);
    good = good && refused.number == 0 && refused.length == 12 && memcmp(out, "refused 2 0\n~", 13) == 0;
    kuzpalen_list_answer listed = kuzpalen_list(file, sizeof file, out, sizeof out);
    return good && listed.number == 0 && listed.cell == 0 && listed.length == strlen(sheet)
        && memcmp(out, sheet, listed.length) == 0 && out[listed.length] == '~';
}

/* The clean copy: the file itself, for the 38 bytes have no byte unused and no label shared; not with a rank. */
static int copy_good(void) {
    static kuzpalen_record table[KUZPALEN_CELLS];
    static uint8_t out[KUZPALEN_COPY_SIZE + 1];
    memset(out, '~', sizeof out);
    kuzpalen_read_answer plan = kuzpalen_read(file, sizeof file, table, KUZPALEN_CELLS);
    kuzpalen_copy_answer small = kuzpalen_copy(table, plan.count, file, 6, plan.allowance, out, KUZPALEN_COPY_SIZE - 1);
    int good = small.number == 1 && small.cell == 0 && small.length == 0 && out[0] == '~';
    kuzpalen_copy_answer copied = kuzpalen_copy(table, plan.count, file, 6, plan.allowance, out, sizeof out);
    good = good && copied.number == 0 && copied.length == sizeof file && memcmp(out, file, sizeof file) == 0 && out[sizeof file] == '~';
    good = good && kuzpalen_copy(table, plan.count, file, 5, 0, out, sizeof out).number == 9
        && kuzpalen_copy(table, plan.count, file, 7, 0, out, sizeof out).number == 5
        && kuzpalen_copy(table, plan.count, file, 6, 65536, out, sizeof out).number == 14;
    table[0].rank = 1;
    copied = kuzpalen_copy(table, plan.count, file, 6, plan.allowance, out, sizeof out);
    return good && copied.number == 0 && copied.length == sizeof wide && out[sizeof wide - 1] == 0x55;
}

/* The file with cell 1 too narrow for its label and cell 2 of depth 0, mended. */
static int mend_good(void) {
    static uint8_t out[KUZPALEN_MENDED_SIZE + 1], text[KUZPALEN_LINES_SIZE + 1];
    static const char lines[] = "1 2 1 3 1\n2 5 0 5 1\n~";
    uint8_t cramped[sizeof file];
    memcpy(cramped, file, sizeof file);
    cramped[17] = 2;
    cramped[26] = 0;
    memset(out, '~', sizeof out);
    memset(text, '~', sizeof text);
    int good = kuzpalen_mend(cramped, sizeof cramped, out, sizeof out, text, KUZPALEN_LINES_SIZE - 1).number == 1 && out[0] == '~';
    cramped[16] = 6;
    kuzpalen_mend_answer refused = kuzpalen_mend(cramped, sizeof cramped, out, sizeof out, text, sizeof text);
    good = good && refused.number == 7 && refused.cell == 1 && refused.length == 0 && refused.lines == 0 && out[0] == '~' && text[0] == '~';
    cramped[16] = 1;
    kuzpalen_mend_answer mended = kuzpalen_mend(cramped, sizeof cramped, out, sizeof out, text, sizeof text);
    return good && mended.number == 0 && mended.length == sizeof file && memcmp(out, file, sizeof file) == 0 && out[sizeof file] == '~'
        && mended.lines == strlen(lines) - 1 && memcmp(text, lines, strlen(lines)) == 0;
}

static int strip_good(const kuzpalen_record *table, const int32_t *p) {
    uint8_t row[3] = {7, 7, 7};
    int good = kuzpalen_strip(table, 3, p, 6, 0, 0, row, 2).number == 0 && row[0] == 0x0f && row[1] == 0x80 && row[2] == 7;
    good = good && kuzpalen_strip(table, 3, p, 6, 2, 3, row, 1).number == 0 && row[0] == 0xfe;
    good = good && kuzpalen_strip(table, 3, p, 6, 2, UINT32_MAX, row, 2).number == 0 && row[0] == 0 && row[1] == 0;
    row[0] = 7;
    return good && kuzpalen_strip(table, 3, p, 5, 0, 0, row, 3).number == 1 && row[0] == 7;
}

static int drill_good(void) {
    static uint16_t list[KUZPALEN_DRILL_RECORDS];
    static uint8_t many[KUZPALEN_DRILL_ANSWERS + 1];
    const uint8_t answers[3] = {2, 1, 0};
    kuzpalen_record table[5] = { /* a repeat of a choice of two: the step 2; by rank before it, a wait with the step 4 */
        {KUZPALEN_NO_PARENT, 3, 0, 4, 1, 0, 0},
        {0, 4, 0, 4, 1, 0, 0},
        {1, 1, 7, 4, 1, 0, 0},
        {1, 5, 5, 4, 1, 0, 0},
        {3, 1, 0, 4, 1, 0, 0},
    };
    list[1] = 77;
    kuzpalen_drill_answer spent = kuzpalen_drill(table, 5, answers, 3, list, KUZPALEN_DRILL_RECORDS);
    int good = spent.number == 0 && spent.cell == 0 && spent.outcome == KUZPALEN_DRILL_SPENT && spent.used == 3
        && spent.records == 1 && list[0] == 2 && list[1] == 77;
    kuzpalen_drill_answer wrong = kuzpalen_drill(table, 5, answers, 1, list, KUZPALEN_DRILL_RECORDS);
    good = good && wrong.outcome == KUZPALEN_DRILL_SPENT && wrong.used == 1 && wrong.records == 0;
    const uint8_t branch[2] = {1, 2};
    wrong = kuzpalen_drill(table, 5, branch, 2, list, KUZPALEN_DRILL_RECORDS);
    good = good && wrong.outcome == KUZPALEN_DRILL_WRONG && wrong.used == 2 && wrong.records == 0;
    kuzpalen_drill_answer done = kuzpalen_drill(table, 5, many, KUZPALEN_DRILL_ANSWERS, list, KUZPALEN_DRILL_RECORDS);
    return good && done.outcome == KUZPALEN_DRILL_FINISHED && done.used == 1 && done.records == 0
        && kuzpalen_drill(table, 5, many, sizeof many, list, KUZPALEN_DRILL_RECORDS).number == 21
        && kuzpalen_drill(table, 5, many, 1, list, KUZPALEN_DRILL_RECORDS - 1).number == 1;
}

/* Sheet B a cell a step, with a reading before and after the first. */
static int steps_good(const kuzpalen_record *table, uint32_t *scratch) {
    static uint32_t second[KUZPALEN_SECOND];
    int32_t p[6] = {7, 7, 7, 7, 7, 7};
    int good = kuzpalen_start(table, 3, 0, scratch, KUZPALEN_SCRATCH, second, KUZPALEN_SECOND - 1).number == 1
        && kuzpalen_start(table, 3, 0, scratch, KUZPALEN_SCRATCH, second, KUZPALEN_SECOND).number == 0;
    kuzpalen_reach_answer early = kuzpalen_reach(table, 3, 0, scratch, KUZPALEN_SCRATCH, second, KUZPALEN_SECOND, 1);
    good = good && early.number == 20 && early.cell == 1;
    static const uint16_t order[3] = {1, 2, 0};
    for (int i = 0; i < 3; i++) {
        good = good && p[0] == 7;
        kuzpalen_step_answer s = kuzpalen_step(table, 3, 0, scratch, KUZPALEN_SCRATCH, second, KUZPALEN_SECOND, p, 6);
        good = good && s.number == 0 && s.outcome == KUZPALEN_STEP_FINISHED && s.finished == order[i];
        kuzpalen_reach_answer r = kuzpalen_reach(table, 3, 0, scratch, KUZPALEN_SCRATCH, second, KUZPALEN_SECOND, order[i]);
        static const uint32_t left[3] = {0, 0, 4}, right[3] = {3, 5, 5};
        good = good && r.number == 0 && r.left == left[i] && r.right == right[i];
    }
    kuzpalen_step_answer done = kuzpalen_step(table, 3, 0, scratch, KUZPALEN_SCRATCH, second, KUZPALEN_SECOND, p, 6);
    return good && done.number == 0 && done.outcome == KUZPALEN_STEP_DONE && p[0] == 0 && p[2] == -4 && p[4] == 0
        && kuzpalen_reach(table, 3, 0, scratch, KUZPALEN_SCRATCH, second, KUZPALEN_SECOND, 3).number == 16;
}

/* Sheet B, the drawing G that is wide by 1, and H that is broken, marked. */
static int marks_good(const kuzpalen_record *table, uint32_t *scratch) {
    int32_t p[6] = {0, 0, -4, 2, 0, 2};
    scratch[0] = 7;
    kuzpalen_mark_answer full = kuzpalen_mark(table, 3, p, 6, 0, scratch, KUZPALEN_SCRATCH);
    int good = full.number == 0 && full.cell == 0 && full.outcome == KUZPALEN_MARK_FULL && full.rule == 0 && full.width == 9
        && full.least == 0 && full.rows == 4 && scratch[0] == 0;
    p[2] = -5;
    kuzpalen_mark_answer wide = kuzpalen_mark(table, 3, p, 6, 0, scratch, KUZPALEN_SCRATCH);
    good = good && wide.number == 0 && wide.outcome == KUZPALEN_MARK_WIDE && wide.width == 10 && wide.least == 9 && wide.rows == 4;
    p[2] = -3;
    scratch[0] = 7;
    kuzpalen_mark_answer broken = kuzpalen_mark(table, 3, p, 6, 0, scratch, KUZPALEN_SCRATCH);
    good = good && broken.number == 0 && broken.outcome == KUZPALEN_MARK_BROKEN && broken.rule == 3 && broken.a == 1 && broken.b == 2
        && broken.width == 0 && broken.least == 0 && broken.rows == 0 && scratch[0] == 0;
    scratch[0] = 7;
    return good && kuzpalen_mark(table, 3, p, 6, 0, scratch, KUZPALEN_SCRATCH - 1).number == 1
        && kuzpalen_mark(table, 3, p, 5, 0, scratch, KUZPALEN_SCRATCH).number == 1
        && kuzpalen_mark(table, 3, p, 6, 65536, scratch, KUZPALEN_SCRATCH).number == 14 && scratch[0] == 7;
}

/* The printed example's report, and pools. */
static int folder_good(void) {
    static uint32_t numbers[KUZPALEN_SCRATCH];
    kuzpalen_record cells[KUZPALEN_CELLS];
    int32_t p[6];
    kuzpalen_report_answer one = kuzpalen_report(file, sizeof file, cells, KUZPALEN_CELLS, numbers, KUZPALEN_SCRATCH, p, 6);
    kuzpalen_folder r = one.report, half = {512, 0, 0, 0, 0, 0, 0, 0}, more = {513, 0, 0, 0, 0, 0, 0, 0}, odd = {0, 0, 0, 0, 0, 0, 0, 1};
    kuzpalen_report_answer two = kuzpalen_pool(r, r);
    return one.number == 0 && r.plans == 1 && r.cells == 3 && r.widths == 9 && r.areas == 36 && r.least == 9
        && r.greatest == 9 && r.mean == 9 && r.rest == 0 && p[2] == -4 && cells[2].width == 5
        && two.number == 0 && two.report.plans == 2 && two.report.areas == 72 && two.report.mean == 9
        && kuzpalen_pool(half, half).report.plans == KUZPALEN_PLANS && kuzpalen_pool(half, more).number == 4
        && kuzpalen_pool(r, odd).number == 22
        && kuzpalen_report(file, sizeof file, cells, KUZPALEN_CELLS, numbers, KUZPALEN_SCRATCH, p, 5).number == 1
        && kuzpalen_report(file, 15, cells, KUZPALEN_CELLS, numbers, KUZPALEN_SCRATCH, p, 6).number == 2;
}

int main(void) {
    static uint32_t scratch[KUZPALEN_SCRATCH];
    kuzpalen_record table[3] = {
        {KUZPALEN_NO_PARENT, 2, 0, 4, 1, 0, 0},
        {0, 1, 0, 3, 1, 0, 0},
        {0, 1, 0, 5, 1, 0, 0},
    };
    int32_t p[6];
    kuzpalen_layout_answer laid = kuzpalen_layout(table, 3, 0, scratch, KUZPALEN_SCRATCH, p, 6);
    kuzpalen_check_answer kept = kuzpalen_check(table, 3, p, 6, 0);
    kuzpalen_ends_answer ends = kuzpalen_ends(table, 3, p, 6, 1);
    int strip = strip_good(table, p);
    p[2] = -3;
    kuzpalen_check_answer broken = kuzpalen_check(table, 3, p, 6, 0);
    int good = laid.number == 0 && laid.width == 9 && laid.rows == 4 && p[0] == 0 && p[1] == 0 && p[3] == 2
        && p[4] == 0 && p[5] == 2 && kept.number == 0 && kept.rule == 0 && kept.width == 9 && kept.rows == 4
        && ends.number == 0 && ends.from_x == 2 && ends.from_y == 1 && ends.to_x == -2 && ends.to_y == 2
        && broken.number == 0 && broken.rule == 3 && broken.a == 1 && broken.b == 2
        && kuzpalen_ends(table, 3, p, 6, 0).number == 16 && kuzpalen_check(table, 3, p, 5, 0).number == 1;
    kuzpalen_frame_answer fits = kuzpalen_frame(table, 3, 9, scratch, KUZPALEN_SCRATCH);
    good = good && fits.number == 0 && fits.outcome == KUZPALEN_FRAME_ALLOWANCE && fits.allowance == 0
        && kuzpalen_frame(table, 3, 8, scratch, KUZPALEN_SCRATCH).outcome == KUZPALEN_FRAME_NONE
        && kuzpalen_frame(table, 3, 0, scratch, KUZPALEN_SCRATCH).number == 19;
    /* B hung into itself, under its root: six records, and the seventh is left. */
    static kuzpalen_record joined[KUZPALEN_CELLS];
    joined[6].parent = 77;
    kuzpalen_join_answer join = kuzpalen_join(table, 3, table, 3, 0, joined, KUZPALEN_CELLS);
    good = good && join.number == 0 && join.count == 6 && joined[0].parent == KUZPALEN_NO_PARENT && joined[3].parent == 0
        && joined[3].kind == 2 && joined[4].parent == 3 && joined[5].parent == 3 && joined[5].width == 5 && joined[6].parent == 77;
    join = kuzpalen_join(table, 3, table, 3, 2, joined, KUZPALEN_CELLS);
    good = good && join.number == 11 && join.cell == 2 && join.count == 0
        && kuzpalen_join(table, 3, table, 3, 3, joined, KUZPALEN_CELLS).number == 16
        && kuzpalen_join(table, 3, table, 3, 0, joined, KUZPALEN_CELLS - 1).number == 1;
    good = good && steps_good(table, scratch) && marks_good(table, scratch);
    table[1].rank = 1; /* cell 2 comes before cell 1, which the run hangs from */
    laid = kuzpalen_layout(table, 3, 0, scratch, KUZPALEN_SCRATCH, p, 6);
    good = good && laid.number == 0 && laid.width == 10 && p[2] == 0 && p[4] == -6;
    p[2] = KUZPALEN_FARTHEST;
    good = good && kuzpalen_check(table, 3, p, 6, 0).number == 0;
    p[2] = -KUZPALEN_FARTHEST - 1;
    kuzpalen_ends_answer far = kuzpalen_ends(table, 3, p, 6, 2);
    good = good && far.number == 15 && far.cell == 1;
    good = good && strip && file_good() && wide_good() && listing_good() && copy_good() && mend_good() && drill_good() && folder_good();
    puts(good ? "sheet B from C: good" : "sheet B from C: DIFFERENCE");
    return good ? 0 : 1;
}
