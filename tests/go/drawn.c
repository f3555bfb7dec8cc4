/* Reads files from the standard input, each after its length (four bytes, the lowest first), by the calls, and prints
 * a line for each: how its rows ended, and a sum of all that is said of it, as drawn.go does through the module for Go. */
#include <faxpages.h>
#include <stdio.h>
#include <stdlib.h>
#include <string.h>

enum { ROWS = 7, NOTES = 4096, STRETCHES = 500001, OUT = 1 << 26 };

static uint32_t sum;
static uint8_t *out, file[1 << 20];
static uint32_t runs[FAXPAGES_RUNS], numbers[2 * FAXPAGES_RUNS];
static struct faxpages_row rows[ROWS];
static struct faxpages_lost lost[STRETCHES];

/* Room for so many bytes, of which at first there are OUT. */
static size_t room_of(size_t bytes) {
    static size_t room;
    if (out && bytes <= room) return room;
    room = bytes > OUT ? bytes : OUT;
    free(out);
    out = malloc(room);
    if (!out) exit(2);
    return room;
}

static void add(uint64_t number) { sum = (sum ^ (uint32_t)number) * 16777619u; }

static void add_bytes(const uint8_t *bytes, size_t len) {
    add(len);
    for (size_t i = 0; i < len; i++) sum = (sum ^ bytes[i]) * 16777619u;
}

/* A status that ends something: 1 where all is well. */
static uint32_t add_end(uint32_t status, const struct faxpages_fault *fault) {
    int is_well = status == FAXPAGES_DONE || status == FAXPAGES_END || status == FAXPAGES_DATA_END;
    add(is_well ? 1 : status);
    if (status == FAXPAGES_FAULT) add(fault->number), add(fault->tag), add(fault->page), add(fault->row);
    return is_well ? 1 : status;
}

static void add_row(uint32_t page, uint32_t row, uint32_t width) { add(page), add(row), add(width); }

/* The runs of a packed row, pel by pel. */
static void add_runs_of(const uint8_t *packed, uint32_t width) {
    uint32_t begin = 0, pel;
    int black = 0;
    for (pel = 0; pel < width; pel++) {
        if ((packed[pel / 8] >> (7 - pel % 8) & 1) == black) continue;
        add(pel - begin);
        begin = pel;
        black = !black;
    }
    add(width - begin);
}

static void add_packed(const uint8_t *packed, uint32_t page, uint32_t row, uint32_t width) {
    add_row(page, row, width);
    add_bytes(packed, (width + 7) / 8);
    if (row % 5 == 0) add_runs_of(packed, width);
}

static uint32_t read_rows(size_t len) {
    struct faxpages_place place = {0, 0, 0, 0};
    struct faxpages_told told;
    uint32_t status;
    do {
        status = faxpages_rows_from(file, len, &place, runs, FAXPAGES_RUNS, rows, ROWS, out, 20000, &told);
        for (size_t i = 0; i < told.count; i++) add_packed(out + rows[i].at, rows[i].page, rows[i].row, rows[i].width);
    } while (status == FAXPAGES_DONE || status == FAXPAGES_NO_ROOM);
    return add_end(status, &told.fault);
}

static void read_runs(size_t len) {
    struct faxpages_place place = {0, 0, 0, 0};
    struct faxpages_told told;
    uint32_t status;
    do {
        status = faxpages_runs_from(file, len, &place, runs, FAXPAGES_RUNS, rows, ROWS, numbers, 2 * FAXPAGES_RUNS, &told);
        for (size_t i = 0; i < told.count; i++) {
            add_row(rows[i].page, rows[i].row, rows[i].width);
            for (size_t j = 0; j < rows[i].len; j++) add(numbers[rows[i].at + j]);
        }
    } while (status == FAXPAGES_DONE || status == FAXPAGES_NO_ROOM);
    add_end(status, &told.fault);
}

static void read_forms(size_t len) {
    struct faxpages_form it;
    struct faxpages_told told;
    uint32_t page, status;
    for (page = 0;; page++) {
        status = faxpages_forms(file, len, page, &it, 1, &told);
        if (!told.count) break;
        add(page);
        const uint32_t all[] = {it.width, it.rows, it.coding, it.order, it.aligned, it.exchanged, it.rows_per_strip,
                                it.strips, it.x_numerator, it.x_denominator, it.y_numerator, it.y_denominator, it.unit};
        for (size_t i = 0; i < 13; i++) add(all[i]);
        if (status == FAXPAGES_END) break;
    }
    if (status == FAXPAGES_FAULT) add_end(status, &told.fault);
}

static void add_left(size_t stride, const struct faxpages_told *told, uint32_t end) {
    add(told->count);
    add_bytes(out, told->count * stride);
    for (size_t i = 0; i < told->used; i++) add(lost[i].row), add(lost[i].rows), add(lost[i].fault);
    add(end);
}

/* A page from its beginning, and what is left of it. */
static void read_page(size_t len, uint32_t page) {
    struct faxpages_form form;
    struct faxpages_told told;
    uint32_t status = faxpages_forms(file, len, page, &form, 1, &told);
    if (!told.count) {
        status = status == FAXPAGES_END ? FAXPAGES_OUTSIDE : status;
        add_end(status, &told.fault);
        add_end(status, &told.fault);
        return;
    }
    size_t stride = (form.width + 7) / 8, room = room_of(stride * form.rows);
    status = faxpages_page(file, len, page, &form, out, room, stride, &told);
    add(told.count);
    add_bytes(out, told.count * stride);
    add_end(status, &told.fault);
    status = faxpages_salvage(file, len, page, &form, out, room, stride, lost, STRETCHES, &told);
    add_left(stride, &told, 0);
    add_end(status, &told.fault);
}

/* What the receiver of a page counted of bad rows. */
static void add_received(size_t len, uint32_t page) {
    struct faxpages_received its;
    uint32_t status = faxpages_received(file, len, page, &its), none = 4294967295u;
    add(its.has_bad_rows ? its.bad_rows : none);
    add(its.has_clean ? its.clean : none);
    add(its.has_consecutive ? its.consecutive : none);
    add_end(status == FAXPAGES_END ? FAXPAGES_OUTSIDE : status, &its.fault);
}

static void check(size_t len) {
    static struct faxpages_note notes[NOTES];
    struct faxpages_report report;
    uint32_t status = faxpages_check(file, len, notes, NOTES, &report);
    add(report.pages), add(report.rows), add(report.notes);
    for (size_t i = 0; i < report.notes; i++) add(notes[i].page), add(notes[i].strip), add(notes[i].kind);
    if (status == FAXPAGES_FAULT) add_end(status, &report.fault);
    add_end(FAXPAGES_DONE, &report.fault);
}

static void convert(size_t len, uint32_t number) {
    for (uint32_t target = 0; target < 4; target++) {
        struct faxpages_options options = {target, 1 + number % 2, 1 + number % 4, number % 3,
                                           target % 3 ? number / 2 % 2 : 0};
        struct faxpages_converted converted;
        uint32_t status = faxpages_convert(file, len, &options, out, OUT, &converted);
        add_bytes(out, status == FAXPAGES_DONE ? converted.len : 0);
        add_end(status, &converted.fault);
        status = faxpages_salvage_convert(file, len, &options, out, OUT, &converted);
        if (status == FAXPAGES_NO_ROOM) {
            size_t room = room_of(converted.len);
            status = faxpages_salvage_convert(file, len, &options, out, room, &converted);
        }
        add_bytes(out, status == FAXPAGES_DONE ? converted.len : 0);
        add_end(status, &converted.fault);
    }
}

static void read_strip(size_t len, uint32_t number) {
    struct faxpages_strip form = {1 + number % 97, number % 5, 1 + number % 3, 1 + number / 3 % 2, 0};
    struct faxpages_place place = {0, 0, 0, 0};
    struct faxpages_told told;
    const uint8_t *strip = file + (len > 8 ? 8 : 0);
    size_t count = len > 8 ? len - 8 : len, stride = (form.width + 7) / 8, coded = 0;
    uint32_t status;
    do {
        uint32_t first = place.row;
        status = faxpages_strip_rows(strip, count, &form, &place, runs, FAXPAGES_RUNS, out, 5 * stride, stride, &told);
        for (size_t i = 0; i < told.count; i++) add_packed(out + i * stride, 0, first + (uint32_t)i, form.width);
    } while (status == FAXPAGES_DONE && (!form.rows || place.row < form.rows));
    add_end(status, &told.fault);
    status = faxpages_salvage_strip(strip, count, &form, out, OUT, stride, lost, STRETCHES, &told);
    add_left(stride, &told, !form.rows && status == FAXPAGES_FAULT ? told.fault.number : 0);
    add_end(form.rows ? status : FAXPAGES_DONE, &told.fault);
    form.rows = (uint32_t)(count / stride);
    status = faxpages_strip_code(&form, 1 + number % 4, strip, count, stride, out, OUT, &coded);
    add_bytes(out, coded);
    add_end(status, &told.fault);
}

int main(void) {
    uint8_t head[4];
    for (uint32_t number = 0; fread(head, 1, 4, stdin) == 4; number++) {
        size_t len = head[0] | (size_t)head[1] << 8 | (size_t)head[2] << 16 | (size_t)head[3] << 24;
        if (len > sizeof file || fread(file, 1, len, stdin) != len) return 1;
        sum = 2166136261u;
        room_of(OUT);
        uint32_t status = read_rows(len);
        read_runs(len);
        read_forms(len);
        for (uint32_t page = 0; page < 3; page++) read_page(len, page), add_received(len, page);
        check(len);
        convert(len, number);
        read_strip(len, number);
        if (printf("%u %08x\n", (unsigned)status, (unsigned)sum) < 0) return 1;
    }
    return ferror(stdin) != 0;
}
