/* strips: reads what drawn.py prints, and sees that the calls on strips tell the same: the rows from a place on a few a
 * call, in one call, and as the strip's bytes come in; the notes; and the strip that rows are coded as, packed and as runs.
 * Each buffer ends at a page that nobody may touch. Prints how many strips of each kind were tried. */
#include "words.h"
#include <faxpages.h>

enum { MOST_ROWS = 16, EXTRA = 3, PAGE_OF_CALLER = 9 };

/* What is wanted of a strip from a place on. */
struct wanted {
    struct guarded data;
    struct faxpages_strip form;
    struct faxpages_place place;
    uint32_t fault, count;
    struct guarded rows[MOST_ROWS];
    uint32_t bits[MOST_ROWS];
};

/* The runs of the place, which are written anew before it is read from, and how many of them were ever told since. */
static struct guarded runs;
static uint32_t first_runs[8192], most_runs;

static void read_runs(struct faxpages_place *place) {
    char *text = word();
    place->runs = 0;
    while (*text != '-' && *text) {
        first_runs[place->runs++] = (uint32_t)strtoul(text, &text, 10);
        text += *text == ',';
    }
}

/* The place of the line, with its runs and marks after them. */
static struct faxpages_place begin(const struct wanted *wanted) {
    memset(runs.at, MARK, runs.len);
    memcpy(runs.at, first_runs, wanted->place.runs * sizeof(uint32_t));
    most_runs = wanted->place.runs;
    return wanted->place;
}

/* The place is the one before row number `done` of those that are wanted, and no run after its own is changed. */
static void see_place(const struct wanted *wanted, const struct faxpages_place *place, uint32_t done) {
    const uint8_t *after;
    uint32_t bits = done ? wanted->bits[done - 1] : wanted->place.bits;
    if (place->page != PAGE_OF_CALLER || place->row != wanted->place.row + done || place->bits != bits)
        die("a place is another");
    if (!done && (place->runs != wanted->place.runs || memcmp(runs.at, first_runs, place->runs * sizeof(uint32_t))))
        die("a place that no row was read from has changed");
    if (place->runs > most_runs) most_runs = place->runs;
    for (after = runs.at + most_runs * sizeof(uint32_t); after < runs.at + runs.len; after++)
        if (*after != MARK) die("a run after those of the place was changed");
}

/* Rows that were written are those from number `done` on, each with zeros up to the stride. */
static void see_rows(const struct wanted *wanted, const struct guarded *out, size_t stride, uint32_t done,
                     const struct faxpages_told *told) {
    size_t i, j;
    if (told->count > wanted->count - done || told->used != told->count * stride) die("another number of rows was read");
    for (i = 0; i < told->count; i++) {
        const struct guarded *row = &wanted->rows[done + i];
        if (memcmp(out->at + i * stride, row->at, row->len)) die("a row is another");
        for (j = row->len; j < stride; j++)
            if (out->at[i * stride + j]) die("a row is not padded with zeros");
    }
    see(*out, told->used);
}

/* How the reading ends, once all rows that are wanted were read. */
static void see_end(const struct wanted *wanted, uint32_t status, const struct faxpages_told *told) {
    const struct faxpages_fault *fault = &told->fault;
    uint32_t row = wanted->place.row + wanted->count;
    if (told->page != PAGE_OF_CALLER || told->row != row) die("what is told is another place");
    if (status != (wanted->fault ? FAXPAGES_FAULT : FAXPAGES_END) || fault->number != wanted->fault || fault->tag)
        die("a strip ends otherwise");
    if (fault->page != (wanted->fault ? PAGE_OF_CALLER : 0) || fault->row != (wanted->fault ? row : 0))
        die("a fault is at another place");
}

/* A few rows a call, at most `most` of them, where only so many bytes of the strip are there. */
static uint32_t read_some(const struct wanted *wanted, const uint8_t *data, size_t len, size_t most,
                          struct faxpages_place *place, uint32_t *done, struct faxpages_told *told) {
    size_t stride = (wanted->form.width + 7) / 8 + EXTRA;
    struct guarded out = make(most * stride);
    uint32_t status = faxpages_strip_rows(data, len, &wanted->form, place, (uint32_t *)runs.at, FAXPAGES_RUNS, out.at,
                                          out.len, stride, told);
    see_rows(wanted, &out, stride, *done, told);
    *done += (uint32_t)told->count;
    if ((status == FAXPAGES_DONE) != (told->count == most)) die("a status is another than the rows say");
    see_place(wanted, place, *done);
    drop(out);
    return status;
}

static void read_by_rows(const struct wanted *wanted, size_t most) {
    struct faxpages_place place = begin(wanted);
    struct faxpages_told told;
    uint32_t done = 0, status;
    do status = read_some(wanted, wanted->data.at, wanted->data.len, most, &place, &done, &told);
    while (status == FAXPAGES_DONE);
    if (done != wanted->count) die("too few rows were read");
    see_end(wanted, status, &told);
}

/* The strip grows: first it has the bytes before the place, and then a few more at a time. */
static void read_by_bytes(const struct wanted *wanted, size_t step) {
    struct faxpages_place place = begin(wanted);
    struct faxpages_told told;
    size_t len = (place.bits + 7) / 8;
    uint32_t done = 0, status;
    for (;;) {
        struct guarded data = copy_of(wanted->data.at, len);
        do status = read_some(wanted, data.at, len, 3, &place, &done, &told);
        while (status == FAXPAGES_DONE);
        drop(data);
        if (told.fault.number != FAXPAGES_DATA_ENDS || len == wanted->data.len) break;
        len = len + step < wanted->data.len ? len + step : wanted->data.len;
    }
    if (done != wanted->count) die("too few rows were read");
    see_end(wanted, status, &told);
}

static struct faxpages_strip read_form(void) {
    struct faxpages_strip form;
    form.coding = number();
    form.order = number();
    form.width = number();
    form.rows = number();
    form.aligned = 0;
    return form;
}

static void try_read(void) {
    static struct wanted wanted;
    uint32_t i;
    size_t most;
    wanted.form = read_form();
    wanted.data = digits();
    wanted.place.page = PAGE_OF_CALLER;
    wanted.place.row = number();
    wanted.place.bits = number();
    read_runs(&wanted.place);
    wanted.fault = number();
    wanted.count = number();
    if (wanted.count > MOST_ROWS) die("a line has too many rows");
    for (i = 0; i < wanted.count; i++) {
        wanted.rows[i] = digits();
        wanted.bits[i] = number();
    }
    for (most = 1; most <= 3; most++) read_by_rows(&wanted, most);
    read_by_rows(&wanted, wanted.count + 1);
    read_by_bytes(&wanted, 1);
    read_by_bytes(&wanted, 5);
    for (i = 0; i < wanted.count; i++) drop(wanted.rows[i]);
    drop(wanted.data);
}

static void try_notes(void) {
    struct faxpages_strip form = read_form();
    struct guarded data = digits();
    struct faxpages_strip_report report;
    uint32_t read = number(), fault = number(), told[4], i;
    uint32_t status = faxpages_strip_check(data.at, data.len, &form, &report);
    for (i = 0; i < 4; i++) told[i] = number();
    if (status != (fault ? FAXPAGES_FAULT : FAXPAGES_END) || report.fault.number != fault || report.rows != read)
        die("a strip is checked otherwise");
    if (report.fault.tag || report.fault.page || report.fault.row != (fault ? read : 0)) die("a fault is at another place");
    if (report.no_end_of_block != told[0] || report.return_to_control != told[1] || report.data_after_end != told[2] ||
        report.not_t4_choice != told[3])
        die("a note is another");
    drop(data);
}

/* The raster of the rows of a line, each `stride` bytes after the one above it, but for the last, which ends with its
 * pels. What stands past the pels is marked. */
static struct guarded raster_of(uint32_t width, uint32_t count, size_t stride) {
    size_t bytes = (width + 7) / 8;
    struct guarded raster = make((count - 1) * stride + bytes);
    uint32_t i;
    for (i = 0; i < count; i++) {
        struct guarded row = digits();
        memcpy(raster.at + i * stride, row.at, bytes);
        if (width % 8) raster.at[i * stride + bytes - 1] |= (uint8_t)(0xA5 & 0xFF >> width % 8);
        drop(row);
    }
    return raster;
}

/* The rows of a raster as runs, each after the one above it, and where they lie. */
struct run_rows {
    struct guarded table, runs;
};

static struct run_rows runs_of(const struct guarded *raster, uint32_t width, uint32_t count, size_t stride) {
    struct run_rows made = {make(count * sizeof(struct faxpages_row)), {0, 0, 0, 0}};
    struct faxpages_row *table = (struct faxpages_row *)made.table.at;
    uint32_t *lengths = malloc(((size_t)width + 1) * count * sizeof *lengths), row, i;
    size_t used = 0;
    if (!lengths) die("no memory");
    for (row = 0; row < count; row++) {
        const uint8_t *bytes = raster->at + row * stride;
        int colour = 0;
        table[row].at = used;
        for (lengths[used] = 0, i = 0; i < width; i++) {
            int black = bytes[i / 8] >> (7 - i % 8) & 1;
            if (black != colour) lengths[++used] = 0, colour = black;
            lengths[used]++;
        }
        table[row].len = (uint32_t)(++used - table[row].at);
    }
    made.runs = copy_of(lengths, used * sizeof *lengths);
    free(lengths);
    return made;
}

static uint32_t code_runs(const struct faxpages_strip *form, uint32_t k, const struct run_rows *rows, uint32_t count,
                          size_t runs_len, const struct guarded *out, size_t *len) {
    return faxpages_strip_code_runs(form, k, (struct faxpages_row *)rows->table.at, count, (uint32_t *)rows->runs.at,
                                    runs_len, out->at, out->len, len);
}

/* The same strip from the rows as runs; and none where a row is missing, or its runs, or a pel. */
static void try_runs(const struct faxpages_strip *form, uint32_t k, const struct guarded *raster, size_t stride,
                     const struct guarded *data) {
    struct run_rows rows = runs_of(raster, form->width, form->rows, stride);
    struct faxpages_row *last = (struct faxpages_row *)rows.table.at + form->rows - 1;
    struct guarded out = make(data->len);
    size_t len, count = rows.runs.len / sizeof(uint32_t);
    if (code_runs(form, k, &rows, form->rows, count, &out, &len) != FAXPAGES_DONE) die("runs are not coded");
    if (len != data->len || memcmp(out.at, data->at, len)) die("runs are coded otherwise");
    see(out, len);
    memset(out.at, MARK, out.len);
    if (code_runs(form, k, &rows, form->rows - 1, count, &out, &len) != FAXPAGES_NO_OPTIONS || len) die("a row is missing");
    if (code_runs(form, k, &rows, form->rows, count - 1, &out, &len) != FAXPAGES_NO_OPTIONS || len) die("a run is missing");
    last->len--;
    if (code_runs(form, k, &rows, form->rows, count, &out, &len) != FAXPAGES_NO_OPTIONS || len) die("pels are missing");
    last->at = SIZE_MAX;
    if (code_runs(form, k, &rows, form->rows, count, &out, &len) != FAXPAGES_NO_OPTIONS || len) die("a row lies outside");
    see(out, 0);
    drop(out);
    drop(rows.table);
    drop(rows.runs);
}

static void try_code(void) {
    struct faxpages_strip form;
    struct guarded data, raster, out;
    uint32_t k;
    size_t len, stride;
    form.coding = number();
    form.order = number();
    form.aligned = number();
    k = number();
    form.width = number();
    data = digits();
    form.rows = number();
    stride = (form.width + 7) / 8 + form.rows % 3;
    raster = raster_of(form.width, form.rows, stride);
    out = make(data.len);
    if (data.len) {
        if (faxpages_strip_code(&form, k, raster.at, raster.len, stride, out.at, data.len - 1, &len) != FAXPAGES_NO_ROOM)
            die("a strip has room in less than it has");
        if (len != data.len) die("a strip is told to be longer or shorter");
        see(out, 0);
    }
    if (faxpages_strip_code(&form, k, raster.at, raster.len, stride, out.at, out.len, &len) != FAXPAGES_DONE)
        die("a strip is not coded");
    if (len != data.len || memcmp(out.at, data.at, len)) die("a strip is coded otherwise");
    see(out, len);
    if (faxpages_strip_code(&form, k, raster.at, raster.len - 1, stride, out.at, out.len, &len) != FAXPAGES_NO_OPTIONS)
        die("a strip is coded from too short a raster");
    if (len) die("a strip that is not coded has a length");
    try_runs(&form, k, &raster, stride, &data);
    drop(out);
    drop(raster);
    drop(data);
}

int main(void) {
    static char line[1 << 20];
    unsigned read = 0, notes = 0, coded = 0;
    runs = make(FAXPAGES_RUNS * sizeof(uint32_t));
    while (fgets(line, sizeof line, stdin)) {
        const char *kind = strtok(line, " \n");
        if (!kind) continue;
        if (!strcmp(kind, "read")) try_read(), read++;
        else if (!strcmp(kind, "notes")) try_notes(), notes++;
        else try_code(), coded++;
    }
    drop(runs);
    printf("%u read, %u noted, %u coded\n", read, notes, coded);
    return 0;
}
