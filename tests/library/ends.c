/* ends: reads what ends.py prints, and sees that the calls tell the same of strips whose rows nobody counted: the rows and
 * how they end, a few a call and in one call; what a check reports; the same of each strip that is cut at a byte; and what
 * is settled while more bytes may come, in one call and as the bytes come in. Each buffer ends at a page that nobody may
 * touch. Prints how many strips, and how many beginnings of them, were tried. */
#include "words.h"
#include <faxpages.h>

enum { MOST_ROWS = 8192, PAGE_OF_CALLER = 9 };

/* The strip of the last line 'whole': its rows, and the bits before each row after them. */
static struct {
    struct guarded data;
    struct faxpages_strip form;
    size_t stride;
    struct guarded rows[MOST_ROWS];
    uint32_t count, bits[MOST_ROWS];
} strip;

/* How rows are wanted to end. */
struct wanted {
    uint32_t status, fault, count;
};

static struct wanted read_wanted(void) {
    struct wanted wanted;
    wanted.status = number();
    wanted.fault = number();
    wanted.count = number();
    if (wanted.count > MOST_ROWS) die("a line has too many rows");
    return wanted;
}

/* The place that is read from, and its runs. */
struct reading {
    struct faxpages_place place;
    uint32_t *runs, done;
};

static struct reading begin(void) {
    static uint32_t runs[FAXPAGES_RUNS];
    const struct reading reading = {{PAGE_OF_CALLER, 0, 0, 0}, runs, 0};
    return reading;
}

typedef uint32_t reader(const uint8_t *, size_t, const struct faxpages_strip *, struct faxpages_place *, uint32_t *,
                        size_t, uint8_t *, size_t, size_t, struct faxpages_told *);

/* The next rows, at most so many, of the first bytes of the strip. */
static uint32_t read_some(reader *call, const struct guarded *data, uint32_t rows, size_t most, struct reading *reading,
                          struct faxpages_told *told) {
    struct faxpages_strip form = strip.form;
    struct guarded out = make(most * strip.stride);
    uint32_t status, i;
    form.rows = rows;
    status = call(data->at, data->len, &form, &reading->place, reading->runs, FAXPAGES_RUNS, out.at, out.len, strip.stride,
                  told);
    if (told->count > strip.count - reading->done || told->used != told->count * strip.stride) die("there are other rows");
    for (i = 0; i < told->count; i++)
        if (memcmp(out.at + i * strip.stride, strip.rows[reading->done + i].at, strip.stride)) die("a row is another");
    see(out, told->used);
    reading->done += (uint32_t)told->count;
    if (reading->place.row != reading->done || told->row != reading->done || told->page != PAGE_OF_CALLER ||
        reading->place.bits != (reading->done ? strip.bits[reading->done - 1] : 0))
        die("a place is another");
    if ((status == FAXPAGES_DONE) != (told->count == most)) die("a status is another than the rows say");
    drop(out);
    return status;
}

static void see_end(const struct wanted *wanted, const struct reading *reading, uint32_t status,
                    const struct faxpages_told *told) {
    if (reading->done != wanted->count) die("another number of rows was read");
    if (status != wanted->status || told->fault.number != wanted->fault || told->fault.tag) die("rows end otherwise");
    if (told->fault.page != (wanted->fault ? PAGE_OF_CALLER : 0) || told->fault.row != (wanted->fault ? wanted->count : 0))
        die("a fault is at another place");
}

/* All rows of the first bytes, so many a call. */
static void read_all(reader *call, const struct guarded *data, uint32_t rows, size_t most, struct reading *reading,
                     const struct wanted *wanted) {
    struct faxpages_told told;
    uint32_t status;
    do status = read_some(call, data, rows, most, reading, &told);
    while (status == FAXPAGES_DONE);
    see_end(wanted, reading, status, &told);
}

static void try_whole(void) {
    struct wanted wanted;
    uint32_t i, most;
    for (i = 0; i < strip.count; i++) drop(strip.rows[i]);
    if (strip.data.pages) drop(strip.data);
    strip.form.coding = number();
    strip.form.order = number();
    strip.form.width = number();
    strip.stride = (strip.form.width + 7) / 8;
    strip.data = digits();
    wanted = read_wanted();
    strip.count = wanted.count;
    for (i = 0; i < wanted.count; i++) {
        strip.rows[i] = digits();
        strip.bits[i] = number();
    }
    for (most = 1; most <= wanted.count + 1; most += 2) {
        struct reading reading = begin();
        read_all(faxpages_strip_rows, &strip.data, 0, most, &reading, &wanted);
    }
}

static void try_notes(void) {
    struct faxpages_strip_report report;
    uint32_t status = number(), rows = number(), fault = number(), told[4], i;
    for (i = 0; i < 4; i++) told[i] = number();
    strip.form.rows = 0;
    if (faxpages_strip_check(strip.data.at, strip.data.len, &strip.form, &report) != status || report.rows != rows)
        die("a strip is checked otherwise");
    if (report.fault.number != fault || report.fault.tag || report.fault.page || report.fault.row != (fault ? rows : 0))
        die("a check tells another fault");
    if (report.no_end_of_block != told[0] || report.return_to_control != told[1] || report.data_after_end != told[2] ||
        report.not_t4_choice != told[3])
        die("a note is another");
}

static void try_cut(size_t len) {
    struct wanted wanted = read_wanted();
    struct guarded data = copy_of(strip.data.at, len);
    struct reading reading = begin();
    read_all(faxpages_strip_rows, &data, 0, strip.count + 1, &reading, &wanted);
    drop(data);
}

static void try_part(uint32_t rows, size_t len, struct reading *growing) {
    struct wanted wanted = read_wanted();
    struct guarded data = copy_of(strip.data.at, len);
    struct reading reading = begin();
    uint32_t runs[FAXPAGES_RUNS];
    reading.runs = runs;
    read_all(faxpages_strip_part, &data, rows, strip.count + 1, &reading, &wanted);
    read_all(faxpages_strip_part, &data, rows, 2, growing, &wanted);
    drop(data);
}

int main(void) {
    static char line[1 << 20];
    unsigned strips = 0, beginnings = 0, len = 0;
    uint32_t rows = UINT32_MAX;
    struct reading growing = begin();
    while (fgets(line, sizeof line, stdin)) {
        const char *kind = strtok(line, " \n");
        if (!kind) continue;
        if (!strcmp(kind, "whole")) try_whole(), strips++, len = 0, rows = UINT32_MAX;
        else if (!strcmp(kind, "notes")) try_notes();
        else if (!strcmp(kind, "cut")) try_cut(len++), beginnings++;
        else {
            uint32_t of = number();
            if (of != rows) rows = of, len = 0, growing = begin();
            try_part(rows, len++, &growing), beginnings++;
        }
    }
    if (strip.data.pages) drop(strip.data);
    printf("%u strips, %u beginnings of them\n", strips, beginnings);
    return 0;
}
