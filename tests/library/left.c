/* left: reads what damaged.py prints, and sees that the calls for what is left of strips and pages tell the same, with a
 * row's bytes one after another, and with more bytes between them, and pages in pieces. Each buffer ends at a page that nobody may touch. Prints
 * how many strips and pages were tried, and how many pages are refused. */
#include "words.h"
#include <faxpages.h>

enum { MOST_ROWS = 64, EXTRA = 3 };

/* What is wanted: the rows, packed, and the stretches of those that are lost. */
struct wanted {
    uint32_t rows, count;
    struct guarded row[MOST_ROWS];
    struct faxpages_lost lost[MOST_ROWS];
};

/* What a call filled. */
struct filled {
    struct guarded out, lost;
    struct faxpages_told told;
};

static void read_wanted(struct wanted *wanted, uint32_t rows) {
    uint32_t i;
    if (rows > MOST_ROWS) die("too many rows");
    wanted->rows = rows;
    for (i = 0; i < rows; i++) wanted->row[i] = digits();
    wanted->count = number();
    for (i = 0; i < wanted->count; i++) {
        wanted->lost[i].row = number();
        wanted->lost[i].rows = number();
        wanted->lost[i].fault = number();
    }
}

static struct filled rooms(uint32_t rows, size_t stride) {
    struct filled made;
    memset(&made, 0, sizeof made);
    made.out = make(rows * stride);
    made.lost = make((rows + 1) / 2 * sizeof(struct faxpages_lost));
    return made;
}

/* The rows, with zeros up to the stride, and the stretches are those that are wanted; and nothing else was written. */
static void see_left(const struct wanted *wanted, struct filled *left, size_t stride) {
    size_t i, j;
    if (left->told.count != wanted->rows || left->told.used != wanted->count) die("another number of rows is told");
    for (i = 0; i < wanted->rows; i++) {
        const struct guarded *row = &wanted->row[i];
        if (memcmp(left->out.at + i * stride, row->at, row->len)) die("a row is another");
        for (j = row->len; j < stride; j++)
            if (left->out.at[i * stride + j]) die("a byte after a row is not 0");
    }
    if (memcmp(left->lost.at, wanted->lost, wanted->count * sizeof *wanted->lost)) die("a stretch is another");
    see(left->out, wanted->rows * stride);
    see(left->lost, wanted->count * sizeof *wanted->lost);
    drop(left->out);
    drop(left->lost);
}

static void see_done(const struct filled *left, uint32_t status) {
    if (status != FAXPAGES_DONE) die("a call ends with another status");
    if (left->told.fault.number) die("a fault is told");
}

static void drop_wanted(struct wanted *wanted) {
    uint32_t i;
    for (i = 0; i < wanted->rows; i++) drop(wanted->row[i]);
}

static void see_strip(void) {
    struct faxpages_strip form = {0, 0, 0, 0, 0};
    struct wanted wanted;
    struct guarded data;
    size_t stride, more;
    form.coding = number();
    form.order = number();
    form.width = number();
    form.rows = number();
    data = digits();
    read_wanted(&wanted, form.rows);
    stride = (form.width + 7) / 8;
    for (more = 0; more <= EXTRA; more += EXTRA) {
        struct filled left = rooms(form.rows, stride + more);
        uint32_t status = faxpages_salvage_strip(data.at, data.len, &form, left.out.at, left.out.len, stride + more,
                                                 (struct faxpages_lost *)(void *)left.lost.at, (form.rows + 1) / 2,
                                                 &left.told);
        see_done(&left, status);
        see_left(&wanted, &left, stride + more);
    }
    drop(data);
    drop_wanted(&wanted);
}

/* Of a strip whose rows nobody counted a call with no room tells how many there are, and one with room how they end. */
static void see_uncounted(void) {
    struct faxpages_strip form = {0, 0, 0, 0, 0};
    struct wanted wanted;
    struct guarded data;
    uint32_t status, fault, rows, told;
    size_t stride;
    form.coding = number();
    form.order = number();
    form.width = number();
    data = digits();
    status = number();
    fault = number();
    rows = number();
    read_wanted(&wanted, rows);
    stride = (form.width + 7) / 8;
    if (rows) {
        struct filled left = rooms(rows, stride);
        told = faxpages_salvage_strip(data.at, data.len, &form, left.out.at, left.out.len - 1, stride,
                                      (struct faxpages_lost *)(void *)left.lost.at, (rows + 1) / 2, &left.told);
        if (told != FAXPAGES_NO_ROOM || left.told.row != rows || left.told.count || left.told.used)
            die("another number of rows is told where they have no room");
        see(left.out, 0);
        see(left.lost, 0);
        drop(left.out);
        drop(left.lost);
    }
    {
        struct filled left = rooms(rows, stride + EXTRA);
        told = faxpages_salvage_strip(data.at, data.len, &form, left.out.at, left.out.len, stride + EXTRA,
                                      (struct faxpages_lost *)(void *)left.lost.at, (rows + 1) / 2, &left.told);
        if (told != status || left.told.fault.number != fault) die("rows that nobody counted end otherwise");
        if (left.told.row != rows) die("they end at another row");
        /* The fault is the last row's, which is lost; where there are too many it is after the last one. */
        if (fault && left.told.fault.row != (fault == FAXPAGES_TOO_MANY_ROWS ? rows : rows - 1))
            die("the fault is another row's");
        see_left(&wanted, &left, stride + EXTRA);
    }
    drop(data);
    drop_wanted(&wanted);
}

/* How far the pieces of a page are seen. */
struct seen {
    uint32_t row;
    size_t stretch;
};

/* The rows and the stretches of one piece are the next ones that are wanted. */
static void see_piece(const struct wanted *wanted, struct seen *seen, const struct filled *left, size_t stride) {
    const struct faxpages_lost *lost = (const struct faxpages_lost *)(const void *)left->lost.at;
    size_t found = 0, stretch = 0;
    while (seen->row < left->told.row) {
        if (stretch < left->told.used && lost[stretch].row == seen->row) {
            if (memcmp(&lost[stretch++], &wanted->lost[seen->stretch], sizeof *lost)) die("a stretch of a piece is another");
            seen->row += wanted->lost[seen->stretch++].rows;
        } else {
            if (memcmp(left->out.at + found++ * stride, wanted->row[seen->row].at, stride))
                die("a row of a piece is another");
            seen->row++;
        }
    }
    if (found != left->told.count || stretch != left->told.used) die("a piece tells another number of rows");
    see(left->out, found * stride);
    see(left->lost, stretch * sizeof *lost);
}

/* Rooms for so many rows and so many stretches, call after call, leave what one call leaves. */
static void see_pieces(struct guarded file, uint32_t page, size_t stride, const struct wanted *wanted, size_t rows,
                       size_t stretches) {
    static uint32_t runs[FAXPAGES_RUNS];
    struct faxpages_place place = {page, 0, 0, 0};
    struct seen seen = {0, 0};
    uint32_t status;
    do {
        struct filled left;
        memset(&left, 0, sizeof left);
        left.out = make(rows * stride);
        left.lost = make(stretches * sizeof(struct faxpages_lost));
        status = faxpages_salvage_from(file.at, file.len, &place, runs, FAXPAGES_RUNS, left.out.at, left.out.len, stride,
                                       (struct faxpages_lost *)(void *)left.lost.at, stretches, &left.told);
        if (status != FAXPAGES_DONE && status != FAXPAGES_END) die("a piece ends with another status");
        if (place.page != page || place.row != left.told.row || left.told.page != page) die("a piece ends elsewhere");
        if (status == FAXPAGES_DONE && left.told.count < rows && left.told.used < stretches) die("a piece ends early");
        see_piece(wanted, &seen, &left, stride);
        drop(left.out);
        drop(left.lost);
    } while (status == FAXPAGES_DONE);
    if (seen.row != wanted->rows || seen.stretch != wanted->count) die("pieces leave other rows than one call");
}

static void see_page(void) {
    uint32_t page = number(), width = number(), rows = number();
    struct guarded file = digits();
    struct wanted wanted;
    size_t stride = (width + 7) / 8, more;
    read_wanted(&wanted, rows);
    for (more = 0; more <= EXTRA; more += EXTRA) {
        struct faxpages_form form = {0};
        struct filled left = rooms(rows, stride + more);
        uint32_t status = faxpages_salvage(file.at, file.len, page, &form, left.out.at, left.out.len, stride + more,
                                           (struct faxpages_lost *)(void *)left.lost.at, (rows + 1) / 2, &left.told);
        see_done(&left, status);
        see_left(&wanted, &left, stride + more);
        if (form.width != width || form.rows != rows) die("a form is another");
    }
    see_pieces(file, page, stride, &wanted, 1, 1);
    see_pieces(file, page, stride, &wanted, 2, 3);
    see_pieces(file, page, stride, &wanted, MOST_ROWS, 2);
    drop(file);
    drop_wanted(&wanted);
}

static void see_refused(void) {
    uint32_t page = number(), fault = number(), status;
    struct guarded file = digits();
    struct faxpages_form form = {0};
    struct filled left = rooms(1, 1);
    status = faxpages_salvage(file.at, file.len, page, &form, left.out.at, 1, 1,
                              (struct faxpages_lost *)(void *)left.lost.at, 1, &left.told);
    if (status != FAXPAGES_FAULT || left.told.fault.number != fault || left.told.fault.page != page)
        die("a page is not refused");
    if (form.width || left.told.count || left.told.used) die("something is told of a page that is refused");
    see(left.out, 0);
    see(left.lost, 0);
    drop(left.out);
    drop(left.lost);
    drop(file);
}

int main(void) {
    static char line[1 << 20];
    unsigned long strips = 0, pages = 0, refused = 0;
    while (fgets(line, sizeof line, stdin)) {
        const char *kind = strtok(line, " \n");
        if (!kind) die("a line is empty");
        if (!strcmp(kind, "strip")) see_strip(), strips++;
        else if (!strcmp(kind, "uncounted")) see_uncounted(), strips++;
        else if (!strcmp(kind, "page")) see_page(), pages++;
        else see_refused(), refused++;
    }
    printf("%lu strips, %lu pages, %lu refused\n", strips, pages, refused);
    return 0;
}
