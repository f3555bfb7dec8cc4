/* salvaged HOW FILE, over libfaxpages, where each buffer ends at a page that nobody may touch.
 *
 * HOW is `pages`: prints what is left of a file as `faxpages salvage` does, a page a call, and sees that rooms which are
 * too small say so; or `strips`: codes each page as one strip in MH, MR and MMR, turns bits of it, and sees that the same
 * is left of the strip alone as of a file that has it. */
#include "guarded.h"
#include <faxpages.h>

enum { EXTRA = 3, MOST = 1 << 20 };

static struct guarded read_file(const char *name) {
    static uint8_t bytes[MOST];
    FILE *in = fopen(name, "rb");
    size_t len = in ? fread(bytes, 1, sizeof bytes, in) : 0;
    if (!in || len == sizeof bytes) die("cannot read the file");
    fclose(in);
    return copy_of(bytes, len);
}

/* What is left of a page or a strip. */
struct left {
    struct faxpages_form form;
    struct guarded raster, table;
    size_t stride;
    struct faxpages_told told;
    uint32_t status;
};

static struct left rooms_for(uint32_t width, uint32_t rows) {
    struct left left;
    left.stride = (width + 7) / 8 + EXTRA;
    left.raster = make(left.stride * rows);
    left.table = make((rows + 1) / 2 * sizeof(struct faxpages_lost));
    return left;
}

static const struct faxpages_lost *lost_of(const struct left *left) {
    return (const struct faxpages_lost *)(const void *)left->table.at;
}

static void drop_left(struct left left) {
    drop(left.raster);
    drop(left.table);
}

static uint32_t call(struct guarded file, uint32_t page, struct left *left, size_t room, size_t stride,
                     size_t stretches) {
    return faxpages_salvage(file.at, file.len, page, &left->form, left->raster.at, room, stride,
                            (struct faxpages_lost *)(void *)left->table.at, stretches, &left->told);
}

/* Rooms that are too small: nothing is written, or all rows and the first stretches. */
static void rooms_that_are_too_small(struct guarded file, uint32_t page, const struct left *whole) {
    size_t used = whole->told.used, stride = whole->stride;
    struct left left = rooms_for(whole->form.width, whole->form.rows);
    if (call(file, page, &left, left.raster.len - 1, stride, used) != FAXPAGES_NO_ROOM || left.told.count ||
        left.told.used || left.told.row || left.told.page != page)
        die("a raster that is too short is taken");
    if (call(file, page, &left, left.raster.len, (whole->form.width + 7) / 8 - 1, used) != FAXPAGES_NO_ROOM)
        die("a stride that is too short is taken");
    if (call(file, page, &left, left.raster.len, SIZE_MAX, used) != FAXPAGES_NO_ROOM) die("a stride overflows");
    see(left.raster, 0);
    see(left.table, 0);
    if (used) {
        if (call(file, page, &left, left.raster.len, stride, used - 1) != FAXPAGES_NO_ROOM || left.told.used != used ||
            left.told.count != whole->form.rows)
            die("a table that is too short is not told");
        see(left.table, (used - 1) * sizeof(struct faxpages_lost));
        if (memcmp(left.table.at, whole->table.at, (used - 1) * sizeof(struct faxpages_lost)) ||
            memcmp(left.raster.at, whole->raster.at, left.raster.len))
            die("a table that is too short changes what is written");
    }
    drop_left(left);
}

/* From a place on, with rooms for so many bytes, stretches and runs: this is told, and nothing else is changed. */
static void is_refused(struct guarded file, struct faxpages_place at, size_t bytes, size_t stride, size_t stretches,
                       size_t runs_room, uint32_t status) {
    static uint32_t runs[FAXPAGES_RUNS];
    static uint8_t out[FAXPAGES_ROW_BYTES];
    struct faxpages_lost lost[1] = {{7, 7, 7}};
    struct faxpages_place place = at;
    struct faxpages_told told;
    memset(out, 0xA5, sizeof out);
    memset(&told, 0xA5, sizeof told);
    runs[0] = 1;
    if (faxpages_salvage_from(file.at, file.len, &place, runs, runs_room, out, bytes, stride, lost, stretches, &told) !=
        status)
        die("a place is answered otherwise");
    if (memcmp(&place, &at, sizeof at) || runs[0] != 1 || out[0] != 0xA5 || lost[0].row != 7)
        die("something is written from no place");
    if (status != FAXPAGES_NO_OPTIONS && (told.count || told.used || told.page != at.page || told.row != at.row))
        die("something is told from no place");
}

/* Places, and rooms, from which on nothing is left of a page. */
static void places_that_are_none(struct guarded file, uint32_t page, const struct faxpages_form *form) {
    const struct faxpages_place first = {page, 0, 0, 0}, end = {page, form->rows, 0, 0};
    struct faxpages_place at = first;
    struct faxpages_form none;
    struct faxpages_lost lost[1];
    struct faxpages_told told;
    uint8_t out[1];
    size_t stride = (form->width + 7) / 8;
    is_refused(file, first, stride, stride, 1, FAXPAGES_RUNS - 1, FAXPAGES_NO_OPTIONS);
    is_refused(file, first, stride - 1, stride, 1, FAXPAGES_RUNS, FAXPAGES_NO_ROOM);
    is_refused(file, first, stride, stride - 1, 1, FAXPAGES_RUNS, FAXPAGES_NO_ROOM);
    is_refused(file, first, stride, stride, 0, FAXPAGES_RUNS, FAXPAGES_NO_ROOM);
    is_refused(file, end, stride, stride, 1, FAXPAGES_RUNS, FAXPAGES_END);
    at.row = form->rows + 1;
    is_refused(file, at, stride, stride, 1, FAXPAGES_RUNS, FAXPAGES_OUTSIDE);
    at.row = 1;
    if (form->rows_per_strip > 1 && form->rows > 1) is_refused(file, at, stride, stride, 1, FAXPAGES_RUNS, FAXPAGES_OUTSIDE);
    at.row = 0;
    at.bits = 0xFFFFFFFFu;
    at.runs = 1;
    is_refused(file, at, stride, stride, 1, FAXPAGES_RUNS, FAXPAGES_OUTSIDE);
    at.bits = 0;
    if (form->width != 1) is_refused(file, at, stride, stride, 1, FAXPAGES_RUNS, FAXPAGES_OUTSIDE);
    at.page = 0xFFFFFFFFu;
    is_refused(file, at, stride, stride, 1, FAXPAGES_RUNS,
               faxpages_salvage(file.at, file.len, at.page, &none, out, 0, 0, lost, 0, &told));
}

static void print_row(const struct left *left, uint32_t page, uint32_t row) {
    const uint8_t *bytes = left->raster.at + row * left->stride;
    uint32_t i, run = 0;
    int colour = 0;
    printf("row %u %u", (unsigned)page, (unsigned)row);
    for (i = 0; i < left->form.width; i++) {
        int black = bytes[i / 8] >> (7 - i % 8) & 1;
        if (black != colour) {
            printf(" %u", (unsigned)run);
            run = 0;
            colour = black;
        }
        run++;
    }
    printf(" %u\n", (unsigned)run);
    for (; i < 8 * left->stride; i++)
        if (bytes[i / 8] >> (7 - i % 8) & 1) die("a row is not padded with zeros");
}

static void print_name(uint32_t fault, uint32_t tag) {
    char name[32];
    size_t len = faxpages_fault_name(fault, (uint8_t *)name, sizeof name);
    printf(" %.*s", (int)len, name);
    if (tag) printf(" %u", (unsigned)tag);
    putchar('\n');
}

/* All rows of a page, found or lost, each once. */
static void print_left(const struct left *left, uint32_t page) {
    const struct faxpages_lost *lost = lost_of(left);
    uint32_t row = 0;
    size_t at = 0, i;
    while (row < left->form.rows) {
        if (at < left->told.used && lost[at].row == row) {
            if (!lost[at].rows || lost[at].rows > left->form.rows - row) die("a stretch is outside the page");
            printf("lost %u %u %u", (unsigned)page, (unsigned)row, (unsigned)lost[at].rows);
            print_name(lost[at].fault, 0);
            for (i = 0; i < lost[at].rows * left->stride; i++)
                if (left->raster.at[row * left->stride + i]) die("a lost row is not white");
            row += lost[at++].rows;
        } else {
            print_row(left, page, row++);
        }
    }
    if (at != left->told.used) die("a stretch is not in order");
}

static int pages(struct guarded file) {
    uint32_t page;
    for (page = 0;; page++) {
        struct left left;
        struct faxpages_form form;
        uint8_t none[1];
        struct faxpages_lost no_stretch[1];
        struct faxpages_told told;
        uint32_t status = faxpages_salvage(file.at, file.len, page, &form, none, 0, 0, no_stretch, 0, &told);
        if (status == FAXPAGES_END || status == FAXPAGES_OUTSIDE) break;
        if (status == FAXPAGES_FAULT) {
            if (told.fault.page != page || told.fault.number < FAXPAGES_MISSING_FIELD) break;
            printf("lost %u", (unsigned)page);
            print_name(told.fault.number, told.fault.tag);
            continue;
        }
        if (status != FAXPAGES_NO_ROOM) die("a form is told with another status");
        left = rooms_for(form.width, form.rows);
        left.status = call(file, page, &left, left.raster.len, left.stride,
                           left.table.len / sizeof(struct faxpages_lost));
        if (left.status != FAXPAGES_DONE || left.told.count != form.rows || left.told.row != form.rows ||
            left.told.page != page || left.told.fault.number)
            die("a page is not told wholly");
        see(left.table, left.told.used * sizeof(struct faxpages_lost));
        print_left(&left, page);
        rooms_that_are_too_small(file, page, &left);
        places_that_are_none(file, page, &form);
        drop_left(left);
    }
    puts("end");
    return 0;
}

/* The same is left of a strip alone as of a file that has it, with some bits turned. */
static void compare_strip(const struct faxpages_strip *form, uint8_t *strip, size_t strip_len, uint8_t *file,
                          size_t file_len) {
    uint32_t turn, seed = 1;
    for (turn = 0; turn < 8; turn++) {
        struct left of_strip = rooms_for(form->width, form->rows), of_page = rooms_for(form->width, form->rows);
        size_t room = of_strip.table.len / sizeof(struct faxpages_lost);
        struct guarded whole, alone;
        if (turn && strip_len) {
            seed = seed * 1103515245u + 12345u;
            strip[(seed >> 8) % strip_len] ^= (uint8_t)(1u << turn % 8);
        }
        memcpy(file + 8, strip, strip_len);
        whole = copy_of(file, file_len);
        alone = copy_of(strip, strip_len);
        of_page.status = call(whole, 0, &of_page, of_page.raster.len, of_page.stride, room);
        of_strip.status = faxpages_salvage_strip(alone.at, alone.len, form, of_strip.raster.at, of_strip.raster.len,
                                                 of_strip.stride, (struct faxpages_lost *)(void *)of_strip.table.at,
                                                 room, &of_strip.told);
        if (of_page.status != FAXPAGES_DONE || of_strip.status != FAXPAGES_DONE ||
            of_page.told.used != of_strip.told.used || of_page.told.count != of_strip.told.count ||
            memcmp(of_page.raster.at, of_strip.raster.at, of_page.raster.len) ||
            memcmp(of_page.table.at, of_strip.table.at, of_page.table.len))
            die("another thing is left of a strip than of its page");
        printf("%u", (unsigned)of_strip.told.used);
        drop_left(of_strip);
        drop_left(of_page);
        drop(whole);
        drop(alone);
    }
    putchar('\n');
}

static void numbers_that_are_no_form(const struct faxpages_strip *good, struct guarded strip) {
    static const uint32_t bad[] = {0, 4, 0xFFFFFFFFu};
    struct faxpages_told told, old;
    struct faxpages_lost lost[1];
    uint8_t out[1];
    size_t i;
    memset(&told, MARK, sizeof told);
    old = told;
    for (i = 0; i < 3; i++) {
        struct faxpages_strip form = *good;
        form.coding = bad[i];
        if (faxpages_salvage_strip(strip.at, strip.len, &form, out, 1, 1, lost, 1, &told) != FAXPAGES_NO_OPTIONS)
            die("a coding that is none is taken");
        form = *good;
        form.rows = bad[i] == 0xFFFFFFFFu ? bad[i] : 1000001 + bad[i];
        if (faxpages_salvage_strip(strip.at, strip.len, &form, out, 1, 1, lost, 1, &told) != FAXPAGES_NO_OPTIONS)
            die("rows that are none are taken");
    }
    if (memcmp(&told, &old, sizeof told)) die("numbers that are no form are told");
}

static int strips(struct guarded file) {
    static uint8_t strip[MOST], made[MOST];
    uint32_t page, coding;
    for (page = 0;; page++) {
        struct faxpages_form form;
        struct faxpages_told told;
        struct guarded raster;
        size_t stride;
        uint8_t none[1];
        uint32_t status = faxpages_page(file.at, file.len, page, &form, none, 0, 0, &told);
        if (status != FAXPAGES_NO_ROOM) return 0;
        stride = (form.width + 7) / 8;
        raster = make(stride * form.rows);
        status = faxpages_page(file.at, file.len, page, &form, raster.at, raster.len, stride, &told);
        for (coding = 1; status == FAXPAGES_DONE && coding <= 3; coding++) {
            struct faxpages_strip one = {0, 0, 0, 1, 0};
            struct faxpages_written written = {0, 0, 1, 0};
            struct guarded bytes;
            size_t len;
            one.width = form.width;
            one.rows = form.rows;
            one.coding = coding;
            form.coding = coding;
            form.order = 1;
            form.aligned = form.exchanged = 0;
            form.rows_per_strip = form.rows;
            form.strips = 1;
            if (faxpages_strip_code(&one, 4, raster.at, raster.len, stride, strip, sizeof strip, &len) ||
                faxpages_add_page(&form, 4, raster.at, raster.len, stride, made, sizeof made, &written))
                die("a page is not coded");
            if (memcmp(made + 8, strip, len)) die("a file begins with another strip");
            bytes = copy_of(strip, len);
            numbers_that_are_no_form(&one, bytes);
            drop(bytes);
            compare_strip(&one, strip, len, made, written.len);
        }
        drop(raster);
    }
}

int main(int count, char **words) {
    struct guarded file;
    if (count != 3) die("usage: salvaged pages|strips FILE");
    file = read_file(words[2]);
    return strcmp(words[1], "pages") ? strips(file) : pages(file);
}
