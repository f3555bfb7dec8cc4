/* answers: sees that the calls for a page, for strips and for files that are written answer as the header says where they
 * write nothing, or not all, and then change nothing else. Says each claim that is not so, and ends with how many these
 * are. */
#include "blank.h"
#include <faxpages.h>
#include <stdio.h>

enum { WIDTH = 20, ROWS = 5, STRIDE = 4, TIFF = 1 << 16 };

static int wrong;
static uint8_t out[1 << 16], tiff[TIFF];
static uint32_t runs[FAXPAGES_RUNS];
static struct faxpages_told told;

static void see(int holds, const char *claim) {
    if (holds) return;
    wrong++;
    printf("not so: %s\n", claim);
}

/* Whether so many bytes are all this one. */
static int are_all(const void *from, size_t len, uint8_t byte) {
    const uint8_t *bytes = from;
    while (len && bytes[len - 1] == byte) len--;
    return !len;
}

static int tells(size_t count, uint32_t page, uint32_t row, uint32_t fault) {
    return told.count == count && told.used == count * STRIDE && told.page == page && told.row == row &&
           told.fault.number == fault && told.fault.page == (fault ? page : 0) && told.fault.row == (fault ? row : 0);
}

static void pages(void) {
    struct faxpages_form form;
    size_t len;
    uint8_t *file = blank_fax(WIDTH, ROWS, &len);
    memset(out, 1, sizeof out);
    see(faxpages_page(file, len, 0, &form, out, 0, 0, &told) == FAXPAGES_NO_ROOM && tells(0, 0, 0, 0) &&
            form.width == WIDTH && form.rows == ROWS, "a form is told with no room and a stride of 0");
    see(faxpages_page(file, len, 0, &form, out, sizeof out, 2, &told) == FAXPAGES_NO_ROOM && tells(0, 0, 0, 0) &&
            out[0] == 1, "a stride of less than a row has no room");
    see(faxpages_page(file, len, 0, &form, out, 3 * STRIDE + 3, STRIDE, &told) == FAXPAGES_NO_ROOM && tells(3, 0, 3, 0) &&
            are_all(out, 3 * STRIDE, 0) && out[3 * STRIDE] == 1, "three rows and three bytes have room for three");
    see(faxpages_page(file, len, 0, &form, out, sizeof out, STRIDE, &told) == FAXPAGES_DONE && tells(ROWS, 0, ROWS, 0) &&
            out[ROWS * STRIDE] == 1, "a page is DONE");
    memset(&form, 9, sizeof form);
    see(faxpages_page(file, len, 1, &form, out, sizeof out, STRIDE, &told) == FAXPAGES_END && tells(0, 1, 0, 0) &&
            are_all(&form, sizeof form, 9), "the page after the last is END, and no form is told");
    see(faxpages_page(file, len, 2, &form, out, sizeof out, STRIDE, &told) == FAXPAGES_OUTSIDE && tells(0, 2, 0, 0) &&
            are_all(&form, sizeof form, 9), "a page after that is OUTSIDE, and no form is told");
    see(faxpages_page(file, 4, 0, &form, out, sizeof out, STRIDE, &told) == FAXPAGES_FAULT && tells(0, 0, 0, 1) &&
            are_all(&form, sizeof form, 9), "a short header is FAULT, and no form is told");
    file[len - 1] = 0;
    see(faxpages_page(file, len, 0, &form, out, sizeof out, STRIDE, &told) == FAXPAGES_FAULT && tells(0, 0, 0, 101) &&
            form.rows == ROWS, "a row that cannot be read is FAULT, and the form is told");
    free(file);
}

/* A strip of MMR: a row of three white pels, three black and the rest white, a like row, and the end of the block. */
static const uint8_t strip[] = {0x31, 0x78, 0x00, 0x80, 0x08};

static uint32_t read_strip(struct faxpages_strip form, struct faxpages_place *place, size_t room, size_t stride) {
    return faxpages_strip_rows(strip, sizeof strip, &form, place, runs, FAXPAGES_RUNS, out, room, stride, &told);
}

/* A place is refused, and stays: the runs are 5 and 6. */
static int refuses(struct faxpages_strip form, struct faxpages_place place, size_t room, size_t stride, uint32_t status) {
    struct faxpages_place old = place;
    runs[0] = 5;
    runs[1] = 6;
    out[0] = 7;
    return read_strip(form, &place, room, stride) == status && !memcmp(&old, &place, sizeof old) && runs[0] == 5 &&
           runs[1] == 6 && out[0] == 7 && tells(0, old.page, old.row, 0);
}

static struct faxpages_place at(uint32_t row, uint32_t bits, uint32_t count) {
    struct faxpages_place place = {3, 0, 0, 0};
    place.row = row;
    place.bits = bits;
    place.runs = count;
    return place;
}

static void places_of_strips(void) {
    const struct faxpages_strip form = {WIDTH, ROWS, 3, 1, 0};
    const size_t room = sizeof out;
    const uint32_t bits = 8 * sizeof strip;
    see(refuses(form, at(0, 0, 0), room, 2, FAXPAGES_NO_ROOM), "a stride of less than a row is NO_ROOM");
    see(refuses(form, at(0, 0, 0), STRIDE - 1, STRIDE, FAXPAGES_NO_ROOM), "less room than a stride is NO_ROOM");
    see(refuses(form, at(ROWS + 1, bits + 1, 2), 0, STRIDE, FAXPAGES_NO_ROOM), "NO_ROOM comes before OUTSIDE");
    see(refuses(form, at(ROWS, 0, 0), room, STRIDE, FAXPAGES_END), "the row after the last is END");
    see(refuses(form, at(ROWS, bits + 1, 2), room, STRIDE, FAXPAGES_END), "END comes before OUTSIDE");
    see(refuses(form, at(ROWS + 1, 0, 0), room, STRIDE, FAXPAGES_OUTSIDE), "a row after that is OUTSIDE");
    see(refuses(form, at(0, bits + 1, 0), room, STRIDE, FAXPAGES_OUTSIDE), "bits after the strip are OUTSIDE");
    see(refuses(form, at(1, 0, 2), room, STRIDE, FAXPAGES_OUTSIDE), "runs of another width are OUTSIDE");
    see(refuses(form, at(1, 0, FAXPAGES_RUNS + 1), room, STRIDE, FAXPAGES_OUTSIDE),
        "more runs than stand there are OUTSIDE");
}

static void rows_of_strips(void) {
    struct faxpages_strip form = {WIDTH, ROWS, 3, 1, 0};
    struct faxpages_place place = at(0, 8 * sizeof strip, 0);
    see(read_strip(form, &place, sizeof out, STRIDE) == FAXPAGES_FAULT && tells(0, 3, 0, 101) && !place.runs,
        "after all bits of a strip the data ends");
    place = at(0, 0, 0);
    see(read_strip(form, &place, sizeof out, STRIDE) == FAXPAGES_FAULT && tells(2, 3, 2, 107) && place.row == 2,
        "two rows stand before the end mark");
    see(place.runs == 3 && runs[0] == 3 && runs[1] == 3 && runs[2] == WIDTH - 6, "and the runs of the second are told");
    see(out[0] == 0x1C && are_all(out + 1, 3, 0) && !memcmp(out, out + STRIDE, STRIDE), "they are the rows that were coded");
    place = at(0, 0, 0);
    see(read_strip(form, &place, 2 * STRIDE, STRIDE) == FAXPAGES_DONE && tells(2, 3, 2, 0), "a full raster is DONE");
    form.rows = 2;
    place = at(0, 0, 0);
    see(read_strip(form, &place, 2 * STRIDE, STRIDE) == FAXPAGES_DONE && tells(2, 3, 2, 0), "also if no row is left");
    see(read_strip(form, &place, 2 * STRIDE, STRIDE) == FAXPAGES_END && tells(0, 3, 2, 0), "then it is END");
}

static int is_no_form(struct faxpages_strip form) {
    struct faxpages_place place = at(0, 0, 0), old = place;
    struct faxpages_strip_report report;
    size_t len = 9;
    memset(&told, 6, sizeof told);
    memset(&report, 6, sizeof report);
    out[0] = 7;
    return read_strip(form, &place, sizeof out, STRIDE) == FAXPAGES_NO_OPTIONS && !memcmp(&place, &old, sizeof old) &&
           are_all(&told, sizeof told, 6) &&
           faxpages_strip_check(strip, sizeof strip, &form, &report) == FAXPAGES_NO_OPTIONS &&
           are_all(&report, sizeof report, 6) &&
           faxpages_strip_code(&form, 1, tiff, TIFF, STRIDE, out, sizeof out, &len) == FAXPAGES_NO_OPTIONS && len == 0 &&
           out[0] == 7;
}

typedef uint32_t reads(const uint8_t *, size_t, const struct faxpages_strip *, struct faxpages_place *, uint32_t *,
                       size_t, uint8_t *, size_t, size_t, struct faxpages_told *);

/* The end that is wanted of rows that nobody counted. */
struct end {
    const uint8_t *bytes;
    size_t len;
    uint32_t status, rows, fault;
    const char *claim;
};

/* Whether the rows of these bytes are read from the beginning, and end so. */
static int ends_so(reads *read, const struct end *end) {
    const struct faxpages_strip form = {WIDTH, 0, 3, 1, 0};
    struct faxpages_place place = at(0, 0, 0);
    uint32_t status = read(end->bytes, end->len, &form, &place, runs, FAXPAGES_RUNS, out, sizeof out, STRIDE, &told);
    return status == end->status && tells(end->rows, 3, end->rows, end->fault) && place.page == 3 && place.row == end->rows;
}

/* Whether a check of these bytes says so, with the end of the block where it is END. */
static int is_found_so(const struct end *end) {
    const struct faxpages_strip form = {WIDTH, 0, 3, 1, 0};
    struct faxpages_strip_report report;
    return faxpages_strip_check(end->bytes, end->len, &form, &report) == end->status && report.rows == end->rows &&
           report.no_end_of_block == (end->status == FAXPAGES_END_OF_DATA) && !report.return_to_control &&
           report.data_after_end == (end->status == FAXPAGES_END && end->rows == 0) &&
           report.fault.number == end->fault && report.fault.row == (end->fault ? end->rows : 0);
}

/* An end mark with a 1 after it; two rows and a 1 that is no code. */
static const uint8_t marked[] = {0x00, 0x10, 0x01, 0x80}, damaged[] = {0x31, 0x78, 0x01};

/* Twelve zeros and a 1, which begin no end mark of MMR. */
static const uint8_t unmarked[] = {0x00, 0x08};

/* Data whose rows nobody counted. */
static void uncounted_strips(void) {
    static const struct end ends[] = {
        {strip, 5, FAXPAGES_END, 2, 0, "two rows end with an end mark"},
        {marked, 4, FAXPAGES_END, 0, 0, "an end mark is an end before any row"},
        {strip, 2, FAXPAGES_END_OF_DATA, 2, 0, "two rows end with the data"},
        {strip, 3, FAXPAGES_END_OF_DATA, 2, 0, "with eleven zeros too"},
        {strip, 0, FAXPAGES_FAULT, 0, 101, "no data is a fault"},
        {strip, 1, FAXPAGES_FAULT, 0, 101, "a cut row is a fault"},
        {strip, 4, FAXPAGES_FAULT, 2, 107, "a cut end mark is a fault"},
        {damaged, 3, FAXPAGES_FAULT, 2, 102, "so is a 1 that is no code"},
    };
    const struct faxpages_strip form = {WIDTH, 0, 3, 1, 0};
    struct faxpages_place place = at(1000000, 0, 0);
    size_t i, len = 9;
    uint32_t status = faxpages_strip_rows(strip, 5, &form, &place, runs, FAXPAGES_RUNS, out, sizeof out, STRIDE, &told);
    see(status == FAXPAGES_FAULT && tells(0, 3, 1000000, 108), "a row after 1000000 is a fault");
    status = faxpages_strip_code(&form, 1, tiff, TIFF, STRIDE, out, sizeof out, &len);
    see(status == FAXPAGES_NO_OPTIONS && !len, "0 rows are not coded");
    for (i = 0; i < sizeof ends / sizeof *ends; i++)
        see(ends_so(faxpages_strip_rows, ends + i) && is_found_so(ends + i), ends[i].claim);
}

/* The first bytes of such data. */
static void parts_of_strips(void) {
    static const struct end ends[] = {
        {strip, 5, FAXPAGES_END, 2, 0, "an end mark stays an end"},
        {damaged, 3, FAXPAGES_FAULT, 2, 102, "a fault stays a fault"},
        {strip, 0, FAXPAGES_MORE, 0, 0, "no data may go on"},
        {strip, 1, FAXPAGES_MORE, 0, 0, "a cut row may go on"},
        {strip, 2, FAXPAGES_MORE, 2, 0, "after two rows a third may come"},
        {strip, 4, FAXPAGES_MORE, 2, 0, "an end mark may come of a cut one"},
        {unmarked, 2, FAXPAGES_FAULT, 0, 107, "of other zeros none may come: a fault at once"},
    };
    struct faxpages_strip form = {WIDTH, ROWS, 3, 1, 0};
    struct faxpages_place place = at(0, 41, 0);
    size_t i;
    for (i = 0; i < sizeof ends / sizeof *ends; i++) see(ends_so(faxpages_strip_part, ends + i), ends[i].claim);
    see(faxpages_strip_part(strip, 5, &form, &place, runs, FAXPAGES_RUNS, out, STRIDE, STRIDE, &told) == FAXPAGES_MORE &&
            tells(0, 3, 0, 0) && place.bits == 41, "a place after the first bytes waits for them");
    place = at(0, 0, 0);
    see(faxpages_strip_part(strip, 5, &form, &place, runs, FAXPAGES_RUNS, out, 64, STRIDE, &told) == FAXPAGES_FAULT &&
            tells(2, 3, 2, 107), "an end marker before the last of counted rows stays a fault");
    place = at(0, 4294967288, 0);
    see(faxpages_strip_part(strip, 5, &form, &place, runs, FAXPAGES_RUNS, out, 64, STRIDE, &told) == FAXPAGES_MORE,
        "a strip may reach its last place");
    place = at(0, 4294967289, 0);
    see(faxpages_strip_part(strip, 5, &form, &place, runs, FAXPAGES_RUNS, out, 64, STRIDE, &told) == FAXPAGES_OUTSIDE,
        "none reaches a place after that");
}

/* Two EOLs in MH, and a 1 after them: nothing that follows makes an end mark of them. */
static void eols_in_parts(void) {
    struct faxpages_strip form = {WIDTH, 0, 1, 1, 0};
    struct faxpages_place place = at(0, 0, 0);
    see(faxpages_strip_part(marked, 3, &form, &place, runs, FAXPAGES_RUNS, out, 64, STRIDE, &told) == FAXPAGES_MORE,
        "two EOLs may become a return to control");
    see(faxpages_strip_part(marked, 4, &form, &place, runs, FAXPAGES_RUNS, out, 64, STRIDE, &told) == FAXPAGES_FAULT &&
            tells(0, 3, 0, 107), "with a code after them they are a fault at once");
}

/* Each number out of its range. */
/* How a strip ends at a place with runs that no row of it has, by the calls for all of it and for its first bytes. */
static int answers(struct faxpages_strip form, struct faxpages_place place, uint32_t of_all, uint32_t of_part) {
    struct faxpages_place old = place;
    return faxpages_strip_rows(strip, sizeof strip, &form, &place, runs, FAXPAGES_RUNS, out, 64, STRIDE, &told) == of_all &&
           !memcmp(&old, &place, sizeof old) &&
           faxpages_strip_part(strip, sizeof strip, &form, &place, runs, FAXPAGES_RUNS, out, 64, STRIDE, &told) == of_part &&
           !memcmp(&old, &place, sizeof old);
}

static void bad_runs(void) {
    const uint32_t bits = 8 * sizeof strip;
    struct faxpages_strip form = {WIDTH, ROWS, 3, 1, 0};
    runs[0] = runs[1] = 9;
    see(answers(form, at(1, bits, 2), FAXPAGES_OUTSIDE, FAXPAGES_OUTSIDE), "runs that no row has are OUTSIDE at the last bit");
    see(answers(form, at(1, bits + 1, 2), FAXPAGES_OUTSIDE, FAXPAGES_MORE), "after it runs are not looked at: MORE");
    see(answers(form, at(1, bits + 1, FAXPAGES_RUNS + 1), FAXPAGES_OUTSIDE, FAXPAGES_MORE), "nor are runs that are lacking");
    see(answers(form, at(ROWS + 1, bits + 1, 2), FAXPAGES_OUTSIDE, FAXPAGES_OUTSIDE), "a row that the form has not is OUTSIDE");
    form.rows = 0;
    see(answers(form, at(1000000, bits + 1, 2), FAXPAGES_END_OF_DATA, FAXPAGES_MORE),
        "at row 1000000 of rows that nobody counted neither runs nor bits are OUTSIDE: the data end");
    see(answers(form, at(1000000, 0, FAXPAGES_RUNS + 1), FAXPAGES_FAULT, FAXPAGES_FAULT), "or there are too many rows");
    see(answers(form, at(1000001, 0, 0), FAXPAGES_OUTSIDE, FAXPAGES_OUTSIDE), "a row after that is OUTSIDE");
}

static void forms_of_strips(void) {
    const struct faxpages_strip good = {WIDTH, ROWS, 3, 1, 0};
    const struct {
        size_t at;
        uint32_t number;
    } wrong_numbers[] = {{0, 0}, {0, 65536}, {1, 1000001}, {2, 0}, {2, 4}, {3, 0}, {3, 3}, {4, 1}, {4, 2}};
    size_t i;
    for (i = 0; i < sizeof wrong_numbers / sizeof *wrong_numbers; i++) {
        uint32_t numbers[5];
        struct faxpages_strip form;
        memcpy(numbers, &good, sizeof good);
        numbers[wrong_numbers[i].at] = wrong_numbers[i].number;
        memcpy(&form, numbers, sizeof form);
        see(is_no_form(form), "a form with a number out of its range is NO_OPTIONS, and nothing is told");
    }
}

static void few_runs(void) {
    const struct faxpages_strip form = {WIDTH, ROWS, 3, 1, 0};
    struct faxpages_place place = at(0, 0, 0);
    memset(&told, 6, sizeof told);
    see(faxpages_strip_rows(strip, sizeof strip, &form, &place, runs, FAXPAGES_RUNS - 1, out, sizeof out, STRIDE, &told) ==
                FAXPAGES_NO_OPTIONS && are_all(&told, sizeof told, 6), "room for 65535 runs is NO_OPTIONS");
}

/* Where a strip without a number of rows ends. */
static void ends_of_strips(void) {
    struct faxpages_strip form = {WIDTH, 1000000, 3, 1, 0};
    struct faxpages_strip_report report;
    see(faxpages_strip_check(strip, sizeof strip, &form, &report) == FAXPAGES_FAULT && report.rows == 2 &&
            report.fault.number == FAXPAGES_END_MARKER && report.fault.row == 2 && report.fault.page == 0 &&
            !report.not_t4_choice, "two rows stand before a mark");
    form.rows = report.rows;
    see(faxpages_strip_check(strip, sizeof strip, &form, &report) == FAXPAGES_END && report.rows == 2 &&
            !report.no_end_of_block && !report.data_after_end && !report.fault.number, "which is the end of the block");
    see(faxpages_strip_check(strip, sizeof strip - 1, &form, &report) == FAXPAGES_END && report.no_end_of_block &&
            report.data_after_end, "cut, it is none");
}

static const struct faxpages_form page_form = {WIDTH, ROWS, 3, 1, 0, 0, 2, 3, 204, 1, 196, 1, 2};

static int are_same(const struct faxpages_written *one, const struct faxpages_written *other) {
    return one->len == other->len && one->link == other->link && one->total == other->total && one->added == other->added;
}

/* A page is not added, and nothing is changed. */
static int adds_nothing(struct faxpages_form form, uint32_t k, size_t raster_len, size_t room,
                        struct faxpages_written written, uint32_t status) {
    static uint8_t before[TIFF];
    struct faxpages_written old = written;
    memcpy(before, tiff, TIFF);
    return faxpages_add_page(&form, k, out, raster_len, STRIDE, tiff, room, &written) == status &&
           are_same(&old, &written) && !memcmp(before, tiff, TIFF);
}

static void forms_of_pages(void) {
    const struct {
        size_t at;
        uint32_t number;
    } wrong_numbers[] = {{0, 0}, {0, 65536}, {1, 0}, {1, 1000001}, {2, 0}, {2, 4}, {3, 0}, {3, 3}, {4, 1}, {4, 2}, {5, 1},
                         {6, 0}, {6, 6}, {7, 2}, {7, 4}, {8, 0}, {9, 0}, {10, 0}, {11, 0}, {12, 0}, {12, 4}};
    const struct faxpages_written written = {0, 0, 2, 0};
    size_t i;
    for (i = 0; i < sizeof wrong_numbers / sizeof *wrong_numbers; i++) {
        uint32_t numbers[13];
        struct faxpages_form form;
        memcpy(numbers, &page_form, sizeof page_form);
        numbers[wrong_numbers[i].at] = wrong_numbers[i].number;
        memcpy(&form, numbers, sizeof form);
        see(adds_nothing(form, 1, sizeof out, TIFF, written, FAXPAGES_NO_OPTIONS),
            "a page with a number out of its range is NO_OPTIONS");
    }
}

static void written_files(void) {
    const size_t raster_len = (ROWS - 1) * STRIDE + 3;
    struct faxpages_written written = {77, 77, 2, 0}, forged;
    memset(out, 0xF0, sizeof out);
    see(adds_nothing(page_form, 0, sizeof out, TIFF, written, FAXPAGES_NO_OPTIONS), "a k of 0 is NO_OPTIONS");
    see(adds_nothing(page_form, 1, raster_len - 1, TIFF, written, FAXPAGES_NO_OPTIONS), "a short raster is NO_OPTIONS");
    see(adds_nothing(page_form, 1, raster_len, 100, written, FAXPAGES_NO_ROOM), "a page without room is NO_ROOM");
    see(faxpages_add_page(&page_form, 1, out, raster_len, STRIDE, tiff, TIFF, &written) == FAXPAGES_DONE &&
            written.added == 1 && written.total == 2, "a page is added");
    forged = written;
    forged.link = (uint32_t)written.len - 3;
    see(adds_nothing(page_form, 1, raster_len, TIFF, forged, FAXPAGES_NO_OPTIONS), "a link outside the file is NO_OPTIONS");
    forged.link = 3;
    see(adds_nothing(page_form, 1, raster_len, TIFF, forged, FAXPAGES_NO_OPTIONS), "a link over the header is NO_OPTIONS");
    see(adds_nothing(page_form, 1, raster_len, written.len - 1, written, FAXPAGES_NO_ROOM),
        "a file that is longer than its room is NO_ROOM");
    see(adds_nothing(page_form, 1, raster_len, written.len, written, FAXPAGES_NO_ROOM), "a page more has no room");
    see(faxpages_add_page(&page_form, 1, out, raster_len, STRIDE, tiff, TIFF, &written) == FAXPAGES_DONE, "it is added");
    see(adds_nothing(page_form, 1, raster_len, TIFF, written, FAXPAGES_NO_OPTIONS), "a page too many is NO_OPTIONS");
    forged.total = 65536;
    forged.link = 8;
    see(adds_nothing(page_form, 1, raster_len, TIFF, forged, FAXPAGES_NO_OPTIONS), "65536 pages are NO_OPTIONS");
}

/* Which of two answers that would both fit is said, of a file that has a page. */
static void orders_of_written_files(void) {
    struct faxpages_written first = {0, 0, 2, 0}, forged;
    struct faxpages_form form = page_form;
    see(faxpages_add_page(&page_form, 1, out, sizeof out, STRIDE, tiff, TIFF, &first) == FAXPAGES_DONE, "a page is written");
    form.width = 0;
    see(adds_nothing(form, 1, sizeof out, 0, first, FAXPAGES_NO_OPTIONS), "an invalid form comes before NO_ROOM");
    forged = first;
    forged.link = 3;
    see(adds_nothing(page_form, 1, sizeof out, 0, forged, FAXPAGES_NO_OPTIONS), "a link over the header comes before NO_ROOM");
    forged = first;
    forged.total = 3;
    see(adds_nothing(page_form, 1, sizeof out, first.len - 1, forged, FAXPAGES_NO_ROOM),
        "NO_ROOM for the file so far comes before another total");
    see(adds_nothing(page_form, 1, sizeof out, first.len, forged, FAXPAGES_NO_OPTIONS),
        "another total comes before NO_ROOM for the page");
    forged = first;
    forged.link = 8;
    see(faxpages_end_pages(tiff, first.len - 1, &forged) == FAXPAGES_NO_ROOM, "NO_ROOM comes before pages that are not there");
    see(faxpages_end_pages(tiff, first.len, &forged) == FAXPAGES_NO_OPTIONS, "pages that are not there are NO_OPTIONS");
    forged.added = 0;
    see(faxpages_end_pages(tiff, 0, &forged) == FAXPAGES_NO_OPTIONS, "no page comes before NO_ROOM");
    forged = first;
    forged.len = 7;
    see(faxpages_end_pages(tiff, 0, &forged) == FAXPAGES_NO_OPTIONS, "a length that no file has comes before NO_ROOM");
}

/* A file of just the most bytes, of which nearly all are taken and few are there, and a page more. */
static void largest_files(void) {
    enum { MOST = 268435456 };
    struct faxpages_written first = {0, 0, 1, 0}, written = {0, 4, 2, 1};
    uint8_t *file = calloc(MOST + 1, 1);
    if (!file) exit(3);
    see(faxpages_add_page(&page_form, 1, out, sizeof out, STRIDE, tiff, TIFF, &first) == FAXPAGES_DONE, "a page is written");
    /* What the last page says, two bytes before its link. */
    file[2] = 2;
    /* After its header of eight bytes, from an even place on, a page has as many bytes wherever it stands. */
    written.len = MOST - (first.len - 8);
    see(faxpages_add_page(&page_form, 1, out, sizeof out, STRIDE, file, MOST - 1, &written) == FAXPAGES_NO_ROOM,
        "a file of the most bytes may lack room");
    see(faxpages_add_page(&page_form, 1, out, sizeof out, STRIDE, file, MOST, &written) == FAXPAGES_DONE &&
            written.len == MOST, "a file may have 268435456 bytes");
    written.len = MOST - (first.len - 8) + 2;
    written.link = 4;
    written.added = 1;
    see(faxpages_add_page(&page_form, 1, out, sizeof out, STRIDE, file, MOST + 1, &written) == FAXPAGES_TOO_LARGE &&
            written.added == 1, "one of more is TOO_LARGE");
    see(faxpages_add_page(&page_form, 1, out, sizeof out, STRIDE, file, MOST, &written) == FAXPAGES_TOO_LARGE,
        "whatever the room");
    free(file);
}

int main(void) {
    pages();
    places_of_strips();
    rows_of_strips();
    forms_of_strips();
    uncounted_strips();
    parts_of_strips();
    eols_in_parts();
    bad_runs();
    few_runs();
    ends_of_strips();
    forms_of_pages();
    written_files();
    orders_of_written_files();
    largest_files();
    return wrong;
}
