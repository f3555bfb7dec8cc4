/* places: sees what the header says of places, of rooms of 0 and of what is told where nothing is done. Says each claim
 * that is not so, and ends with how many these are. */
#include "blank.h"
#include <faxpages.h>
#include <stdio.h>

enum { WIDTH = 16, ROWS = 8, ROW = (WIDTH + 7) / 8, MARK = 0x5A5A5A5A };

static int wrong;
static uint8_t *file, out[1 << 16];
static size_t len;
static uint32_t runs[FAXPAGES_RUNS + 8];
static struct faxpages_row rows[64];
static struct faxpages_told told;

static void see(int holds, const char *claim) {
    if (holds) return;
    wrong++;
    printf("not so: %s\n", claim);
}

static int is_place(const struct faxpages_place *place, uint32_t page, uint32_t row, uint32_t bits, uint32_t count) {
    return place->page == page && place->row == row && place->bits == bits && place->runs == count;
}

static uint32_t read_from(struct faxpages_place *place, size_t runs_room, size_t rows_room, size_t out_room) {
    return faxpages_rows_from(file, len, place, runs, runs_room, rows, rows_room, out, out_room, &told);
}

/* Where the next row has no room, the place is the one inside the strip after the last row that was written. */
static void no_room(void) {
    struct faxpages_place place = {0, 0, 0, 0}, none;
    see(read_from(&place, FAXPAGES_RUNS, 64, 3 * ROW) == FAXPAGES_NO_ROOM && told.count == 3, "three rows have room");
    see(is_place(&place, 0, 3, 3, 1) && runs[0] == WIDTH, "after NO_ROOM the place is inside the strip");
    see(told.page == 0 && told.row == 3, "and its row is told");
    none = place;
    see(read_from(&place, FAXPAGES_RUNS, 64, ROW - 1) == FAXPAGES_NO_ROOM && told.count == 0, "no row has room");
    see(is_place(&place, none.page, none.row, none.bits, none.runs) && runs[0] == WIDTH, "then the place stays");
    see(read_from(&place, 1, 64, sizeof out) == FAXPAGES_END && told.count == ROWS - 3, "and the loop goes on to the end");
}

/* The runs of a place just fill the buffer: their number is told, and nothing after them is changed. */
static void runs_that_just_fit(void) {
    struct faxpages_place place = {0, 0, 0, 0};
    runs[1] = MARK;
    see(read_from(&place, 1, 2, sizeof out) == FAXPAGES_DONE && is_place(&place, 0, 2, 2, 1), "one run has room");
    see(runs[1] == MARK, "no run after the room is changed");
    place.row = place.bits = place.runs = 0;
    see(read_from(&place, 0, 2, sizeof out) == FAXPAGES_DONE && is_place(&place, 0, 2, 0, 0),
        "without room for runs the place is a page and a row alone");
    runs[FAXPAGES_RUNS] = MARK;
    place.row = place.bits = place.runs = 0;
    see(read_from(&place, FAXPAGES_RUNS + 8, 64, 3 * ROW) == FAXPAGES_NO_ROOM && runs[FAXPAGES_RUNS] == MARK,
        "no run after the first FAXPAGES_RUNS is changed");
}

/* A place that lacks its runs is refused, and stays. */
static void runs_that_lack(void) {
    struct faxpages_place place = {0, 3, 3, 2};
    uint8_t text[64];
    size_t text_len = 77;
    rows[0].at = 77;
    see(read_from(&place, 1, 64, sizeof out) == FAXPAGES_OUTSIDE, "a place that lacks runs is OUTSIDE");
    see(is_place(&place, 0, 3, 3, 2) && rows[0].at == 77, "then the place and the table stay");
    see(told.count == 0 && told.used == 0 && told.page == 0 && told.row == 3 && told.fault.number == 0,
        "and its page and row are told");
    see(faxpages_place_text(&place, runs, 1, text, sizeof text, &text_len) == FAXPAGES_OUTSIDE && text_len == 0,
        "a place that lacks runs has no text");
}

/* With room for no row or form nothing is read. */
static void rooms_of_0(void) {
    struct faxpages_place place = {9, 0, 0, 0};
    struct faxpages_form form;
    see(faxpages_rows(file, len, 9, 0, rows, 0, out, sizeof out, &told) == FAXPAGES_DONE && told.count == 0 &&
            told.page == 9, "no row of a page that is not there is DONE");
    see(read_from(&place, FAXPAGES_RUNS, 0, sizeof out) == FAXPAGES_DONE && is_place(&place, 9, 0, 0, 0),
        "and the place stays");
    see(faxpages_forms(file, len, 9, &form, 0, &told) == FAXPAGES_DONE && told.count == 0, "so is no form");
    see(faxpages_rows(file, len, 9, 0, rows, 1, out, sizeof out, &told) == FAXPAGES_OUTSIDE, "one row of it is OUTSIDE");
    see(faxpages_rows(file, len, 0, 0, rows, ROWS, out, sizeof out, &told) == FAXPAGES_DONE,
        "as many rows as there are, are DONE");
}

/* Writes the text of a place with so many runs of 1, the last of them without a comma after it. */
static size_t long_text(char *text, size_t count) {
    size_t at = (size_t)sprintf(text, "2:0:1:1:"), i;
    for (i = 0; i < count; i++) {
        text[at++] = '1';
        text[at++] = ',';
    }
    return at - 1;
}

static void texts(void) {
    static char text[2 * FAXPAGES_RUNS + 64];
    struct faxpages_place place = {1, 2, 3, 4};
    size_t count;
    runs[0] = MARK;
    see(faxpages_place_parse((const uint8_t *)"1:5:6", 5, &place, runs, FAXPAGES_RUNS) == FAXPAGES_DONE &&
            is_place(&place, 5, 6, 0, 0) && runs[0] == MARK, "a page and a row are read, and no run is changed");
    count = long_text(text, FAXPAGES_RUNS);
    see(faxpages_place_parse((uint8_t *)text, count, &place, runs, FAXPAGES_RUNS - 1) == FAXPAGES_NO_ROOM &&
            is_place(&place, 5, 6, 0, 0) && runs[0] == MARK, "65536 runs have no room in 65535");
    see(faxpages_place_parse((uint8_t *)text, count, &place, runs, FAXPAGES_RUNS) == FAXPAGES_DONE &&
            is_place(&place, 0, 1, 1, FAXPAGES_RUNS), "65536 runs are a place's");
    count = long_text(text, FAXPAGES_RUNS + 1);
    see(faxpages_place_parse((uint8_t *)text, count, &place, runs, FAXPAGES_RUNS + 8) == FAXPAGES_NO_PLACE,
        "65537 runs are no place's, whatever the room");
    see(faxpages_place_parse((const uint8_t *)"2:0:1:1:", 8, &place, runs, 0) == FAXPAGES_NO_PLACE,
        "a text that is no place's is NO_PLACE without room too");
}

/* What is told where no file is converted is 0. */
static void conversions(void) {
    struct faxpages_options options = {4, 1, 4, 0, 0};
    struct faxpages_converted converted, whole;
    memset(&converted, 0x5A, sizeof converted);
    see(faxpages_convert(file, len, &options, out, 0, &converted) == FAXPAGES_NO_OPTIONS && converted.len == 0 &&
            converted.image == 0 && converted.fault.number == 0, "no options: all that is told is 0");
    options.target = 0;
    see(faxpages_convert(file, len, &options, out, sizeof out, &whole) == FAXPAGES_DONE &&
            faxpages_convert(file, len, &options, out, 0, &converted) == FAXPAGES_NO_ROOM && converted.len == whole.len,
        "with out_room 0 the length is told");
}

/* The pages of a damaged file: none of them has a form, or all do. */
static void salvaged_files(void) {
    static const uint8_t none[8] = {'I', 'I', 42};
    struct faxpages_options options = {0, 1, 4, 0, 2};
    struct faxpages_converted converted, whole;
    memset(&converted, 0x5A, sizeof converted);
    see(faxpages_salvage_convert(file, len, &options, out, 0, &converted) == FAXPAGES_NO_OPTIONS &&
            converted.len == 0 && converted.image == 0 && converted.fault.number == 0, "no options, and no file");
    options.aligned = 0;
    memset(&converted, 0x5A, sizeof converted);
    see(faxpages_salvage_convert(none, sizeof none, &options, out, sizeof out, &converted) == FAXPAGES_END &&
            converted.len == 0 && converted.image == 0 && converted.fault.number == 0, "no page, and no file");
    see(faxpages_salvage_convert(file, len, &options, out, sizeof out, &whole) == FAXPAGES_DONE &&
            faxpages_salvage_convert(file, len, &options, out, 0, &converted) == FAXPAGES_NO_ROOM &&
            converted.len == whole.len && whole.len > 0, "with out_room 0 the length is told of pages that are left");
}

/* A place that no call told may be at a fault too. */
static void forged(void) {
    struct faxpages_place place = {0, 1, 8, 1};
    runs[0] = WIDTH;
    see(read_from(&place, 1, 64, sizeof out) == FAXPAGES_FAULT && told.fault.number == FAXPAGES_DATA_ENDS,
        "after all bits of a strip there is a fault");
}

int main(void) {
    file = blank_fax(WIDTH, ROWS, &len);
    no_room();
    runs_that_just_fit();
    runs_that_lack();
    rooms_of_0();
    texts();
    conversions();
    salvaged_files();
    forged();
    free(file);
    return wrong;
}
