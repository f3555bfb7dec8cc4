/* limits FILE: sees that the longest texts of places have the lengths that the header tells, and that a row has the room
 * that it tells; and prints how many bytes of stack the calls over a file need. */
#define _POSIX_C_SOURCE 200809L
#include <faxpages.h>
#include <pthread.h>
#include <stdio.h>
#include <stdlib.h>
#include <string.h>

enum { STACK = 1 << 18, MARK = 0xA5, TEXT = 131102, CURSOR = 23, FAULT_NAME = 16, OTHER_NAME = 17 };

enum { NUMBERS = 1 << 18 };

static uint8_t file[1 << 20], out[1 << 20];
static uint32_t runs[FAXPAGES_RUNS], numbers[NUMBERS];
static size_t len;

static void *nothing(void *unused) { return unused; }

/* All rows in one way, from the first place on. */
static void read_rows(uint32_t (*first)(struct faxpages_row *rows, struct faxpages_told *told),
                      uint32_t (*from)(struct faxpages_place *place, struct faxpages_row *rows,
                                       struct faxpages_told *told)) {
    static struct faxpages_row rows[4096];
    static struct faxpages_told told;
    struct faxpages_place place = {0, 0, 0, 0};
    first(rows, &told);
    from(&place, rows, &told);
    from(&place, rows, &told);
}

static uint32_t packed(struct faxpages_row *rows, struct faxpages_told *told) {
    return faxpages_rows(file, len, 0, 1, rows, 4096, out, sizeof out, told);
}

static uint32_t packed_from(struct faxpages_place *place, struct faxpages_row *rows, struct faxpages_told *told) {
    return faxpages_rows_from(file, len, place, runs, FAXPAGES_RUNS, rows, 3, out, sizeof out, told);
}

static uint32_t as_runs(struct faxpages_row *rows, struct faxpages_told *told) {
    return faxpages_runs(file, len, 0, 1, rows, 4096, numbers, NUMBERS, told);
}

static uint32_t as_runs_from(struct faxpages_place *place, struct faxpages_row *rows, struct faxpages_told *told) {
    return faxpages_runs_from(file, len, place, runs, FAXPAGES_RUNS, rows, 3, numbers, NUMBERS, told);
}

static uint32_t as_changes(struct faxpages_row *rows, struct faxpages_told *told) {
    return faxpages_changes(file, len, 0, 1, rows, 4096, numbers, NUMBERS, told);
}

static uint32_t as_changes_from(struct faxpages_place *place, struct faxpages_row *rows, struct faxpages_told *told) {
    return faxpages_changes_from(file, len, place, runs, FAXPAGES_RUNS, rows, 3, numbers, NUMBERS, told);
}

/* The first page, coded in each way and read back, and written into a file. */
static void pages_and_strips(void) {
    static uint8_t raster[1 << 20];
    static struct faxpages_told told;
    static struct faxpages_strip_report report;
    static struct faxpages_row rows[4096];
    struct faxpages_form form = {1, 1, 1, 1, 0, 0, 1, 1, 204, 1, 196, 1, 2};
    struct faxpages_strip strip;
    struct faxpages_written written = {0, 0, 1, 0};
    size_t strip_len;
    faxpages_page(file, len, 0, &form, raster, sizeof raster, (form.width + 7) / 8, &told);
    faxpages_runs(file, len, 0, 0, rows, 4096, numbers, NUMBERS, &told);
    form.exchanged = form.aligned = strip.aligned = 0;
    strip.width = form.width;
    strip.rows = form.rows;
    for (strip.coding = 1; strip.coding <= 3; strip.coding++)
        for (strip.order = 1; strip.order <= 2; strip.order++) {
            struct faxpages_place place = {0, 0, 0, 0};
            faxpages_strip_code_runs(&strip, 4, rows, 4096, numbers, NUMBERS, out, sizeof out, &strip_len);
            faxpages_strip_code(&strip, 4, raster, sizeof raster, 1, out, sizeof out, &strip_len);
            faxpages_strip_check(out, strip_len, &strip, &report);
            faxpages_strip_rows(out, strip_len, &strip, &place, runs, FAXPAGES_RUNS, raster, sizeof raster,
                                FAXPAGES_ROW_BYTES, &told);
        }
    faxpages_add_page(&form, 4, raster, sizeof raster, 1, out, sizeof out, &written);
}

/* The texts: of a place inside a strip, and it read again, and each name. */
static void read_texts(void) {
    static uint8_t text[TEXT];
    struct faxpages_place place = {0, 1, 1, 2};
    size_t text_len;
    faxpages_place_text(&place, runs, FAXPAGES_RUNS, text, TEXT, &text_len);
    faxpages_place_parse(text, text_len, &place, runs, FAXPAGES_RUNS);
    faxpages_fault_name(101, text, TEXT);
    faxpages_status_name(5, text, TEXT);
    faxpages_note_name(2, text, TEXT);
    faxpages_version_text(text, TEXT);
}

static void *calls(void *unused) {
    static struct faxpages_note notes[64];
    static struct faxpages_form forms[64];
    static struct faxpages_told told;
    static struct faxpages_report report;
    static struct faxpages_received received;
    static struct faxpages_converted converted;
    struct faxpages_options options = {3, 1, 4, 0, 0};
    faxpages_forms(file, len, 0, forms, 64, &told);
    read_rows(packed, packed_from);
    read_rows(as_runs, as_runs_from);
    read_rows(as_changes, as_changes_from);
    pages_and_strips();
    read_texts();
    faxpages_check(file, len, notes, 64, &report);
    faxpages_received(file, len, 0, &received);
    for (options.target = 0; options.target < 4; options.target++)
        faxpages_convert(file, len, &options, out, sizeof out, &converted),
            faxpages_salvage_convert(file, len, &options, out, sizeof out, &converted);
    return unused;
}

/* How many bytes of a marked stack a thread changes. */
static size_t stack_of(void *(*run)(void *)) {
    static uint8_t stack[STACK] __attribute__((aligned(4096)));
    pthread_attr_t attributes;
    pthread_t thread;
    size_t untouched = 0;
    memset(stack, MARK, STACK);
    if (pthread_attr_init(&attributes) || pthread_attr_setstack(&attributes, stack, STACK)) exit(3);
    if (pthread_create(&thread, &attributes, run, NULL) || pthread_join(thread, NULL)) exit(3);
    while (untouched < STACK && stack[untouched] == MARK) untouched++;
    return STACK - untouched;
}

static int longest_texts(void) {
    static uint8_t text[TEXT];
    struct faxpages_place place = {4294967295u, 4294967295u, 0, 0};
    size_t i, text_len;
    if (faxpages_place_text(&place, runs, 0, text, TEXT, &text_len) != FAXPAGES_DONE || text_len != CURSOR) return 0;
    for (i = 1; i < FAXPAGES_RUNS; i++) runs[i] = 1;
    place.row = 999999;
    place.bits = 2147483648u;
    place.runs = FAXPAGES_RUNS;
    return faxpages_place_text(&place, runs, FAXPAGES_RUNS, text, TEXT, &text_len) == FAXPAGES_DONE &&
           text_len == TEXT && FAXPAGES_ROW_BYTES == (65535 + 7) / 8;
}

/* The longest name that a call writes. */
static size_t longest(size_t (*name_of)(uint32_t number, uint8_t *name, size_t name_room)) {
    uint8_t name[1];
    uint32_t number;
    size_t most = 0, name_len;
    for (number = 0; number < 1000; number++)
        if ((name_len = name_of(number, name, 0)) > most) most = name_len;
    return most;
}

static int longest_names(void) {
    return longest(faxpages_fault_name) == FAULT_NAME && longest(faxpages_note_name) == OTHER_NAME &&
           longest(faxpages_status_name) <= OTHER_NAME;
}

int main(int count, char **words) {
    FILE *in = count == 2 ? fopen(words[1], "rb") : NULL;
    if (!in || !longest_texts() || !longest_names()) return 3;
    len = fread(file, 1, sizeof file, in);
    fclose(in);
    printf("%zu\n", stack_of(calls) - stack_of(nothing));
    return 0;
}
