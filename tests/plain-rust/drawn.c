/* Reads files from the standard input, each after its length (four bytes, the lowest first), and prints a line for
 * each: how reading it ended, and a sum of all that the library answers to calls over it. The sum has the numbers of
 * structs one by one, so that it is the same where size_t has fewer bytes. With STRIPS_WITHOUT_PLACES nothing of a
 * strip's place is in it, which the crate for Rust (drawn.rs) does not tell. See tests/plain-rust/drawn. */
#include "faxpages.h"
#include <stdio.h>
#include <stdlib.h>
#include <string.h>
#ifdef _WIN32
#include <fcntl.h>
#include <io.h>
#endif

#define ROWS 7
#define OUT (1 << 18)

static uint32_t sum;
static uint8_t out[OUT], file[1 << 20];
static uint32_t runs[FAXPAGES_RUNS], numbers[2 * FAXPAGES_RUNS];
static struct faxpages_row rows[ROWS];

static void add(uint64_t number) {
    sum = (sum ^ (uint32_t)number) * 16777619u;
    sum = (sum ^ (uint32_t)(number >> 32)) * 16777619u;
}

static void add_bytes(const uint8_t *bytes, size_t len) {
    for (size_t i = 0; i < len; i++)
        sum = (sum ^ bytes[i]) * 16777619u;
}

static void add_numbers(const uint32_t *all, size_t len) {
    for (size_t i = 0; i < len; i++)
        sum = (sum ^ all[i]) * 16777619u;
}

static void add_fault(const struct faxpages_fault *fault) {
    add_numbers((const uint32_t[]){fault->number, fault->tag, fault->page, fault->row}, 4);
}

static void add_told(uint32_t status, const struct faxpages_told *told) {
    add(status);
    add(told->count);
    add(told->used);
    add_numbers((const uint32_t[]){told->page, told->row}, 2);
    add_fault(&told->fault);
}

static void add_row(const struct faxpages_row *row) {
    add(row->at);
    add_numbers((const uint32_t[]){row->len, row->page, row->row, row->width}, 4);
}

static void add_place(const struct faxpages_place *place) {
    add_numbers((const uint32_t[]){place->page, place->row, place->bits, place->runs}, 4);
    add_numbers(runs, place->runs <= FAXPAGES_RUNS ? place->runs : 0);
}

/* All rows as bytes, some at a time, each time from the place that was told. Answers how they ended. */
static uint32_t read_rows(size_t len) {
    struct faxpages_place place = {1, 0, 0, 0};
    struct faxpages_told told;
    uint32_t status;
    do {
        memset(&told, 0, sizeof told);
        status = faxpages_rows_from(file, len, &place, runs, FAXPAGES_RUNS, rows, ROWS, out, 20000, &told);
        add_told(status, &told);
        for (size_t i = 0; i < told.count; i++) {
            add_row(&rows[i]);
            add_bytes(out + rows[i].at, rows[i].len);
        }
        add_place(&place);
    } while ((status == FAXPAGES_DONE || status == FAXPAGES_NO_ROOM) && told.count > 0);
    return status;
}

/* All rows as runs, and those of the first call as changing elements. */
static void read_numbers(size_t len) {
    struct faxpages_told told = {.page = 1};
    uint32_t status;
    do {
        status = faxpages_runs(file, len, told.page, told.row, rows, ROWS, numbers, 2 * FAXPAGES_RUNS, &told);
        add_told(status, &told);
        add_numbers(numbers, told.used);
    } while ((status == FAXPAGES_DONE || status == FAXPAGES_NO_ROOM) && told.count > 0);
    status = faxpages_changes(file, len, 1, 0, rows, ROWS, numbers, 2 * FAXPAGES_RUNS, &told);
    add_told(status, &told);
    add_numbers(numbers, told.used);
}

static void add_form(const struct faxpages_form *form) {
    add_numbers((const uint32_t[]){form->width, form->rows, form->coding, form->order, form->aligned, form->exchanged,
                                   form->rows_per_strip, form->strips, form->x_numerator, form->x_denominator,
                                   form->y_numerator, form->y_denominator, form->unit}, 13);
}

/* The pages, the raster of the first, and what a check says. */
static void read_pages(size_t len) {
    struct faxpages_form forms[3];
    struct faxpages_told told = {0};
    struct faxpages_note notes[8];
    struct faxpages_report report = {0};
    memset(forms, 0, sizeof forms);
    uint32_t status = faxpages_forms(file, len, 1, forms, 3, &told);
    add_told(status, &told);
    for (size_t i = 0; i < told.count; i++)
        add_form(&forms[i]);
    memset(&told, 0, sizeof told);
    memset(out, 0, 1 << 16);
    add_told(faxpages_page(file, len, 1, &forms[0], out, 1 << 16, FAXPAGES_ROW_BYTES, &told), &told);
    add_bytes(out, 1 << 10);
    add(faxpages_check(file, len, notes, 8, &report));
    add(report.pages);
    add(report.rows);
    add(report.notes);
    add_fault(&report.fault);
    for (size_t i = 0; i < report.notes && i < 8; i++)
        add_numbers((const uint32_t[]){notes[i].page, notes[i].strip, notes[i].kind}, 3);
}

/* The file converted to images and to each coding, with options by its number. */
static void convert(size_t len, uint32_t number) {
    for (uint32_t target = 0; target < 4; target++) {
        struct faxpages_options options = {target, 1 + number % 2, 1 + number % 4, number % 3,
                                           target % 3 ? number / 2 % 2 : 0};
        struct faxpages_converted converted = {0};
        uint32_t status = faxpages_convert(file, len, &options, out, OUT, &converted);
        add(status);
        add(converted.len);
        add(converted.image);
        add_fault(&converted.fault);
        if (status == FAXPAGES_DONE)
            add_bytes(out, converted.len);
        status = faxpages_salvage_convert(file, len, &options, out, OUT, &converted);
        add(status);
        add(converted.len);
        add_fault(&converted.fault);
        if (status == FAXPAGES_DONE)
            add_bytes(out, converted.len);
    }
}

/* The bytes after the header as those of a strip, whose form is by the file's number. */
static void read_strip(size_t len, uint32_t number) {
    struct faxpages_strip form = {1 + number % 97, number % 5, 1 + number % 3, 1 + number / 3 % 2, 0};
    struct faxpages_strip_report report = {0};
    struct faxpages_place place = {0};
    struct faxpages_told told = {0};
    size_t from = len < 8 ? len : 8;
    uint32_t status = faxpages_strip_rows(file + from, len - from, &form, &place, runs, FAXPAGES_RUNS, out, 4096, 13,
                                          &told);
    add_told(status, &told);
    add_bytes(out, 13 * told.count);
#ifndef STRIPS_WITHOUT_PLACES
    add_place(&place);
#endif
    add(faxpages_strip_check(file + from, len - from, &form, &report));
    add_numbers((const uint32_t[]){report.rows, report.no_end_of_block, report.return_to_control,
                                   report.data_after_end, report.not_t4_choice}, 5);
    add_fault(&report.fault);
}

int main(void) {
    uint8_t head[4];
#ifdef _WIN32
    _setmode(0, _O_BINARY);
    _setmode(1, _O_BINARY);
#endif
    for (uint32_t number = 0; fread(head, 1, 4, stdin) == 4; number++) {
        size_t len = head[0] | (size_t)head[1] << 8 | (size_t)head[2] << 16 | (size_t)head[3] << 24;
        if (len > sizeof file || fread(file, 1, len, stdin) != len)
            return 1;
        sum = 2166136261u;
        uint32_t status = read_rows(len);
        read_numbers(len);
        read_pages(len);
        convert(len, number);
        read_strip(len, number);
        /* A call that ends the program has its number in the lines before. */
        if (printf("%u %08x\n", status, sum) < 0 || fflush(stdout) != 0)
            return 1;
    }
    return ferror(stdin) != 0;
}
