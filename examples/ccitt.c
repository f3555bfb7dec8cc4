/* ccitt out FAX.tif PAGE >DATA: writes a page as the data of a PDF's CCITTFaxDecode with /K -1, and prints its /Columns
 * and /Rows on the error stream.
 * ccitt in COLUMNS FAX.tif <DATA: writes such data, which do not say how many rows they have, as a TIFF-F file of one
 * page; a file that is there is left. Data that do not end with the end of the facsimile block may lack rows: what is
 * there is written, and told.
 *
 * Status: 0 all is written; 1 something is missing, which is said; 2 the usage is printed; 3 out of memory.
 *
 *     gcc -O2 -o ccitt ccitt.c -lfaxpages */
#include <faxpages.h>
#include <stdio.h>
#include <stdlib.h>
#include <string.h>

enum { MMR = 3, HIGHEST_FIRST = 1, MOST_BYTES = 268435456 };

static uint8_t *grown(uint8_t *bytes, size_t room) {
    uint8_t *more = realloc(bytes, room ? room : 1);
    if (more) return more;
    free(bytes);
    fprintf(stderr, "out of memory\n");
    exit(3);
}

/* The bytes of a file, or NULL, and why they cannot be read. */
static uint8_t *read_all(const char *name, FILE *in, size_t *len) {
    size_t room = 65536, count;
    uint8_t *bytes = grown(NULL, room);
    *len = 0;
    while (in && (count = fread(bytes + *len, 1, room - *len, in)) > 0)
        if ((*len += count) == room && room < MOST_BYTES) bytes = grown(bytes, room *= 2);
    if (in && !ferror(in) && (*len < MOST_BYTES || fgetc(in) == EOF)) return bytes;
    if (*len == MOST_BYTES) fprintf(stderr, "%s: more than %d bytes\n", name, MOST_BYTES);
    else perror(name);
    free(bytes);
    return NULL;
}

/* Answers whether all was written, and says why not. */
static int write_all(const char *name, FILE *out, const uint8_t *bytes, size_t len) {
    int done = out && fwrite(bytes, 1, len, out) == len;
    if (out && fclose(out)) done = 0;
    if (!done) perror(name);
    return done;
}

/* Says why there is no page, by the names of the status and of the fault. */
static int failed(const char *what, uint32_t status, const struct faxpages_fault *fault) {
    uint8_t name[17], cause[16];
    int len = (int)faxpages_status_name(status, name, sizeof name);
    int cause_len = status == FAXPAGES_FAULT ? (int)faxpages_fault_name(fault->number, cause, sizeof cause) : 0;
    fprintf(stderr, "%s: %.*s", what, len, (char *)name);
    if (cause_len) fprintf(stderr, " at row %u: %.*s", (unsigned)fault->row, cause_len, (char *)cause);
    if (cause_len && fault->tag) fprintf(stderr, " %u", (unsigned)fault->tag);
    fprintf(stderr, "\n");
    return 0;
}

/* The rows of a page, each in so many bytes, or NULL. */
static uint8_t *read_page(const char *name, uint32_t page, struct faxpages_form *form, size_t *stride) {
    FILE *in = fopen(name, "rb");
    size_t len;
    uint8_t *file = read_all(name, in, &len), *raster = NULL, none[1];
    struct faxpages_told told;
    uint32_t status = FAXPAGES_DONE;
    if (in) fclose(in);
    if (!file) return NULL;
    status = faxpages_page(file, len, page, form, none, 0, 0, &told);
    if (status == FAXPAGES_NO_ROOM) {
        *stride = (form->width + 7) / 8;
        raster = grown(NULL, *stride * form->rows);
        status = faxpages_page(file, len, page, form, raster, *stride * form->rows, *stride, &told);
    }
    free(file);
    if (status == FAXPAGES_DONE) return raster;
    failed(name, status, &told.fault);
    free(raster);
    return NULL;
}

static int write_data(const char *name, uint32_t page) {
    struct faxpages_form form;
    struct faxpages_strip strip;
    size_t stride, room = 65536, len;
    uint8_t *raster = read_page(name, page, &form, &stride), *data = NULL;
    uint32_t status = FAXPAGES_NO_ROOM;
    int done;
    if (!raster) return 0;
    strip = (struct faxpages_strip){form.width, form.rows, MMR, HIGHEST_FIRST, 0};
    for (; status == FAXPAGES_NO_ROOM; room = len) {
        data = grown(data, room);
        status = faxpages_strip_code(&strip, 1, raster, stride * form.rows, stride, data, room, &len);
    }
    done = status == FAXPAGES_DONE ? write_all("standard output", stdout, data, len) : failed(name, status, NULL);
    if (done) fprintf(stderr, "/K -1 /Columns %u /Rows %u\n", (unsigned)form.width, (unsigned)form.rows);
    free(raster);
    free(data);
    return done;
}

/* How many rows stand before the end of the data, and whether they end with the end of the facsimile block. */
static uint32_t count_rows(const uint8_t *data, size_t len, const struct faxpages_strip *form, int *whole) {
    struct faxpages_strip_report report;
    uint32_t status = faxpages_strip_check(data, len, form, &report);
    *whole = status == FAXPAGES_END;
    if (status == FAXPAGES_FAULT) failed("the data", status, &report.fault);
    else if (status != FAXPAGES_END && status != FAXPAGES_END_OF_DATA) return failed("the data", status, NULL);
    return report.rows;
}

/* The rows of the data, each in so many bytes, or NULL. */
static uint8_t *read_data(const uint8_t *data, size_t len, const struct faxpages_strip *strip, size_t stride) {
    struct faxpages_place place = {0, 0, 0, 0};
    struct faxpages_told told;
    uint32_t *runs = malloc(FAXPAGES_RUNS * sizeof *runs), status = FAXPAGES_MEMORY;
    uint8_t *raster = malloc(stride * strip->rows);
    if (runs && raster)
        status = faxpages_strip_rows(data, len, strip, &place, runs, FAXPAGES_RUNS, raster, stride * strip->rows,
                                     stride, &told);
    free(runs);
    if (status == FAXPAGES_DONE || status == FAXPAGES_END) return raster;
    failed("the data", status, &told.fault);
    free(raster);
    return NULL;
}

static int write_page(const char *name, const struct faxpages_strip *strip, const uint8_t *raster, size_t stride) {
    const struct faxpages_form form = {strip->width, strip->rows, MMR, HIGHEST_FIRST, 0, 0, strip->rows, 1,
                                       204, 1, 196, 1, 2};
    struct faxpages_written written = {0, 0, 1, 0};
    uint32_t status = FAXPAGES_NO_ROOM;
    uint8_t *file = NULL;
    size_t room;
    int done;
    for (room = 65536; status == FAXPAGES_NO_ROOM; room *= 2) {
        file = grown(file, room);
        status = faxpages_add_page(&form, 1, raster, stride * strip->rows, stride, file, room, &written);
    }
    done = status == FAXPAGES_DONE ? write_all(name, fopen(name, "wbx"), file, written.len)
                                   : failed(name, status, NULL);
    free(file);
    return done;
}

static int write_fax(uint32_t columns, const char *name) {
    struct faxpages_strip strip = {columns, 0, MMR, HIGHEST_FIRST, 0};
    size_t len, stride = ((size_t)columns + 7) / 8;
    uint8_t *data = read_all("standard input", stdin, &len), *raster;
    int whole = 0, done = 0;
    if (!data) return 0;
    strip.rows = count_rows(data, len, &strip, &whole);
    raster = strip.rows ? read_data(data, len, &strip, stride) : NULL;
    if (raster) done = write_page(name, &strip, raster, stride);
    free(raster);
    free(data);
    if (!done) fprintf(stderr, "no page is written\n");
    else if (!whole)
        fprintf(stderr, "%s: %u rows, and no end of the facsimile block: rows may be missing\n", name,
                (unsigned)strip.rows);
    return done && whole;
}

int main(int count, char **words) {
    if (count == 4 && !strcmp(words[1], "out")) return !write_data(words[2], (uint32_t)strtoul(words[3], NULL, 10));
    if (count == 4 && !strcmp(words[1], "in")) return !write_fax((uint32_t)strtoul(words[2], NULL, 10), words[3]);
    fprintf(stderr, "usage: ccitt out FAX.tif PAGE >DATA, ccitt in COLUMNS FAX.tif <DATA\n");
    return 2;
}
