/* refused FILE: each growth of memory is refused in turn. What a call tells then is a beginning of what it tells else, and
 * it goes on from there; nothing is leaked, and nothing is told of what is not there. */
#include <faxpages.h>
#include <stdio.h>
#include <stdlib.h>
#include <string.h>

static long left = -1;
static long held = 0;

void *__libc_malloc(size_t size);
void *__libc_realloc(void *at, size_t size);
void __libc_free(void *at);

static int is_refused(void) { return left >= 0 && left-- == 0; }

void *malloc(size_t size) {
    void *at = is_refused() ? NULL : __libc_malloc(size);
    held += at != NULL;
    return at;
}

void *realloc(void *at, size_t size) {
    void *new = is_refused() ? NULL : __libc_realloc(at, size);
    held += at == NULL && new != NULL;
    return new;
}

void free(void *at) {
    held -= at != NULL;
    __libc_free(at);
}

enum { ROWS = 4000, ROOM = 1 << 22, NOTES = 64, NUMBERS = 1 << 20 };

static struct faxpages_row rows[ROWS];
static uint8_t out[ROOM], whole[ROOM];
static uint32_t runs[FAXPAGES_RUNS], numbers[NUMBERS];

/* All rows, a few a call, where growth number n of each call is refused; the call is made again without that. */
static size_t read_all(const uint8_t *file, size_t len, long n, uint8_t *to, uint32_t *ended) {
    struct faxpages_place place = {0, 0, 0, 0};
    struct faxpages_told told;
    size_t used = 0;
    int again = 0;
    for (;;) {
        uint32_t status;
        left = again ? -1 : n;
        status = faxpages_rows_from(file, len, &place, runs, FAXPAGES_RUNS, rows, 3, to + used, ROOM - used, &told);
        left = -1;
        used += told.used;
        again = status == FAXPAGES_MEMORY;
        if (again && n < 0) exit(4);
        if (status == FAXPAGES_DONE || again) continue;
        *ended = status;
        return used;
    }
}

/* A call where growth number n is refused: what it answers. */
#define REFUSING(n, call) (left = (n), result = (call), left = -1, result)

/* A place inside a strip of a page that the file has not: what a call tells where growth number n is refused is what it
 * tells else, and never MEMORY, after which a caller would call again for ever. */
static int is_told_without_memory(const uint8_t *file, size_t len, long n) {
    const struct faxpages_place at = {65535, 1, 0, 1};
    struct faxpages_place place = at;
    struct faxpages_told told, wanted;
    uint32_t result, status;
    runs[0] = 8;
    status = faxpages_rows_from(file, len, &place, runs, FAXPAGES_RUNS, rows, 3, out, ROOM, &wanted);
    place = at;
    return REFUSING(n, faxpages_rows_from(file, len, &place, runs, FAXPAGES_RUNS, rows, 3, out, ROOM, &told)) == status &&
           status != FAXPAGES_MEMORY && !memcmp(&told, &wanted, sizeof told);
}

/* The first page: read, coded, read back, and written into a file. A call that memory is refused writes nothing, and the
 * others what they write else. Answers which one did not, or 0. */
static int one_page(const uint8_t *file, size_t len, long n) {
    static uint8_t raster[ROOM], coded[ROOM], again[ROOM];
    static struct faxpages_written written;
    struct faxpages_form form;
    struct faxpages_told told;
    struct faxpages_strip strip;
    struct faxpages_strip_report report = {7, 7, 7, 7, 7, {7, 7, 7, 7}};
    struct faxpages_place place = {0, 0, 0, 0};
    struct faxpages_lost lost[1];
    size_t stride, coded_len, again_len;
    uint32_t result;
    if (faxpages_page(file, len, 0, &form, raster, 0, 0, &told) != FAXPAGES_NO_ROOM) return 0;
    stride = (form.width + 7) / 8;
    if (stride * form.rows > ROOM) return 0;
    raster[0] = again[0] = 0xA5;
    if (REFUSING(n, faxpages_page(file, len, 0, &form, raster, ROOM, stride, &told)) == FAXPAGES_MEMORY &&
        (told.count || raster[0] != 0xA5))
        return 1;
    if (faxpages_page(file, len, 0, &form, raster, ROOM, stride, &told) != FAXPAGES_DONE) return 0;
    strip.width = form.width;
    strip.rows = form.rows;
    strip.coding = 2;
    strip.order = 1;
    strip.aligned = 0;
    coded[0] = 0xA5;
    if (REFUSING(n, faxpages_strip_code(&strip, 4, raster, ROOM, stride, coded, ROOM, &coded_len)) == FAXPAGES_MEMORY &&
        (coded_len || coded[0] != 0xA5))
        return 2;
    if (faxpages_strip_code(&strip, 4, raster, ROOM, stride, coded, ROOM, &coded_len) != FAXPAGES_DONE) return 3;
    if (faxpages_runs(file, len, 0, 0, rows, ROWS, numbers, NUMBERS, &told) == FAXPAGES_MEMORY || told.count < form.rows)
        return 0;
    if (REFUSING(n, faxpages_strip_code_runs(&strip, 4, rows, ROWS, numbers, NUMBERS, again, ROOM, &again_len)) ==
                FAXPAGES_MEMORY
            ? again_len || again[0] != 0xA5
            : again_len != coded_len || memcmp(again, coded, coded_len))
        return 7;
    again[0] = 0xA5;
    if (REFUSING(n, faxpages_strip_check(coded, coded_len, &strip, &report)) == FAXPAGES_MEMORY
            ? report.rows != 7 || report.fault.row != 7
            : result != FAXPAGES_END || report.rows != form.rows)
        return 4;
    if (REFUSING(n, faxpages_strip_rows(coded, coded_len, &strip, &place, runs, FAXPAGES_RUNS, again, stride * form.rows,
                                        stride, &told)) == FAXPAGES_MEMORY
            ? told.count || place.runs || again[0] != 0xA5
            : memcmp(raster, again, stride * form.rows) || place.row != form.rows)
        return 5;
    again[0] = 0xA5;
    if (REFUSING(n, faxpages_salvage(file, len, 0, &form, again, ROOM, stride, lost, 1, &told)) == FAXPAGES_MEMORY
            ? told.count || told.used || again[0] != 0xA5
            : result != FAXPAGES_DONE || told.count != form.rows || memcmp(raster, again, stride * form.rows))
        return 8;
    again[0] = 0xA5;
    if (REFUSING(n, faxpages_salvage_strip(coded, coded_len, &strip, again, ROOM, stride, lost, 1, &told)) ==
                FAXPAGES_MEMORY
            ? told.count || told.used || again[0] != 0xA5
            : result != FAXPAGES_DONE || told.count != form.rows || memcmp(raster, again, stride * form.rows))
        return 9;
    again[0] = 0xA5;
    memset(&place, 0, sizeof place);
    if (REFUSING(n, faxpages_salvage_from(file, len, &place, runs, FAXPAGES_RUNS, again, ROOM, stride, lost, 1, &told)) ==
                FAXPAGES_MEMORY
            ? told.count || told.used || place.row || place.runs || again[0] != 0xA5
            : told.count != form.rows || place.row != form.rows || memcmp(raster, again, stride * form.rows))
        return 10;
    memset(&written, 0, sizeof written);
    written.total = 1;
    form.coding = 1;
    form.exchanged = form.aligned = 0;
    again[0] = 0xA5;
    if (REFUSING(n, faxpages_add_page(&form, 4, raster, ROOM, stride, again, ROOM, &written)) == FAXPAGES_MEMORY
            ? written.added || again[0] != 0xA5
            : result != FAXPAGES_DONE || written.added != 1)
        return 6;
    return 0;
}

int main(int count, char **words) {
    static uint8_t file[1 << 20];
    FILE *in = count == 2 ? fopen(words[1], "rb") : NULL;
    size_t len, all;
    uint32_t ended, other;
    long n, before;
    if (!in) return 2;
    len = fread(file, 1, sizeof file, in);
    fclose(in);
    before = held;
    all = read_all(file, len, -1, whole, &ended);
    for (n = 0; n < 12; n++) {
        struct faxpages_note notes[NOTES];
        struct faxpages_report report, kept;
        struct faxpages_options options = {3, 1, 4, 0, 0};
        struct faxpages_converted converted;
        uint32_t status;
        if (read_all(file, len, n, out, &other) != all || other != ended || memcmp(out, whole, all)) return 5;
        memset(&report, 0xA5, sizeof report);
        kept = report;
        left = n;
        status = faxpages_check(file, len, notes, NOTES, &report);
        left = -1;
        if (status == FAXPAGES_MEMORY && memcmp(&report, &kept, sizeof report)) return 6;
        memset(out, 0xA5, 64);
        left = n;
        status = faxpages_convert(file, len, &options, out, ROOM, &converted);
        left = -1;
        if (status == FAXPAGES_MEMORY && (out[0] != 0xA5 || converted.len != 0)) return 7;
        if (status == FAXPAGES_DONE && (out[0] == 0xA5 || converted.len == 0)) return 8;
        memset(out, 0xA5, 64);
        left = n;
        status = faxpages_salvage_convert(file, len, &options, out, ROOM, &converted);
        left = -1;
        if ((status == FAXPAGES_DONE) == (out[0] == 0xA5) || (status == FAXPAGES_DONE) == (converted.len == 0)) return 30;
    }
    for (n = 0; n < 40; n++) {
        int wrong = one_page(file, len, n);
        if (wrong) return 10 + wrong;
    }
    for (n = 0; n < 4; n++)
        if (!is_told_without_memory(file, len, n)) return 20;
    return held == before ? 0 : 9;
}
