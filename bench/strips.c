/* strips ours|theirs page|file|read|code CODING FILE SCRATCH [REPEAT]: does one job over the first page of a file, which
 * is held in memory, so many times, by libfaxpages or by the others:
 *
 * page: the page into a raster, by faxpages_page or by libtiff; file: the raster into a TIFF file in memory, by
 * faxpages_add_page or by libtiff; read: the bare strip into a raster, by faxpages_strip_rows or by spandsp; code: the
 * raster into a strip, by faxpages_strip_code or by spandsp. Prints a sum of what comes out of it.
 *
 * SCRATCH is the name of a file that may be written and removed: spandsp wants one. */
#include <faxpages.h>
#include <stdio.h>
#include <stdlib.h>
#include <string.h>
#include <spandsp.h>
#include <tiffio.h>

enum { ROOM = 1 << 24 };

static uint8_t file[ROOM], out[ROOM], strip[ROOM];
static size_t len, stride, strip_len;
static uint8_t *raster;
static uint32_t runs[FAXPAGES_RUNS];
static struct faxpages_form form;
static struct faxpages_told told;
static const char *scratch;

static void need(int holds, const char *what) {
    if (holds) return;
    fprintf(stderr, "strips: %s\n", what);
    exit(3);
}

/* A file of libtiff's in `out`, of which so many bytes are there. */
struct stream {
    uint8_t *bytes;
    size_t at, len;
};

static tmsize_t read_some(thandle_t handle, void *to, tmsize_t count) {
    struct stream *stream = handle;
    size_t left = stream->at < stream->len ? stream->len - stream->at : 0;
    if ((size_t)count > left) count = (tmsize_t)left;
    memcpy(to, stream->bytes + stream->at, (size_t)count);
    stream->at += (size_t)count;
    return count;
}

static tmsize_t write_some(thandle_t handle, void *from, tmsize_t count) {
    struct stream *stream = handle;
    need(stream->at + (size_t)count <= ROOM, "a file is too large");
    memcpy(stream->bytes + stream->at, from, (size_t)count);
    stream->at += (size_t)count;
    if (stream->len < stream->at) stream->len = stream->at;
    return count;
}

static toff_t seek(thandle_t handle, toff_t to, int whence) {
    struct stream *stream = handle;
    stream->at = whence == SEEK_SET ? to : whence == SEEK_CUR ? stream->at + to : stream->len + to;
    return stream->at;
}

static int close_none(thandle_t handle) {
    (void)handle;
    return 0;
}

static toff_t size_of(thandle_t handle) { return ((struct stream *)handle)->len; }

static int map(thandle_t handle, void **at, toff_t *count) {
    struct stream *stream = handle;
    *at = stream->bytes;
    *count = stream->len;
    return 1;
}

static void unmap(thandle_t handle, void *at, toff_t count) { (void)handle, (void)at, (void)count; }

static TIFF *open_stream(struct stream *stream, const char *mode) {
    TIFF *tiff = TIFFClientOpen("memory", mode, stream, read_some, write_some, seek, close_none, size_of, map, unmap);
    need(tiff != NULL, "libtiff opens nothing");
    return tiff;
}

static void page_ours(void) {
    need(faxpages_page(file, len, 0, &form, raster, stride * form.rows, stride, &told) == FAXPAGES_DONE, "no page");
}

static void page_theirs(void) {
    struct stream stream = {file, 0, len};
    TIFF *tiff = open_stream(&stream, "r");
    uint32_t s;
    uint8_t *to = raster;
    for (s = 0; s < TIFFNumberOfStrips(tiff); s++) {
        tmsize_t got = TIFFReadEncodedStrip(tiff, s, to, TIFFStripSize(tiff));
        need(got > 0, "libtiff reads no strip");
        to += got;
    }
    TIFFClose(tiff);
}

static size_t file_ours(void) {
    struct faxpages_written written = {0, 0, 1, 0};
    uint32_t status = faxpages_add_page(&form, 4, raster, stride * form.rows, stride, out, ROOM, &written);
    need(status == FAXPAGES_DONE, "no file");
    return written.len;
}

static size_t file_theirs(void) {
    struct stream stream = {out, 0, 0};
    TIFF *tiff = open_stream(&stream, "w");
    TIFFSetField(tiff, TIFFTAG_IMAGEWIDTH, form.width);
    TIFFSetField(tiff, TIFFTAG_IMAGELENGTH, form.rows);
    TIFFSetField(tiff, TIFFTAG_ROWSPERSTRIP, form.rows);
    TIFFSetField(tiff, TIFFTAG_BITSPERSAMPLE, 1);
    TIFFSetField(tiff, TIFFTAG_SAMPLESPERPIXEL, 1);
    TIFFSetField(tiff, TIFFTAG_PHOTOMETRIC, PHOTOMETRIC_MINISWHITE);
    TIFFSetField(tiff, TIFFTAG_COMPRESSION, form.coding == 3 ? COMPRESSION_CCITTFAX4 : COMPRESSION_CCITTFAX3);
    if (form.coding < 3) TIFFSetField(tiff, TIFFTAG_GROUP3OPTIONS, form.coding == 2 ? GROUP3OPT_2DENCODING : 0);
    need(TIFFWriteEncodedStrip(tiff, 0, raster, (tmsize_t)(stride * form.rows)) > 0, "libtiff writes no strip");
    TIFFClose(tiff);
    return stream.len;
}

static struct faxpages_strip strip_form(void) {
    struct faxpages_strip made = {form.width, form.rows, form.coding, 2, 0}; /* the order of the line */
    return made;
}

static void read_ours(void) {
    struct faxpages_strip made = strip_form();
    struct faxpages_place place = {0, 0, 0, 0};
    need(faxpages_strip_rows(strip, strip_len, &made, &place, runs, FAXPAGES_RUNS, raster, stride * form.rows, stride,
                             &told) == FAXPAGES_DONE, "no strip");
}

static size_t rows_there;

static int take_row(void *user, const uint8_t *row, size_t count) {
    (void)user;
    if (count == stride && rows_there < form.rows) memcpy(raster + stride * rows_there++, row, count);
    return 0;
}

static int encoding(void) {
    const int encodings[] = {T4_COMPRESSION_ITU_T4_1D, T4_COMPRESSION_ITU_T4_2D, T4_COMPRESSION_ITU_T6};
    return encodings[form.coding - 1];
}

static void read_theirs(void) {
    t4_rx_state_t *state = t4_rx_init(NULL, scratch, T4_COMPRESSION_ITU_T6);
    need(state != NULL, "spandsp begins nothing");
    rows_there = 0;
    t4_rx_set_row_write_handler(state, take_row, NULL);
    t4_rx_set_rx_encoding(state, encoding());
    t4_rx_set_image_width(state, (int)form.width);
    t4_rx_start_page(state);
    t4_rx_put_chunk(state, strip, (int)strip_len);
    t4_rx_end_page(state);
    t4_rx_free(state);
    need(rows_there == form.rows, "spandsp reads too few rows");
}

static size_t code_ours(void) {
    struct faxpages_strip made = strip_form();
    size_t made_len;
    uint32_t status = faxpages_strip_code(&made, 4, raster, stride * form.rows, stride, out, ROOM, &made_len);
    need(status == FAXPAGES_DONE, "no code");
    return made_len;
}

static int next_row(void *user, uint8_t *buffer, size_t count) {
    (void)user;
    if (rows_there == form.rows || count < stride) return 0;
    memcpy(buffer, raster + stride * rows_there++, stride);
    return (int)stride;
}

/* spandsp takes the size of a page from a file: SCRATCH is a copy of the file then. */
static size_t code_theirs(void) {
    t4_tx_state_t *state = t4_tx_init(NULL, scratch, -1, -1);
    size_t at = 0;
    int got;
    need(state != NULL, "spandsp begins nothing");
    rows_there = 0;
    t4_tx_set_row_read_handler(state, next_row, NULL);
    t4_tx_set_tx_encoding(state, encoding());
    need(t4_tx_start_page(state) == 0, "spandsp begins no page");
    while ((got = t4_tx_get_chunk(state, out + at, 4096)) > 0) at += (size_t)got;
    t4_tx_free(state);
    need(rows_there == form.rows, "spandsp leaves rows");
    return at;
}

/* Puts a return to control after the strip, without which spandsp hands out no last row of MH and MR; each EOL ends on a
 * byte boundary. */
static void put_return(void) {
    const uint8_t tag = form.coding == 2;
    int i;
    strip[strip_len++] = 0;
    for (i = 0; i < 6; i++) {
        strip[strip_len++] = 0x80;
        strip[strip_len++] = tag;
    }
}

/* The first page of the file, and its strip as it is sent. */
static void begin(const char *name, uint32_t coding) {
    FILE *in = fopen(name, "rb"), *copy;
    uint8_t none[1];
    need(in != NULL, name);
    len = fread(file, 1, ROOM, in);
    fclose(in);
    need(faxpages_page(file, len, 0, &form, none, 0, 0, &told) == FAXPAGES_NO_ROOM, "no page");
    stride = (form.width + 7) / 8;
    raster = malloc(stride * form.rows);
    need(raster != NULL, "no memory");
    page_ours();
    form.coding = coding;
    form.rows_per_strip = form.rows;
    form.strips = 1;
    strip_len = code_ours();
    memcpy(strip, out, strip_len);
    if (form.coding < 3) put_return();
    copy = fopen(scratch, "wb");
    need(copy && fwrite(file, 1, len, copy) == len && fclose(copy) == 0, scratch);
}

static unsigned long sum(const uint8_t *bytes, size_t count) {
    unsigned long total = 0;
    size_t i;
    for (i = 0; i < count; i += 64) total += bytes[i];
    return total;
}

int main(int count, char **words) {
    int ours = count > 5 && !strcmp(words[1], "ours"), times = count > 6 ? atoi(words[6]) : 1, i;
    size_t made = 0;
    char job;
    need(count > 5, "ours|theirs page|file|read|code CODING FILE SCRATCH [REPEAT]");
    scratch = words[5];
    TIFFSetWarningHandler(NULL);
    begin(words[4], (uint32_t)atoi(words[3]));
    for (i = 0, job = words[2][0]; i < times; i++) {
        if (job == 'p') ours ? page_ours() : page_theirs();
        else if (job == 'r') ours ? read_ours() : read_theirs();
        else if (job == 'f') made = ours ? file_ours() : file_theirs();
        else made = ours ? code_ours() : code_theirs();
    }
    printf("%lu\n", job == 'p' || job == 'r' ? sum(raster, stride * form.rows) : (unsigned long)made);
    remove(scratch);
    return 0;
}
