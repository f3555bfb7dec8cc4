/* inproc ours|libtiff FILE [REPEAT]: decodes all pages of a file that is held in memory into packed rows, by libfaxpages,
 * or by libtiff's C API, strip by strip; so many times. It prints the pages, the least seconds of the processor of a
 * time, and a sum of the bytes, which is the same for both. */
#include <faxpages.h>
#include <stdio.h>
#include <stdlib.h>
#include <string.h>
#include <tiffio.h>
#include <time.h>

enum { ROWS = 4096, ROOM = 1 << 20 };

static uint8_t *file;
static size_t len;
static unsigned long sum;

/* Where libtiff has come to in the memory. */
struct stream {
    size_t at;
};

static tmsize_t read_some(thandle_t handle, void *to, tmsize_t count) {
    struct stream *stream = handle;
    size_t left = stream->at < len ? len - stream->at : 0;
    if ((size_t)count > left) count = (tmsize_t)left;
    memcpy(to, file + stream->at, (size_t)count);
    stream->at += (size_t)count;
    return count;
}

static tmsize_t write_none(thandle_t handle, void *from, tmsize_t count) {
    (void)handle, (void)from, (void)count;
    return 0;
}

static toff_t seek(thandle_t handle, toff_t to, int whence) {
    struct stream *stream = handle;
    stream->at = whence == SEEK_SET ? to : whence == SEEK_CUR ? stream->at + to : len + to;
    return stream->at;
}

static int close_none(thandle_t handle) {
    (void)handle;
    return 0;
}

static toff_t size(thandle_t handle) {
    (void)handle;
    return len;
}

static int map(thandle_t handle, void **at, toff_t *count) {
    (void)handle;
    *at = file;
    *count = len;
    return 1;
}

static void unmap(thandle_t handle, void *at, toff_t count) { (void)handle, (void)at, (void)count; }

/* Adds each 64th byte of all that are read. */
static void add(const uint8_t *bytes, size_t count) {
    static size_t before;
    size_t i;
    for (i = (64 - before % 64) % 64; i < count; i += 64) sum += bytes[i];
    before += count;
}

static unsigned by_libtiff(void) {
    struct stream stream = {0};
    TIFF *tiff = TIFFClientOpen("memory", "r", &stream, read_some, write_none, seek, close_none, size, map, unmap);
    unsigned pages = 0;
    if (!tiff) exit(3);
    do {
        tmsize_t room = TIFFStripSize(tiff), got;
        uint8_t *out = malloc((size_t)room);
        uint32_t strip, strips = TIFFNumberOfStrips(tiff);
        for (strip = 0; strip < strips; strip++) {
            got = TIFFReadEncodedStrip(tiff, strip, out, room);
            if (got < 0) exit(3);
            add(out, (size_t)got);
        }
        free(out);
        pages++;
    } while (TIFFReadDirectory(tiff));
    TIFFClose(tiff);
    return pages;
}

static unsigned by_ours(void) {
    static struct faxpages_row rows[ROWS];
    static uint8_t out[ROOM];
    static uint32_t runs[FAXPAGES_RUNS];
    struct faxpages_place place = {0, 0, 0, 0};
    struct faxpages_told told;
    unsigned pages = 0;
    uint32_t status;
    do {
        size_t i;
        status = faxpages_rows_from(file, len, &place, runs, FAXPAGES_RUNS, rows, ROWS, out, ROOM, &told);
        for (i = 0; i < told.count; i++) pages += rows[i].row == 0;
        add(out, told.used);
    } while (status == FAXPAGES_DONE || status == FAXPAGES_NO_ROOM);
    return status == FAXPAGES_END ? pages : 0;
}

int main(int count, char **words) {
    FILE *in = count > 2 ? fopen(words[2], "rb") : NULL;
    int times = count > 3 ? atoi(words[3]) : 1, i;
    double least = 1e9;
    unsigned pages = 0;
    if (!in) return 2;
    file = malloc(1 << 26);
    len = fread(file, 1, 1 << 26, in);
    fclose(in);
    TIFFSetWarningHandler(NULL);
    for (i = 0; i < times; i++) {
        struct timespec begin, end;
        double seconds;
        clock_gettime(CLOCK_PROCESS_CPUTIME_ID, &begin);
        pages = !strcmp(words[1], "ours") ? by_ours() : by_libtiff();
        clock_gettime(CLOCK_PROCESS_CPUTIME_ID, &end);
        seconds = (double)(end.tv_sec - begin.tv_sec) + (double)(end.tv_nsec - begin.tv_nsec) / 1e9;
        if (seconds < least) least = seconds;
    }
    printf("%u %.9f %lu\n", pages, least, sum);
    return pages == 0;
}
