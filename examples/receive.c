/* receive FAX.tif: pages as they come over the line, in MR, the lowest bit of a byte first, are read from standard
 * input, each up to its return to control, and written into a TIFF-F file in MMR. Nobody says how many will come: each
 * page is told after the last. Of a damaged page each row is written that stands between its EOLs; the row above stands
 * in the place of rows that are lost. Whatever is sent, at most 4 MB and 10,000 rows a page are taken. A file that is
 * there is left.
 *
 * Status: 0 each page ended with its return to control, and each row was read; 1 something is missing, which is said:
 * what came is written all the same; 2 the usage is printed.
 *
 *     gcc -O2 -o receive receive.c -lfaxpages */
#include <faxpages.h>
#include <stdio.h>
#include <stdlib.h>
#include <string.h>

enum { WIDTH = 1728, STRIDE = WIDTH / 8, MOST_ROWS = 10000, MOST_BYTES = 4000000 };
enum { PIECE = 500, FILL = 4, EOL_ZEROS = 11, RETURN_EOLS = 6 };

/* The bytes from the one on in which the page that is received begins. */
static uint8_t data[MOST_BYTES], raster[MOST_ROWS * STRIDE];
static size_t len;

/* How far the page's return to control was looked for, in bits: how many zeros stand before that, and how many EOLs one
 * after another. */
static size_t looked, zeros;
static uint32_t eols;

/* How many rows there are, and how many of them could not be read; and whether something else is missing. */
static uint32_t rows, lost;
static int is_cut;

/* The file so far. A total of 0 is one that nobody knows. */
static uint8_t *file;
static size_t room = 65536;
static struct faxpages_written written;

static int bit(size_t at) { return data[at / 8] >> at % 8 & 1; }

/* Whether the page has ended: with six EOLs, each with a tag of 1, and nothing between. Then `looked` is after them. */
static int has_ended(void) {
    while (looked + 1 < 8 * len) {
        if (!bit(looked++)) {
            zeros++;
            continue;
        }
        eols = zeros >= EOL_ZEROS && bit(looked) ? eols + 1 : 0;
        if (zeros >= EOL_ZEROS) looked++;
        zeros = 0;
        if (eols == RETURN_EOLS) return 1;
    }
    return 0;
}

/* Receives a page, of which some may be there, and answers whether it ended. Zeros before its first row are fill, of
 * which no more are kept than an EOL needs. */
static int receive(void) {
    size_t more;
    zeros = looked;
    eols = 0;
    while (!has_ended()) {
        if (looked == zeros && len > FILL) {
            memmove(data, data + len - FILL, FILL);
            len = FILL;
            looked = zeros = 8 * FILL - 1;
        }
        more = len + PIECE <= MOST_BYTES ? fread(data + len, 1, PIECE, stdin) : 0;
        if (!more) return 0;
        len += more;
    }
    return 1;
}

/* Puts the rows above into the place of those that are lost, and says which they are. */
static void fill_lost(const struct faxpages_lost *stretch) {
    uint32_t row;
    fprintf(stderr, "page %u row %u cannot be read", (unsigned)written.added, (unsigned)stretch->row);
    if (stretch->rows > 1) fprintf(stderr, ", and %u after it", (unsigned)stretch->rows - 1);
    fprintf(stderr, "\n");
    for (row = stretch->row; row < stretch->row + stretch->rows; row++)
        if (row) memcpy(raster + (size_t)row * STRIDE, raster + (size_t)(row - 1) * STRIDE, STRIDE);
    lost += stretch->rows;
}

/* Reads what is left of the page, and answers whether there was memory; `count` is then how many rows it has. */
static int read_page(int ended, uint32_t *count) {
    static struct faxpages_lost stretches[(MOST_ROWS + 1) / 2];
    struct faxpages_strip form = {WIDTH, 0, 2, 2, 0};
    struct faxpages_told told;
    size_t bytes = ended ? (looked + 7) / 8 : len;
    uint32_t status = faxpages_salvage_strip(data, bytes, &form, raster, sizeof raster, STRIDE, stretches,
                                             sizeof stretches / sizeof *stretches, &told), i;
    if (status == FAXPAGES_NO_ROOM) {
        fprintf(stderr, "page %u: no more than %u rows are taken\n", (unsigned)written.added, (unsigned)MOST_ROWS);
        is_cut = 1;
        form.rows = MOST_ROWS;
        status = faxpages_salvage_strip(data, bytes, &form, raster, sizeof raster, STRIDE, stretches,
                                        sizeof stretches / sizeof *stretches, &told);
    }
    if (status == FAXPAGES_MEMORY) return 0;
    /* Where the data end within a row, nobody knows whether it is one. */
    if (!ended && told.used && stretches[told.used - 1].row + stretches[told.used - 1].rows == told.count)
        told.count = stretches[--told.used].row;
    for (i = 0; i < told.used; i++) fill_lost(stretches + i);
    *count = told.count;
    return 1;
}

/* Leaves the page out, so that the next one begins. Zeros before its first EOL are fill. */
static void begin_next_page(void) {
    size_t used = looked / 8;
    looked %= 8;
    len -= used;
    memmove(data, data + used, len);
    if (len) data[0] &= 0xFF << looked;
}

/* Adds the page that came to the file, in MMR, and answers whether it has room. */
static int add_page(uint32_t count) {
    const struct faxpages_form form = {WIDTH, count, 3, 1, 0, 0, count, 1, 204, 1, 196, 1, 2};
    uint32_t status;
    uint8_t *more;
    while ((status = faxpages_add_page(&form, 1, raster, sizeof raster, STRIDE, file, room, &written)) ==
           FAXPAGES_NO_ROOM) {
        more = realloc(file, room *= 2);
        if (!more) return 0;
        file = more;
    }
    rows += count;
    return status == FAXPAGES_DONE;
}

/* Whether nothing but fill is there. */
static int is_fill(void) {
    size_t at = 0;
    while (at < 8 * len && !bit(at)) at++;
    return at == 8 * len;
}

/* Receives all pages, and answers whether there was memory. */
static int receive_pages(void) {
    uint32_t count;
    int ended = 1;
    for (file = malloc(room); file && ended; begin_next_page()) {
        ended = receive();
        if (!ended && written.added && is_fill()) return 1;
        if (!read_page(ended, &count)) return 0;
        if (!ended && (count || written.added)) {
            fprintf(stderr, "%s after %u rows, without a return to control: rows may be missing\n",
                    len + PIECE > MOST_BYTES ? "4 MB are taken" : "the data end", (unsigned)count);
            is_cut = 1;
        }
        if (count && !add_page(count)) return 0;
    }
    return file != NULL;
}

static int write_file(const char *name) {
    FILE *out = faxpages_end_pages(file, room, &written) == FAXPAGES_DONE ? fopen(name, "wbx") : NULL;
    int done = out && fwrite(file, 1, written.len, out) == written.len;
    if (out && fclose(out)) done = 0;
    if (!done) perror(name);
    return done;
}

int main(int count, char **words) {
    int has_memory;
    if (count != 2) {
        fprintf(stderr, "usage: receive FAX.tif <DATA\n");
        return 2;
    }
    has_memory = receive_pages();
    if (!has_memory) fprintf(stderr, "there is no memory for page %u or any after it\n", (unsigned)written.added);
    if (lost) fprintf(stderr, "%u of %u rows are missing\n", (unsigned)lost, (unsigned)rows);
    if (!written.added || !write_file(words[1])) {
        fprintf(stderr, "no page is written\n");
        return 1;
    }
    return lost || is_cut || !has_memory;
}
