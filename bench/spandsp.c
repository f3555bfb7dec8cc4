/* Codes the rows of raw PBM images by spandsp's C API, to be compared with faxpages:

       spandsp mh|mmr PAGES IMAGES.pbm PAGE.tif OUT

   so many pages, an image each, into OUT, as bare codes; where no image follows, the last one again, which is read once.
   spandsp takes the size of a page from PAGE.tif, a page of the same size. */
#include <stdint.h>
#include <stdio.h>
#include <stdlib.h>
#include <string.h>
#include <spandsp.h>

struct image {
    uint8_t *pels;
    size_t row_bytes, rows, row, size;
};

static void fail(const char *what) {
    fprintf(stderr, "spandsp: %s\n", what);
    exit(1);
}

/* Reads the next image over this one; where none follows it stays. */
static void read_image(FILE *file, const char *name, struct image *image) {
    unsigned width, rows;
    int first = fgetc(file);
    if (first == EOF && image->pels) return;
    if (first != 'P' || fscanf(file, "4 %u %u", &width, &rows) != 2 || fgetc(file) == EOF) fail(name);
    image->row_bytes = (width + 7) / 8;
    image->rows = rows;
    size_t size = image->rows * image->row_bytes;
    if (size > image->size && !(image->pels = realloc(image->pels, size))) fail(name);
    image->size = size;
    if (fread(image->pels, 1, size, file) != size) fail(name);
}

static int next_row(void *user, uint8_t *buffer, size_t size) {
    struct image *image = user;
    if (image->row == image->rows || size < image->row_bytes) return 0;
    memcpy(buffer, image->pels + image->row_bytes * image->row++, image->row_bytes);
    return image->row_bytes;
}

static void code(struct image *image, int coding, const char *page, FILE *out) {
    uint8_t codes[4096];
    int count;
    t4_tx_state_t *state = t4_tx_init(NULL, page, -1, -1);
    if (!state) fail(page);
    image->row = 0;
    t4_tx_set_row_read_handler(state, next_row, image);
    t4_tx_set_tx_encoding(state, coding);
    if (t4_tx_start_page(state)) fail(page);
    do {
        count = t4_tx_get_chunk(state, codes, sizeof codes);
        if (count > 0 && fwrite(codes, 1, count, out) != (size_t)count) fail("the output");
    } while (count == sizeof codes);
    if (image->row != image->rows) fail("rows are left");
    t4_tx_free(state);
}

int main(int argc, char **argv) {
    if (argc != 6) fail("mh|mmr PAGES IMAGES.pbm PAGE.tif OUT");
    struct image image = {0};
    FILE *file = fopen(argv[3], "rb"), *out = fopen(argv[5], "wb");
    if (!file || !out) fail(file ? argv[5] : argv[3]);
    int coding = strcmp(argv[1], "mh") == 0 ? T4_COMPRESSION_ITU_T4_1D : T4_COMPRESSION_ITU_T6;
    for (int page = 0; page < atoi(argv[2]); page++) {
        read_image(file, argv[3], &image);
        code(&image, coding, argv[4], out);
    }
    if (fclose(out) != 0) fail(argv[5]);
    return 0;
}
