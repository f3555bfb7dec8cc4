/* Fax pages by libtiff's C API, to be compared with faxpages:

       libtiff make mh|mr|mmr PAGES IMAGES.pbm OUT.tif   so many pages of one strip, an image each; where no image follows,
                                                         the last one again, which is read once
       libtiff decode IN.tif                             decodes each strip
       libtiff bare IN.tif                               decodes each strip, but fills no row
       libtiff pbm IN.tif OUT.pbm                        decodes each strip, and writes raw PBM */
#include <stdio.h>
#include <stdlib.h>
#include <string.h>
#include <tiffio.h>

static void fail(const char *what) {
    fprintf(stderr, "libtiff: %s\n", what);
    exit(1);
}

struct image {
    unsigned width, rows;
    unsigned char *pels;
    size_t size;
};

/* Reads the next image over this one; where none follows it stays. */
static void read_image(FILE *file, const char *name, struct image *image) {
    int first = fgetc(file);
    if (first == EOF && image->pels) return;
    if (first != 'P' || fscanf(file, "4 %u %u", &image->width, &image->rows) != 2 || fgetc(file) == EOF) fail(name);
    size_t size = (size_t)image->rows * ((image->width + 7) / 8);
    if (size > image->size && !(image->pels = realloc(image->pels, size))) fail(name);
    image->size = size;
    if (fread(image->pels, 1, size, file) != size) fail(name);
}

static void set_form(TIFF *tiff, const char *coding, unsigned width, unsigned rows) {
    int mmr = strcmp(coding, "mmr") == 0;
    TIFFSetField(tiff, TIFFTAG_IMAGEWIDTH, width);
    TIFFSetField(tiff, TIFFTAG_IMAGELENGTH, rows);
    TIFFSetField(tiff, TIFFTAG_ROWSPERSTRIP, rows);
    TIFFSetField(tiff, TIFFTAG_BITSPERSAMPLE, 1);
    TIFFSetField(tiff, TIFFTAG_SAMPLESPERPIXEL, 1);
    TIFFSetField(tiff, TIFFTAG_PHOTOMETRIC, PHOTOMETRIC_MINISWHITE);
    TIFFSetField(tiff, TIFFTAG_FILLORDER, FILLORDER_MSB2LSB);
    TIFFSetField(tiff, TIFFTAG_COMPRESSION, mmr ? COMPRESSION_CCITTFAX4 : COMPRESSION_CCITTFAX3);
    if (!mmr) {
        TIFFSetField(tiff, TIFFTAG_GROUP3OPTIONS, strcmp(coding, "mr") == 0 ? GROUP3OPT_2DENCODING : 0);
    }
    TIFFSetField(tiff, TIFFTAG_XRESOLUTION, 204.0);
    TIFFSetField(tiff, TIFFTAG_YRESOLUTION, 196.0);
    TIFFSetField(tiff, TIFFTAG_RESOLUTIONUNIT, RESUNIT_INCH);
}

static void make(const char *coding, int pages, const char *images, const char *out) {
    struct image image = {0};
    FILE *file = fopen(images, "rb");
    if (!file) fail(images);
    TIFF *tiff = TIFFOpen(out, "wl");
    if (!tiff) fail(out);
    for (int page = 0; page < pages; page++) {
        read_image(file, images, &image);
        set_form(tiff, coding, image.width, image.rows);
        if (TIFFWriteEncodedStrip(tiff, 0, image.pels, image.size) != (tmsize_t)image.size) fail(out);
        TIFFWriteDirectory(tiff);
    }
    TIFFClose(tiff);
    fclose(file);
}

/* Fills no row. */
static void fill_nothing(unsigned char *row, uint32_t *runs, uint32_t *end, uint32_t width) {
    (void)row, (void)runs, (void)end, (void)width;
}

/* Decodes each strip of each page, and writes the pages where there is a file for them. */
static void decode(const char *in, FILE *out, int bare) {
    TIFF *tiff = TIFFOpen(in, "r");
    if (!tiff) fail(in);
    tmsize_t room = TIFFStripSize(tiff);
    unsigned char *pels = malloc(room);
    do {
        unsigned width = 0, rows = 0;
        TIFFGetField(tiff, TIFFTAG_IMAGEWIDTH, &width);
        TIFFGetField(tiff, TIFFTAG_IMAGELENGTH, &rows);
        if (bare) TIFFSetField(tiff, TIFFTAG_FAXFILLFUNC, fill_nothing);
        if (out) fprintf(out, "P4\n%u %u\n", width, rows);
        for (uint32_t strip = 0; strip < TIFFNumberOfStrips(tiff); strip++) {
            tmsize_t size = TIFFReadEncodedStrip(tiff, strip, pels, room);
            if (size < 0 || (out && fwrite(pels, 1, size, out) != (size_t)size)) fail(in);
        }
    } while (TIFFReadDirectory(tiff));
    TIFFClose(tiff);
}

int main(int count, char **words) {
    if (count == 6 && strcmp(words[1], "make") == 0) {
        make(words[2], atoi(words[3]), words[4], words[5]);
    } else if (count == 3 && strcmp(words[1], "decode") == 0) {
        decode(words[2], NULL, 0);
    } else if (count == 3 && strcmp(words[1], "bare") == 0) {
        decode(words[2], NULL, 1);
    } else if (count == 4 && strcmp(words[1], "pbm") == 0) {
        FILE *out = fopen(words[3], "wb");
        if (!out) fail(words[3]);
        decode(words[2], out, 0);
        if (fclose(out) != 0) fail(words[3]);
    } else {
        fail("see the head of libtiff.c for its commands");
    }
    return 0;
}
