/* Prints the rows of a fax that are found and those that are lost, and writes a copy in MMR: left FAX.tif COPY.tif */
#include <faxpages_reader.h>
static uint8_t file[1 << 24], copy[1 << 24], raster[1 << 26];
static struct faxpages_lost lost[1 << 20];
int main(int argc, char **argv) {
    FILE *in = argc == 3 ? fopen(argv[1], "rb") : NULL, *out = in ? fopen(argv[2], "wb") : NULL;
    size_t len = out ? fread(file, 1, sizeof file, in) : 0, room = sizeof raster, stride = FAXPAGES_ROW_BYTES;
    struct faxpages_reader *reader = faxpages_reader_open(file, len, FAXPAGES_READ_SALVAGED);
    struct faxpages_reader_row row = {0};
    for (int found; out && reader && (found = faxpages_reader_next(reader, &row)) != 0;)
        if (found < 0) printf("lost %s\n", faxpages_reader_fault(reader)); /* a page is refused */
        else if (row.lost) printf("lost %u %u %u %s\n", row.page, row.row, row.lost, row.fault);
        else printf("row %u %u\n", row.page, row.row);
    struct faxpages_written written = {0};
    struct faxpages_form form;
    struct faxpages_told told;
    for (uint32_t page = 0, status; ; page++) {
        status = faxpages_salvage(file, len, page, &form, raster, room, stride, lost, 1 << 20, &told);
        if (status == FAXPAGES_FAULT && told.fault.page == page) continue;
        if (status != FAXPAGES_DONE) break;
        form.coding = 3, form.aligned = form.exchanged = 0; /* MMR */
        if (faxpages_add_page(&form, 4, raster, room, stride, copy, sizeof copy, &written)) return 1;
    }
    return faxpages_end_pages(copy, sizeof copy, &written) || fwrite(copy, written.len, 1, out) != 1 || fclose(out);
}
