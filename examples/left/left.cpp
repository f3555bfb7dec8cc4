// Prints the rows of a fax that are found and those that are lost, and writes a copy in MMR: left FAX.tif COPY.tif
#include <faxpages_reader.h>
#include <fstream>
#include <vector>

int main(int, char **words) {
    std::ifstream in(words[1], std::ios::binary);
    std::vector<uint8_t> file(std::istreambuf_iterator<char>(in), {}), raster(1 << 26), copy(1 << 24);
    std::vector<faxpages_lost> gaps(1 << 20);
    const size_t len = file.size(), room = raster.size(), stride = FAXPAGES_ROW_BYTES;
    faxpages_reader *reader = faxpages_reader_open(file.data(), len, FAXPAGES_READ_SALVAGED);
    for (faxpages_reader_row row{}; int found = reader ? faxpages_reader_next(reader, &row) : 0;)
        if (found < 0) printf("lost %s\n", faxpages_reader_fault(reader)); // a page is refused
        else if (row.lost) printf("lost %u %u %u %s\n", row.page, row.row, row.lost, row.fault);
        else printf("row %u %u\n", row.page, row.row);
    faxpages_form form;
    faxpages_told told;
    faxpages_written made{};
    for (uint32_t page = 0, status = 0; !status || (status == FAXPAGES_FAULT && told.fault.page + 1 == page); page++) {
        status = faxpages_salvage(file.data(), len, page, &form, &raster[0], room, stride, &gaps[0], 1 << 20, &told);
        form.coding = 3, form.aligned = form.exchanged = 0; // MMR
        if (!status && faxpages_add_page(&form, 4, &raster[0], room, stride, &copy[0], copy.size(), &made)) return 1;
    }
    return faxpages_end_pages(&copy[0], copy.size(), &made) ||
           !std::ofstream(words[2], std::ios::binary).write(reinterpret_cast<char *>(&copy[0]), made.len);
}
