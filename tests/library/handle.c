/* handle HOW FILE: prints a file's rows as `faxpages rows` does, by the reader of faxpages_reader.h; HOW is packed, runs
 * or changes. `handle salvaged FILE` prints them as `faxpages salvage` does, but that a page which is refused is
 * `lost page 3 row 0: ByteOrder`, and no fault is printed. `handle HOW -` reads no bytes, which are given as NULL. */
#include <faxpages_reader.h>

/* The runs of a row, by its packed bytes. */
static void print_packed(const struct faxpages_reader_row *row) {
    uint32_t pel, run = 0;
    int colour = 0;
    for (pel = 0; pel < row->width; pel++) {
        int black = row->packed[pel / 8] >> (7 - pel % 8) & 1;
        if (black != colour) {
            printf(" %u", (unsigned)run);
            colour = black;
            run = 0;
        }
        run++;
    }
    printf(" %u\n", (unsigned)run);
}

/* The same by its runs, or by its changing elements. */
static void print_numbers(const struct faxpages_reader_row *row, int are_changes) {
    uint32_t before = 0;
    size_t i;
    for (i = 0; i < row->len; i++) {
        printf(" %u", (unsigned)(row->numbers[i] - before));
        before = are_changes ? row->numbers[i] : 0;
    }
    if (are_changes) printf(" %u", (unsigned)(row->width - before));
    puts("");
}

/* Prints a row, and answers whether it has what its form of rows has. */
static int print_row(const struct faxpages_reader_row *row, int how) {
    if (row->lost) {
        printf("lost %u %u %u %s\n", (unsigned)row->page, (unsigned)row->row, (unsigned)row->lost, row->fault);
        return how == FAXPAGES_READ_SALVAGED && !row->packed && !row->numbers;
    }
    printf("row %u %u", (unsigned)row->page, (unsigned)row->row);
    if (row->packed) {
        print_packed(row);
        return row->len == (row->width + 7) / 8 && !row->numbers && !*row->fault;
    }
    print_numbers(row, how == FAXPAGES_READ_CHANGES);
    return row->numbers && (how == FAXPAGES_READ_RUNS || how == FAXPAGES_READ_CHANGES);
}

static int print_all(struct faxpages_reader *reader, int how) {
    struct faxpages_reader_row row;
    int is_row, status = 0;
    if (*faxpages_reader_fault(reader)) return 4;
    while ((is_row = faxpages_reader_next(reader, &row)) == 1 || (is_row && how == FAXPAGES_READ_SALVAGED)) {
        if (is_row == 1 && !print_row(&row, how)) return 4;
        if (is_row != 1) printf("lost %s\n", faxpages_reader_fault(reader));
        if (is_row != 1 || row.lost) status = 1;
    }
    /* What has ended stays so. */
    if (faxpages_reader_next(reader, &row) != is_row) return 4;
    if (is_row == 0) {
        puts("end");
        return how != FAXPAGES_READ_SALVAGED && *faxpages_reader_fault(reader) ? 4 : status;
    }
    fprintf(stderr, "fault %s\n", faxpages_reader_fault(reader));
    return 1;
}

int main(int argc, char **argv) {
    static const char *const names[] = {"", "packed", "runs", "changes", "salvaged"};
    static uint8_t file[1 << 24];
    int how = 4, status;
    FILE *in = argc == 3 && strcmp(argv[2], "-") ? fopen(argv[2], "rb") : NULL;
    size_t len = in ? fread(file, 1, sizeof file, in) : 0;
    struct faxpages_reader *reader;
    while (argc > 1 && how > 1 && strcmp(argv[1], names[how])) how--;
    reader = faxpages_reader_open(in ? file : NULL, len, (enum faxpages_reader_rows)how);
    status = reader ? print_all(reader, how) : 3;
    faxpages_reader_close(reader);
    faxpages_reader_close(NULL);
    if (in) fclose(in);
    return status;
}
