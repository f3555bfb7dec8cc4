/* check FILE: prints what `faxpages check` prints; check places FILE: reads a file by places that go through their text,
 * and prints its rows' numbers. */
#include <faxpages.h>
#include <stdio.h>
#include <stdlib.h>
#include <string.h>

static const char *const notes_names[] = {"",           "NoEndOfBlock", "ReturnToControl", "DataAfterEnd",
                                          "NotT4Choice", "EntriesOutOfOrder", "BadFaxLines"};

static uint8_t *read_file(const char *name, size_t *len) {
    FILE *in = fopen(name, "rb");
    uint8_t *bytes = malloc(1 << 24);
    if (!in || !bytes) exit(3);
    *len = fread(bytes, 1, 1 << 24, in);
    fclose(in);
    return bytes;
}

static int print_report(const uint8_t *file, size_t len) {
    struct faxpages_report report;
    struct faxpages_note *notes = NULL, one;
    uint32_t status = faxpages_check(file, len, &one, 0, &report);
    size_t i, found = report.notes;
    uint8_t name[16];
    notes = malloc((found + 1) * sizeof *notes);
    if (!notes) return 3;
    notes[found].page = 77;
    if (faxpages_check(file, len, notes, found, &report) != status || report.notes != found || notes[found].page != 77)
        return 3;
    for (i = 0; i < found; i++) {
        printf("note page %u", (unsigned)notes[i].page);
        if (notes[i].strip != FAXPAGES_NO_STRIP) printf(" strip %u", (unsigned)notes[i].strip);
        printf(": N%u %s\n", (unsigned)notes[i].kind, notes_names[notes[i].kind]);
    }
    printf("pages %llu rows %llu\n", (unsigned long long)report.pages, (unsigned long long)report.rows);
    free(notes);
    if (status == FAXPAGES_END) return 0;
    if (status != FAXPAGES_FAULT) return 3;
    found = faxpages_fault_name(report.fault.number, name, sizeof name);
    fprintf(stderr, "fault page %u row %u: %.*s", (unsigned)report.fault.page, (unsigned)report.fault.row, (int)found,
            (char *)name);
    if (report.fault.tag) fprintf(stderr, " %u", (unsigned)report.fault.tag);
    fputc('\n', stderr);
    return 1;
}

/* Row by row, each from a place that was written as text and read again. */
static int print_places(const uint8_t *file, size_t len) {
    static uint32_t runs[FAXPAGES_RUNS], again[FAXPAGES_RUNS];
    static uint8_t text[131102], out[8192];
    struct faxpages_place place = {0, 0, 0, 0};
    struct faxpages_told told;
    struct faxpages_row row;
    size_t text_len;
    while (faxpages_rows_from(file, len, &place, runs, FAXPAGES_RUNS, &row, 1, out, sizeof out, &told) ==
           FAXPAGES_DONE) {
        if (faxpages_place_text(&place, runs, FAXPAGES_RUNS, text, 3, &text_len) != FAXPAGES_NO_ROOM) return 3;
        if (faxpages_place_text(&place, runs, FAXPAGES_RUNS, text, sizeof text, &text_len) != FAXPAGES_DONE) return 3;
        printf("row %u %u\nnext %.*s\n", (unsigned)row.page, (unsigned)row.row, (int)text_len, (char *)text);
        memset(&place, 0xA5, sizeof place);
        memset(again, 0xA5, sizeof again);
        if (faxpages_place_parse(text, text_len - 1 + (text_len == 0), &place, again, 0) == FAXPAGES_DONE &&
            place.runs != 0)
            return 3;
        if (faxpages_place_parse(text, text_len, &place, again, FAXPAGES_RUNS) != FAXPAGES_DONE) return 3;
        if (memcmp(runs, again, place.runs * sizeof *runs)) return 3;
    }
    return faxpages_place_parse(text, 0, &place, runs, FAXPAGES_RUNS) == FAXPAGES_NO_PLACE ? 0 : 3;
}

int main(int count, char **words) {
    size_t len;
    uint8_t *file;
    int status;
    if (count < 2) return 2;
    file = read_file(words[count - 1], &len);
    status = count > 2 ? print_places(file, len) : print_report(file, len);
    free(file);
    return status;
}
