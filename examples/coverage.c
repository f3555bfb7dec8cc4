/* coverage FILE: how much of each page is black, as a toner account may ask. The file is read once, many forms and many
 * rows a call, over pages, so that a file of many pages takes a time in proportion to its length.
 *
 *     gcc -O2 -o coverage coverage.c -lfaxpages */
#include <faxpages.h>
#include <inttypes.h>
#include <stdio.h>
#include <stdlib.h>

enum { FORMS = 1024, ROWS = 4096, NUMBERS = 16 * FAXPAGES_RUNS };

static struct faxpages_form forms[FORMS];
static struct faxpages_row rows[ROWS];
static uint32_t runs[FAXPAGES_RUNS], out[NUMBERS];

static uint8_t *read_file(const char *name, size_t *len) {
    FILE *in = fopen(name, "rb");
    size_t room = 65536, count;
    uint8_t *bytes = malloc(room), *more;
    *len = 0;
    while (in && bytes && (count = fread(bytes + *len, 1, room - *len, in)) > 0) {
        if ((*len += count) < room) continue;
        more = realloc(bytes, room *= 2);
        if (!more) free(bytes);
        bytes = more;
    }
    if (in && bytes && !ferror(in)) {
        fclose(in);
        return bytes;
    }
    perror(name);
    if (in) fclose(in);
    free(bytes);
    return NULL;
}

/* Says why the rows end before the last page does. */
static void say(uint32_t status, const struct faxpages_fault *fault) {
    uint8_t name[17];
    int len = (int)(status == FAXPAGES_FAULT ? faxpages_fault_name(fault->number, name, sizeof name)
                                             : faxpages_status_name(status, name, sizeof name));
    fprintf(stderr, "page %" PRIu32 " row %" PRIu32 ": %.*s", fault->page, fault->row, len, (char *)name);
    if (status == FAXPAGES_FAULT && fault->tag) fprintf(stderr, " %" PRIu32, fault->tag);
    fprintf(stderr, "\n");
}

/* Each second run is black. */
static uint64_t black_pels(const uint32_t *lengths, uint32_t count) {
    uint64_t black = 0;
    uint32_t i;
    for (i = 1; i < count; i += 2) black += lengths[i];
    return black;
}

/* Prints a page whose rows were all read. The forms of the pages after it are read ahead. */
static void print_page(const uint8_t *file, size_t len, uint32_t page, uint64_t black) {
    static uint32_t first, count;
    struct faxpages_told told;
    const struct faxpages_form *form;
    if (page - first >= count) {
        faxpages_forms(file, len, page, forms, FORMS, &told);
        first = page;
        count = (uint32_t)told.count;
    }
    form = &forms[page - first];
    printf("page %" PRIu32 ": %" PRIu64 " of %" PRIu64 " pels\n", page, black, (uint64_t)form->width * form->rows);
}

int main(int count, char **words) {
    struct faxpages_place place = {0, 0, 0, 0};
    struct faxpages_told told;
    size_t len, i;
    uint8_t *file = count == 2 ? read_file(words[1], &len) : NULL;
    uint32_t status, page = 0;
    uint64_t black = 0;
    if (!file) return 2;
    do {
        status = faxpages_runs_from(file, len, &place, runs, FAXPAGES_RUNS, rows, ROWS, out, NUMBERS, &told);
        for (i = 0; i < told.count; i++) {
            if (rows[i].page != page) {
                print_page(file, len, page, black);
                page = rows[i].page;
                black = 0;
            }
            black += black_pels(out + rows[i].at, rows[i].len);
        }
    } while (status == FAXPAGES_DONE || status == FAXPAGES_NO_ROOM);
    /* A fault of a later page leaves this one whole. */
    if (status == FAXPAGES_END || (status == FAXPAGES_FAULT && told.fault.page > page))
        print_page(file, len, page, black);
    if (status != FAXPAGES_END) say(status, &told.fault);
    free(file);
    return status != FAXPAGES_END;
}
