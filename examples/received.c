/* received FILE..: what a fax server may ask of faxes that came in: how many pages each has, whether all of it can be
 * read, and what may trouble other readers. Prints a line a file, and ends with status 1 where one is damaged.
 *
 *     gcc -O2 -o received received.c -lfaxpages */
#include <faxpages.h>
#include <inttypes.h>
#include <stdio.h>
#include <stdlib.h>

enum { NOTES = 16 };

static uint8_t *read_file(const char *name, size_t *len) {
    FILE *in = fopen(name, "rb");
    size_t room = 65536, count;
    uint8_t *bytes = malloc(room), *more;
    *len = 0;
    while (in && bytes && (count = fread(bytes + *len, 1, room - *len, in)) > 0) {
        if ((*len += count) < room) continue;
        more = realloc(bytes, room *= 2);
        if (!more) free(bytes);
        bytes = more;
    }
    if (in && bytes && !ferror(in)) {
        fclose(in);
        return bytes;
    }
    perror(name);
    if (in) fclose(in);
    free(bytes);
    return NULL;
}

static void print_fault(const struct faxpages_fault *fault) {
    uint8_t name[16];
    size_t len = faxpages_fault_name(fault->number, name, sizeof name);
    printf(", damaged at page %" PRIu32 " row %" PRIu32 ": %.*s", fault->page, fault->row, (int)len, (char *)name);
    if (fault->tag) printf(" of field %" PRIu32, fault->tag);
}

/* Answers whether the file is whole. */
static int look_at(const char *name) {
    struct faxpages_note notes[NOTES];
    struct faxpages_report report;
    size_t len;
    uint8_t *file = read_file(name, &len);
    uint32_t status;
    if (!file) return 0;
    status = faxpages_check(file, len, notes, NOTES, &report);
    free(file);
    if (status == FAXPAGES_MEMORY) {
        fprintf(stderr, "%s: out of memory\n", name);
        return 0;
    }
    printf("%s: %" PRIu64 " pages, %" PRIu64 " rows", name, report.pages, report.rows);
    if (report.notes) printf(", %zu notes, the first N%" PRIu32, report.notes, notes[0].kind);
    if (status == FAXPAGES_FAULT) print_fault(&report.fault);
    printf("\n");
    return status == FAXPAGES_END;
}

int main(int count, char **names) {
    int status = 0, i;
    for (i = 1; i < count; i++)
        if (!look_at(names[i])) status = 1;
    return status;
}
