/* rows HOW FILE: prints a file's rows as `faxpages rows` does, through libfaxpages.
 *
 * HOW is `pages`, a page a call; `all`, rows over pages, as many as have room; or `from`, a few rows a call, each from
 * the place that the one before told. Bytes before and after each buffer are seen to be untouched. */
#include <faxpages.h>
#include <stdio.h>
#include <stdlib.h>
#include <string.h>

enum { GUARD = 64, MARK = 0xA5, FORMS = 3, ROWS = 7, ROOM = 70000 };

static void die(const char *why) {
    fprintf(stderr, "rows: %s\n", why);
    exit(3);
}

/* A buffer with marked bytes before and after it. */
struct guarded {
    uint8_t *begin;
    size_t len;
};

static struct guarded make(size_t len) {
    struct guarded made = {malloc(len + 2 * GUARD), len};
    if (!made.begin) die("no memory");
    memset(made.begin, MARK, len + 2 * GUARD);
    return made;
}

static void *within(struct guarded it) { return it.begin + GUARD; }

static void see(struct guarded it, size_t used) {
    size_t i;
    for (i = 0; i < GUARD; i++)
        if (it.begin[i] != MARK) die("a byte before a buffer was changed");
    for (i = GUARD + used; i < it.len + 2 * GUARD; i++)
        if (it.begin[i] != MARK) die("a byte after what was written was changed");
}

static uint8_t *read_file(const char *name, size_t *len) {
    FILE *in = fopen(name, "rb");
    size_t room = 65536, n;
    uint8_t *bytes = malloc(room);
    if (!in || !bytes) die("cannot read the file");
    *len = 0;
    while ((n = fread(bytes + *len, 1, room - *len, in)) > 0)
        if ((*len += n) == room && !(bytes = realloc(bytes, room *= 2))) die("no memory");
    fclose(in);
    return bytes;
}

static void print_row(const struct faxpages_row *row, const uint8_t *out) {
    const uint8_t *bytes = out + row->at;
    uint32_t i, run = 0;
    int colour = 0;
    if (row->len != (row->width + 7) / 8) die("a row has another number of bytes");
    printf("row %u %u", (unsigned)row->page, (unsigned)row->row);
    for (i = 0; i < row->width; i++) {
        int black = bytes[i / 8] >> (7 - i % 8) & 1;
        if (black != colour) {
            printf(" %u", (unsigned)run);
            run = 0;
            colour = black;
        }
        run++;
    }
    printf(" %u\n", (unsigned)run);
    for (; i < 8 * row->len; i++)
        if (bytes[i / 8] >> (7 - i % 8) & 1) die("padding is not 0");
}

static void print_rows(const struct faxpages_row *rows, const uint8_t *out, const struct faxpages_told *told) {
    size_t i, at = 0;
    for (i = 0; i < told->count; i++) {
        if (rows[i].at != at) die("a row lies in another place");
        at += rows[i].len;
        print_row(&rows[i], out);
    }
    if (at != told->used) die("another number of bytes was used");
}

/* Each page by a call of its own, with just the room that its form says. */
static uint32_t by_pages(const uint8_t *file, size_t len, struct faxpages_told *told) {
    uint32_t page = 0, status = FAXPAGES_DONE;
    memset(told, 0, sizeof *told);
    while (status == FAXPAGES_DONE) {
        struct guarded forms = make(FORMS * sizeof(struct faxpages_form));
        struct faxpages_form *form = within(forms);
        struct faxpages_told listed;
        uint32_t ended = faxpages_forms(file, len, page, form, FORMS, &listed);
        size_t i, count = listed.count;
        see(forms, count * sizeof *form);
        if ((ended == FAXPAGES_DONE) != (count == FORMS)) die("a status is another than the count says");
        for (i = 0; i < count && status == FAXPAGES_DONE; i++, page++) {
            size_t room = (size_t)form[i].rows * ((form[i].width + 7) / 8);
            struct guarded out = make(room), rows = make(form[i].rows * sizeof(struct faxpages_row));
            status = faxpages_rows(file, len, page, 0, within(rows), form[i].rows, within(out), room, told);
            see(out, told->used);
            see(rows, told->count * sizeof(struct faxpages_row));
            print_rows(within(rows), within(out), told);
            free(out.begin);
            free(rows.begin);
        }
        free(forms.begin);
        if (status == FAXPAGES_DONE) {
            status = ended;
            told->fault = listed.fault;
        }
    }
    return status;
}

/* As many rows a call as have room, over pages. */
static uint32_t by_room(const uint8_t *file, size_t len, struct faxpages_told *told) {
    uint32_t status, page = 0, row = 0;
    do {
        struct guarded out = make(ROOM), rows = make(ROWS * sizeof(struct faxpages_row));
        status = faxpages_rows(file, len, page, row, within(rows), ROWS, within(out), ROOM, told);
        see(out, told->used);
        see(rows, told->count * sizeof(struct faxpages_row));
        print_rows(within(rows), within(out), told);
        page = told->page;
        row = told->row;
        free(out.begin);
        free(rows.begin);
    } while (status == FAXPAGES_DONE || status == FAXPAGES_NO_ROOM);
    return status;
}

/* A few rows a call, from place to place; at last with hardly any room. */
static uint32_t by_places(const uint8_t *file, size_t len, struct faxpages_told *told) {
    struct faxpages_place place = {0, 0, 0, 0};
    uint32_t *runs = malloc(FAXPAGES_RUNS * sizeof *runs), status;
    size_t most = 1;
    if (!runs) die("no memory");
    do {
        struct guarded out = make(ROOM), rows = make(most * sizeof(struct faxpages_row));
        status = faxpages_rows_from(file, len, &place, runs, FAXPAGES_RUNS, within(rows), most, within(out), ROOM,
                                    told);
        see(out, told->used);
        see(rows, told->count * sizeof(struct faxpages_row));
        print_rows(within(rows), within(out), told);
        if (place.runs == 0 && (place.page != told->page || place.row != told->row)) die("the place is another");
        most = most % 5 + 1;
        free(out.begin);
        free(rows.begin);
    } while (status == FAXPAGES_DONE || status == FAXPAGES_NO_ROOM);
    free(runs);
    return status;
}

int main(int count, char **words) {
    struct faxpages_told told;
    uint8_t *file, name[16];
    size_t len;
    uint32_t status;
    if (count != 3) return 2;
    file = read_file(words[2], &len);
    status = !strcmp(words[1], "pages") ? by_pages(file, len, &told)
             : !strcmp(words[1], "all") ? by_room(file, len, &told)
                                        : by_places(file, len, &told);
    free(file);
    if (status == FAXPAGES_END) {
        puts("end");
        return 0;
    }
    if (status != FAXPAGES_FAULT) die("an unexpected status");
    printf("next 1:%u:%u\n", (unsigned)told.page, (unsigned)told.row);
    len = faxpages_fault_name(told.fault.number, name, sizeof name);
    fprintf(stderr, "fault page %u row %u: %.*s", (unsigned)told.fault.page, (unsigned)told.fault.row, (int)len,
            (char *)name);
    if (told.fault.tag) fprintf(stderr, " %u", (unsigned)told.fault.tag);
    fputc('\n', stderr);
    return 1;
}
