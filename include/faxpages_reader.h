/* faxpages_reader.h: the rows of a fax one by one, over the calls of faxpages.h, with no buffers and no
 * places of your own. It is all in this header: include it, and link with -lfaxpages.
 *
 *     struct faxpages_reader *reader = faxpages_reader_open(file, len, FAXPAGES_READ_RUNS);
 *     struct faxpages_reader_row row;
 *     while (reader && faxpages_reader_next(reader, &row) == 1)
 *         printf("row %u %u: %zu runs\n", row.page, row.row, row.len);
 *     if (reader && *faxpages_reader_fault(reader))
 *         printf("fault %s\n", faxpages_reader_fault(reader));
 *     faxpages_reader_close(reader);
 *
 * It is tested, and not proved; what the calls write is. See faxpages_reader(3). */
#ifndef FAXPAGES_READER_H
#define FAXPAGES_READER_H

#include <faxpages.h>
#include <stdio.h>
#include <stdlib.h>
#include <string.h>

/* How rows are read. */
enum faxpages_reader_rows {
    FAXPAGES_READ_PACKED = 1,  /* as packed bytes */
    FAXPAGES_READ_RUNS = 2,    /* as runs */
    FAXPAGES_READ_CHANGES = 3, /* as changing elements */
    FAXPAGES_READ_SALVAGED = 4 /* as packed bytes, where damaged rows are passed over, and told */
};

/* A row, or a stretch of rows that are lost. It stands until the next call. */
struct faxpages_reader_row {
    const uint8_t *packed;   /* (width + 7) / 8 bytes, the highest bit first, 1 for black; or NULL */
    const uint32_t *numbers; /* its runs or its changing elements; or NULL */
    size_t len;              /* how many bytes or numbers */
    uint32_t page, row, width;
    uint32_t lost;     /* how many rows are lost, from this one on; 0 if it is found */
    const char *fault; /* why the first of them is lost, as "EndMarker"; "" if it is found */
};

/* What follows is of this header alone. Rows are read as many a call as have room. */
enum { FAXPAGES_READER_ROWS_ = 4096, FAXPAGES_READER_LOST_ = 64, FAXPAGES_READER_ROOM_ = 1 << 20 };

struct faxpages_reader {
    const uint8_t *file;
    size_t len;
    uint32_t kind, status;
    struct faxpages_place place;
    struct faxpages_told told;
    size_t given, stretch;     /* how many rows and stretches of the last call were returned */
    uint32_t page, row, width; /* salvaged: the next page, and of this one the next row, and the width or 0 */
    int is_ended;
    char fault[80], name[17];
    uint32_t runs[FAXPAGES_RUNS];
    struct faxpages_row rows[FAXPAGES_READER_ROWS_];
    struct faxpages_lost lost[FAXPAGES_READER_LOST_];
    union {
        uint8_t bytes[FAXPAGES_READER_ROOM_];
        uint32_t numbers[FAXPAGES_READER_ROOM_ / 4];
    } out;
};

/* A reader of the fax in these bytes, which stay where they are until it is closed: `file` may be NULL
 * if `len` is 0. NULL, if there is no memory. */
static inline struct faxpages_reader *faxpages_reader_open(const void *file, size_t len,
                                                           enum faxpages_reader_rows rows) {
    struct faxpages_reader *reader = (struct faxpages_reader *)calloc(1, sizeof *reader);
    if (reader) {
        /* No pointer of a call may be NULL. */
        reader->file = len ? (const uint8_t *)file : reader->out.bytes;
        reader->len = len;
        reader->kind = rows;
    }
    return reader;
}

/* Frees the reader; NULL is none. */
static inline void faxpages_reader_close(struct faxpages_reader *reader) {
    free(reader);
}

/* Why faxpages_reader_next returned -1 last, as "page 3 row 5: OutOfRow"; and "" before that. */
static inline const char *faxpages_reader_fault(const struct faxpages_reader *reader) {
    return reader->fault;
}

static inline const char *faxpages_reader_name_(struct faxpages_reader *reader, uint32_t fault) {
    size_t len = faxpages_fault_name(fault, (uint8_t *)reader->name, sizeof reader->name - 1);
    reader->name[len < sizeof reader->name ? len : 0] = 0;
    return reader->name;
}

/* Says why no more is read, and answers -1. */
static inline int faxpages_reader_say_(struct faxpages_reader *reader) {
    const struct faxpages_fault *fault = &reader->told.fault;
    size_t room = sizeof reader->fault, len;
    if (reader->status == FAXPAGES_FAULT) {
        len = (size_t)snprintf(reader->fault, room, "page %lu row %lu: %s", (unsigned long)fault->page,
                               (unsigned long)fault->row, faxpages_reader_name_(reader, fault->number));
        if (fault->tag) snprintf(reader->fault + len, room - len, " %lu", (unsigned long)fault->tag);
    } else {
        len = faxpages_status_name(reader->status, (uint8_t *)reader->fault, room - 1);
        reader->fault[len < room ? len : 0] = 0;
    }
    return -1;
}

/* Reads more rows. */
static inline void faxpages_reader_read_(struct faxpages_reader *r) {
    if (r->kind == FAXPAGES_READ_PACKED)
        r->status = faxpages_rows_from(r->file, r->len, &r->place, r->runs, FAXPAGES_RUNS, r->rows,
                                       FAXPAGES_READER_ROWS_, r->out.bytes, FAXPAGES_READER_ROOM_, &r->told);
    else if (r->kind == FAXPAGES_READ_RUNS)
        r->status =
            faxpages_runs_from(r->file, r->len, &r->place, r->runs, FAXPAGES_RUNS, r->rows, FAXPAGES_READER_ROWS_,
                               r->out.numbers, FAXPAGES_READER_ROOM_ / 4, &r->told);
    else
        r->status =
            faxpages_changes_from(r->file, r->len, &r->place, r->runs, FAXPAGES_RUNS, r->rows, FAXPAGES_READER_ROWS_,
                                  r->out.numbers, FAXPAGES_READER_ROOM_ / 4, &r->told);
    r->given = 0;
}

static inline int faxpages_reader_next_row_(struct faxpages_reader *reader, struct faxpages_reader_row *row) {
    const struct faxpages_row *found;
    while (reader->given == reader->told.count) {
        if (reader->status == FAXPAGES_END) return 0;
        if (reader->status != FAXPAGES_DONE && reader->status != FAXPAGES_NO_ROOM) return faxpages_reader_say_(reader);
        faxpages_reader_read_(reader);
    }
    found = &reader->rows[reader->given++];
    row->packed = reader->kind == FAXPAGES_READ_PACKED ? reader->out.bytes + found->at : NULL;
    row->numbers = reader->kind == FAXPAGES_READ_PACKED ? NULL : reader->out.numbers + found->at;
    row->len = found->len;
    row->page = found->page;
    row->row = found->row;
    row->width = found->width;
    row->lost = 0;
    row->fault = "";
    return 1;
}

/* Salvaged: goes to the next page. 1; 0 after the last one; or -1, if it is refused. */
static inline int faxpages_reader_next_page_(struct faxpages_reader *reader) {
    struct faxpages_form form;
    uint32_t page = reader->page++;
    memset(&reader->place, 0, sizeof reader->place);
    reader->place.page = page;
    reader->row = reader->width = 0;
    reader->status = faxpages_forms(reader->file, reader->len, page, &form, 1, &reader->told);
    if (reader->told.count) {
        reader->width = form.width;
        reader->told.count = reader->told.used = reader->given = reader->stretch = 0;
        return 1;
    }
    /* What stands before all later pages is reported once, at the first of them. */
    if (reader->status == FAXPAGES_FAULT && reader->told.fault.page == page) return faxpages_reader_say_(reader);
    reader->is_ended = 1;
    return 0;
}

static inline int faxpages_reader_next_left_(struct faxpages_reader *r, struct faxpages_reader_row *row) {
    size_t stride = (r->width + 7) / 8;
    const struct faxpages_lost *lost = &r->lost[r->stretch];
    row->page = r->place.page;
    row->row = r->row;
    row->width = r->width;
    row->numbers = NULL;
    if (r->stretch < r->told.used && lost->row == r->row) {
        r->stretch++;
        row->packed = NULL;
        row->len = 0;
        row->lost = lost->rows;
        row->fault = faxpages_reader_name_(r, lost->fault);
    } else if (r->given < r->told.count) {
        row->packed = r->out.bytes + stride * r->given++;
        row->len = stride;
        row->lost = 0;
        row->fault = "";
    } else {
        return 0;
    }
    r->row += row->lost ? row->lost : 1;
    return 1;
}

/* Salvaged: reads more of the page. */
static inline int faxpages_reader_salvage_(struct faxpages_reader *reader) {
    size_t stride = (reader->width + 7) / 8;
    reader->given = reader->stretch = 0;
    reader->status = faxpages_salvage_from(reader->file, reader->len, &reader->place, reader->runs, FAXPAGES_RUNS,
                                           reader->out.bytes, FAXPAGES_READER_ROOM_ / stride * stride, stride,
                                           reader->lost, FAXPAGES_READER_LOST_, &reader->told);
    if (reader->status == FAXPAGES_DONE || reader->status == FAXPAGES_END) return 1;
    reader->is_ended = 1;
    reader->told.count = reader->told.used = 0;
    return faxpages_reader_say_(reader);
}

/* 1, and the next row; 0 after the last one; or -1 where no more can be read, which faxpages_reader_fault
 * says: the rows before that are right, and each later call returns -1 again. Salvaged, rows that are lost
 * come as one stretch, and -1 is a page that is refused, after which the next call goes on with the next
 * page. */
static inline int faxpages_reader_next(struct faxpages_reader *reader, struct faxpages_reader_row *row) {
    int goes_on = 1;
    if (reader->kind != FAXPAGES_READ_SALVAGED) return faxpages_reader_next_row_(reader, row);
    while (goes_on == 1) {
        if (faxpages_reader_next_left_(reader, row)) return 1;
        if (reader->is_ended) return 0;
        goes_on = reader->width && reader->status == FAXPAGES_DONE ? faxpages_reader_salvage_(reader)
                                                                   : faxpages_reader_next_page_(reader);
    }
    return goes_on;
}

#endif
