/* faxpages.h: fax pages in TIFF-F files, read from bytes in memory.

   Each call reads the bytes of a file and keeps nothing: there is nothing to open or to free, and
   calls may run at the same time in any threads, each with its own buffers. Pages and rows are
   numbered from 0. A call returns a status, and writes the rest into the caller's memory.

   Obligations of a caller, which nothing checks:
   - No pointer is null, and each is aligned as its type needs. If the length beside it is 0,
     nothing is read or written there: pass the address of any variable of the type, not NULL.
   - The length beside a pointer is in items of the type that it points to, and all of them are
     there. As any array in C they have at most PTRDIFF_MAX bytes.
   - What a call writes overlaps nothing else that it is passed. While it runs, nobody changes the
     file, or anything else that it is passed.
   - No call is made from a signal handler, or in a child of a fork of a process with threads.

   The calls use malloc, realloc, free, memcpy, memmove and memset, and nothing else of the system,
   and some 12 KB of stack. They run on x86-64 processors with SSE4.2 and POPCNT (x86-64-v2), and do
   not check for them: on an older one the process ends by SIGILL. If yours may be older, call
   __builtin_cpu_supports("x86-64-v2").

   A call looks at nothing before the place where it begins, except the header, the directories up
   to its page, and the rows above it in its strip. So the fault that it reports is the first from
   there on, and not always the first of the file. Everything written before the fault is correct.

   Files from strangers may be made to take long. A call takes time for the chain of directories up
   to its page, for the rows that it writes (at a page and a row alone, for the rows above them in
   the strip too), and for the bytes that they are read from: any number of zeros (fill) may be
   before a row. Strips may share bytes, so that n strips may take the time of n * file_len bytes:
   100 pages of one row that share a strip of 16 MB, all fill, take faxpages_check more than a
   second. So list the forms first, a bounded number a call, and add up their rows, their pels, and
   their strips times file_len.

   New calls, statuses and numbers of faults may be added. What is here keeps its meaning and its
   size in all libfaxpages.so.1. */
#ifndef FAXPAGES_H
#define FAXPAGES_H

#include <stddef.h>
#include <stdint.h>

/* The version of this header, as text and as a number; faxpages_version returns the library's. */
#define FAXPAGES_VERSION "1.15.0"
#define FAXPAGES_VERSION_NUMBER 11500

#ifdef __cplusplus
extern "C" {
#endif

/* How a call ended. */
enum faxpages_status {
    FAXPAGES_DONE = 0,    /* all that was asked for is there; there may be more */
    FAXPAGES_END = 1,     /* the file has no more than was written */
    FAXPAGES_FAULT = 2,   /* what was written ends at a fault of the file, which is reported */
    FAXPAGES_OUTSIDE = 3, /* the file has no such page, row or place, or a place lacks its runs */
    FAXPAGES_MEMORY = 4,  /* malloc refused; the call may be made again, and one that reads rows
                           * continues from the reported place */
    FAXPAGES_NO_ROOM = 5, /* what comes next does not fit in the rest of a buffer, or a stride is
                           * less than a row */
    FAXPAGES_NO_PLACE = 6, /* the text is not that of a place */
    FAXPAGES_NO_OPTIONS = 7, /* the options or the form are invalid, or a raster is too short */
    FAXPAGES_TOO_LARGE = 8, /* the file would have more than 268435456 bytes */
    FAXPAGES_DATA_END = 9, /* FAXPAGES_END_OF_DATA: rows of unknown height end with the data, after
                            * a whole row */
    FAXPAGES_MORE = 10     /* the next row is not settled by these bytes of a strip */
};

/* The same by a name that is not one letter short of the fault FAXPAGES_DATA_ENDS: use this one. */
#define FAXPAGES_END_OF_DATA FAXPAGES_DATA_END

/* The faults: below 100 of a file, of which those from 7 to 10 have the tag of a field; from 101 on
   of a strip's data; from 201 on of a conversion. */
enum faxpages_fault_number {
    FAXPAGES_NO_FAULT = 0,
    /* The file has fewer than eight bytes. */
    FAXPAGES_SHORT_HEADER = 1,
    /* It begins with neither II nor MM: not a TIFF file. */
    FAXPAGES_BYTE_ORDER = 2,
    /* The number after the byte order is not 42: not a TIFF file, or BigTIFF. */
    FAXPAGES_MAGIC = 3,
    /* The header names no page. */
    FAXPAGES_NO_DIRECTORY = 4,
    /* A page's directory lies outside the file: usually the end of the file is missing. */
    FAXPAGES_DIRECTORY_OUTSIDE = 5,
    /* A directory is followed by itself or an earlier one. All pages come before the fault. */
    FAXPAGES_DIRECTORY_LOOP = 6,
    /* The field with this tag is missing. */
    FAXPAGES_MISSING_FIELD = 7,
    /* The field is neither SHORT nor LONG, has too few values in the file, or is a RowsPerStrip of
     * 0. */
    FAXPAGES_BAD_FIELD = 8,
    /* A field has a value that no fax page has. */
    FAXPAGES_UNSUPPORTED = 9,
    /* The page is empty, wider than 65,535 pels or longer than 1,000,000 rows. */
    FAXPAGES_OUT_OF_LIMITS = 10,
    /* A strip lies outside the file: usually the end of the file is missing. */
    FAXPAGES_STRIP_OUTSIDE = 11,
    /* A strip ends before its rows do: the sender was cut off, or the page is shorter than it
     * says. */
    FAXPAGES_DATA_ENDS = 101,
    /* The next bits are neither a code nor the beginning of one. */
    FAXPAGES_BAD_CODE = 102,
    /* An extension of T.4 or T.6, such as uncompressed mode, which is not read. */
    FAXPAGES_EXTENSION = 103,
    /* A run passes the width of the page. */
    FAXPAGES_RUN_TOO_LONG = 104,
    /* A vertical mode leads out of the row, or back. */
    FAXPAGES_OUT_OF_ROW = 105,
    /* No EOL stands before the row, in MH or MR. */
    FAXPAGES_MISSING_EOL = 106,
    /* Eleven zeros, as in an end mark, stand in place of a row: the page may be shorter than it
     * says. */
    FAXPAGES_END_MARKER = 107,
    /* A strip of unknown height has more than 1,000,000 rows. */
    FAXPAGES_TOO_MANY_ROWS = 108,
    /* The image does not begin as raw PBM does (P4, width, height). */
    FAXPAGES_PBM_BAD_HEADER = 201,
    /* It is empty, wider than 65,535 pels or longer than 1,000,000 rows. */
    FAXPAGES_PBM_OUT_OF_LIMITS = 202,
    /* Its rows are not all there. */
    FAXPAGES_PBM_SHORT_RASTER = 203,
    /* The input is neither raw PBM nor TIFF. */
    FAXPAGES_UNKNOWN_INPUT = 301,
    /* The output would have more than 268,435,456 bytes, or a TIFF file more than 65,535 pages. */
    FAXPAGES_OUTPUT_TOO_LARGE = 302
};

/* A fault, with the page and the row that was next: row 0 for a fault of the header, of a directory
   or of a field. All 0 if there is none. */
struct faxpages_fault {
    uint32_t number; /* enum faxpages_fault_number */
    uint32_t tag;    /* the tag of the field at fault (TIFF 6.0), or 0 */
    uint32_t page;
    uint32_t row;
};

/* What a call wrote, and where to continue: the next page and row. If the call takes a place, that
   has the same page and row. */
struct faxpages_told {
    size_t count;  /* how many forms or rows were written */
    size_t used;   /* how many numbers of `out` were written */
    uint32_t page; /* where to continue, or where the call began, if it wrote nothing */
    uint32_t row;
    struct faxpages_fault fault;
};

/* The form of a page. Without a readable resolution it has 204 by 196 to the inch. */
struct faxpages_form {
    uint32_t width;          /* pels of a row, 1 to 65535 */
    uint32_t rows;           /* 1 to 1000000 */
    uint32_t coding;         /* 1 MH, 2 MR, 3 MMR */
    uint32_t order;          /* which bit of a byte is first: 1 the highest, 2 the lowest */
    uint32_t aligned;        /* 1 if each EOL ends on a byte boundary, else 0 */
    uint32_t exchanged;      /* 1 if black is coded as white and white as black, else 0 */
    uint32_t rows_per_strip; /* of each strip but the last, which may have fewer */
    uint32_t strips;
    uint32_t x_numerator, x_denominator; /* pels of a row in a unit, as a fraction */
    uint32_t y_numerator, y_denominator; /* rows in a unit */
    uint32_t unit;                       /* 1 none, 2 inch, 3 centimetre */
};

/* Writes the forms of pages from `page` on, at most `forms_room`; forms[i] is that of page `page` +
   i, and `count` of `told` says how many there are. DONE, END, FAULT or OUTSIDE. With room for none
   it is DONE, and nothing is read, even if there is no such page. Each call follows the file's
   chain of directories from its beginning: list many pages a call. */
uint32_t faxpages_forms(const uint8_t *file, size_t file_len, uint32_t page,
                        struct faxpages_form *forms, size_t forms_room,
                        struct faxpages_told *told);

/* Where a written row is: `len` numbers of `out` from out[at] on. */
struct faxpages_row {
    size_t at;
    uint32_t len;
    uint32_t page;
    uint32_t row;
    uint32_t width; /* its pels, 1 to 65535 */
};

/* The bytes of the widest row. */
#define FAXPAGES_ROW_BYTES 8192

/* Writes rows from a page and a row on, over pages, up to the end of the file: at most `rows_room`
   of them, and as many as fit in `out`. Each has (width + 7) / 8 bytes, the highest bit first, 1
   for black, with zeros after the last pel; there is nothing between rows. rows[i] says where each
   is. The row after a page's last is the next page's first, so page 2 with the number of its rows
   is page 3, row 0. DONE, END, FAULT, OUTSIDE, MEMORY or NO_ROOM. With rows_room 0 it is DONE, and
   nothing is read, even if there is no such page or row.

   A strip is read from its beginning: if a call begins inside one, the rows before are read again.
   So use faxpages_rows_from in a loop, and this call for a single page. */
uint32_t faxpages_rows(const uint8_t *file, size_t file_len, uint32_t page, uint32_t row,
                       struct faxpages_row *rows, size_t rows_room, uint8_t *out, size_t out_room,
                       struct faxpages_told *told);

/* Where to continue: a page and a row. If `runs` is not 0 it is a place inside a strip: `bits` is
   the number of bits of the strip before it, and `runs` the number of runs of the row before it,
   which are in a buffer beside it. {0, 0, 0, 0} is the beginning of a file, and {page, row, 0, 0}
   any row. */
struct faxpages_place {
    uint32_t page;
    uint32_t row;
    uint32_t bits;
    uint32_t runs;
};

/* The most runs of a row. */
#define FAXPAGES_RUNS 65536

/* Does the same from a place on, and leaves there the place after the written rows, after DONE and
   NO_ROOM alike, so that no written row is read again: begin with {0, 0, 0, 0}, and call while it
   is DONE or NO_ROOM. That ends for any file, if rows_room is not 0 and `out` has room for a row.
   Each call follows the chain of directories up to its page: ask for thousands of rows a call, over
   pages, and a file is read in a time in proportion to its length and its rows.

   `runs` has the runs of the place, before the call and after it; let runs_room be FAXPAGES_RUNS.
   No run after the first FAXPAGES_RUNS is changed. If a row was written, of these the ones after
   the place's own may change. If none was, a place inside a strip stays, and so do all runs.
   Otherwise the place is a page and a row alone exactly if a strip begins there, if its runs have
   no room, or if more than 4294967295 bits of the strip are before it. In the last two cases the
   next call reads the strip from its beginning again: a loop over such a strip, of over 512 MB,
   takes a time quadratic in its rows.

   If runs_room is less than the runs of the place, the call is OUTSIDE, and changes only `told`. A
   place that no call returned for this file may be OUTSIDE or FAULT, or give other rows. */
uint32_t faxpages_rows_from(const uint8_t *file, size_t file_len, struct faxpages_place *place,
                            uint32_t *runs, size_t runs_room, struct faxpages_row *rows,
                            size_t rows_room, uint8_t *out, size_t out_room,
                            struct faxpages_told *told);

/* Instead of bytes, the runs of rows: out[at], out[at + 1] .. are the lengths in pels of a row's
   longest runs of one colour, white first; the first is 0 if the row begins black, and no other is.
   A row has at most `width` + 1 runs, so FAXPAGES_RUNS numbers hold any row. */
uint32_t faxpages_runs(const uint8_t *file, size_t file_len, uint32_t page, uint32_t row,
                       struct faxpages_row *rows, size_t rows_room, uint32_t *out, size_t out_room,
                       struct faxpages_told *told);
uint32_t faxpages_runs_from(const uint8_t *file, size_t file_len, struct faxpages_place *place,
                            uint32_t *runs, size_t runs_room, struct faxpages_row *rows,
                            size_t rows_room, uint32_t *out, size_t out_room,
                            struct faxpages_told *told);

/* The changing elements of rows: the numbers of the pels, from 0, whose colour differs from the pel
   before them, with white before the first (T.4, 4.2.1.3.1). At most `width`. */
uint32_t faxpages_changes(const uint8_t *file, size_t file_len, uint32_t page, uint32_t row,
                          struct faxpages_row *rows, size_t rows_room, uint32_t *out,
                          size_t out_room, struct faxpages_told *told);
uint32_t faxpages_changes_from(const uint8_t *file, size_t file_len, struct faxpages_place *place,
                               uint32_t *runs, size_t runs_room, struct faxpages_row *rows,
                               size_t rows_room, uint32_t *out, size_t out_room,
                               struct faxpages_told *told);

/* Writes a page's rows into a raster: row i in the `stride` bytes from out[i * stride] on, packed
   as by faxpages_rows, with zeros, which are white, up to the stride. `form` is written if the file
   has the page, even with out_room 0: so ask for its size first. `count` of `told` says how many
   rows were written, before a fault too.

   In this order: END, if the file has exactly `page` pages, OUTSIDE, if it has fewer, or FAULT, at
   a fault of the header, a directory or a field: then no form is written. NO_ROOM, if `stride` is
   less than (width + 7) / 8: then no row is looked at. Otherwise DONE, if all rows are written;
   FAULT, at a row that cannot be read, even if it would have no room; NO_ROOM, if `out` has no room
   for `stride` more bytes; or MEMORY, and then no row is written. */
uint32_t faxpages_page(const uint8_t *file, size_t file_len, uint32_t page,
                       struct faxpages_form *form, uint8_t *out, size_t out_room, size_t stride,
                       struct faxpages_told *told);

/* Rows of a page or a strip that are lost, one after another. */
struct faxpages_lost {
    uint32_t row;   /* the first of them, from 0 */
    uint32_t rows;  /* how many they are */
    uint32_t fault; /* why the first of them is lost: enum faxpages_fault_number */
};

/* Writes the rows of a page that may be damaged into a raster: each found row as faxpages_page has
   it, and zeros, which are white, for each lost row. In MH and MR a row is found if it can be read
   and an EOL follows it, or nothing but zeros, or it is the last one of its strip; after a lost row
   the next one is expected at the next EOL. A two-dimensional row after a lost one is lost too,
   with that one's fault. In MMR all rows of a strip after one that cannot be read are lost. No row
   is copied or guessed. `lost` says which rows are lost, in order: a stretch ends where a row is
   found or the page ends, and has the fault of its first row, which is STRIP_OUTSIDE or one of a
   strip's data.

   `form` is written as by faxpages_page. A page has at most (rows + 1) / 2 stretches. `count` of
   `told` says how many rows the page has, and `used` how many stretches, even if `lost` has room
   for fewer; both are 0 if no row is written. A page after a refused one has its number.

   In this order: END, OUTSIDE or FAULT, as for faxpages_page. NO_ROOM, if `stride` is less than
   (width + 7) / 8, or out_room less than rows * stride: then nothing else is written, and no row is
   looked at; MEMORY, where nothing else is written either. Otherwise all rows are written, and the
   first stretches, as many as have room: DONE, if these are all, or NO_ROOM. */
uint32_t faxpages_salvage(const uint8_t *file, size_t file_len, uint32_t page,
                          struct faxpages_form *form, uint8_t *out, size_t out_room, size_t stride,
                          struct faxpages_lost *lost, size_t lost_room,
                          struct faxpages_told *told);

/* Does the same from a place on, as much as has room: writes the found rows, one after another in
   `stride` bytes each, and nothing for lost rows; and the stretches of these. So each row from the
   place's row on, up to the row in `told`, is either in a stretch or written, in order. Begin with
   {page, 0, 0, 0}, and call while it is DONE: the stretches of all calls are those that
   faxpages_salvage writes. That ends for any file if a row and a stretch have room, and no row is
   read twice.

   DONE after the first found row that leaves no room in `out` for one more row, or in `lost` for
   one more stretch, also if it is the page's last; otherwise END after the page's last row. `count`
   of `told` says how many rows were written, `used` how many stretches, and `page` and `row` are
   those of the place after them, which is left there with its runs; no other run is changed.

   In this order: NO_OPTIONS, if file_len is more than 536870911, or runs_room less than
   FAXPAGES_RUNS: then `told` is unchanged. END, OUTSIDE or FAULT, as for faxpages_page; NO_ROOM, if
   no row has room, since `stride` is less than (width + 7) / 8, or out_room less than `stride`, or
   if lost_room is 0; END, at the row after the page's last one, where `row` is that of the form;
   OUTSIDE, at a row after that, at one inside a strip if the place has no runs, at bits after those
   that the file has of the strip, or with runs that no row of the width has; or MEMORY. Then
   nothing else is written, and the place stays.

   Any place may be passed: row `row` is read after `bits` bits of its strip, over a row of these
   runs, which counts as found. Without runs it is the first row of a strip, and `bits` do not
   matter. Ask for thousands of rows a call. */
uint32_t faxpages_salvage_from(const uint8_t *file, size_t file_len, struct faxpages_place *place,
                               uint32_t *runs, size_t runs_room, uint8_t *out, size_t out_room,
                               size_t stride, struct faxpages_lost *lost, size_t lost_room,
                               struct faxpages_told *told);

/* The bad rows that the receiver of a page counted, those that it could not read, in three fields
   of TIFF-F (RFC 2306): each number, and before it 1. Both are 0 if there is no such field, it is
   neither SHORT nor LONG, or its first value lies outside the file. If two entries have the tag,
   the first one counts. */
struct faxpages_received {
    uint32_t has_bad_rows;
    uint32_t bad_rows; /* 326, BadFaxLines: how many rows were bad */
    uint32_t has_clean;
    uint32_t clean; /* 327, CleanFaxData: 0 if no row was bad; 1 if some were, and the receiver
                     * replaced them; 2 if bad rows are in the data */
    uint32_t has_consecutive;
    uint32_t consecutive; /* 328, ConsecutiveBadFaxLines: how many bad rows came one after another,
                           * at most */
    struct faxpages_fault fault;
};

/* Writes them. These fields are never a fault. DONE; or END, OUTSIDE or FAULT, as for
   faxpages_page: then all numbers are 0. Receivers need not count, and may count too few: a page
   without such a number may have bad rows. */
uint32_t faxpages_received(const uint8_t *file, size_t file_len, uint32_t page,
                           struct faxpages_received *received);

/* The form of a strip of rows with no file around it, as a fax is on the line, or in a PDF. */
struct faxpages_strip {
    uint32_t width;   /* pels of a row, 1 to 65535 */
    uint32_t rows;    /* 1 to 1000000; to read, 0 if the height is unknown */
    uint32_t coding;  /* 1 MH, 2 MR, 3 MMR */
    uint32_t order;   /* which bit of a byte is first: 1 the highest, 2 the lowest */
    uint32_t aligned; /* in MH and MR, 1 if each EOL is written so that it ends on a byte
                       * boundary, else 0; rows are read the same either way */
};

/* Reads rows of a strip into a raster, as for faxpages_page, as many as `out` has room for, from a
   place on, and leaves there the place after them. Begin with {0, 0, 0, 0}, and call while it is
   DONE and there is room for a row: with less it is NO_ROOM, however often it is called. A raster
   that is just full is DONE, after the strip's last row too, where `row` of the place is the form's
   `rows`. `page` of the place is the caller's own, and is reported with a fault. Of `runs` only
   those of the place are changed; runs_room is at least FAXPAGES_RUNS. If no row is written, the
   place stays.

   In this order: NO_OPTIONS, if the form is invalid, strip_len is more than 536870911, or runs_room
   is less than FAXPAGES_RUNS: then `told` is unchanged; NO_ROOM, if no row has room, since `stride`
   is less than (width + 7) / 8, or out_room is less than `stride`; END, at the row after the last
   of the form, or how the rows end if its `rows` is 0; OUTSIDE, at a row after that, at bits after
   the strip, or with runs that no row of the width has; and MEMORY, and then no row is written.
   Otherwise rows are read: DONE, if `out` is full; END, if all rows of the form were read; or
   FAULT, at a row that cannot be read.

   At unknown height, with `rows` 0, there may be up to 1000000 rows, and the call reports how they
   end: END, if an end mark is where the next row would be, a return to control in MH and MR, the
   end of facsimile block in MMR; END_OF_DATA, if at least one row was read and only zeros remain;
   FAULT, if the next row cannot be read, as with DATA_ENDS if it is cut; or FAULT with
   TOO_MANY_ROWS, if more follows 1000000 rows. At row 1000000 the runs are not looked at, and bits
   after the strip are its end; a row after that is OUTSIDE.

   FAULT leaves the place at the row that was next, and so do END and END_OF_DATA if `rows` is 0. So
   if the strip grows, call again after DATA_ENDS from that place with more bytes, or call
   faxpages_strip_part.

   Any place may be passed: row `row` of the strip is read after `bits` bits of it, over a row of
   these runs, or over a white one if `runs` is 0. To continue after a damaged row, find the next
   EOL and set `bits` to where it begins. If rows of MH have no EOLs (EndOfLine false in a PDF),
   read one row a call, with `row` 0 before each. If rows without EOLs each begin on a byte
   (EncodedByteAlign), read one row a call too, with `bits` rounded up to a multiple of 8 before
   each; with EOLs nothing is rounded, since zeros before them are fill. */
uint32_t faxpages_strip_rows(const uint8_t *strip, size_t strip_len,
                             const struct faxpages_strip *form, struct faxpages_place *place,
                             uint32_t *runs, size_t runs_room, uint8_t *out, size_t out_room,
                             size_t stride, struct faxpages_told *told);

/* Reads rows as faxpages_strip_rows does, of a strip whose first bytes are there and more may
   follow, as from a line. It returns what faxpages_strip_rows would return for all bytes, whatever
   follows these; or MORE, and then the written rows are the same whatever follows, the place stays
   before the next row, and the fault is all 0. It is MORE if these bytes end within the next row,
   or before its place, whose runs are then not looked at; and if the height is unknown, also if the
   rows would end with the data, or, where what remains may still become an end mark, with
   TOO_MANY_ROWS or END_MARKER. What no more bytes can change is returned at once: so a place of
   more than 4294967288 bits, which no strip has, is OUTSIDE. Call again from that place with more
   bytes; if no more come, faxpages_strip_rows says from there how the rows end. */
uint32_t faxpages_strip_part(const uint8_t *strip, size_t strip_len,
                             const struct faxpages_strip *form, struct faxpages_place *place,
                             uint32_t *runs, size_t runs_room, uint8_t *out, size_t out_room,
                             size_t stride, struct faxpages_told *told);

/* Salvages a strip as faxpages_salvage does a page. `page` of `told` is 0.

   In this order: NO_OPTIONS, if the form is invalid, or strip_len is more than 536870911: then
   `told` is unchanged; NO_ROOM, if `stride` is less than (width + 7) / 8, or out_room less than
   rows * stride: then nothing is written; MEMORY, where nothing is written either. Otherwise all
   rows are written, and the first stretches, as many as have room: DONE, if these are all, or
   NO_ROOM.

   At unknown height the rows go up to an end mark, or to the end of the data after a row, or to a
   lost row after which no EOL remains, or to row 1,000,000; the last one too must be followed by an
   EOL or zeros, unless it is row 1,000,000. MEMORY comes before NO_ROOM, and if the raster has no
   room, `row` of `told` is how many rows there are: 3 MB of data can have 1,000,000. Instead of
   DONE the call reports how they end, as faxpages_strip_rows does: END, END_OF_DATA, or FAULT,
   whose row is the lost one, the last; for TOO_MANY_ROWS it is 1,000,000. */
uint32_t faxpages_salvage_strip(const uint8_t *strip, size_t strip_len,
                                const struct faxpages_strip *form, uint8_t *out, size_t out_room,
                                size_t stride, struct faxpages_lost *lost, size_t lost_room,
                                struct faxpages_told *told);

/* What was found in a strip, and after its last row. */
struct faxpages_strip_report {
    uint32_t rows;              /* how many rows were read: without a fault those of the form, or
                                 * all that there are if it has 0 */
    uint32_t no_end_of_block;   /* 1 if note N1 of enum faxpages_note_kind is on it, else 0 */
    uint32_t return_to_control; /* N2 */
    uint32_t data_after_end;    /* N3 */
    uint32_t not_t4_choice;     /* N4 */
    struct faxpages_fault fault;
};

/* Reads all rows of a strip, and reports what follows them. END, if the strip has the rows of the
   form; FAULT, if one cannot be read: then the notes are 0; NO_OPTIONS, if the form is invalid or
   strip_len is more than 536870911, or MEMORY: then the report is unchanged.

   At unknown height `rows` of the report says how many there are. They end as for
   faxpages_strip_rows: END, with an end mark, maybe before any row, or END_OF_DATA, both with the
   notes on a strip of so many rows; or FAULT. */
uint32_t faxpages_strip_check(const uint8_t *strip, size_t strip_len,
                              const struct faxpages_strip *form,
                              struct faxpages_strip_report *report);

/* Codes the rows of a raster as a strip, in the codes that T.4 and T.6 choose, and writes it if it
   has room; `len` says how many bytes it has. Row i is in the (width + 7) / 8 bytes from raster[i *
   stride] on, the highest bit first, 1 for black; what is past its pels does not matter. In MR one
   row in every k is coded by itself; k is at least 1. After the last row is the end of facsimile
   block in MMR, and nothing in MH and MR. DONE; NO_ROOM, if the strip is longer than out_room;
   MEMORY; or NO_OPTIONS, if the form is invalid, k is 0, or raster_len is less than (rows - 1) *
   stride + (width + 7) / 8. `len` is 0 except with DONE and NO_ROOM. */
uint32_t faxpages_strip_code(const struct faxpages_strip *form, uint32_t k, const uint8_t *raster,
                             size_t raster_len, size_t stride, uint8_t *out, size_t out_room,
                             size_t *len);

/* Does the same with rows as runs, as faxpages_runs writes them: row i has the rows[i].len runs
   from runs[rows[i].at] on; the rest of rows[i] does not matter. It is NO_OPTIONS too if `rows` has
   fewer than the form says, or the runs of one lie outside `runs`, or are not the longest ones of a
   row of its width. */
uint32_t faxpages_strip_code_runs(const struct faxpages_strip *form, uint32_t k,
                                  const struct faxpages_row *rows, size_t rows_len,
                                  const uint32_t *runs, size_t runs_len, uint8_t *out,
                                  size_t out_room, size_t *len);

/* How far a file is written. Before the first page all but `total` is 0; calls set the rest. */
struct faxpages_written {
    size_t len;     /* how many bytes it has */
    uint32_t link;  /* where in it the offset of the next page's directory is */
    uint32_t total; /* how many pages it will have, 1 to 65535, which each page says; or 0, if that
                     * is unknown: faxpages_end_pages writes it into each at the end */
    uint32_t added; /* how many were added */
};

/* Codes the rows of a raster, as faxpages_strip_code does, as a page of this form, and adds it to a
   file in the caller's memory, which begins at file[0] and has `len` bytes so far. After DONE these
   are a whole TIFF-F file of the pages so far. The form is as faxpages_forms writes it: `exchanged`
   is 0, rows_per_strip is 1 to `rows`, which is one strip, and `strips` is rows / rows_per_strip,
   rounded up. Except with DONE nothing is changed. The caller keeps `written` and the file as the
   last call left them; otherwise the bytes are no TIFF-F file.

   In this order: NO_OPTIONS, if the form is invalid, k is 0, raster_len is less than (rows - 1) *
   stride + (width + 7) / 8, `total` is more than 65535, or all pages were added, of which there are
   never more than 65535; or, if some were, if `len` is less than 8 or more than 268435456, or
   `link` less than 4 or more than `len` - 4. NO_ROOM, if the file so far has more than file_room
   bytes. NO_OPTIONS, if the last page says another `total`: it stays the same from the first page
   on. MEMORY or TOO_LARGE, since the page is coded in its own memory. NO_ROOM, if the file with the
   page has more than file_room bytes: call again with more. */
uint32_t faxpages_add_page(const struct faxpages_form *form, uint32_t k, const uint8_t *raster,
                           size_t raster_len, size_t stride, uint8_t *file, size_t file_room,
                           struct faxpages_written *written);

/* Writes into each page of a file that faxpages_add_page wrote how many there are, whatever it
   said, and sets `total` to that: the file is then byte for byte the one whose number of pages was
   known from the beginning, which faxpages_convert writes. No page is added after that. DONE;
   NO_ROOM, if the file has more than file_room bytes; or NO_OPTIONS, if no page was added, or more
   than 65535, `len` is less than 8 or more than 268435456, or as many directories as pages were
   added, of 16 fields or more, each after the offset that leads to it and the last one just before
   `link`, are not in the `len` bytes. Except with DONE nothing is changed, and with DONE two bytes of each page at most.
   NO_ROOM comes before NO_OPTIONS for such directories, and after it for the numbers. */
uint32_t faxpages_end_pages(uint8_t *file, size_t file_room, struct faxpages_written *written);

/* Writes a place as text if it has room, and its length in bytes into `len`: a page and a row as
   1:P:R, a place inside a strip as 2:P:R:B:n,n,.. with its bits and its runs, as the program
   faxpages prints them. DONE; NO_ROOM, if it is longer than text_room; OUTSIDE, if runs_room is
   less than the runs of the place, or MEMORY: then `len` is 0. The text of a place that a call
   returned has at most 131102 bytes, that of a page and a row 23. */
uint32_t faxpages_place_text(const struct faxpages_place *place, const uint32_t *runs,
                             size_t runs_room, uint8_t *text, size_t text_room, size_t *len);

/* Reads a place from such a text. DONE; NO_PLACE, if the text is not that of a place, or has more
   than FAXPAGES_RUNS runs; NO_ROOM, if `runs` has no room for its runs; or MEMORY. Except with DONE
   nothing is changed. A page and a row change no run, any other place none after its own. */
uint32_t faxpages_place_parse(const uint8_t *text, size_t text_len, struct faxpages_place *place,
                              uint32_t *runs, size_t runs_room);

/* The kinds of notes: what may trouble other readers of a file. */
enum faxpages_note_kind {
    FAXPAGES_NO_END_OF_BLOCK = 1,      /* N1: a strip of MMR without its end of facsimile block */
    FAXPAGES_RETURN_TO_CONTROL = 2,    /* N2: a strip of MH or MR with a return to control */
    FAXPAGES_DATA_AFTER_END = 3,       /* N3: a strip with a 1 after its last row and end mark */
    FAXPAGES_NOT_T4_CHOICE = 4,        /* N4: a strip with a row in other codes than T.4's choice */
    FAXPAGES_ENTRIES_OUT_OF_ORDER = 5, /* N5: a directory whose entries do not ascend */
    FAXPAGES_BAD_FAX_LINES = 6 /* N6: a page whose receiver counted bad rows: `check --received` and
                                * faxpages_received report it, faxpages_check does not */
};

/* A note on a page, or on a strip of it. */
struct faxpages_note {
    uint32_t page;
    uint32_t strip; /* from 0, or FAXPAGES_NO_STRIP if the note is on the page's directory */
    uint32_t kind;  /* enum faxpages_note_kind */
};

#define FAXPAGES_NO_STRIP 4294967295u

/* What was found in a file up to its first fault. */
struct faxpages_report {
    uint64_t pages; /* how many pages were read wholly */
    uint64_t rows;  /* how many rows were read */
    size_t notes;   /* how many notes there are, which may be more than notes_room */
    struct faxpages_fault fault;
};

/* Reads all rows of a file up to its first fault, and writes the first notes, as many as have room:
   those of a page together, first the one on its directory, then those on its strips in order. END,
   FAULT, or MEMORY, where nothing is written. */
uint32_t faxpages_check(const uint8_t *file, size_t file_len, struct faxpages_note *notes,
                        size_t notes_room, struct faxpages_report *report);

/* How a file is written. For PBM only the target matters, but the others must be in range. */
struct faxpages_options {
    uint32_t target;  /* 0 raw PBM; TIFF-F in 1 MH, 2 MR, 3 MMR */
    uint32_t order;   /* which bit of a byte is first: 1 the highest, 2 the lowest */
    uint32_t k;       /* in MR, a row in this many is coded by itself; at least 1 */
    uint32_t strip;   /* the rows of a strip, or 0 if a page is one strip */
    uint32_t aligned; /* in MH and MR, 1 if each EOL has to end on a byte boundary, else 0 */
};

/* How long the output is, or why there is none. */
struct faxpages_converted {
    size_t len;     /* how many bytes the output has, even without room */
    uint64_t image; /* the image of a PBM at fault, from 0 */
    struct faxpages_fault fault;
};

/* Converts a file: raw PBM if it begins with P4, and TIFF-F if it begins with II or MM, into raw
   PBM or TIFF-F. DONE; NO_ROOM, where `len` says how much is needed (let out_room be 0 to ask);
   FAULT, without output; NO_OPTIONS or MEMORY, with all of `converted` 0. */
uint32_t faxpages_convert(const uint8_t *file, size_t file_len,
                          const struct faxpages_options *options, uint8_t *out, size_t out_room,
                          struct faxpages_converted *converted);

/* Writes the pages of a damaged TIFF-F file, as faxpages_convert writes those of a sound one: rows
   that faxpages_salvage finds, and white ones in place of lost rows. A page with lost rows, or
   whose receiver counted bad rows, has the fields 326 BadFaxLines, 327 CleanFaxData and 328
   ConsecutiveBadFaxLines (RFC 2306); a page without a form is left out. END, with all of
   `converted` 0, if no page has a form; FAULT only if the output would be too large; otherwise as
   faxpages_convert. */
uint32_t faxpages_salvage_convert(const uint8_t *file, size_t file_len,
                                  const struct faxpages_options *options, uint8_t *out,
                                  size_t out_room, struct faxpages_converted *converted);

/* Writes the name of a fault by its number, as `DataEnds`, without a 0 after it, if it has room: 16
   bytes are enough. Returns how many bytes the name has, 0 if no fault has this number. */
size_t faxpages_fault_name(uint32_t number, uint8_t *name, size_t name_room);

/* The same for a status, as `NoRoom`, and for a note's kind, as `ReturnToControl`: 17 bytes are
   enough. */
size_t faxpages_status_name(uint32_t status, uint8_t *name, size_t name_room);
size_t faxpages_note_name(uint32_t kind, uint8_t *name, size_t name_room);

/* The version as a number, 10500 for 1.5.0; and as text, as faxpages_fault_name writes names. */
uint32_t faxpages_version(void);
size_t faxpages_version_text(uint8_t *text, size_t text_room);

#ifdef __cplusplus
}
#endif

#endif
