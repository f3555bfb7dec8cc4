/* The library as a later version of it may be: it answers with numbers that are in no header of today, as FAXPAGES_LATER in
 * the environment asks for. tests/library/later builds it over a library, whose calls are called now_.. here.
 *
 * notes: faxpages_check reports the note 98, which this library calls LaterNote, and the note 99, which has no name;
 * fault: calls end with the fault 99, which has no name, of the field 300; status: calls return 99. */
#include <faxpages.h>
#include <stdlib.h>
#include <string.h>

enum { NAMED = 98, UNNAMED = 99, TAG = 300 };

static const struct faxpages_fault later_fault = {UNNAMED, TAG, 0, 0};

static int asks_for(const char *what) {
    const char *asked = getenv("FAXPAGES_LATER");
    return asked && !strcmp(asked, what);
}

/* Whether a call ends otherwise than those of today; then all that it tells is 0 but for the fault. */
static int is_later(void *told, size_t size, struct faxpages_fault *fault, uint32_t *status) {
    if (!asks_for("fault") && !asks_for("status")) return 0;
    memset(told, 0, size);
    *status = UNNAMED;
    if (asks_for("fault")) {
        *fault = later_fault;
        *status = FAXPAGES_FAULT;
    }
    return 1;
}

#define TOLD(told) is_later(told, sizeof *(told), &(told)->fault, &status)

uint32_t now_check(const uint8_t *, size_t, struct faxpages_note *, size_t, struct faxpages_report *);

uint32_t faxpages_check(const uint8_t *file, size_t file_len, struct faxpages_note *notes, size_t notes_room,
                        struct faxpages_report *report) {
    static const struct faxpages_note later[] = {{0, 0, NAMED}, {0, FAXPAGES_NO_STRIP, UNNAMED}};
    uint32_t status;
    if (TOLD(report)) return status;
    status = now_check(file, file_len, notes, notes_room, report);
    if (asks_for("notes")) {
        report->notes = 2;
        memcpy(notes, later, (notes_room < 2 ? notes_room : 2) * sizeof *notes);
    }
    return status;
}

uint32_t now_forms(const uint8_t *, size_t, uint32_t, struct faxpages_form *, size_t, struct faxpages_told *);

uint32_t faxpages_forms(const uint8_t *file, size_t file_len, uint32_t page, struct faxpages_form *forms,
                        size_t forms_room, struct faxpages_told *told) {
    uint32_t status;
    return TOLD(told) ? status : now_forms(file, file_len, page, forms, forms_room, told);
}

#define FROM(name, type)                                                                                               \
    uint32_t now_##name(const uint8_t *, size_t, struct faxpages_place *, uint32_t *, size_t, struct faxpages_row *,   \
                        size_t, type *, size_t, struct faxpages_told *);                                               \
    uint32_t faxpages_##name(const uint8_t *file, size_t file_len, struct faxpages_place *place, uint32_t *runs,       \
                             size_t runs_room, struct faxpages_row *rows, size_t rows_room, type *out,                 \
                             size_t out_room, struct faxpages_told *told) {                                            \
        uint32_t status;                                                                                               \
        return TOLD(told) ? status                                                                                     \
                          : now_##name(file, file_len, place, runs, runs_room, rows, rows_room, out, out_room, told);  \
    }

FROM(rows_from, uint8_t)
FROM(runs_from, uint32_t)
FROM(changes_from, uint32_t)

uint32_t now_salvage(const uint8_t *, size_t, uint32_t, struct faxpages_form *, uint8_t *, size_t, size_t,
                     struct faxpages_lost *, size_t, struct faxpages_told *);

uint32_t faxpages_salvage(const uint8_t *file, size_t file_len, uint32_t page, struct faxpages_form *form, uint8_t *out,
                          size_t out_room, size_t stride, struct faxpages_lost *lost, size_t lost_room,
                          struct faxpages_told *told) {
    uint32_t status;
    return TOLD(told) ? status : now_salvage(file, file_len, page, form, out, out_room, stride, lost, lost_room, told);
}

uint32_t now_strip_rows(const uint8_t *, size_t, const struct faxpages_strip *, struct faxpages_place *, uint32_t *,
                        size_t, uint8_t *, size_t, size_t, struct faxpages_told *);

uint32_t faxpages_strip_rows(const uint8_t *strip, size_t strip_len, const struct faxpages_strip *form,
                             struct faxpages_place *place, uint32_t *runs, size_t runs_room, uint8_t *out,
                             size_t out_room, size_t stride, struct faxpages_told *told) {
    uint32_t status;
    return TOLD(told) ? status
                      : now_strip_rows(strip, strip_len, form, place, runs, runs_room, out, out_room, stride, told);
}

uint32_t now_strip_check(const uint8_t *, size_t, const struct faxpages_strip *, struct faxpages_strip_report *);

uint32_t faxpages_strip_check(const uint8_t *strip, size_t strip_len, const struct faxpages_strip *form,
                              struct faxpages_strip_report *report) {
    uint32_t status;
    return TOLD(report) ? status : now_strip_check(strip, strip_len, form, report);
}

uint32_t now_convert(const uint8_t *, size_t, const struct faxpages_options *, uint8_t *, size_t,
                     struct faxpages_converted *);

uint32_t faxpages_convert(const uint8_t *file, size_t file_len, const struct faxpages_options *options, uint8_t *out,
                          size_t out_room, struct faxpages_converted *converted) {
    uint32_t status;
    return TOLD(converted) ? status : now_convert(file, file_len, options, out, out_room, converted);
}

uint32_t now_salvage_convert(const uint8_t *, size_t, const struct faxpages_options *, uint8_t *, size_t,
                             struct faxpages_converted *);

uint32_t faxpages_salvage_convert(const uint8_t *file, size_t file_len, const struct faxpages_options *options,
                                  uint8_t *out, size_t out_room, struct faxpages_converted *converted) {
    uint32_t status;
    return TOLD(converted) ? status : now_salvage_convert(file, file_len, options, out, out_room, converted);
}

uint32_t now_place_parse(const uint8_t *, size_t, struct faxpages_place *, uint32_t *, size_t);

uint32_t faxpages_place_parse(const uint8_t *text, size_t text_len, struct faxpages_place *place, uint32_t *runs,
                              size_t runs_room) {
    return asks_for("status") ? UNNAMED : now_place_parse(text, text_len, place, runs, runs_room);
}

size_t now_note_name(uint32_t, uint8_t *, size_t);

size_t faxpages_note_name(uint32_t kind, uint8_t *name, size_t name_room) {
    static const char later[] = "LaterNote";
    if (kind != NAMED) return now_note_name(kind, name, name_room);
    if (name_room >= sizeof later - 1) memcpy(name, later, sizeof later - 1);
    return sizeof later - 1;
}
