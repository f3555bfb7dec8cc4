/* loops CALL ROWS ROOM: reads a blank strip of so many rows to its end by the loop of faxpages(3), with room for so many
 * numbers a call, so that nearly each call ends with NO_ROOM; CALL is rows, runs or changes, or strip, which reads the bare
 * strip, where each call but the last is DONE. Prints how many rows it read, and how many calls that took. */
#include "blank.h"
#include <faxpages.h>
#include <stdio.h>

enum { WIDTH = 64, STRIDE = WIDTH / 8, ROWS = 4096 };

static struct faxpages_row rows[ROWS];
static struct faxpages_place place;
static uint32_t runs[FAXPAGES_RUNS], numbers[1 << 16];
static uint8_t bytes[1 << 16];

/* The strip stands at the end of the file. */
static uint32_t one_strip_call(const uint8_t *file, size_t len, uint32_t rows_of_strip, size_t room,
                               struct faxpages_told *told) {
    const struct faxpages_strip form = {WIDTH, rows_of_strip, 3, 1, 0};
    size_t strip_len = (rows_of_strip + 7) / 8;
    return faxpages_strip_rows(file + len - strip_len, strip_len, &form, &place, runs, FAXPAGES_RUNS, bytes, room, STRIDE,
                               told);
}

static uint32_t one_call(char call, const uint8_t *file, size_t len, size_t room, struct faxpages_told *told) {
    if (call == 'r')
        return faxpages_rows_from(file, len, &place, runs, FAXPAGES_RUNS, rows, ROWS, bytes, room, told);
    if (call == 'u')
        return faxpages_runs_from(file, len, &place, runs, FAXPAGES_RUNS, rows, ROWS, numbers, room, told);
    return faxpages_changes_from(file, len, &place, runs, FAXPAGES_RUNS, rows, ROWS, numbers, room, told);
}

int main(int count, char **words) {
    struct faxpages_told told;
    uint32_t status;
    size_t len, read = 0, calls = 0, room;
    uint8_t *file;
    char call;
    if (count != 4) return 3;
    call = words[1][1] == 'u' ? 'u' : words[1][0];
    file = blank_fax(WIDTH, (uint32_t)atol(words[2]), &len);
    room = (size_t)atol(words[3]);
    do {
        status = call == 's' ? one_strip_call(file, len, (uint32_t)atol(words[2]), room, &told)
                             : one_call(call, file, len, room, &told);
        read += told.count;
        calls++;
    } while (status == FAXPAGES_DONE || status == FAXPAGES_NO_ROOM);
    printf("%lu rows %lu calls\n", (unsigned long)read, (unsigned long)calls);
    free(file);
    return status == FAXPAGES_END ? 0 : 3;
}
