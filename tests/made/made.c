/* Prints the name of the note that was made, and how many strips a page has that is written by the option that was made. */
#include <stdio.h>

#include "faxpages.h"

int main(int count, char **words) {
    static uint8_t bytes[4096], out[8192];
    uint8_t name[32];
    size_t name_len = faxpages_note_name(FAXPAGES_DATA_AFTER_MARK, name, sizeof name);
    struct faxpages_options options = {.target = 1, .order = 1, .k = 4, .halves = 1};
    struct faxpages_converted converted;
    struct faxpages_form form;
    struct faxpages_told told;
    FILE *file = fopen(words[count - 1], "rb");
    size_t len = file ? fread(bytes, 1, sizeof bytes, file) : 0;

    if (faxpages_convert(bytes, len, &options, out, sizeof out, &converted) != FAXPAGES_DONE ||
        faxpages_forms(out, converted.len, 0, &form, 1, &told) == FAXPAGES_FAULT)
        return 1;
    printf("N%d %.*s\nhalves: %u strips\n", FAXPAGES_DATA_AFTER_MARK, (int)name_len, (const char *)name, form.strips);
    return 0;
}
