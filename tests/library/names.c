/* names: prints the number and the name of each fault; names statuses, names notes: of each status, of each note; names
 * version: the version as number and text. */
#include <faxpages.h>
#include <stdio.h>
#include <string.h>

static size_t (*name_of)(uint32_t number, uint8_t *name, size_t name_room) = faxpages_fault_name;

int main(int count, char **words) {
    uint8_t text[24];
    size_t len;
    uint32_t number;
    if (count > 1 && strcmp(words[1], "version") == 0) {
        len = faxpages_version_text(text, sizeof text);
        printf("%u %.*s\n", (unsigned)faxpages_version(), (int)len, (char *)text);
        return 0;
    }
    if (count > 1) name_of = strcmp(words[1], "notes") == 0 ? faxpages_note_name : faxpages_status_name;
    for (number = 0; number < 2000; number++)
        if ((len = name_of(number, text, sizeof text)) > 0)
            printf("%u %.*s\n", (unsigned)number, (int)len, (char *)text);
    /* A name without room is only measured. */
    return faxpages_fault_name(101, text, 7) != 8;
}
