/* The words of a line that a caller of strips reads: numbers, and bytes as digits. */
#ifndef WORDS_H
#define WORDS_H
#include "guarded.h"

static char *word(void) {
    char *found = strtok(NULL, " \n");
    if (!found) die("a line is too short");
    return found;
}

static uint32_t number(void) { return (uint32_t)strtoul(word(), NULL, 10); }

/* The bytes of a word of digits, which may be read and not written. */
static struct guarded digits(void) {
    const char *text = word();
    size_t len = *text == '-' ? 0 : strlen(text) / 2, i;
    struct guarded made = make(len);
    for (i = 0; i < len; i++) {
        unsigned byte;
        if (sscanf(text + 2 * i, "%2x", &byte) != 1) die("a word has no digits");
        made.at[i] = (uint8_t)byte;
    }
    if (mprotect(made.pages + PAGE, made.room, PROT_READ)) die("no memory");
    return made;
}

#endif
