/* received: reads what receivers.py prints, and sees that the call for what the receiver of a page counted tells the same
 * of each page. The file and what is written end at a page that nobody may touch. Prints how many pages were tried, how
 * many of them are there, and how many numbers these have. */
#include "words.h"
#include <faxpages.h>

static char line[1 << 20];

/* A number that a page may have, or `-`: whether it is there, and the number, or 0. */
static uint32_t is_there(uint32_t *found) {
    const char *text = word();
    *found = *text == '-' ? 0 : (uint32_t)strtoul(text, NULL, 10);
    return *text != '-';
}

/* The page of a line, and how many numbers it has; or -1, if the file has no such page. */
static int see_page(void) {
    struct faxpages_received wanted, *told;
    struct guarded file, out = make(sizeof wanted);
    uint32_t page = (uint32_t)strtoul(strtok(line, " \n"), NULL, 10), status = number();
    memset(&wanted, 0, sizeof wanted);
    wanted.fault.number = number();
    wanted.fault.tag = number();
    wanted.has_bad_rows = is_there(&wanted.bad_rows);
    wanted.has_clean = is_there(&wanted.clean);
    wanted.has_consecutive = is_there(&wanted.consecutive);
    file = digits();
    if (faxpages_received(file.at, file.len, page, (void *)out.at) != status) die("another status is returned");
    see(out, sizeof wanted);
    told = (void *)out.at;
    /* At the header, the directory or the page itself, which are none after this one. */
    if (told->fault.page > page || told->fault.row) die("the fault stands at another page");
    wanted.fault.page = told->fault.page;
    if (memcmp(told, &wanted, sizeof wanted)) die("another number is told");
    drop(file);
    drop(out);
    return status ? -1 : (int)(wanted.has_bad_rows + wanted.has_clean + wanted.has_consecutive);
}

int main(void) {
    unsigned tried = 0, there = 0, numbers = 0;
    while (fgets(line, sizeof line, stdin)) {
        int found = see_page();
        tried++;
        there += found >= 0;
        numbers += found > 0 ? (unsigned)found : 0;
    }
    printf("%u pages, %u there, %u numbers\n", tried, there, numbers);
    return 0;
}
