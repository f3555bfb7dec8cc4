/* Buffers between pages of memory that nobody may touch: what is read or written past one stops the program. Before
 * that nothing is said, where it is not whole pages, so marked bytes stand there and are looked at. */
#ifndef GUARDED_H
#define GUARDED_H
#define _DEFAULT_SOURCE
#include <stdint.h>
#include <stdio.h>
#include <stdlib.h>
#include <string.h>
#include <sys/mman.h>

enum { PAGE = 4096, MARK = 0xA5 };

static void die(const char *why) {
    fprintf(stderr, "library: %s\n", why);
    exit(3);
}

/* A buffer that ends where a page ends, after which nothing may be touched. */
struct guarded {
    uint8_t *pages; /* the page before it, too, may not be touched */
    size_t room;    /* how many bytes the pages between have */
    uint8_t *at;
    size_t len;
};

static struct guarded make(size_t len) {
    struct guarded made;
    made.room = (len / PAGE + 1) * PAGE;
    made.pages = mmap(NULL, made.room + 2 * PAGE, PROT_NONE, MAP_PRIVATE | MAP_ANONYMOUS, -1, 0);
    if (made.pages == MAP_FAILED) die("no memory");
    if (mprotect(made.pages + PAGE, made.room, PROT_READ | PROT_WRITE)) die("no memory");
    memset(made.pages + PAGE, MARK, made.room);
    made.at = made.pages + PAGE + made.room - len;
    made.len = len;
    return made;
}

/* Bytes that may be read and not written. */
static inline struct guarded copy_of(const void *bytes, size_t len) {
    struct guarded made = make(len);
    memcpy(made.at, bytes, len);
    if (mprotect(made.pages + PAGE, made.room, PROT_READ)) die("no memory");
    return made;
}

/* Sees that nothing before a buffer was changed, nor anything of it after so many bytes. */
static void see(struct guarded it, size_t used) {
    const uint8_t *byte;
    for (byte = it.pages + PAGE; byte < it.at; byte++)
        if (*byte != MARK) die("a byte before a buffer was changed");
    for (byte = it.at + used; byte < it.at + it.len; byte++)
        if (*byte != MARK) die("a byte after what was written was changed");
}

static void drop(struct guarded it) { munmap(it.pages, it.room + 2 * PAGE); }

#endif
