/* ended FILES, over libfaxpages: files of 1 to 50 drawn pages are written page by page by a caller that does not know
 * how many will come, or takes them for more, in each coding, and ended; each is then byte for byte what
 * faxpages_convert writes. A total that changes is refused. FILES times a file or its struct is a stranger's: the call
 * changes nothing, or the totals alone. Each buffer ends at a page of memory that nobody may touch. Prints how many
 * files were written, how many of a stranger were ended, and how many were not. */
#include "guarded.h"
#include <faxpages.h>

enum { MOST_PAGES = 50, MOST_SIDE = 40, STRIDE = 8, DIRECTORY = 194 };

static uint64_t state = 74;

static uint32_t draw(uint32_t below) {
    state = state * 6364136223846793005u + 1442695040888963407u;
    return (uint32_t)(state >> 33) % below;
}

/* Pages, and the raw PBM images of them one after another. */
static struct page {
    uint32_t width, rows;
    uint8_t raster[MOST_SIDE * STRIDE];
} pages[MOST_PAGES];
static uint8_t images[MOST_PAGES * (MOST_SIDE * STRIDE + 32)];
static size_t images_len;

static void draw_page(struct page *page) {
    uint32_t row, i, bytes;
    page->width = 1 + draw(MOST_SIDE);
    page->rows = 1 + draw(MOST_SIDE);
    bytes = (page->width + 7) / 8;
    images_len += (size_t)sprintf((char *)images + images_len, "P4\n%u %u\n", (unsigned)page->width,
                                  (unsigned)page->rows);
    for (row = 0; row < page->rows; row++) {
        for (i = 0; i < STRIDE; i++) page->raster[row * STRIDE + i] = (uint8_t)(draw(3) ? 0 : draw(256));
        memcpy(images + images_len, page->raster + row * STRIDE, bytes);
        images_len += bytes;
        /* What stands past the last pel of a row is zero in an image. */
        if (page->width % 8) images[images_len - 1] &= (uint8_t)(0xFF << (8 - page->width % 8));
    }
}

static struct guarded converted(struct faxpages_options to) {
    struct faxpages_converted told;
    struct guarded out = make(0);
    uint32_t status = faxpages_convert(images, images_len, &to, out.at, 0, &told);
    drop(out);
    if (status != FAXPAGES_NO_ROOM) die("images are not converted");
    out = make(told.len);
    if (faxpages_convert(images, images_len, &to, out.at, out.len, &told)) die("images are not converted");
    return out;
}

static uint32_t add(const struct page *page, struct faxpages_options to, struct guarded out,
                    struct faxpages_written *written) {
    struct faxpages_form form = {0, 0, 0, 0, 0, 0, 0, 1, 204, 1, 196, 1, 2};
    form.width = page->width;
    form.rows = page->rows;
    form.coding = to.target;
    form.order = to.order;
    form.aligned = to.aligned;
    form.rows_per_strip = to.strip && to.strip < form.rows ? to.strip : form.rows;
    form.strips = (form.rows + form.rows_per_strip - 1) / form.rows_per_strip;
    return faxpages_add_page(&form, to.k, page->raster, sizeof page->raster, STRIDE, out.at, out.len, written);
}

static int are_same(struct faxpages_written one, struct faxpages_written other) {
    return one.len == other.len && one.link == other.link && one.total == other.total && one.added == other.added;
}

/* The total that the last page says. */
static uint32_t said(struct guarded out, struct faxpages_written written) {
    return out.at[written.link - 2] | (uint32_t)out.at[written.link - 1] << 8;
}

/* A call that has to answer so, and to change nothing. */
static void refuses(struct guarded out, size_t room, struct faxpages_written written, uint32_t wanted) {
    struct faxpages_written before = written;
    struct guarded copy = copy_of(out.at, room);
    if (faxpages_end_pages(out.at, room, &written) != wanted) die("another status");
    if (!are_same(before, written) || memcmp(copy.at, out.at, room)) die("a refused end changes something");
    drop(copy);
}

/* Another total is refused where pages say one, and nothing is changed. */
static void keeps_total(const struct page *page, struct faxpages_options to, struct guarded out,
                        struct faxpages_written written, uint32_t total) {
    struct guarded copy = copy_of(out.at, out.len);
    struct faxpages_written before;
    written.total = total;
    before = written;
    if (add(page, to, out, &written) != FAXPAGES_NO_OPTIONS) die("a total may change");
    if (!are_same(before, written) || memcmp(copy.at, out.at, out.len)) die("a refused page changes something");
    drop(copy);
}

/* Writes a file of so many pages, each of which first says `total`, ends it, and sees that it is the converted one. */
static void write_file(uint32_t count, uint32_t total, struct faxpages_options to) {
    struct guarded wanted = converted(to), out = make(wanted.len);
    struct faxpages_written written = {0, 0, 0, 0}, ended;
    struct faxpages_form forms[MOST_PAGES + 1];
    struct faxpages_told told;
    uint32_t i;
    written.total = total;
    for (i = 0; i < count; i++) {
        if (i) keeps_total(&pages[i], to, out, written, total ? 0 : count);
        if (i) keeps_total(&pages[i], to, out, written, total + 1);
        if (add(&pages[i], to, out, &written)) die("a page is not added");
        if (said(out, written) != total || written.total != total) die("a page says another total");
        if (faxpages_forms(out.at, written.len, 0, forms, MOST_PAGES + 1, &told) != FAXPAGES_END || told.count != i + 1)
            die("the pages so far are no whole file");
    }
    ended = written;
    refuses(out, written.len - 1, written, FAXPAGES_NO_ROOM);
    ended.added--;
    refuses(out, out.len, ended, FAXPAGES_NO_OPTIONS);
    ended.added += 2;
    refuses(out, out.len, ended, FAXPAGES_NO_OPTIONS);
    for (i = 0; i < 2; i++) {
        if (faxpages_end_pages(out.at, out.len, &written)) die("the pages are not ended");
        if (written.total != count || written.added != count || written.len != wanted.len) die("the end is not told");
        if (memcmp(out.at, wanted.at, wanted.len)) die("a file is another than the converted one");
        see(out, written.len);
    }
    if (add(&pages[0], to, out, &written) != FAXPAGES_NO_OPTIONS) die("a page is added after the end");
    drop(out);
    drop(wanted);
}

/* A file of a stranger, and numbers of one: the call ends its pages, or changes nothing. */
static int end_of_a_stranger(void) {
    struct faxpages_options to = {3, 1, 1, 0, 0};
    struct guarded whole, out, copy;
    struct faxpages_written written = {0, 0, 0, 0}, before;
    uint32_t count = 1 + draw(4), i, status, links[8], changed = 0;
    size_t at;
    images_len = 0;
    for (i = 0; i < count; i++) draw_page(&pages[i]);
    whole = converted(to);
    out = make(whole.len);
    for (i = 0; i < count; i++)
        if (add(&pages[i], to, out, &written)) die("a page is not added");
    for (i = draw(3); i; i--) out.at[draw(4) ? draw((uint32_t)out.len) : 4 + draw(4)] = (uint8_t)draw(256);
    switch (draw(8)) {
    case 0: written.len = draw(2) ? (size_t)-1 - draw(300) : draw(300); break;
    case 1: written.link = draw(2) ? 0xFFFFFFFF - draw(300) : draw(1000); break;
    case 2: written.added = draw(2) ? 0xFFFFFFFF - draw(2) : draw(8); break;
    case 3: written.total = draw(2) ? 0xFFFFFFFF - draw(2) : draw(8); break;
    }
    before = written;
    copy = copy_of(out.at, out.len);
    status = faxpages_end_pages(out.at, out.len, &written);
    if (status != FAXPAGES_DONE) {
        if (status != FAXPAGES_NO_OPTIONS && status != FAXPAGES_NO_ROOM) die("another status");
        if (!are_same(before, written) || memcmp(copy.at, out.at, out.len)) die("a refused end changes something");
    } else {
        before.total = before.added;
        if (!are_same(before, written)) die("another number than the total is changed");
        for (i = 0, at = 4; i < written.added; i++) {
            const uint8_t *link = copy.at + at;
            at = (link[0] | (uint32_t)link[1] << 8 | (uint32_t)link[2] << 16 | (uint32_t)link[3] << 24) + DIRECTORY;
            if (at + 4 > written.len) die("a page lies outside the file");
            links[i] = (uint32_t)at;
        }
        if (at != written.link) die("the last page is another one");
        for (at = 0; at < out.len; at++) {
            for (i = 0; i < written.added && at + 2 != links[i] && at + 1 != links[i]; i++) {}
            if (i == written.added && out.at[at] != copy.at[at]) die("a byte of no total is changed");
            if (i < written.added && out.at[at] != (at + 2 == links[i] ? written.added : 0)) die("a total is left");
            changed += out.at[at] != copy.at[at];
        }
        if (!changed && !(copy.at[links[0] - 2] == written.added)) die("nothing is changed");
    }
    drop(copy);
    drop(out);
    drop(whole);
    return status == FAXPAGES_DONE;
}

int main(int count, char **words) {
    const struct faxpages_options ways[] = {{1, 1, 1, 0, 0}, {2, 2, 4, 3, 0}, {3, 1, 4, 0, 0}, {1, 2, 1, 2, 1}};
    uint32_t i, way, files = 0, strangers, ended = 0, number;
    if (count != 2) return 2;
    for (number = 1; number <= MOST_PAGES; number++)
        for (way = 0; way < sizeof ways / sizeof *ways; way++) {
            images_len = 0;
            for (i = 0; i < number; i++) draw_page(&pages[i]);
            write_file(number, 0, ways[way]);
            write_file(number, number + draw(3) * draw(2000), ways[way]);
            files += 2;
        }
    strangers = (uint32_t)strtoul(words[1], NULL, 10);
    for (i = 0; i < strangers; i++) ended += (uint32_t)end_of_a_stranger();
    printf("%u files, %u ended, %u not\n", (unsigned)files, (unsigned)ended, (unsigned)(strangers - ended));
    return 0;
}
