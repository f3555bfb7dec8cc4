/* rasters HOW FILE, over libfaxpages, where each buffer ends at a page that nobody may touch.
 *
 * HOW is `pages`: prints a file's rows as `faxpages rows` does, a page a call, each into a raster of its own;
 * `strips`: codes each page in each way, and sees that it is the strip of the file that faxpages_convert writes; or `anew`:
 * writes the file page by page in each way, and sees that it is the file that faxpages_convert writes. */
#include "guarded.h"
#include <faxpages.h>

enum { EXTRA = 3, MOST_PAGES = 64 };

static struct guarded file;

static struct guarded read_file(const char *name) {
    static uint8_t bytes[1 << 20];
    FILE *in = fopen(name, "rb");
    size_t len = in ? fread(bytes, 1, sizeof bytes, in) : 0;
    if (!in || len == sizeof bytes) die("cannot read the file");
    fclose(in);
    return copy_of(bytes, len);
}

/* A page in a raster of its own, where the file has the page. */
struct page {
    struct faxpages_form form;
    struct guarded raster;
    size_t stride;
    struct faxpages_told told;
    uint32_t status;
};

/* Reads a page: first its form, with no room, then its rows. */
static struct page read_page(uint32_t number) {
    struct page page;
    uint8_t none[1];
    page.stride = 0;
    page.status = faxpages_page(file.at, file.len, number, &page.form, none, 0, 0, &page.told);
    if (page.status != FAXPAGES_NO_ROOM) return page;
    if (page.told.count || page.told.page != number || page.told.row) die("a form was told with rows");
    page.stride = (page.form.width + 7) / 8 + EXTRA;
    page.raster = make(page.stride * page.form.rows);
    page.status = faxpages_page(file.at, file.len, number, &page.form, page.raster.at, page.raster.len, page.stride,
                                &page.told);
    see(page.raster, page.told.used);
    if (page.told.used != page.told.count * page.stride) die("another number of bytes was used");
    if ((page.status == FAXPAGES_DONE) != (page.told.count == page.form.rows))
        die("a status is another than the count says");
    return page;
}

static void drop_page(struct page page) {
    if (page.stride) drop(page.raster);
}

static void print_row(const struct page *page, uint32_t number, uint32_t row) {
    const uint8_t *bytes = page->raster.at + row * page->stride;
    uint32_t i, run = 0;
    int colour = 0;
    printf("row %u %u", (unsigned)number, (unsigned)row);
    for (i = 0; i < page->form.width; i++) {
        int black = bytes[i / 8] >> (7 - i % 8) & 1;
        if (black != colour) {
            printf(" %u", (unsigned)run);
            run = 0;
            colour = black;
        }
        run++;
    }
    printf(" %u\n", (unsigned)run);
    for (; i < 8 * page->stride; i++)
        if (bytes[i / 8] >> (7 - i % 8) & 1) die("a row is not padded with zeros");
}

static int print_fault(const struct faxpages_told *last, const struct faxpages_fault *fault) {
    char name[32];
    size_t len = faxpages_fault_name(fault->number, (uint8_t *)name, sizeof name);
    printf("next 1:%u:%u\n", (unsigned)last->page, (unsigned)last->row);
    fprintf(stderr, "fault page %u row %u: %.*s", (unsigned)fault->page, (unsigned)fault->row, (int)len, name);
    if (fault->tag) fprintf(stderr, " %u", (unsigned)fault->tag);
    fputc('\n', stderr);
    return 1;
}

static int print_pages(void) {
    struct faxpages_told last = {0, 0, 0, 0, {0, 0, 0, 0}};
    uint32_t number, row;
    for (number = 0;; number++) {
        struct page page = read_page(number);
        for (row = 0; page.stride && row < page.told.count; row++) print_row(&page, number, row);
        if (page.told.count) last = page.told;
        drop_page(page);
        if (page.status == FAXPAGES_DONE) continue;
        if (page.status == FAXPAGES_FAULT) return print_fault(&last, &page.told.fault);
        if (page.status != FAXPAGES_END) die("an unexpected status");
        puts("end");
        return 0;
    }
}

/* The file that faxpages_convert makes of bytes. */
static struct guarded converted(const uint8_t *bytes, size_t len, struct faxpages_options to) {
    struct faxpages_converted told;
    struct guarded out;
    uint8_t none[1];
    if (faxpages_convert(bytes, len, &to, none, 0, &told) != FAXPAGES_NO_ROOM) die("a file is not converted");
    out = make(told.len);
    if (faxpages_convert(bytes, len, &to, out.at, out.len, &told) != FAXPAGES_DONE) die("a file is not converted");
    return out;
}

/* A page as a raw PBM. */
static struct guarded pbm_of(const struct page *page) {
    size_t bytes = (page->form.width + 7) / 8;
    char head[64];
    int len = snprintf(head, sizeof head, "P4\n%u %u\n", (unsigned)page->form.width, (unsigned)page->form.rows);
    struct guarded pbm = make((size_t)len + page->form.rows * bytes);
    uint32_t row;
    memcpy(pbm.at, head, (size_t)len);
    for (row = 0; row < page->form.rows; row++)
        memcpy(pbm.at + len + row * bytes, page->raster.at + row * page->stride, bytes);
    return pbm;
}

/* The page coded in one way stands right after the header of the file with that page alone. */
static void code_page(const struct page *page, struct faxpages_options to) {
    struct faxpages_strip form = {page->form.width, page->form.rows, to.target, to.order, to.aligned};
    struct guarded pbm = pbm_of(page), wanted = converted(pbm.at, pbm.len, to), out;
    uint8_t none[1];
    size_t len, got;
    if (faxpages_strip_code(&form, to.k, page->raster.at, page->raster.len, page->stride, none, 0, &len) != FAXPAGES_NO_ROOM)
        die("a strip has room in nothing");
    out = make(len);
    if (faxpages_strip_code(&form, to.k, page->raster.at, page->raster.len, page->stride, out.at, len, &got) || got != len)
        die("a strip is not coded");
    if (len + 8 > wanted.len || memcmp(wanted.at + 8, out.at, len)) die("a strip is another than that of the file");
    drop(out);
    drop(wanted);
    drop(pbm);
}

/* The page is added in one way, only where it has room. */
static void add_page(const struct page *page, struct faxpages_options to, struct guarded out,
                     struct faxpages_written *written) {
    struct faxpages_form form = page->form, forms[MOST_PAGES];
    struct faxpages_written before = *written;
    struct faxpages_told told;
    uint32_t status;
    form.coding = to.target;
    form.order = to.order;
    form.aligned = to.aligned;
    form.exchanged = 0;
    form.rows_per_strip = to.strip && to.strip < form.rows ? to.strip : form.rows;
    form.strips = (form.rows + form.rows_per_strip - 1) / form.rows_per_strip;
    status = faxpages_add_page(&form, to.k, page->raster.at, page->raster.len, page->stride, out.at, before.len + 100,
                               written);
    if (status != FAXPAGES_NO_ROOM) die("a page has room in nothing");
    if (before.len != written->len || before.link != written->link || before.added != written->added)
        die("a page that has no room is told");
    see(out, before.len);
    if (faxpages_add_page(&form, to.k, page->raster.at, page->raster.len, page->stride, out.at, out.len, written))
        die("a page is not added");
    see(out, written->len);
    if (written->total != before.total || written->added != before.added + 1) die("a page is not counted");
    if (faxpages_forms(out.at, written->len, 0, forms, MOST_PAGES, &told) != FAXPAGES_END || told.count != written->added)
        die("the pages so far are no whole file");
    if (memcmp(&forms[told.count - 1], &form, sizeof form)) die("a page has another form");
}

/* The file is written page by page in one way, and is the converted one. */
static void write_anew(uint32_t pages, struct faxpages_options to) {
    struct guarded wanted = converted(file.at, file.len, to), out = make(wanted.len);
    struct faxpages_written written = {0, 0, 0, 0};
    uint32_t number;
    written.total = pages;
    for (number = 0; number < pages; number++) {
        struct page page = read_page(number);
        if (page.status != FAXPAGES_DONE) die("a page of a whole file is not read");
        add_page(&page, to, out, &written);
        drop_page(page);
    }
    if (written.len != wanted.len || memcmp(out.at, wanted.at, wanted.len)) die("a file is another than the converted one");
    drop(out);
    drop(wanted);
}

/* Each coding, order, k, strip height and whether EOLs are aligned. */
static int in_each_way(void (*tried)(uint32_t pages, struct faxpages_options to), uint32_t pages) {
    struct faxpages_options to;
    int ways = 0;
    for (to.target = 1; to.target <= 3; to.target++)
        for (to.order = 1; to.order <= 2; to.order++)
            for (to.aligned = 0; to.aligned <= (to.target < 3); to.aligned++)
                for (to.strip = 0; to.strip <= 2; to.strip++, ways++) {
                    to.k = 1 + 3 * to.strip;
                    tried(pages, to);
                }
    return ways;
}

static void code_each(uint32_t pages, struct faxpages_options to) {
    uint32_t number;
    to.strip = 0;
    for (number = 0; number < pages; number++) {
        struct page page = read_page(number);
        code_page(&page, to);
        drop_page(page);
    }
}

/* How many pages a file has that can be converted, 0 where it cannot. */
static uint32_t pages_of_whole_file(void) {
    struct faxpages_form forms[MOST_PAGES];
    struct faxpages_options pbm = {0, 1, 1, 0, 0};
    struct faxpages_converted told;
    struct faxpages_told listed;
    uint8_t none[1];
    if (faxpages_convert(file.at, file.len, &pbm, none, 0, &told) != FAXPAGES_NO_ROOM) return 0;
    if (faxpages_forms(file.at, file.len, 0, forms, MOST_PAGES, &listed) != FAXPAGES_END) die("a file has too many pages");
    return (uint32_t)listed.count;
}

int main(int count, char **words) {
    int ways;
    if (count != 3) return 2;
    file = read_file(words[2]);
    if (!strcmp(words[1], "pages")) return print_pages();
    if (!pages_of_whole_file()) return 0;
    ways = in_each_way(!strcmp(words[1], "strips") ? code_each : write_anew, pages_of_whole_file());
    printf("%d ways\n", ways);
    return 0;
}
