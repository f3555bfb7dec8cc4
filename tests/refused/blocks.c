/* Large blocks of memory (tools/large_blocks.c) over a system and a C library that refuse. A tool of the tests alone.
 *
 * It is compiled into this with other names (see run): malloc, realloc and free of a program are large_malloc and so
 * on; the C library's are small_malloc, and the system's mmap is try_mmap, below. Blocks are taken, changed and given back
 * as a drawn plan says, the more so by growing to twice the size, and each call below is refused in turn, alone and with
 * all that follow, with huge pages and without, in place and moved. A block that is refused stands as it was; no byte of
 * any is lost; in the end nothing is mapped. Prints how many plans were carried out. */
#define _GNU_SOURCE
#include <errno.h>
#include <stdint.h>
#include <stdio.h>
#include <stdlib.h>
#include <string.h>
#include <sys/mman.h>

enum { BLOCKS = 24, STEPS = 60, STRIDE = 4001, SLOTS = 16 };
#define MB ((size_t)1 << 20)

void *large_malloc(size_t size);
void *large_realloc(void *block, size_t size);
void large_free(void *block);

/* Which calls are refused; what is always so; how many calls were made, and refused; how much is mapped; and how many
 * blocks the C library has lent. */
static unsigned long from, calls, made, refused;
static int no_huge_pages, no_growth_in_place;
static size_t mapped;
static long lent;

static int refuses(void) {
    int now = ++made >= from && made - from < calls;
    refused += (unsigned)now;
    errno = ENOMEM;
    return now;
}

void *small_realloc(void *block, size_t size) {
    void *changed = refuses() ? NULL : realloc(block, size);
    lent += changed && !block;
    return changed;
}

void *small_malloc(size_t size) { return small_realloc(NULL, size); }

void small_free(void *block) {
    lent -= block != NULL;
    free(block);
}

void *try_mmap(void *place, size_t size, int rights, int flags, int file, off_t offset) {
    void *begin = refuses() ? MAP_FAILED : mmap(place, size, rights, flags, file, offset);
    if (begin != MAP_FAILED) mapped += size;
    return begin;
}

void *try_mremap(void *block, size_t old, size_t size, int flags, ...) {
    if (refuses() || (!flags && no_growth_in_place)) return MAP_FAILED;
    void *begin = mremap(block, old, size, flags);
    if (begin != MAP_FAILED) mapped += size - old;
    return begin;
}

int try_munmap(void *block, size_t size) {
    mapped -= size;
    return munmap(block, size);
}

int try_madvise(void *block, size_t size, int advice) {
    return no_huge_pages ? -1 : madvise(block, size, advice);
}

static struct held {
    unsigned char *at;
    size_t size;
    unsigned char mark;
} held[BLOCKS];
static const char *wrong;

static unsigned char byte_at(const struct held *it, size_t place) { return (unsigned char)(it->mark + place / STRIDE); }

/* Some bytes of a block from a place on, and its last one. */
static void fill(struct held *it, size_t first) {
    for (size_t place = first / STRIDE * STRIDE; place < it->size; place += STRIDE) it->at[place] = byte_at(it, place);
    if (it->size) it->at[it->size - 1] = byte_at(it, it->size - 1);
}

/* Whether the bytes are there, up to a size that the block had. */
static void see(const struct held *it, size_t size) {
    for (size_t place = 0; place < size; place += STRIDE)
        if (it->at[place] != byte_at(it, place)) wrong = "a byte is lost";
}

static void take(struct held *it, size_t size, unsigned char mark) {
    unsigned long before = refused;
    *it = (struct held){large_malloc(size), size, mark};
    if (!it->at && refused == before) wrong = "a block is refused, and no call of it was";
    if (!it->at) it->size = 0;
    if ((uintptr_t)it->at % 16) wrong = "a block is not aligned";
    fill(it, 0);
}

static void change(struct held *it, size_t size) {
    unsigned long before = refused;
    unsigned char *at = large_realloc(it->at, size);
    size_t kept = size < it->size ? size : it->size;
    if (!at) {
        if (refused == before) wrong = "a change is refused, and no call of it was";
        see(it, it->size);
        return;
    }
    it->at = at;
    it->size = size;
    see(it, kept);
    fill(it, kept);
}

static void give_back(struct held *it) {
    if (it->at) see(it, it->size);
    large_free(it->at);
    *it = (struct held){NULL, 0, 0};
}

static unsigned long drawn;

static size_t draw(size_t below) {
    drawn = drawn * 6364136223846793005u + 1442695040888963407u;
    return (size_t)(drawn >> 33) % below;
}

/* A size from some bytes to 8 MB, of each magnitude as often. */
static size_t draw_size(void) { return 1 + draw((size_t)16 << draw(20)); }

static void step(struct held *it) {
    if (!it->at) {
        take(it, draw_size(), (unsigned char)draw(256));
    } else if (draw(6) == 0) {
        give_back(it);
    } else {
        change(it, draw(3) && it->size < 8 * MB ? 2 * it->size : draw_size());
    }
}

static void give_all_back(void) {
    for (int number = 0; number < BLOCKS; number++) give_back(&held[number]);
}

/* Whether all is given back: nothing is mapped or lent, and each slot takes a block. */
static void see_all_free(void) {
    if (mapped || lent) wrong = "something is not given back";
    for (int number = 0; number < SLOTS; number++) take(&held[number], MB, 0);
    if (mapped != SLOTS * 2 * MB) wrong = "a slot is lost";
    give_all_back();
}

/* One plan, by its number, with these refusals. */
static void carry_out(unsigned long plan, unsigned long first, unsigned long many) {
    from = first, calls = many, made = refused = 0, drawn = plan;
    for (int number = 0; number < STEPS; number++) step(&held[draw(plan % 3 ? 3 : BLOCKS)]);
    give_all_back();
    from = 0, calls = 0;
    see_all_free();
}

/* A plan with each of its calls refused in turn, alone or with all that follow, until one meets none: how many runs. */
static unsigned long in_turn(unsigned long plan, unsigned long many) {
    unsigned long turn = 0;
    do {
        carry_out(plan, ++turn, many);
        if (wrong) {
            printf("plan %lu, call %lu of %lu, %s%s: %s\n", plan, turn, many, no_huge_pages ? "small pages" : "huge pages",
                   no_growth_in_place ? ", moved" : "", wrong);
            exit(1);
        }
    } while (refused);
    return turn;
}

/* Whether sizes that no system has are refused, of new blocks and of one that is there, which began with this size. */
static int refuses_sizes(size_t first) {
    void *block = large_malloc(first);
    for (size_t size = SIZE_MAX; size > SIZE_MAX / 4; size -= SIZE_MAX / 16)
        if (large_malloc(size) || large_realloc(block, size)) return 0;
    large_free(block);
    return 1;
}

/* Whether a block that begins small grows where it stands, so that no byte of it is copied. */
static int grows_in_place(void) {
    no_growth_in_place = 0;
    void *block = large_malloc(MB / 4);
    for (size_t size = MB / 2; size <= 64 * MB; size *= 2)
        if (large_realloc(block, size) != block) return 0;
    large_free(block);
    return 1;
}

int main(void) {
    unsigned long runs = 0;
    for (unsigned long plan = 0; plan < 12; plan++) {
        no_huge_pages = plan & 1;
        no_growth_in_place = plan >> 1 & 1;
        runs += in_turn(plan, 1) + in_turn(plan, 1ul << 40);
    }
    if (!refuses_sizes(MB / 4) || !refuses_sizes(MB) || !grows_in_place()) return 1;
    printf("%lu\n", runs);
    return 0;
}
