/* Blocks of 256 KiB and more of the program's memory: in huge pages, and grown where they stand.
 *
 * tools/build-program links this into the program with --wrap: what calls malloc, realloc and free there calls the
 * functions below, and __real_malloc, __real_realloc and __real_free are the C library's. Those keep all smaller blocks,
 * and each one that the system refuses here or that finds no slot.
 *
 * A large block is a mapping of its own that ends with a huge page, and no other address space is taken. It is put far
 * away from all others, so that it can grow in its place; where it cannot, the system moves it without a copy. One that
 * is small at first has small pages for its first 512 KiB, which cost less to clear, and huge ones after them. On a
 * system without huge pages all are small. The program has no threads, and these functions are for one alone. */
#define _GNU_SOURCE
#include <malloc.h>
#include <stddef.h>
#include <stdint.h>
#include <string.h>
#include <sys/mman.h>

#define LARGE ((size_t)256 << 10)
#define IN_SMALL_PAGES ((size_t)512 << 10)
#define SMALL_PAGE ((size_t)4 << 10)
#define HUGE_PAGE ((size_t)2 << 20)
/* From one block to the next; as the program and the stack lie, 16 of these are free below the program. */
#define APART ((size_t)1 << 40)
enum { SLOTS = 16 };

void *__real_malloc(size_t size);
void *__real_realloc(void *block, size_t size);
void __real_free(void *block);

/* A large block: where it begins, and its size. Where begin is NULL the slot is free. */
static struct slot {
    char *begin;
    size_t size;
} slots[SLOTS];

static struct slot *slot_that_begins(const void *begin) {
    for (struct slot *slot = slots; slot < slots + SLOTS; slot++)
        if (slot->begin == begin) return slot;
    return NULL;
}

/* NULL for a small block. A large one begins a page of memory, as hardly any small one does. */
static struct slot *slot_of(const void *block) {
    return block && (uintptr_t)block % SMALL_PAGE == 0 ? slot_that_begins(block) : NULL;
}

static struct slot *free_slot(void) {
    return slot_that_begins(NULL);
}

static void *keep(struct slot *slot, char *begin, size_t size) {
    slot->begin = begin;
    slot->size = size;
    return begin;
}

/* How many bytes it is from begin to the end of the huge page in which a block of this size ends. 0 where there is no
 * such size; the system refuses that. */
static size_t to_huge_page(const char *begin, size_t size) {
    if (size > PTRDIFF_MAX) return 0;
    uintptr_t last = (uintptr_t)begin + (size ? size - 1 : 0);
    return (last | (HUGE_PAGE - 1)) + 1 - (uintptr_t)begin;
}

/* Maps a large block, or answers NULL. */
static void *map(size_t size) {
    struct slot *slot = free_slot();
    if (!slot) return NULL;
    uintptr_t place = ((uintptr_t)slots & ~(HUGE_PAGE - 1)) - APART * (size_t)(slot - slots + 1);
    char *begin = (char *)(size <= IN_SMALL_PAGES ? place - IN_SMALL_PAGES : place);
    size = to_huge_page(begin, size);
    begin = mmap(begin, size, PROT_READ | PROT_WRITE, MAP_PRIVATE | MAP_ANONYMOUS, -1, 0);
    if (begin == MAP_FAILED) return NULL;
    madvise(begin, size, MADV_HUGEPAGE);
    return keep(slot, begin, size);
}

/* Gives a large block another size, or answers NULL and leaves it. It stays here also where it is made small. */
static void *resize(struct slot *slot, size_t size) {
    size = to_huge_page(slot->begin, size);
    if (size == slot->size) return slot->begin;
    char *begin = mremap(slot->begin, slot->size, size, 0);
    if (begin == MAP_FAILED) begin = mremap(slot->begin, slot->size, size, MREMAP_MAYMOVE);
    return begin == MAP_FAILED ? NULL : keep(slot, begin, size);
}

void *__wrap_malloc(size_t size) {
    void *block = size < LARGE ? NULL : map(size);
    return block ? block : __real_malloc(size);
}

void *__wrap_realloc(void *block, size_t size) {
    struct slot *slot = slot_of(block);
    if (slot) return resize(slot, size);
    void *large = size < LARGE ? NULL : map(size);
    if (!large) return __real_realloc(block, size);
    size_t held = malloc_usable_size(block);
    if (held) memcpy(large, block, held < size ? held : size);
    __real_free(block);
    return large;
}

void __wrap_free(void *block) {
    struct slot *slot = slot_of(block);
    if (!slot) {
        __real_free(block);
        return;
    }
    munmap(block, slot->size);
    keep(slot, NULL, 0);
}
