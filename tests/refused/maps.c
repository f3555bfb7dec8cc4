/* Begins a program to which the system refuses memory. A tool of the tests alone.
 *
 *     maps LEAST HOW PROGRAM WORDS..
 *
 * Mappings of LEAST bytes and more are refused, and the heap below the stack (brk) with them; 0 refuses none. HOW is
 * moved, where no mapping grows in its place; small, where there are no huge pages; or any, where neither is so. Status
 * 77 says that this system has no such filter. */
#include <errno.h>
#include <linux/audit.h>
#include <linux/filter.h>
#include <linux/mman.h>
#include <linux/seccomp.h>
#include <stddef.h>
#include <stdio.h>
#include <stdlib.h>
#include <string.h>
#include <sys/prctl.h>
#include <sys/syscall.h>
#include <unistd.h>

enum { MOST = 64 };
static struct sock_filter filter[MOST];
static unsigned short count;

static void put(unsigned short code, unsigned value, unsigned char yes, unsigned char no) {
    filter[count++] = (struct sock_filter)BPF_JUMP(code, value, yes, no);
}

static void load(size_t place) { put(BPF_LD | BPF_W | BPF_ABS, (unsigned)place, 0, 0); }

static void answer(unsigned value) { put(BPF_RET | BPF_K, value, 0, 0); }

/* Refuses a call by this error where a 64-bit argument is at least so much; the next lines follow else. */
static void refuse_from(unsigned call, unsigned argument, unsigned least, unsigned error) {
    size_t place = offsetof(struct seccomp_data, args) + 8 * argument;
    load(offsetof(struct seccomp_data, nr));
    put(BPF_JMP | BPF_JEQ | BPF_K, call, 0, 5);
    load(place + 4);
    put(BPF_JMP | BPF_JGT | BPF_K, 0, 2, 0);
    load(place);
    put(BPF_JMP | BPF_JGE | BPF_K, least, 0, 1);
    answer(SECCOMP_RET_ERRNO | error);
}

/* Refuses to make a mapping larger in its place: mremap without a flag. */
static void refuse_in_place(void) {
    load(offsetof(struct seccomp_data, nr));
    put(BPF_JMP | BPF_JEQ | BPF_K, SYS_mremap, 0, 3);
    load(offsetof(struct seccomp_data, args) + 8 * 3);
    put(BPF_JMP | BPF_JEQ | BPF_K, 0, 0, 1);
    answer(SECCOMP_RET_ERRNO | ENOMEM);
}

int main(int words, char **word) {
    if (words < 4) return 2;
    unsigned least = (unsigned)strtoul(word[1], NULL, 10);
    int small = strcmp(word[2], "small") == 0;
    if (least) {
        refuse_from(SYS_brk, 0, 0, 0);  /* a break of 0 is one that has not moved */
        refuse_from(SYS_mmap, 1, least, ENOMEM);
        refuse_from(SYS_mremap, 2, least, ENOMEM);
    }
    if (strcmp(word[2], "moved") == 0) refuse_in_place();
    if (small) refuse_from(SYS_madvise, 0, 0, EINVAL);
    answer(SECCOMP_RET_ALLOW);
    struct sock_fprog program = {count, filter};
    if ((small && prctl(PR_SET_THP_DISABLE, 1, 0, 0, 0)) || prctl(PR_SET_NO_NEW_PRIVS, 1, 0, 0, 0) ||
        prctl(PR_SET_SECCOMP, SECCOMP_MODE_FILTER, &program))
        return 77;
    execv(word[3], word + 3);
    return 77;
}
