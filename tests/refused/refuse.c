/* Preloaded under the program by the tests: calls of one kind are refused. A tool of the tests alone.
 *
 *   REFUSE_KIND   words (malloc and realloc before a file is opened), memory (after that), read, write
 *                 (standard output) or error (the error stream)
 *   REFUSE_HOW    fail (no memory, or EIO), short (1 byte), nothing (0 bytes) or interrupt (EINTR)
 *   REFUSE_FROM   the first call of this kind that is refused, from 1
 *   REFUSE_CALLS  how many are, one after another
 *   REFUSE_BYTES  at most so many bytes go through any call of this kind that is not refused
 *   REFUSE_MARK   a descriptor that gets one byte at the first call that is refused
 */
#define _GNU_SOURCE
#include <dlfcn.h>
#include <errno.h>
#include <fcntl.h>
#include <stdarg.h>
#include <stdlib.h>
#include <string.h>
#include <unistd.h>
#include <sys/syscall.h>

static const char *kind = "", *how = "";
static unsigned long from, calls, bytes, made;
static int mark, opened;
static void *(*real_malloc)(size_t);
static void *(*real_realloc)(void *, size_t);

static unsigned long number(const char *name, unsigned long otherwise)
{
    const char *text = getenv(name);
    return text ? strtoul(text, NULL, 10) : otherwise;
}

__attribute__((constructor)) static void start(void)
{
    real_malloc = (void *(*)(size_t))dlsym(RTLD_NEXT, "malloc");
    real_realloc = (void *(*)(void *, size_t))dlsym(RTLD_NEXT, "realloc");
    how = getenv("REFUSE_HOW");
    from = number("REFUSE_FROM", 1);
    calls = number("REFUSE_CALLS", 1);
    bytes = number("REFUSE_BYTES", -1UL);
    mark = (int)number("REFUSE_MARK", 2);
    kind = getenv("REFUSE_KIND");
}

/* Whether this call is of the kind, and refused. */
static int refused(const char *of)
{
    if (strcmp(kind, of) != 0)
        return 0;
    made++;
    if (made < from || made - from >= calls)
        return 0;
    if (made == from)
        syscall(SYS_write, mark, "x", 1);
    return 1;
}

void *malloc(size_t size)
{
    if (!real_malloc)
        real_malloc = (void *(*)(size_t))dlsym(RTLD_NEXT, "malloc");
    if (!refused(opened ? "memory" : "words"))
        return real_malloc(size);
    errno = ENOMEM;
    return NULL;
}

void *realloc(void *old, size_t size)
{
    if (!real_realloc)
        real_realloc = (void *(*)(void *, size_t))dlsym(RTLD_NEXT, "realloc");
    if (!refused(opened ? "memory" : "words"))
        return real_realloc(old, size);
    errno = ENOMEM;
    return NULL;
}

int open(const char *path, int flags, ...)
{
    va_list rest;
    va_start(rest, flags);
    unsigned mode = va_arg(rest, unsigned);
    va_end(rest);
    opened = 1;
    return (int)syscall(SYS_openat, AT_FDCWD, path, flags, mode);
}

/* The name of it that Rust's own std calls. */
int open64(const char *path, int flags, ...) __attribute__((alias("open")));

static ssize_t transfer(const char *of, long call, int stream, long place, size_t size)
{
    if (strcmp(kind, of) == 0 && size > bytes)
        size = bytes;
    if (refused(of)) {
        if (strcmp(how, "nothing") == 0)
            return 0;
        if (strcmp(how, "short") != 0) {
            errno = strcmp(how, "fail") == 0 ? EIO : EINTR;
            return -1;
        }
        size = size > 1 ? 1 : size;
    }
    return syscall(call, stream, place, size);
}

ssize_t read(int stream, void *place, size_t size)
{
    return transfer("read", SYS_read, stream, (long)place, size);
}

ssize_t write(int stream, const void *place, size_t size)
{
    return transfer(stream == 2 ? "error" : "write", SYS_write, stream, (long)place, size);
}

ssize_t __write(int stream, const void *place, size_t size)
{
    return write(stream, place, size);
}
