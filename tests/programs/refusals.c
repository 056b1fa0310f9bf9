/* Refuses growths of the program that it is preloaded into: calls that ask for memory, which are counted from 1.

   GROWTHS is `FIRST LAST`, the first that is refused and the last, 0 for none. If the word `marked` stands behind them,
   growths count only from a write of ` (` on standard output to one of `)`. Or GROWTHS is `size OCTETS`, and those of
   just so many octets are refused. At the first refusal the line `a growth is refused` goes to standard error.
   `growths` and `scarcity` beside this file compile it, and say which answers are allowed. */

#define _GNU_SOURCE
#include <errno.h>
#include <stdlib.h>
#include <string.h>
#include <sys/syscall.h>
#include <unistd.h>

extern void *__libc_malloc(size_t size);
extern void *__libc_calloc(size_t count, size_t size);
extern void *__libc_realloc(void *place, size_t size);
extern void *__libc_memalign(size_t alignment, size_t size);

static long first, last, count, octets;
static int is_told, is_read, is_marked, is_counted, is_sized;

/* Reads GROWTHS, once. */
static void read_words(void) {
    const char *words = getenv("GROWTHS");
    char *behind = NULL;
    is_read = 1;
    is_counted = 1;
    if (words == NULL)
        return;
    is_sized = strncmp(words, "size ", 5) == 0;
    if (is_sized) {
        octets = strtol(words + 5, NULL, 10);
        return;
    }
    first = strtol(words, &behind, 10);
    last = strtol(behind, &behind, 10);
    is_marked = strstr(behind, "marked") != NULL;
    is_counted = !is_marked;
}

/* Whether a growth of this size is one that is to be refused. */
static int is_meant(size_t size) {
    if (is_sized)
        return octets > 0 && size == (size_t)octets;
    if (!is_counted)
        return 0;
    count += 1;
    return first <= count && count <= last;
}

/* Whether a growth of this size is refused. */
static int is_refused(size_t size) {
    static const char told[] = "a growth is refused\n";
    if (!is_read)
        read_words();
    if (!is_meant(size))
        return 0;
    if (!is_told) {
        is_told = 1;
        syscall(SYS_write, 2, told, sizeof told - 1);
    }
    errno = ENOMEM;
    return 1;
}

void *malloc(size_t size) { return is_refused(size) ? NULL : __libc_malloc(size); }

void *calloc(size_t number, size_t size) { return is_refused(number * size) ? NULL : __libc_calloc(number, size); }

void *realloc(void *place, size_t size) { return is_refused(size) ? NULL : __libc_realloc(place, size); }

void *aligned_alloc(size_t alignment, size_t size) {
    return is_refused(size) ? NULL : __libc_memalign(alignment, size);
}

int posix_memalign(void **place, size_t alignment, size_t size) {
    void *found = is_refused(size) ? NULL : __libc_memalign(alignment, size);
    if (found == NULL)
        return ENOMEM;
    *place = found;
    return 0;
}

/* A write, which may be a mark. */
ssize_t write(int to, const void *octets, size_t size) {
    if (!is_read)
        read_words();
    if (is_marked && to == 1 && size == 2 && memcmp(octets, " (", 2) == 0)
        is_counted = 1;
    if (is_marked && to == 1 && size == 1 && memcmp(octets, ")", 1) == 0)
        is_counted = 0;
    return syscall(SYS_write, to, octets, size);
}
