/* Refuses one growth of a program that takes its memory from the GNU C library: preloaded by dev/fail-growths.
   FAIL_GROWTH is the number of the growth that is refused, from 1 (0: none), FAIL_ALL is set if all after it are refused too, and
   FAIL_NOTE is a file into which come a line `refused before` or `refused after`, as out/ was there by then, and at the end the number of growths. */
#include <errno.h>
#include <fcntl.h>
#include <stdio.h>
#include <stdlib.h>
#include <string.h>
#include <unistd.h>

void *__libc_malloc(size_t);
void *__libc_calloc(size_t, size_t);
void *__libc_realloc(void *, size_t);
void *__libc_memalign(size_t, size_t);

static long count, refused = -1, note = -1;

static void start(void) {
    const char *number = getenv("FAIL_GROWTH"), *name = getenv("FAIL_NOTE");
    refused = number ? atol(number) : 0;
    if (name) note = open(name, O_WRONLY | O_CREAT | O_APPEND | O_CLOEXEC, 0666);
}

static void say(const char *text) {
    if (note >= 0 && write(note, text, strlen(text)) < 0) note = -1;
}

/* Whether the growth at hand is granted. */
static int granted(void) {
    if (refused < 0) start();
    count++;
    if (!refused || count < refused || (count > refused && !getenv("FAIL_ALL"))) return 1;
    if (count == refused) say(access("out", F_OK) ? "refused before\n" : "refused after\n");
    errno = ENOMEM;
    return 0;
}

void *malloc(size_t size) { return granted() ? __libc_malloc(size) : NULL; }
void *calloc(size_t number, size_t size) { return granted() ? __libc_calloc(number, size) : NULL; }
void *realloc(void *block, size_t size) { return granted() ? __libc_realloc(block, size) : NULL; }
void *memalign(size_t bound, size_t size) { return granted() ? __libc_memalign(bound, size) : NULL; }
void *aligned_alloc(size_t bound, size_t size) { return granted() ? __libc_memalign(bound, size) : NULL; }

int posix_memalign(void **block, size_t bound, size_t size) {
    if (!granted()) return ENOMEM;
    *block = __libc_memalign(bound, size);
    return *block ? 0 : ENOMEM;
}

__attribute__((destructor)) static void finish(void) {
    char text[32];
    snprintf(text, sizeof text, "%ld\n", count);
    say(text);
}
