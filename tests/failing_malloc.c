// A malloc that fails once: the call whose number, from 0, is FAIL_AT. COUNT_TO names a file that gets the number of calls.
#include <fcntl.h>
#include <stdio.h>
#include <stdlib.h>
#include <unistd.h>

extern void *__libc_malloc(size_t size);

static long calls = 0;
static long fail_at = -1;
static int is_known = 0;

void *malloc(size_t size) {
    if (!is_known) {
        is_known = 1;
        const char *word = getenv("FAIL_AT");
        if (word) fail_at = atol(word);
    }
    return calls++ == fail_at ? NULL : __libc_malloc(size);
}

__attribute__((destructor)) static void tell(void) {
    const char *name = getenv("COUNT_TO");
    if (!name) return;
    char text[32];
    int size = snprintf(text, sizeof text, "%ld\n", calls);
    int file = open(name, O_WRONLY | O_CREAT | O_TRUNC, 0600);
    if (file >= 0 && write(file, text, size) == size) close(file);
}
