/* A malloc that is refused once: preloaded, it answers the request for memory number REFUSE with nothing, and makes the file REFUSED then. memory.py uses it. */
#include <errno.h>
#include <fcntl.h>
#include <stdlib.h>
#include <unistd.h>

extern void *__libc_malloc(size_t);
extern void *__libc_calloc(size_t, size_t);
extern void *__libc_realloc(void *, size_t);

static unsigned long asked, refuse;
static const char *refused;

__attribute__((constructor)) static void begin(void) {
    const char *number = getenv("REFUSE");
    refused = getenv("REFUSED");
    asked = 0;
    refuse = number ? strtoul(number, 0, 10) : 0;
}

static int is_refused(void) {
    asked++;
    if (!refuse || asked != refuse)
        return 0;
    if (refused) {
        int file = open(refused, O_CREAT | O_WRONLY, 0644);
        if (file >= 0)
            close(file);
    }
    errno = ENOMEM;
    return 1;
}

void *malloc(size_t size) { return is_refused() ? 0 : __libc_malloc(size); }
void *calloc(size_t count, size_t size) { return is_refused() ? 0 : __libc_calloc(count, size); }
void *realloc(void *block, size_t size) { return is_refused() ? 0 : __libc_realloc(block, size); }
