/* Put before a program (LD_PRELOAD), refuses its allocation of number REFUSE, counted from 1, and no other. Where REFUSE_TOLD names a file, that
   file is made when this allocation comes. */
#define _GNU_SOURCE
#include <dlfcn.h>
#include <fcntl.h>
#include <stdlib.h>
#include <unistd.h>

/* Takes no memory. */
static void tell(void) {
    const char *name = getenv("REFUSE_TOLD");
    int file = name ? open(name, O_WRONLY | O_CREAT, 0600) : -1;
    if (file >= 0) close(file);
}

static int refused(void) {
    static long left = -1;
    static int asked = 0;
    if (!asked) {
        const char *number = getenv("REFUSE");
        asked = 1;
        left = number ? atol(number) : 0;
    }
    if (left <= 0 || --left > 0) return 0;
    tell();
    return 1;
}

void *malloc(size_t size) {
    static void *(*next)(size_t);
    if (!next) *(void **)&next = dlsym(RTLD_NEXT, "malloc");
    return refused() ? NULL : next(size);
}

void *realloc(void *block, size_t size) {
    static void *(*next)(void *, size_t);
    if (!next) *(void **)&next = dlsym(RTLD_NEXT, "realloc");
    return refused() ? NULL : next(block, size);
}
