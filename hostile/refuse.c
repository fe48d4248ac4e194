/* Refuses one call of malloc or realloc: the one whose number stands in REFUSE, counted from 1. Loaded before the C
   library (LD_PRELOAD). At the end how many calls there were goes to the file that COUNT names, if it names one. */
#define _GNU_SOURCE
#include <dlfcn.h>
#include <errno.h>
#include <fcntl.h>
#include <stdlib.h>
#include <unistd.h>

static void *(*next_malloc)(size_t);
static void *(*next_realloc)(void *, size_t);
static unsigned long calls, refused;

__attribute__((constructor)) static void begin(void) {
    next_malloc = dlsym(RTLD_NEXT, "malloc");
    next_realloc = dlsym(RTLD_NEXT, "realloc");
    const char *number = getenv("REFUSE");
    refused = number ? strtoul(number, 0, 10) : 0;
    calls = 0;
}

static int is_refused(void) {
    if (__atomic_add_fetch(&calls, 1, __ATOMIC_SEQ_CST) != refused) return 0;
    errno = ENOMEM;
    return 1;
}

void *malloc(size_t size) {
    if (!next_malloc) begin();
    return is_refused() ? 0 : next_malloc(size);
}

void *realloc(void *old, size_t size) {
    if (!next_realloc) begin();
    return is_refused() ? 0 : next_realloc(old, size);
}

__attribute__((destructor)) static void end(void) {
    const char *path = getenv("COUNT");
    if (!path) return;
    int file = open(path, O_WRONLY | O_CREAT | O_TRUNC, 0600);
    if (file < 0) return;
    char text[24];
    int at = sizeof text;
    unsigned long left = calls;
    do { text[--at] = '0' + left % 10; left /= 10; } while (left);
    if (write(file, text + at, sizeof text - at) < 0) { /* the caller sees that the file is empty */ }
    close(file);
}

/* A program that may have threads ends by this call. */
void _exit(int status) {
    end();
    void (*next_exit)(int) = (void (*)(int))dlsym(RTLD_NEXT, "_exit");
    next_exit(status);
    __builtin_unreachable();
}
