/* An allocator that counts the pieces of memory that another thread gives back than the one that asked for them, while
 * more than one thread runs. Where there are such pieces, glibc keeps the small ones for the thread that gives them back,
 * and the lists of two threads come to lie side by side.
 *
 *     cc -O2 -fno-builtin -ftls-model=initial-exec -shared -fPIC -o foreign.so bench/foreign.c
 *     LD_PRELOAD=./foreign.so PROGRAM check --workers 2 <FILE >/dev/null
 *
 * At the end it writes one line to the standard error. Such a piece is lost here; all sizes are powers of two. For
 * measuring alone: it never gives memory back to the system.
 */
#define _GNU_SOURCE
#include <fcntl.h>
#include <stdatomic.h>
#include <stdint.h>
#include <stdio.h>
#include <stdlib.h>
#include <string.h>
#include <sys/mman.h>
#include <sys/syscall.h>
#include <unistd.h>

enum { CLASSES = 48, LEAST = 4, REGION = 64 << 20 };

/* What stands before each piece. */
typedef struct {
    uint64_t class;
    void *owner;
} Head;

static __thread char *next, *end;
static __thread void *spare[CLASSES];
static __thread char mine;
static atomic_ulong foreign;

static int class_of(size_t size) {
    int class = LEAST;
    while (((size_t)1 << class) < size) class++;
    return class;
}

static void *cut(size_t size) {
    if ((size_t)(end - next) < size) {
        size_t region = size > REGION ? size : REGION;
        next = mmap(NULL, region, PROT_READ | PROT_WRITE, MAP_PRIVATE | MAP_ANONYMOUS | MAP_NORESERVE, -1, 0);
        if (next == MAP_FAILED) abort();
        end = next + region;
    }
    void *piece = next;
    next += size;
    return piece;
}

/* Whether more than one thread runs. It takes no memory. */
static int are_threads(void) {
    char text[512];
    int file = open("/proc/self/stat", O_RDONLY);
    ssize_t len = read(file, text, sizeof text - 1);
    close(file);
    text[len > 0 ? len : 0] = 0;
    char *at = strrchr(text, ')');
    for (int field = 2; at && field < 20; field++) at = strchr(at + 1, ' ');
    return at && atoi(at) > 1;
}

void *malloc(size_t size) {
    int class = class_of(size);
    void **kept = spare[class];
    if (kept) {
        spare[class] = *kept;
        return kept;
    }
    Head *head = cut(sizeof(Head) + ((size_t)1 << class));
    *head = (Head){class, &mine};
    return head + 1;
}

void free(void *piece) {
    if (!piece) return;
    Head *head = (Head *)piece - 1;
    if (head->owner == &mine) {
        *(void **)piece = spare[head->class];
        spare[head->class] = piece;
    } else if (are_threads()) {
        foreign++;
    }
}

void *calloc(size_t count, size_t size) {
    void *piece = malloc(count * size);
    memset(piece, 0, count * size);
    return piece;
}

void *realloc(void *piece, size_t size) {
    if (!piece) return malloc(size);
    Head *head = (Head *)piece - 1;
    size_t room = (size_t)1 << head->class;
    if (size <= room && head->owner == &mine) return piece;
    void *larger = malloc(size);
    memcpy(larger, piece, size < room ? size : room);
    free(piece);
    return larger;
}

static void tell(void) {
    char line[80];
    int len = snprintf(line, sizeof line, "%lu pieces were given back by another thread\n", foreign);
    if (write(2, line, len) < 0) return;
}

/* A program that may have threads ends by this call. */
void _exit(int status) {
    tell();
    syscall(SYS_exit_group, status);
    __builtin_unreachable();
}
