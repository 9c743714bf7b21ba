/* Refuses growths of the program that it is loaded into by LD_PRELOAD, and lets reads and writes fail. A growth is a call of malloc,
   calloc or realloc; they are numbered from 1. REFUSED is the number of the one that gives nothing; where REFUSED_ON is set too, all later
   ones give nothing either. FAILED_READ and FAILED_WRITE are the numbers of the read and of the write that fail; PIECE is how many bytes
   each of the others takes at most. At the end the numbers of growths, reads and writes are written to the file descriptor that COUNTED
   names. */
#include <errno.h>
#include <stddef.h>
#include <stdio.h>
#include <stdlib.h>
#include <sys/syscall.h>
#include <unistd.h>

extern void *__libc_malloc(size_t size);
extern void *__libc_calloc(size_t count, size_t size);
extern void *__libc_realloc(void *old, size_t size);

static unsigned long growths, refused, reads, failed_read, writes, failed_write, piece;
static int all_later;

/* Whether this growth is to be refused. */
static int refuses(void) {
    growths++;
    return refused != 0 && (growths == refused || (all_later && growths > refused));
}

void *malloc(size_t size) { return refuses() ? NULL : __libc_malloc(size); }

void *calloc(size_t count, size_t size) { return refuses() ? NULL : __libc_calloc(count, size); }

void *realloc(void *old, size_t size) { return refuses() ? NULL : __libc_realloc(old, size); }

/* How many of so many bytes are read or written at once. */
static size_t part(size_t size) { return piece != 0 && size > piece ? piece : size; }

/* What a read or a write gives where it fails. */
static ssize_t failed(void) {
    errno = EIO;
    return -1;
}

ssize_t read(int from, void *to, size_t size) {
    return ++reads == failed_read ? failed() : syscall(SYS_read, from, to, part(size));
}

ssize_t write(int to, const void *from, size_t size) {
    return ++writes == failed_write ? failed() : syscall(SYS_write, to, from, part(size));
}

static unsigned long number(const char *name) {
    const char *digits = getenv(name);
    return digits ? strtoul(digits, NULL, 10) : 0;
}

__attribute__((constructor)) static void begin(void) {
    all_later = getenv("REFUSED_ON") != NULL;
    refused = number("REFUSED");
    failed_read = number("FAILED_READ");
    failed_write = number("FAILED_WRITE");
    piece = number("PIECE");
    growths = reads = writes = 0;
}

__attribute__((destructor)) static void end(void) {
    const char *to = getenv("COUNTED");
    char line[96];
    int length = snprintf(line, sizeof line, "%lu %lu %lu\n", growths, reads, writes);
    if (to && syscall(SYS_write, atoi(to), line, (size_t)length) < 0) _exit(125);
}
