/* Loaded before a program (LD_PRELOAD): refuses memory, and lets reads and writes fail or be short, by call number. What it is told
   stands in the environment; when the program ends it writes how many calls there were to the file REFUSE_COUNTS. */
#define _GNU_SOURCE
#include <errno.h>
#include <fcntl.h>
#include <stdio.h>
#include <stdlib.h>
#include <sys/syscall.h>
#include <unistd.h>

extern void *__libc_malloc(size_t size);
extern void *__libc_realloc(void *old, size_t size);

static int ready;
static long allocations, inputs, files, outputs, notes;
static long refused, refused_from, failed_input, failed_file, failed_output, failed_note, short_reads, short_writes;

static long told(const char *name) {
    const char *text = getenv(name);
    return text ? atol(text) : 0;
}

__attribute__((constructor)) static void begin(void) {
    refused = told("REFUSE_ALLOCATION");
    refused_from = told("REFUSE_FROM");
    failed_input = told("FAIL_INPUT");
    failed_file = told("FAIL_FILE");
    failed_output = told("FAIL_OUTPUT");
    failed_note = told("FAIL_NOTE");
    short_reads = told("SHORT_READS");
    short_writes = told("SHORT_WRITES");
    ready = 1;
}

__attribute__((destructor)) static void end(void) {
    const char *name = getenv("REFUSE_COUNTS");
    char text[120];
    ready = 0;
    if (name) {
        int file = open(name, O_WRONLY | O_CREAT | O_TRUNC, 0600);
        int length = snprintf(text, sizeof text, "%ld %ld %ld %ld %ld", allocations, inputs, files, outputs, notes);
        if (file >= 0) {
            syscall(SYS_write, file, text, length);
            close(file);
        }
    }
}

static int is_refused(void) {
    if (!ready)
        return 0;
    allocations++;
    return allocations == refused || (refused_from && allocations >= refused_from);
}

void *malloc(size_t size) {
    if (is_refused()) {
        errno = ENOMEM;
        return NULL;
    }
    return __libc_malloc(size);
}

void *realloc(void *old, size_t size) {
    if (is_refused()) {
        errno = ENOMEM;
        return NULL;
    }
    return __libc_realloc(old, size);
}

static int fails(long *calls, long failed) {
    *calls += 1;
    return *calls == failed;
}

ssize_t read(int from, void *room, size_t size) {
    if (ready && (from == 0 ? fails(&inputs, failed_input) : fails(&files, failed_file))) {
        errno = EIO;
        return -1;
    }
    return syscall(SYS_read, from, room, ready && short_reads && size > 1 ? 1 : size);
}

ssize_t write(int to, const void *piece, size_t size) {
    if (ready && (to == 2 ? fails(&notes, failed_note) : fails(&outputs, failed_output))) {
        errno = ENOSPC;
        return -1;
    }
    return syscall(SYS_write, to, piece, ready && short_writes && size > 1 ? 1 : size);
}

ssize_t __write(int to, const void *piece, size_t size) { return write(to, piece, size); }
