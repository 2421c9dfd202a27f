/* Makes one call of the system fail in a program that it is preloaded into, and counts calls, for tools/worked/faults.py.
 *
 * FAULTS has these numbers, with commas between them; for a call, 0 means none:
 *   which request for memory is refused, which read fails, which write to standard output, and which to standard error;
 *   how a read or a write fails: an error's number, or 0, with which it moves no byte;
 *   how many bytes a read gives at most, and how many a write takes; 0 says no bound.
 * Each call after the one that failed goes as it would. FAULTS_COUNTS names a file of five numbers of 8 bytes each, which
 * stay when the program ends: the calls of each kind, and how many failed.
 */
#define _GNU_SOURCE
#include <errno.h>
#include <fcntl.h>
#include <stddef.h>
#include <stdio.h>
#include <stdlib.h>
#include <sys/mman.h>
#include <sys/syscall.h>
#include <unistd.h>

enum { MEMORY, READS, WRITES, SAYS, KINDS };

static unsigned long chosen[KINDS];
static unsigned long error, most_given, most_taken;

static unsigned long unshared[KINDS + 1];
static unsigned long *counts = unshared;

void *__libc_malloc(size_t size);
void *__libc_calloc(size_t count, size_t size);
void *__libc_realloc(void *block, size_t size);
void *__libc_memalign(size_t alignment, size_t size);

__attribute__((constructor)) static void begin(void) {
    const char *words = getenv("FAULTS");
    const char *path = getenv("FAULTS_COUNTS");
    int file = path ? open(path, O_RDWR) : -1;
    if (!words || file < 0 ||
        sscanf(words, "%lu,%lu,%lu,%lu,%lu,%lu,%lu", &chosen[MEMORY], &chosen[READS], &chosen[WRITES], &chosen[SAYS],
               &error, &most_given, &most_taken) != 7)
        _exit(125);
    void *shared = mmap(NULL, sizeof unshared, PROT_READ | PROT_WRITE, MAP_SHARED, file, 0);
    if (shared == MAP_FAILED)
        _exit(125);
    close(file);
    counts = shared;
}

/* Whether this call of a kind is the one that fails. */
static int fails(int kind) {
    if (++counts[kind] != chosen[kind])
        return 0;
    counts[KINDS]++;
    return 1;
}

/* What a read or a write answers that fails. */
static ssize_t failed(void) {
    if (!error)
        return 0;
    errno = (int)error;
    return -1;
}

static size_t at_most(size_t size, unsigned long most) {
    return most && most < size ? most : size;
}

static void *refused(void) {
    errno = ENOMEM;
    return NULL;
}

void *malloc(size_t size) {
    return fails(MEMORY) ? refused() : __libc_malloc(size);
}

void *calloc(size_t count, size_t size) {
    return fails(MEMORY) ? refused() : __libc_calloc(count, size);
}

void *realloc(void *block, size_t size) {
    return fails(MEMORY) ? refused() : __libc_realloc(block, size);
}

void *aligned_alloc(size_t alignment, size_t size) {
    return fails(MEMORY) ? refused() : __libc_memalign(alignment, size);
}

ssize_t read(int file, void *bytes, size_t size) {
    if (size && fails(READS))
        return failed();
    return syscall(SYS_read, file, bytes, at_most(size, most_given));
}

ssize_t write(int file, const void *bytes, size_t size) {
    if (size && (file == 1 || file == 2) && fails(file == 1 ? WRITES : SAYS))
        return failed();
    return syscall(SYS_write, file, bytes, at_most(size, most_taken));
}
