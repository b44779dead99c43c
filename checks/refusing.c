/* Loaded before the C library: counts a program's requests for memory, its reads and its writes, lets
   some of them fail, and tells what it holds when its input ends. checks/calling.py sets the variables:

     REFUSING_COUNTS   a file, into which the counts are mapped
     REFUSING_KIND     memory, read or write
     REFUSING_FIRST    the first of them that fails, from 1; 0: none
     REFUSING_LAST     the last of them that fails
     REFUSING_ERROR    the error of a read or a write; 0: it moves one octet
     REFUSING_MARKED   1: requests count, and fail, only inside the calls that the program marks

   The program marks them by asking for blocks of these sizes, which count as no requests:
   crates/row_values/src/marks.rt has the same three. */
#define _GNU_SOURCE
#include <dlfcn.h>
#include <errno.h>
#include <fcntl.h>
#include <malloc.h>
#include <stdlib.h>
#include <string.h>
#include <sys/mman.h>
#include <unistd.h>

enum mark { BEGIN = 1000003, REFUSE_ALL = 1000033, END = 1000037 };

enum kind { MEMORY, READ, WRITE, KINDS };

/* A program that marks nothing is inside from its start on. */
enum place { OUTSIDE, INSIDE, REFUSING_ALL };

static struct counts {
    long made[KINDS];
    long failed;
    long begun;   /* calls, by their marks */
    long unaided; /* stretches in which all requests are refused */
    long asked;   /* requests in these */
    long fewer;   /* requests that failed, and asked for no more than their block had */
    long live;    /* octets of all blocks */
    long held;    /* how many there were at the last read that found the end */
} unseen, *counts = &unseen;

static enum place place = INSIDE;
static enum kind kind = KINDS;
static long first, last;
static int error, marked;

extern void *__libc_malloc(size_t);
extern void *__libc_calloc(size_t, size_t);
extern void *__libc_realloc(void *, size_t);
extern void __libc_free(void *);

__attribute__((constructor)) static void begin(void) {
    static const char *const names[] = {"memory", "read", "write"};
    const char *path = getenv("REFUSING_COUNTS"), *named = getenv("REFUSING_KIND");
    if (path == NULL || named == NULL)
        return;
    int file = open(path, O_RDWR);
    void *shared = mmap(NULL, sizeof *counts, PROT_READ | PROT_WRITE, MAP_SHARED, file, 0);
    close(file);
    if (shared == MAP_FAILED)
        _exit(99);
    first = atol(getenv("REFUSING_FIRST"));
    last = atol(getenv("REFUSING_LAST"));
    error = atoi(getenv("REFUSING_ERROR"));
    marked = atoi(getenv("REFUSING_MARKED"));
    place = marked ? OUTSIDE : INSIDE;
    for (int k = 0; k < KINDS; k++)
        if (strcmp(names[k], named) == 0)
            kind = k;
    counts = shared;
}

/* Counts a call, and tells whether it fails. */
static int fails(enum kind called) {
    long number = ++counts->made[called];
    int hit = called == kind && first <= number && number <= last && first > 0;
    counts->failed += hit;
    return hit;
}

/* Goes where a mark says, and tells whether a block of this size is one. */
static int marks(size_t size) {
    if (!marked || (size != BEGIN && size != REFUSE_ALL && size != END))
        return 0;
    place = size == BEGIN ? INSIDE : size == REFUSE_ALL ? REFUSING_ALL : OUTSIDE;
    counts->begun += size == BEGIN;
    counts->unaided += size == REFUSE_ALL;
    return 1;
}

/* Counts a request, and tells whether it is refused. */
static int refuses(void) {
    if (place == INSIDE)
        return fails(MEMORY);
    counts->asked += place == REFUSING_ALL;
    return place == REFUSING_ALL;
}

/* Counts a block that was given. */
static void *given(void *block) {
    counts->live += malloc_usable_size(block);
    return block;
}

void *malloc(size_t size) {
    if (!marks(size) && refuses()) {
        errno = ENOMEM;
        return NULL;
    }
    return given(__libc_malloc(size));
}

void *calloc(size_t count, size_t size) {
    return given(__libc_calloc(count, size));
}

void *realloc(void *block, size_t size) {
    size_t before = malloc_usable_size(block);
    if (refuses()) {
        counts->fewer += place == INSIDE && size <= before;
        errno = ENOMEM;
        return NULL;
    }
    void *moved = __libc_realloc(block, size);
    if (moved != NULL)
        counts->live -= before;
    return given(moved);
}

void free(void *block) {
    counts->live -= malloc_usable_size(block);
    __libc_free(block);
}

ssize_t read(int file, void *octets, size_t size) {
    static ssize_t (*next)(int, void *, size_t);
    if (next == NULL)
        next = dlsym(RTLD_NEXT, "read");
    if (size > 0 && fails(READ)) {
        if (error != 0) {
            errno = error;
            return -1;
        }
        size = 1;
    }
    ssize_t count = next(file, octets, size);
    if (size > 0 && count == 0)
        counts->held = counts->live;
    return count;
}

ssize_t write(int file, const void *octets, size_t size) {
    static ssize_t (*next)(int, const void *, size_t);
    if (next == NULL)
        next = dlsym(RTLD_NEXT, "write");
    if (size > 0 && fails(WRITE)) {
        if (error != 0) {
            errno = error;
            return -1;
        }
        size = 1;
    }
    return next(file, octets, size);
}

ssize_t __write(int file, const void *octets, size_t size) {
    return write(file, octets, size);
}
