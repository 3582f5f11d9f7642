/*
 * Memory for one slice, between pages that nobody may touch, so that a read or a
 * write past an end stops the program also in code that is not instrumented.
 * What lies between the slice and the other end holds guard bytes.
 */
#ifndef FENCE_H
#define FENCE_H

#include <stddef.h>
#include <stdint.h>
#include <stdio.h>
#include <stdlib.h>
#include <string.h>
#include <sys/mman.h>
#include <unistd.h>

#define GUARD_BYTE 0xa5

/* Feedback for libFuzzer, which sees no branch of the archive: answers and
   counts that were not seen before. */
__attribute__((section("__libfuzzer_extra_counters"))) static uint8_t seen[4096];

static inline void saw(unsigned kind, uint64_t number) {
    unsigned bucket = 0;
    while (number > 15) {
        number >>= 1;
        bucket++;
    }
    seen[(kind * 256 + bucket * 16 + (unsigned)number) % sizeof seen] = 1;
}

/* The bytes of all inputs, printed at the end. */
static uint64_t bytes_tried;

static void print_bytes_tried(void) {
    fprintf(stderr, "bytes tried: %llu\n", (unsigned long long)bytes_tried);
}

static inline void tried(size_t size) {
    if (bytes_tried == 0)
        atexit(print_bytes_tried);
    bytes_tried += size;
}

/* Ends with what does not hold. */
static inline void hold(int holds, const char *what) {
    if (!holds) {
        fprintf(stderr, "FAILED: %s\n", what);
        abort();
    }
}

typedef struct fence {
    uint8_t *room; /* between the two closed pages */
    size_t size;
    uint8_t *slice;
    size_t bytes;
} fence;

/* Makes room for slices of at most so many bytes. */
static inline void fence_make(fence *f, size_t most) {
    size_t page = (size_t)sysconf(_SC_PAGESIZE);
    size_t size = (most + page) / page * page;
    uint8_t *all = mmap(NULL, size + 2 * page, PROT_NONE, MAP_PRIVATE | MAP_ANONYMOUS, -1, 0);
    hold(all != MAP_FAILED, "no memory");
    f->room = all + page;
    f->size = size;
    hold(mprotect(f->room, size, PROT_READ | PROT_WRITE) == 0, "no memory");
}

/* A slice of so many bytes, at the front or at the end, zeros in it. */
static inline void *fence_slice(fence *f, size_t bytes, int at_end) {
    hold(bytes <= f->size, "a slice is longer than its room");
    memset(f->room, GUARD_BYTE, f->size);
    f->slice = at_end ? f->room + f->size - bytes : f->room;
    f->bytes = bytes;
    memset(f->slice, 0, bytes);
    return f->slice;
}

/* Whether all bytes are the same one. */
static inline int all(const uint8_t *bytes, size_t count, uint8_t is) {
    return count == 0 || (bytes[0] == is && memcmp(bytes, bytes + 1, count - 1) == 0);
}

/* Whether every guard byte is as it was. */
static inline int fence_holds(const fence *f) {
    size_t before = (size_t)(f->slice - f->room);
    size_t after = f->size - before - f->bytes;
    return all(f->room, before, GUARD_BYTE) && all(f->slice + f->bytes, after, GUARD_BYTE);
}

#endif
