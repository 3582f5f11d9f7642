/*
 * A small loop that mutates seeds, for machines without libFuzzer:
 * mutate SECONDS SEED FILE ..
 */
#include <stdint.h>
#include <stdio.h>
#include <stdlib.h>
#include <string.h>
#include <time.h>

#define MOST_BYTES 12288
#define MOST_SEEDS 256

int LLVMFuzzerTestOneInput(const uint8_t *data, size_t size);

static uint64_t state;

/* splitmix64 */
static uint64_t next(void) {
    uint64_t z = state += 0x9e3779b97f4a7c15;
    z = (z ^ (z >> 30)) * 0xbf58476d1ce4e5b9;
    z = (z ^ (z >> 27)) * 0x94d049bb133111eb;
    return z ^ (z >> 31);
}

static uint8_t seeds[MOST_SEEDS][MOST_BYTES];
static size_t sizes[MOST_SEEDS];

/* One change of the bytes. Answers their new size. */
static size_t mutate(uint8_t *bytes, size_t size) {
    static const uint8_t edges[] = {0, 1, 2, 3, 7, 8, 64, 127, 128, 240, 248, 255, '0', '9', ' ', '\n', '(', ')'};
    if (size == 0)
        return 0;
    size_t at = next() % size;
    size_t run = 1 + next() % 16;
    switch (next() % 7) {
    case 0:
        bytes[at] ^= (uint8_t)(1 << next() % 8);
        break;
    case 1:
        bytes[at] = edges[next() % sizeof edges];
        break;
    case 2:
        bytes[at] = (uint8_t)next();
        break;
    case 3:
        for (size_t i = at; i < size && i < at + run; i++)
            bytes[i] = edges[run % sizeof edges];
        break;
    case 4:
        if (size + run <= MOST_BYTES) {
            memmove(bytes + at + run, bytes + at, size - at);
            return size + run;
        }
        break;
    case 5:
        if (at + run <= size) {
            memmove(bytes + at, bytes + at + run, size - at - run);
            return size - run;
        }
        break;
    default:
        return next() % 8 == 0 ? at : size;
    }
    return size;
}

int main(int count, char **words) {
    if (count < 4) {
        fprintf(stderr, "usage: mutate SECONDS SEED FILE ..\n");
        return 2;
    }
    double seconds = atof(words[1]);
    state = strtoull(words[2], NULL, 10);
    size_t files = 0;
    for (int i = 3; i < count && files < MOST_SEEDS; i++) {
        FILE *file = fopen(words[i], "rb");
        if (!file)
            return 2;
        sizes[files] = fread(seeds[files], 1, MOST_BYTES, file);
        fclose(file);
        LLVMFuzzerTestOneInput(seeds[files], sizes[files]);
        files++;
    }
    unsigned long runs = files;
    clock_t end = clock() + (clock_t)(seconds * CLOCKS_PER_SEC);
    while (clock() < end) {
        for (int i = 0; i < 256; i++, runs++) {
            static uint8_t bytes[MOST_BYTES];
            size_t of = next() % files;
            size_t size = sizes[of];
            memcpy(bytes, seeds[of], size);
            for (uint64_t n = 1 + next() % 6; n > 0; n--)
                size = mutate(bytes, size);
            LLVMFuzzerTestOneInput(bytes, size);
        }
    }
    printf("mutate: %lu runs from %zu seeds, 0 failures\n", runs, files);
    return 0;
}
