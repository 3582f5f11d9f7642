/*
 * Writes inputs of fuzz_record into a folder: records and memory as real calls
 * leave them, and edits of such records. write_seeds FOLDER
 */
#include "../include/jisampode.h"
#include <stdio.h>
#include <string.h>

static const uint8_t lengths[5] = {16, 16, 16, 72, 27};

static jisampode_record record;
static uint8_t kinds[16];
static double numbers[16], store[72], corners[27];
static uint32_t places[16];

/* A file with its first 14 bytes in it. */
static FILE *seed(const char *folder, unsigned number, unsigned choice, uint64_t budget) {
    char name[4096];
    snprintf(name, sizeof name, "%s/record-%02u", folder, number);
    FILE *file = fopen(name, "wb");
    if (file) {
        fputc((int)choice, file);
        fwrite(lengths, 1, sizeof lengths, file);
        fwrite(&budget, sizeof budget, 1, file);
    }
    return file;
}

/* The plane case's model over bounds of two nodes, after k evaluations. */
static int at(uint64_t k) {
    static const double settings[JISAMPODE_SETTINGS] = {0, 0, 0, 3, 1, 0.5, 1, -0.25, 0};
    static const uint32_t parts[JISAMPODE_PARTS] = {JISAMPODE_PLANE};
    static const double reals[JISAMPODE_REALS] = {1};
    memset(&record, 0, sizeof record);
    uint32_t opened = jisampode_open(
        settings, 2, 2, parts, reals, 1, record.words, record.parts, record.settings,
        record.reals, kinds, 16, numbers, 16, places, 16, store, 72, corners, 27);
    uint32_t stepped = jisampode_step(
        k, record.words, record.parts, record.settings, record.reals, kinds, 16, numbers, 16,
        places, 16, store, 72, corners, 27);
    return opened == JISAMPODE_ACCEPTED && stepped == JISAMPODE_ACCEPTED;
}

int main(int count, char **words) {
    static const uint64_t steps[] = {0, 1, 11, 12, 13, 20, 21, 30, 40, 50, 1000};
    if (count != 2)
        return 2;
    unsigned number = 0;
    for (unsigned i = 0; i < sizeof steps / sizeof *steps; i++) {
        FILE *file = seed(words[1], number++, 2 * (i % 2), i);
        if (!file || !at(steps[i]))
            return 1;
        fwrite(record.words, 1, sizeof record.words, file);
        fwrite(record.parts, 1, sizeof record.parts, file);
        fwrite(record.settings, 1, sizeof record.settings, file);
        fwrite(record.reals, 1, sizeof record.reals, file);
        fwrite(kinds, 1, sizeof kinds, file);
        fwrite(numbers, 1, sizeof numbers, file);
        fwrite(places, 1, sizeof places, file);
        fwrite(store, 1, sizeof store, file);
        fwrite(corners, 1, sizeof corners, file);
        fclose(file);
    }
    for (unsigned k = 0; k < 64; k += 5) {
        FILE *file = seed(words[1], number++, 1 + 2 * (k % 2) + 4 * k, k % 7);
        if (!file)
            return 1;
        /* The low byte of a word, among the lengths, the counts and the cursor. */
        const uint8_t edit[3] = {(uint8_t)(8 * (4 + k % 14)), 0, (uint8_t)(k % 5)};
        fwrite(edit, 1, sizeof edit, file);
        fclose(file);
    }
    return 0;
}
