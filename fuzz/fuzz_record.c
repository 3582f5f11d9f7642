/*
 * Any bytes as a record and as memory, on which every call of a sparse field's
 * job is made.
 *
 * The input: 1 byte of choices, 5 lengths (kinds, numbers, places, store,
 * corners), 8 bytes of a budget; then the record's four arrays and the five
 * slices, byte for byte. What is not given is 0. With the first choice, a real
 * record and its memory are there already, and the rest of the input are edits:
 * 2 bytes of a place and 1 byte that is put there.
 */
#include "../include/jisampode.h"
#include "fence.h"

#define MOST 255 /* elements of a slice */

enum { WORDS, PARTS, SETTINGS, REALS, KINDS, NUMBERS, PLACES, STORE, CORNERS, ARRAYS };

static fence rooms[ARRAYS];
static const size_t element[ARRAYS] = {8, 4, 8, 8, 1, 8, 4, 8, 8};
static const size_t fixed[4] = {JISAMPODE_WORDS, JISAMPODE_PARTS, JISAMPODE_SETTINGS,
                                JISAMPODE_REALS};

/* The record and the memory, as they are lent. */
typedef struct lent {
    void *at[ARRAYS];
    size_t length[ARRAYS];
} lent;

static uint32_t step(lent *l, uint64_t budget) {
    return jisampode_step(budget, l->at[WORDS], l->at[PARTS], l->at[SETTINGS], l->at[REALS],
                          l->at[KINDS], l->length[KINDS], l->at[NUMBERS], l->length[NUMBERS],
                          l->at[PLACES], l->length[PLACES], l->at[STORE], l->length[STORE],
                          l->at[CORNERS], l->length[CORNERS]);
}

static uint32_t drop(lent *l) {
    return jisampode_drop(l->at[WORDS], l->at[PARTS], l->at[SETTINGS], l->at[REALS],
                          l->at[KINDS], l->length[KINDS], l->at[NUMBERS], l->length[NUMBERS],
                          l->at[PLACES], l->length[PLACES], l->at[STORE], l->length[STORE],
                          l->at[CORNERS], l->length[CORNERS]);
}

/* What open is given. */
typedef struct opening {
    double settings[JISAMPODE_SETTINGS];
    uint32_t inner, leaf, count;
    uint32_t parts[JISAMPODE_PARTS];
    double reals[JISAMPODE_REALS];
} opening;

static uint32_t open_job(lent *l, const opening *o) {
    return jisampode_open(o->settings, o->inner, o->leaf, o->parts, o->reals, o->count,
                          l->at[WORDS], l->at[PARTS], l->at[SETTINGS], l->at[REALS],
                          l->at[KINDS], l->length[KINDS], l->at[NUMBERS], l->length[NUMBERS],
                          l->at[PLACES], l->length[PLACES], l->at[STORE], l->length[STORE],
                          l->at[CORNERS], l->length[CORNERS]);
}

static uint8_t copies[2][ARRAYS][MOST * 8 + JISAMPODE_REALS * 8];

static void keep(const lent *l, int copy) {
    for (int i = 0; i < ARRAYS; i++)
        memcpy(copies[copy][i], l->at[i], l->length[i] * element[i]);
}

static void put_back(lent *l, int copy) {
    for (int i = 0; i < ARRAYS; i++)
        memcpy(l->at[i], copies[copy][i], l->length[i] * element[i]);
}

static int unchanged(const lent *l, int copy) {
    for (int i = 0; i < ARRAYS; i++)
        if (memcmp(l->at[i], copies[copy][i], l->length[i] * element[i]) != 0)
            return 0;
    return 1;
}

static void guards(void) {
    for (int i = 0; i < ARRAYS; i++)
        hold(fence_holds(&rooms[i]), "a guard byte has changed");
}

/* A sphere over two nodes, after as many evaluations as chosen. */
static void real_record(lent *l, unsigned choice) {
    static opening o;
    memset(&o, 0, sizeof o);
    const double settings[JISAMPODE_SETTINGS] = {0, 0, 0, 3, 1, 0.5, 1, -0.25, 0.25};
    memcpy(o.settings, settings, sizeof settings);
    o.inner = o.leaf = 2;
    o.count = 3;
    o.parts[0] = JISAMPODE_SPHERE;
    o.reals[0] = 1;
    o.reals[192] = 1;
    o.parts[1] = JISAMPODE_PLANE;
    o.reals[1] = 1;
    o.reals[193] = 2;
    o.parts[2] = JISAMPODE_MIN;
    o.parts[64 + 2] = 0;
    o.parts[128 + 2] = 1;
    if (open_job(l, &o) == JISAMPODE_ACCEPTED)
        hold(step(l, choice) == JISAMPODE_ACCEPTED, "a step of an open job is refused");
}

/* Byte `at` of all arrays, one after the other. */
static void edit(lent *l, size_t at, uint8_t byte) {
    for (int i = 0; i < ARRAYS; i++) {
        size_t bytes = l->length[i] * element[i];
        if (at < bytes) {
            ((uint8_t *)l->at[i])[at] = byte;
            return;
        }
        at -= bytes;
    }
}

static uint64_t *words(lent *l) { return l->at[WORDS]; }

/* Counts and cursor of the record as it is. */
static void reads(lent *l) {
    uint64_t counts[7] = {11, 12, 13, 14, 15, 16, 17}, cursor[6] = {21, 22, 23, 24, 25, 26};
    keep(l, 1);
    uint32_t of_counts = jisampode_counts(l->at[WORDS], &counts[1]);
    uint32_t of_cursor = jisampode_cursor(l->at[WORDS], &cursor[1]);
    hold(of_counts == 0 || of_counts == 7 || of_counts == 8, "an answer of counts");
    hold(of_counts == of_cursor, "counts and cursor answer differently");
    hold((of_counts == 7) == (words(l)[0] == 0), "no job is 7");
    hold(unchanged(l, 1), "counts or cursor have changed a record");
    hold(counts[0] == 11 && counts[6] == 17 && cursor[0] == 21 && cursor[5] == 26,
         "a number beside counts or cursor has changed");
    if (of_counts != 0) {
        hold(counts[1] == 12 && counts[5] == 16 && cursor[1] == 22 && cursor[4] == 25,
             "a refused call has written");
        return;
    }
    hold(memcmp(&counts[1], &words(l)[9], 40) == 0, "counts that are not the record's");
    hold(cursor[1] <= 2, "a cursor's kind");
    saw(5, cursor[1]);
}

/* A step on a record as it is. */
static void steps(lent *l, uint64_t budget) {
    keep(l, 1);
    uint64_t before = words(l)[13];
    uint32_t answer = step(l, budget);
    guards();
    saw(0, answer);
    hold(answer == 0 || answer == 7 || answer == 8, "an answer of step");
    hold((answer == 7) == (words(l)[0] == 0), "no job is 7");
    if (answer != 0) {
        hold(unchanged(l, 1), "a refused step has changed something");
        return;
    }
    hold(words(l)[0] == 1, "an accepted step has lost the job");
    hold(words(l)[13] - before <= budget, "more evaluations than the budget");
    hold(words(l)[14] == 0 || words(l)[13] - before == budget,
         "fewer evaluations than the budget, and not at the end");
    saw(1, words(l)[14]);
    saw(2, words(l)[11]);
    saw(3, words(l)[13] - before);
    keep(l, 1);
    answer = step(l, 0);
    hold(answer == 0 || answer == 8, "a second step");
    hold(unchanged(l, 1), "a step without budget has changed something");
    reads(l);
}

/* An open with what the record holds. */
static void opens(lent *l, uint64_t budget) {
    static opening o;
    o.inner = (uint32_t)words(l)[1];
    o.leaf = (uint32_t)words(l)[2];
    o.count = (uint32_t)words(l)[3];
    memcpy(o.settings, l->at[SETTINGS], sizeof o.settings);
    memcpy(o.parts, l->at[PARTS], sizeof o.parts);
    memcpy(o.reals, l->at[REALS], sizeof o.reals);
    keep(l, 1);
    uint32_t answer = open_job(l, &o);
    guards();
    saw(4, answer);
    hold(answer <= 6, "an answer of open");
    if (answer != 0) {
        hold(unchanged(l, 1), "a refused open has changed something");
        return;
    }
    hold(words(l)[0] == 1 && words(l)[13] == 0, "an opened job's record");
    for (int turn = 0; turn < 3; turn++) {
        hold(step(l, turn == 2 ? UINT64_MAX : budget) == 0, "a step of an open job is refused");
        guards();
    }
    hold(words(l)[14] == 0, "an unlimited step does not finish the job");
    keep(l, 1);
    hold(step(l, UINT64_MAX) == 0 && unchanged(l, 1), "a finished job goes on");
}

static void drops(lent *l) {
    hold(drop(l) == 0, "a drop is refused");
    guards();
    for (int i = 0; i < ARRAYS; i++)
        hold(all(l->at[i], l->length[i] * element[i], 0), "a drop leaves a number");
    hold(step(l, 1) == 7, "a step after a drop");
}

int LLVMFuzzerTestOneInput(const uint8_t *data, size_t size) {
    static lent l;
    if (!rooms[0].room)
        for (int i = 0; i < ARRAYS; i++)
            fence_make(&rooms[i], (i < KINDS ? fixed[i] : MOST) * element[i]);
    if (size < 14)
        return 0;
    tried(size);
    unsigned choice = data[0];
    uint64_t budget;
    memcpy(&budget, data + 6, 8);
    for (int i = 0; i < ARRAYS; i++) {
        l.length[i] = i < KINDS ? fixed[i] : data[1 + i - KINDS];
        l.at[i] = fence_slice(&rooms[i], l.length[i] * element[i], choice >> 1 & 1);
    }
    data += 14;
    size -= 14;
    if (choice & 1) {
        real_record(&l, choice >> 2);
        for (; size >= 3; data += 3, size -= 3)
            edit(&l, data[0] + 256u * data[1], data[2]);
    } else {
        for (int i = 0; i < ARRAYS; i++) {
            size_t bytes = l.length[i] * element[i];
            size_t given = bytes < size ? bytes : size;
            memcpy(l.at[i], data, given);
            data += given;
            size -= given;
        }
    }
    keep(&l, 0);
    reads(&l);
    steps(&l, budget);
    put_back(&l, 0);
    opens(&l, budget);
    put_back(&l, 0);
    drops(&l);
    return 0;
}
