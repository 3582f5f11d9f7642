/*
 * A station in C: it lends memory to one job and then to the next, shows how far
 * each has come, and looks at what is left in the memory. Then the bits of NaNs, a
 * dense field, walks, and a job as text.
 *
 *   make
 *   cc -std=c99 -Iinclude examples/station.c target/staticlib/libjisampode.a -o station
 *   ./station
 *
 * It checks its own results, and ends with 1 where one is not as expected.
 */
#include "jisampode.h"

#include <inttypes.h>
#include <stdio.h>
#include <string.h>

/* ---- checks and bits -------------------------------------------------- */

static int failures = 0;

static void check(int as_expected, const char *what)
{
    if (!as_expected) {
        fprintf(stderr, "station: FAILED, %s\n", what);
        failures++;
    }
}

static uint64_t bits_of(double value)
{
    uint64_t bits;
    memcpy(&bits, &value, sizeof bits);
    return bits;
}

static double from_bits(uint64_t bits)
{
    double value;
    memcpy(&value, &bits, sizeof value);
    return value;
}

/* Whether all values from a place on are +0. */
static int zero_from(const double *values, size_t start, size_t length)
{
    for (size_t at = start; at < length; at++) {
        if (bits_of(values[at]) != 0) {
            return 0;
        }
    }
    return 1;
}

/* ---- a model ---------------------------------------------------------- */

/* Adds a shape, and hands back its place. */
static uint32_t add_shape(jisampode_model *m, uint32_t code, double x, double y,
                          double z, double number)
{
    uint32_t place = m->count++;
    m->parts[place] = code;
    m->reals[place] = x;
    m->reals[64 + place] = y;
    m->reals[128 + place] = z;
    m->reals[192 + place] = number;
    return place;
}

/* Adds an operation on earlier parts. */
static uint32_t add_operation(jisampode_model *m, uint32_t code, uint32_t a,
                              uint32_t b)
{
    uint32_t place = m->count++;
    m->parts[place] = code;
    m->parts[64 + place] = a;
    m->parts[128 + place] = b;
    return place;
}

/* ---- the station's memory, and calls on it ---------------------------- */

enum { CHILDREN = 64, STORE = 512, CORNERS = 27 };

typedef struct station {
    jisampode_record record;
    uint8_t kinds[CHILDREN];
    double numbers[CHILDREN];
    uint32_t places[CHILDREN];
    double store[STORE];
    double corners[CORNERS];
} station;

/* The five slices that the station lends. */
static jisampode_memory lent(station *s)
{
    const jisampode_memory memory = {s->kinds, CHILDREN, s->numbers, CHILDREN,
                                     s->places, CHILDREN, s->store, STORE,
                                     s->corners, CORNERS};
    return memory;
}

static uint32_t open_job(station *s, const jisampode_input *input)
{
    const jisampode_memory memory = lent(s);
    return jisampode_job_open(input, &s->record, &memory);
}

static uint32_t step_job(station *s, uint64_t budget, jisampode_progress *progress)
{
    const jisampode_memory memory = lent(s);
    return jisampode_job_step(budget, &s->record, &memory, progress);
}

static uint32_t drop_job(station *s)
{
    const jisampode_memory memory = lent(s);
    return jisampode_job_drop(&s->record, &memory);
}

/* The most evaluations that the open job can make: every needed corner, and every
   point of every active child. */
static uint64_t most_evaluations(const station *s, const jisampode_input *j)
{
    uint64_t counts[JISAMPODE_COUNTS] = {0};
    check(jisampode_counts(s->record.words, counts) == 0, "the counts of an open job");
    size_t children = (size_t)j->inner * j->inner * j->inner;
    uint64_t points = (uint64_t)j->leaf * j->leaf * j->leaf;
    uint64_t most = counts[JISAMPODE_COUNT_ACTIVE] * points;
    for (uint64_t node = 0; node < counts[JISAMPODE_COUNT_NODES]; node++) {
        uint32_t list[CORNERS];
        size_t needed[1] = {0};
        uint32_t answer = jisampode_corner_list(j->inner, s->kinds + node * children,
                                                children, list, CORNERS, needed);
        check(answer == 0, "the corners of a node");
        most += needed[0];
    }
    return most;
}

static void draw(const char *name, uint64_t done, uint64_t most, int finished)
{
    uint64_t marks = finished ? 20 : done * 20 / most;
    printf("%s [", name);
    for (uint64_t mark = 0; mark < 20; mark++) {
        putchar(mark < marks ? '#' : '.');
    }
    printf("] %" PRIu64 " evaluations, at most %" PRIu64 "\n", done, most);
}

/* Opens a job and steps it to its end. */
static void run_job(station *s, const jisampode_input *j, const char *name,
                    uint64_t budget, uint64_t counts[JISAMPODE_COUNTS])
{
    jisampode_progress progress = {0, 0};
    check(open_job(s, j) == 0, "an open");
    uint64_t most = most_evaluations(s, j);
    uint64_t done = 0;
    do {
        check(step_job(s, budget, &progress) == 0, "a step");
        check(progress.finished ? progress.made <= budget : progress.made == budget,
              "a step makes as many evaluations as its budget");
        done += progress.made;
        draw(name, done, most, progress.finished);
    } while (!progress.finished && failures == 0);
    check(jisampode_counts(s->record.words, counts) == 0, "the counts");
    check(counts[JISAMPODE_COUNT_EVALUATIONS] == done, "the evaluations of all steps");
    check(done <= most, "no more evaluations than the most");
    printf("%s done: nodes %" PRIu64 ", active children %" PRIu64 ", leaves %" PRIu64
           ", points %" PRIu64 ", evaluations %" PRIu64 "\n",
           name, counts[0], counts[1], counts[2], counts[3], counts[4]);
}

/* ---- what the station does -------------------------------------------- */

/* A plane in a box of 2×2×2: one node. */
static jisampode_input small_job(void)
{
    jisampode_input j = {{0, 0, 0, 2, 2, 2, 1, -0.25, 0}, 2, 2, {{0}, {0}, 0}};
    add_shape(&j.model, JISAMPODE_PLANE, 1, 0, 0, 0);
    return j;
}

/* A ball less a smaller one in a box of 4×4×4: eight nodes. */
static jisampode_input large_job(void)
{
    jisampode_input j = {{0, 0, 0, 4, 4, 4, 1, -0.05, 0.05}, 2, 2, {{0}, {0}, 0}};
    uint32_t ball = add_shape(&j.model, JISAMPODE_SPHERE, 2, 2, 2, 0.75);
    uint32_t hole = add_shape(&j.model, JISAMPODE_SPHERE, 2.5, 2, 2, 0.25);
    uint32_t outside = add_operation(&j.model, JISAMPODE_NEG, hole, 0);
    add_operation(&j.model, JISAMPODE_MAX, ball, outside);
    return j;
}

/* A large job and then a small one in the same memory. */
static void one_job_after_another(station *s)
{
    uint64_t counts[JISAMPODE_COUNTS] = {0};
    jisampode_input large = large_job();
    run_job(s, &large, "large", 150, counts);
    check(!zero_from(s->store, 64, STORE), "the large job's values reach far");

    jisampode_input small = small_job();
    run_job(s, &small, "small", 20, counts);
    const uint64_t expected[JISAMPODE_COUNTS] = {1, 8, 4, 32, 59};
    check(memcmp(counts, expected, sizeof expected) == 0, "the small job's counts");
    for (size_t child = 0; child < 8; child++) {
        int leaf = child % 2 == 0;
        check(s->kinds[child] == (leaf ? JISAMPODE_LEAF : JISAMPODE_ACTIVE), "a kind");
        check(s->numbers[child] == (leaf ? 0.0 : 1.5), "a number");
        check(s->places[child] == (leaf ? child / 2 : 0), "a place");
    }
    for (size_t at = 0; at < 32; at++) {
        check(s->store[at] == (double)(at % 2), "a value");
    }
    int rest = zero_from(s->store, 32, STORE) && zero_from(s->numbers, 8, CHILDREN)
               && zero_from(s->corners, 0, CORNERS);
    for (size_t child = 8; child < CHILDREN; child++) {
        rest = rest && s->kinds[child] == 0 && s->places[child] == 0;
    }
    check(rest, "nothing of the large job is left");
    printf("nothing of the large job is left: %s\n", rest ? "yes" : "no");
}

/* What open and step refuse. */
static void refusals(station *s)
{
    jisampode_progress progress = {7, 7};
    jisampode_input wrong = small_job();
    wrong.settings[6] = 0;
    uint32_t by_cell = open_job(s, &wrong);
    check(by_cell == JISAMPODE_REFUSED_BOUNDS, "a cell size of 0");
    check(s->store[1] == 1.0, "a refused open changes nothing");

    s->record.words[9]++;
    uint32_t by_record = step_job(s, 1, &progress);
    check(by_record == JISAMPODE_REFUSED_RECORD, "a record that was changed");

    check(drop_job(s) == 0, "a drop");
    check(zero_from(s->store, 0, STORE), "a drop zeroes the store");
    uint32_t by_drop = step_job(s, 1, &progress);
    check(by_drop == JISAMPODE_REFUSED_NO_JOB, "a step after a drop");
    check(progress.made == 7 && progress.finished == 7, "a refused step has no progress");
    printf("refused: %" PRIu32 " %" PRIu32 " %" PRIu32 "\n", by_cell, by_record, by_drop);
    printf("the last: %s\n", jisampode_refusal_text(by_drop));
}

/* Runs a model that is NaN everywhere, and hands back the bits of its values. */
static uint64_t bits_of_leaves(station *s, const jisampode_model *shape)
{
    jisampode_progress progress;
    jisampode_input j = small_job();
    j.model = *shape;
    check(open_job(s, &j) == 0, "an open with a NaN");
    check(step_job(s, 1, &progress) == 0, "a first step with a NaN");
    check(step_job(s, UINT64_MAX, &progress) == 0, "the other steps with a NaN");
    for (size_t at = 0; at < 64; at++) {
        check(bits_of(s->store[at]) == bits_of(s->store[0]), "the bits of a NaN");
    }
    return bits_of(s->store[0]);
}

/* A constant is copied with its bits; a computed NaN has one pattern. */
static void nan_bits(station *s)
{
    jisampode_model shape = {{0}, {0}, 0};
    uint32_t constant = add_shape(&shape, JISAMPODE_CONSTANT, 0, 0, 0,
                                  from_bits(UINT64_C(0x7ff8000000000001)));
    uint64_t copied = bits_of_leaves(s, &shape);
    add_operation(&shape, JISAMPODE_NEG, constant, 0);
    uint64_t computed = bits_of_leaves(s, &shape);
    check(copied == UINT64_C(0x7ff8000000000001), "a copied NaN");
    check(computed == UINT64_C(0x7ff8000000000000), "a computed NaN");
    printf("NaN copied %016" PRIx64 ", computed %016" PRIx64 "\n", copied, computed);
    check(drop_job(s) == 0, "a drop after a NaN");
}

/* A dense field of 3×3×3. */
static void dense_field(void)
{
    const double bounds[6] = {0, 0, 0, 2, 2, 2};
    size_t n[3] = {0};
    check(jisampode_point_count(bounds, 1, n) == 0, "a point count");
    check(n[0] == 3 && n[1] == 3 && n[2] == 3, "3×3×3 points");
    printf("dense: %zu %zu %zu points\n", n[0], n[1], n[2]);

    double values[27] = {0};
    double scratch[27] = {0};
    jisampode_model shape = {{0}, {0}, 0};
    add_shape(&shape, JISAMPODE_PLANE, 1, 10, 100, 0);
    check(jisampode_sample(shape.parts, shape.reals, shape.count, 0, 0, 0, 1, n[0],
                           n[1], n[2], values, 27) == 0,
          "sampling");
    for (size_t at = 0; at < 27; at++) {
        size_t expected = at % 3 + at / 3 % 3 * 10 + at / 9 * 100;
        check(values[at] == (double)expected, "a sampled value");
    }

    size_t cells = 0;
    size_t cursor[3] = {0, 0, 0};
    double octet[8] = {0};
    uint32_t answer;
    while ((answer = jisampode_octet_step(n[0], n[1], n[2], values, 27, cursor, octet)) == 0) {
        cells++;
    }
    check(answer == JISAMPODE_DONE && cells == 8, "a walk over eight cells");
    check(octet[0] == 111 && octet[2] == 122 && octet[6] == 222, "the last cell");
    printf("dense: %zu cells, the last from %g to %g\n", cells, octet[0], octet[6]);

    /* A 0 in the middle, and sixes around it. */
    const size_t neighbours[6] = {4, 10, 12, 14, 16, 22};
    memset(values, 0, sizeof values);
    for (size_t at = 0; at < 6; at++) {
        values[neighbours[at]] = 6;
    }
    check(jisampode_smooth(3, 3, 3, 0.5, 1, values, 27, scratch, 27) == 0, "smoothing");
    check(values[13] == 3 && values[12] == 6 && values[0] == 0, "the smoothed values");
    check(zero_from(scratch, 0, 27), "the scratch is zeroed");
    printf("dense: smoothed to %g\n", values[13]);

    check(jisampode_padding(3, 3, 3, -1, values, 27) == 0, "padding");
    check(values[13] == 3 && values[12] == -1 && values[0] == -1, "the padded values");
    check(jisampode_threshold(3, 3, 3, 2, values, 27) == 0, "a threshold");
    check(values[13] == 3 && bits_of(values[0]) == 0, "the values after a threshold");
    check(jisampode_smooth(3, 3, 3, 0.5, 1, values, 27, scratch, 26)
              == JISAMPODE_REFUSED_DIMENSIONS,
          "a scratch that is too short");
}

/* The points and the cells of a grid in bounds. */
static void walks(void)
{
    const double bounds[6] = {0, 0, 0, 2, 4, 6};
    size_t cursor[3] = {0, 0, 0};
    double point[3] = {0};
    size_t points = 0;
    uint32_t answer;
    while ((answer = jisampode_point_step(bounds, 3, 3, 3, cursor, point)) == 0) {
        points++;
    }
    check(answer == JISAMPODE_DONE && points == 27, "a walk over 27 points");
    check(point[0] == 2 && point[1] == 4 && point[2] == 6, "the last point");

    size_t start[3] = {1, 1, 1};
    double cell[6] = {0};
    check(jisampode_cell_step(bounds, 2, 2, 2, start, cell) == 0, "a cell");
    check(cell[0] == 1 && cell[1] == 2 && cell[2] == 3, "the cell's lowest corner");
    check(cell[3] == 2 && cell[4] == 4 && cell[5] == 6, "the cell's highest corner");
    check(jisampode_cell_step(bounds, 2, 2, 2, start, cell) == JISAMPODE_DONE,
          "no cell after the last");
    check(jisampode_cell_step(bounds, 0, 2, 2, start, cell) == JISAMPODE_REFUSED_WALK,
          "a count of 0");
    printf("walks: %zu points, the last %g %g %g\n", points, point[0], point[1], point[2]);
}

/* The small job as text. */
static void job_as_text(void)
{
    static const char text[] =
        "(bounds (min 0000000000000000 0000000000000000 0000000000000000)"
        " (max 4000000000000000 4000000000000000 4000000000000000))\n"
        "(cell 3ff0000000000000)\n"
        "(blocks 2 2)\n"
        "(band bfd0000000000000 0000000000000000)\n"
        "(plane 3ff0000000000000 0000000000000000 0000000000000000 0000000000000000)\n";
    static uint8_t listing[JISAMPODE_LISTING_BYTES];
    const char first[] = "(done 1 8 4 32 59)\n";
    size_t written[1] = {0};
    check(jisampode_list_job((const uint8_t *)text, strlen(text), listing,
                             JISAMPODE_LISTING_BYTES, written) == 0,
          "a listing");
    check(memcmp(listing, first, strlen(first)) == 0, "a listing's first line");
    fwrite(listing, 1, written[0], stdout);

    /* Without its last line's end. */
    check(jisampode_list_job((const uint8_t *)text, strlen(text) - 1, listing,
                             JISAMPODE_LISTING_BYTES, written) == 0,
          "a listing of a text off its form");
    fwrite(listing, 1, written[0], stdout);
}

int main(void)
{
    /* All zeros: a record without a job. The memory may hold anything. */
    static station s;
    memset(s.kinds, 7, sizeof s.kinds);
    memset(s.store, 7, sizeof s.store);

    check(jisampode_version() == JISAMPODE_VERSION, "the archive is of the header's version");
    one_job_after_another(&s);
    refusals(&s);
    nan_bits(&s);
    dense_field();
    walks();
    job_as_text();
    printf("%s\n", failures == 0 ? "all as expected" : "not as expected");
    return failures == 0 ? 0 : 1;
}
