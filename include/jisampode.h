/*
 * Jisampode: the field engine of a print-preparation station.
 *
 * Link libjisampode.a, which `make` writes to target/staticlib/; `make install
 * PREFIX=..` installs it with this header, a shared object and a file for
 * pkg-config. It is compiled for x86-64 Linux. It needs memcpy and memset, and
 * nothing else: no heap, no threads, no files. A thread that makes these calls
 * needs JISAMPODE_STACK bytes of stack, and JISAMPODE_LISTING_STACK for listings.
 *
 * WHAT EVERY CALL KEEPS TO
 *
 * - A call touches the arrays and slices that it is given, inside their
 *   lengths, and nothing else. It ends.
 * - Each call returns 0 where it was accepted, and else the number of the cause
 *   that refused it (JISAMPODE_REFUSED_..). A refused call changes nothing that
 *   it was lent. Walks also return JISAMPODE_DONE.
 * - What the engine is given is judged and not trusted: any numbers may stand in
 *   any array, a record's too.
 *
 * WHAT THE CALLER KEEPS TO
 *
 * - A pointer points to as many elements as the array's type or the length after
 *   it says, aligned for its type. A slice of length 0 still has a pointer that
 *   is not null.
 * - What a call may write (a pointer without const) overlaps nothing else that
 *   the same call is given.
 * - No two calls at once on the same memory.
 *
 * NaN: a NaN that a call computes has the bits 7ff8000000000000. Constants, min
 * and max copy their operand, and a copied NaN keeps its bits.
 */
#ifndef JISAMPODE_H
#define JISAMPODE_H

#include <stddef.h>
#include <stdint.h>

#ifdef __cplusplus
extern "C" {
#endif

/* ---- the stack -------------------------------------------------------- */

/* Enough for a thread that makes any call but jisampode_list_job, and for one that
   makes that call too, the thread's own needs among it. Both are tested. */
enum {
    JISAMPODE_STACK = 81920,
    JISAMPODE_LISTING_STACK = 131072
};

/* ---- the version ------------------------------------------------------ */

/* Of this header. */
#define JISAMPODE_VERSION_MAJOR 0
#define JISAMPODE_VERSION_MINOR 1
#define JISAMPODE_VERSION_PATCH 0
#define JISAMPODE_VERSION                                              \
    (JISAMPODE_VERSION_MAJOR * 10000 + JISAMPODE_VERSION_MINOR * 100 + \
     JISAMPODE_VERSION_PATCH)

/* Of the archive, in the same form. A host can hold the two together. */
uint32_t jisampode_version(void);

/* ---- answers ---------------------------------------------------------- */

enum {
    JISAMPODE_ACCEPTED = 0,
    /* A bound or an origin is not finite, a highest bound is below the lowest,
       or the cell size is infinite, NaN, 0 or negative. */
    JISAMPODE_REFUSED_BOUNDS = 1,
    /* The inner or the leaf size is none of 2, 4, 8, 16, 32, 64. */
    JISAMPODE_REFUSED_BLOCKS = 2,
    /* A limit of the band is NaN. */
    JISAMPODE_REFUSED_BAND = 3,
    /* No part or more than 64, a part with an input that is not before it,
       or a part's code above 7. */
    JISAMPODE_REFUSED_MODEL = 4,
    /* The node size is not finite, there are over 1,024 nodes along an axis, or
       over 16,777,216 children. */
    JISAMPODE_REFUSED_GRID = 5,
    /* A lent slice is too short. */
    JISAMPODE_REFUSED_SHORT = 6,
    /* The record has no job. */
    JISAMPODE_REFUSED_NO_JOB = 7,
    /* The record is one that no job of this memory can have. */
    JISAMPODE_REFUSED_RECORD = 8,
    /* A dense field's dimension is 0, their product is above 16,777,216, the
       values are not exactly that many, or the scratch is shorter. */
    JISAMPODE_REFUSED_DIMENSIONS = 9,
    /* A cell is outside the field: its i or j is past the last. */
    JISAMPODE_REFUSED_OUTSIDE = 10,
    /* A walk has fewer than 2 points or no cell along an axis, or more than
       16,777,216; or its cursor's i or j is at its count or past it. */
    JISAMPODE_REFUSED_WALK = 11,
    /* A job text is off its form. No call returns it: a listing prints it with
       the line, `(refused 12 LINE)`. */
    JISAMPODE_REFUSED_TEXT = 12,
    /* Of a walk alone: past the last one. The cursor stays. */
    JISAMPODE_DONE = 100
};

/*
 * What a number that a call returned says, for a log: a sentence without a full
 * stop, in memory that lives on. A number that no call returns has one too.
 */
static inline const char *jisampode_refusal_text(uint32_t number)
{
    switch (number) {
    case JISAMPODE_ACCEPTED: return "accepted";
    case JISAMPODE_REFUSED_BOUNDS: return "the bounds, the origin or the cell size";
    case JISAMPODE_REFUSED_BLOCKS: return "a block size is not 2, 4, 8, 16, 32 or 64";
    case JISAMPODE_REFUSED_BAND: return "a limit of the band is NaN";
    case JISAMPODE_REFUSED_MODEL: return "the number of parts, a part's input or its code";
    case JISAMPODE_REFUSED_GRID: return "the node size, or too many nodes or children";
    case JISAMPODE_REFUSED_SHORT: return "a lent slice is too short";
    case JISAMPODE_REFUSED_NO_JOB: return "the record has no job";
    case JISAMPODE_REFUSED_RECORD: return "the record is not one of a job of this memory";
    case JISAMPODE_REFUSED_DIMENSIONS: return "the dimensions, or the length of the values or the scratch";
    case JISAMPODE_REFUSED_OUTSIDE: return "a cell outside the field";
    case JISAMPODE_REFUSED_WALK: return "a walk's counts, or its cursor";
    case JISAMPODE_REFUSED_TEXT: return "a job's text is off its form";
    case JISAMPODE_DONE: return "a walk is past the last one";
    default: return "a number that this header does not know";
    }
}

/* ---- a model ---------------------------------------------------------- */

/*
 * A model is its first `count` parts, 1 to 64. Its value is its last part's.
 * Part p stands in two arrays:
 *   parts[p]       its code
 *   parts[64 + p]  its first input, parts[128 + p] its second: places of parts
 *                  that stand before it
 *   reals[p], reals[64 + p], reals[128 + p]  its vector's x, y and z
 *   reals[192 + p] its number
 * What a part does not use is not looked at, and neither are parts past the
 * count.
 */
enum {
    JISAMPODE_CONSTANT = 0, /* the number */
    JISAMPODE_SPHERE = 1,   /* centre the vector, radius the number */
    JISAMPODE_PLANE = 2,    /* normal the vector, offset the number */
    JISAMPODE_MIN = 3,      /* of two inputs, as the next three */
    JISAMPODE_MAX = 4,
    JISAMPODE_ADD = 5,
    JISAMPODE_SUB = 6,
    JISAMPODE_NEG = 7       /* of the first input */
};

enum {
    JISAMPODE_MOST_PARTS = 64,
    JISAMPODE_PARTS = 192,
    JISAMPODE_REALS = 256,
    JISAMPODE_SETTINGS = 9,
    JISAMPODE_WORDS = 18
};

/* ---- a sparse field's job --------------------------------------------- */

/*
 * A record is what calls on a job hand on. It is four arrays, so that a NaN
 * constant's bits survive. All zeros is a record without a job.
 *
 *   words[0]         1 with a job, 0 without
 *   words[1]         children of a node along an axis (inner)
 *   words[2]         points of a leaf along an axis (leaf)
 *   words[3]         parts of the model
 *   words[4 .. 8]    lengths of kinds, numbers, places, store and corners
 *   words[9 .. 13]   nodes, active children, leaves, sampled, evaluations
 *   words[14 .. 17]  the cursor, as jisampode_cursor gives it
 *   parts, reals     the model
 *   settings         as jisampode_open takes them
 *
 * Between calls nothing else should touch a record or the five slices. If
 * something does, the next call judges what it finds: a record whose words no
 * record has, or that no job of this memory can have, is refused by
 * JISAMPODE_REFUSED_RECORD. Where words[0] is 0 the rest is not looked at.
 *
 * No record has a words[0] above 1, words[1], words[2] or words[3] of more than 32
 * bits, or a words[14] above 2: jisampode_counts and jisampode_cursor return 8 for
 * these, and jisampode_step does. An accepted open or step writes the record anew.
 * Parts past the model's count go along in it. What a part does not use is 0
 * afterwards, and a part past the count with a code above 7 has become
 * JISAMPODE_NEG of the input 4294967295.
 */
typedef struct jisampode_record {
    uint64_t words[JISAMPODE_WORDS];
    uint32_t parts[JISAMPODE_PARTS];
    double settings[JISAMPODE_SETTINGS];
    double reals[JISAMPODE_REALS];
} jisampode_record;

/* Where things stand in a record's words. The lengths, counts and cursor begin at
   these, and go on as named below. */
enum {
    JISAMPODE_WORD_JOB = 0,
    JISAMPODE_WORD_INNER = 1,
    JISAMPODE_WORD_LEAF = 2,
    JISAMPODE_WORD_PARTS = 3,
    JISAMPODE_WORD_LENGTHS = 4,
    JISAMPODE_WORD_COUNTS = 9,
    JISAMPODE_WORD_CURSOR = 14
};

/* The five lengths, as jisampode_lengths gives them. */
enum {
    JISAMPODE_LENGTH_KINDS = 0,
    JISAMPODE_LENGTH_NUMBERS = 1,
    JISAMPODE_LENGTH_PLACES = 2,
    JISAMPODE_LENGTH_STORE = 3,
    JISAMPODE_LENGTH_CORNERS = 4,
    JISAMPODE_LENGTHS = 5
};

/* The five counts, as jisampode_counts gives them. */
enum {
    JISAMPODE_COUNT_NODES = 0,
    JISAMPODE_COUNT_ACTIVE = 1,
    JISAMPODE_COUNT_LEAVES = 2,
    JISAMPODE_COUNT_SAMPLED = 3,
    JISAMPODE_COUNT_EVALUATIONS = 4,
    JISAMPODE_COUNTS = 5
};

/* The cursor, as jisampode_cursor gives it: one of JISAMPODE_AT_.., then a node, a
   corner or a child of it, and a child's point. */
enum {
    JISAMPODE_CURSOR_AT = 0,
    JISAMPODE_CURSOR_NODE = 1,
    JISAMPODE_CURSOR_PLACE = 2,
    JISAMPODE_CURSOR_POINT = 3,
    JISAMPODE_CURSOR = 4
};

/* The kinds of children. */
enum {
    JISAMPODE_EMPTY = 0,    /* not active */
    JISAMPODE_ACTIVE = 1,   /* active, and not decided or a constant */
    JISAMPODE_LEAF = 2
};

/*
 * Opens a job, in place of the one that the record has. What the record and the
 * slices hold before does not matter.
 *
 * settings: the bounds' lowest x, y, z, their highest x, y, z, the cell size, the
 * band's lower and upper limit. With n the inner and L the leaf size, kinds,
 * numbers and places need nodes × n³ elements, corners (n + 1)³, store active
 * children × L³. Longer is allowed. All five are zeroed whole.
 *
 * Afterwards kinds has 1 for each active child, node after node, and everything
 * else is 0; but where no child is active the job is finished. Steps then fill
 * numbers with the constants, places with the leaves' ordinals, and store with the
 * leaves' values, those of ordinal o from o × L³ on, x fastest. What a job does not
 * use is 0.
 *
 * Refused by 1 to 6; then the record and the slices are as they were.
 */
uint32_t jisampode_open(
    const double settings[JISAMPODE_SETTINGS], uint32_t inner, uint32_t leaf,
    const uint32_t parts[JISAMPODE_PARTS], const double reals[JISAMPODE_REALS],
    uint32_t count,
    uint64_t record_words[JISAMPODE_WORDS],
    uint32_t record_parts[JISAMPODE_PARTS],
    double record_settings[JISAMPODE_SETTINGS],
    double record_reals[JISAMPODE_REALS],
    uint8_t *kinds, size_t kinds_length,
    double *numbers, size_t numbers_length,
    uint32_t *places, size_t places_length,
    double *store, size_t store_length,
    double *corners, size_t corners_length);

/*
 * How long kinds, numbers, places, store and corners have to be for an open with
 * these arguments: lengths[0] to lengths[4]. An open on slices of just these
 * lengths is accepted. Refused by 1 to 5, as jisampode_open.
 */
uint32_t jisampode_lengths(
    const double settings[JISAMPODE_SETTINGS], uint32_t inner, uint32_t leaf,
    const uint32_t parts[JISAMPODE_PARTS], const double reals[JISAMPODE_REALS],
    uint32_t count, size_t lengths[JISAMPODE_LENGTHS]);

/*
 * Makes as many evaluations as the budget allows and the job has left. A finished
 * job makes none. The record is judged first, in time that grows with the number
 * of children. Refused by 7 and 8.
 */
uint32_t jisampode_step(
    uint64_t budget,
    uint64_t record_words[JISAMPODE_WORDS],
    uint32_t record_parts[JISAMPODE_PARTS],
    double record_settings[JISAMPODE_SETTINGS],
    double record_reals[JISAMPODE_REALS],
    uint8_t *kinds, size_t kinds_length,
    double *numbers, size_t numbers_length,
    uint32_t *places, size_t places_length,
    double *store, size_t store_length,
    double *corners, size_t corners_length);

/*
 * Ends the job, if there is one, zeroes all five slices and makes the record one
 * without a job. Never refused.
 */
uint32_t jisampode_drop(
    uint64_t record_words[JISAMPODE_WORDS],
    uint32_t record_parts[JISAMPODE_PARTS],
    double record_settings[JISAMPODE_SETTINGS],
    double record_reals[JISAMPODE_REALS],
    uint8_t *kinds, size_t kinds_length,
    double *numbers, size_t numbers_length,
    uint32_t *places, size_t places_length,
    double *store, size_t store_length,
    double *corners, size_t corners_length);

/*
 * Nodes, active children, leaves so far, sampled (leaves × L³) and evaluations so
 * far. The most evaluations that a job can make are the corners that its nodes need
 * (jisampode_corner_list), and L³ for each active child. Refused by 7 without a job,
 * and by 8 where the words are those of no record.
 */
uint32_t jisampode_counts(const uint64_t record_words[JISAMPODE_WORDS],
                          uint64_t counts[JISAMPODE_COUNTS]);

/* Where a job has come to. */
enum {
    JISAMPODE_AT_END = 0,    /* finished */
    JISAMPODE_AT_CORNER = 1, /* node, corner */
    JISAMPODE_AT_POINT = 2   /* node, child, point */
};

/* The job's next evaluation: one of the three above, the node, the corner or
   child, the point; 0 where there is none. Refused as jisampode_counts. */
uint32_t jisampode_cursor(const uint64_t record_words[JISAMPODE_WORDS],
                          uint64_t cursor[JISAMPODE_CURSOR]);

/*
 * The corners that a node's active children need: each once, in no promised
 * order, then zeros. kinds are the node's n³ kinds, of which those that are not 0
 * are active; the list has at least (n + 1)³ places. count[0] is how many.
 * Refused by 2, and by 6 for kinds that are not n³ and for a shorter list.
 */
uint32_t jisampode_corner_list(uint32_t inner,
                               const uint8_t *kinds, size_t kinds_length,
                               uint32_t *list, size_t list_length,
                               size_t count[1]);

/* ---- the same with structs -------------------------------------------- */

/* A model, with the parts that count. All zeros is a model without a part. */
typedef struct jisampode_model {
    uint32_t parts[JISAMPODE_PARTS];
    double reals[JISAMPODE_REALS];
    uint32_t count;
} jisampode_model;

/* What a job is opened with, as jisampode_open takes it. */
typedef struct jisampode_input {
    double settings[JISAMPODE_SETTINGS];
    uint32_t inner;
    uint32_t leaf;
    jisampode_model model;
} jisampode_input;

/* Five lent slices. */
typedef struct jisampode_memory {
    uint8_t *kinds;
    size_t kinds_length;
    double *numbers;
    size_t numbers_length;
    uint32_t *places;
    size_t places_length;
    double *store;
    size_t store_length;
    double *corners;
    size_t corners_length;
} jisampode_memory;

/* What a step has done. */
typedef struct jisampode_progress {
    uint64_t made; /* evaluations of this step */
    int finished;  /* 1 where the job is at its end, else 0 */
} jisampode_progress;

/* As jisampode_lengths. */
static inline uint32_t jisampode_input_lengths(const jisampode_input *input,
                                               size_t lengths[JISAMPODE_LENGTHS])
{
    return jisampode_lengths(input->settings, input->inner, input->leaf,
                             input->model.parts, input->model.reals,
                             input->model.count, lengths);
}

/* As jisampode_open. */
static inline uint32_t jisampode_job_open(const jisampode_input *input,
                                          jisampode_record *record,
                                          const jisampode_memory *memory)
{
    return jisampode_open(
        input->settings, input->inner, input->leaf, input->model.parts,
        input->model.reals, input->model.count, record->words, record->parts,
        record->settings, record->reals, memory->kinds, memory->kinds_length,
        memory->numbers, memory->numbers_length, memory->places,
        memory->places_length, memory->store, memory->store_length,
        memory->corners, memory->corners_length);
}

/* As jisampode_step. An accepted one says what it has done; a refused one leaves
   the progress as it was. */
static inline uint32_t jisampode_job_step(uint64_t budget,
                                          jisampode_record *record,
                                          const jisampode_memory *memory,
                                          jisampode_progress *progress)
{
    const size_t evaluations = JISAMPODE_WORD_COUNTS + JISAMPODE_COUNT_EVALUATIONS;
    const uint64_t before = record->words[evaluations];
    const uint32_t answer = jisampode_step(
        budget, record->words, record->parts, record->settings, record->reals,
        memory->kinds, memory->kinds_length, memory->numbers,
        memory->numbers_length, memory->places, memory->places_length,
        memory->store, memory->store_length, memory->corners,
        memory->corners_length);
    if (answer == JISAMPODE_ACCEPTED) {
        progress->made = record->words[evaluations] - before;
        progress->finished =
            record->words[JISAMPODE_WORD_CURSOR] == (uint64_t)JISAMPODE_AT_END;
    }
    return answer;
}

/* As jisampode_drop. */
static inline uint32_t jisampode_job_drop(jisampode_record *record,
                                          const jisampode_memory *memory)
{
    return jisampode_drop(
        record->words, record->parts, record->settings, record->reals,
        memory->kinds, memory->kinds_length, memory->numbers,
        memory->numbers_length, memory->places, memory->places_length,
        memory->store, memory->store_length, memory->corners,
        memory->corners_length);
}

/* ---- a dense field ---------------------------------------------------- */

/* A field of nx × ny × nz values, x fastest. Bounds are their lowest x, y, z and
   their highest x, y, z. */

/* How many points a field over bounds has along each axis. Refused by 1 and 9. */
uint32_t jisampode_point_count(const double bounds[6], double cell,
                               size_t counts[3]);

/* The model's value at origin + cell × index, for every point. Refused by 1, 4
   and 9. */
uint32_t jisampode_sample(const uint32_t parts[JISAMPODE_PARTS],
                          const double reals[JISAMPODE_REALS], uint32_t count,
                          double x, double y, double z, double cell,
                          size_t nx, size_t ny, size_t nz,
                          double *values, size_t values_length);

/* Sets every point on the outside to a value: those with an index that is 0 or
   the last of its axis. Refused by 9. */
uint32_t jisampode_padding(size_t nx, size_t ny, size_t nz, double value,
                           double *values, size_t values_length);

/* Makes every value that is smaller in size than the limit +0. Refused by 9. */
uint32_t jisampode_threshold(size_t nx, size_t ny, size_t nz, double limit,
                             double *values, size_t values_length);

/* Rounds of smoothing: an inner value v becomes (1 - factor) × v + factor × the
   mean of its six neighbours. The scratch is as long as the values or longer,
   and is zeroed whole. Refused by 9. */
uint32_t jisampode_smooth(size_t nx, size_t ny, size_t nz,
                          double factor, uint32_t rounds,
                          double *values, size_t values_length,
                          double *scratch, size_t scratch_length);

/* ---- walks ------------------------------------------------------------ */

/* A walk starts with the cursor (0, 0, 0). A step that returns 0 has written what
   stands at the cursor, and moved the cursor on, x fastest. */

/* The points of a grid of nx × ny × nz points in bounds, from the lowest to the
   highest. Refused by 1 and 11. */
uint32_t jisampode_point_step(const double bounds[6],
                              size_t nx, size_t ny, size_t nz,
                              size_t cursor[3], double point[3]);

/* The cells of a grid of nx × ny × nz cells in bounds: lowest x, y, z, highest
   x, y, z. Refused by 1 and 11. */
uint32_t jisampode_cell_step(const double bounds[6],
                             size_t nx, size_t ny, size_t nz,
                             size_t cursor[3], double cell[6]);

/* The values at the corners of a field's cells: (0,0,0) (1,0,0) (1,1,0) (0,1,0),
   and these four with 1 for k. The cells are (nx - 1) × (ny - 1) × (nz - 1). Refused
   by 9, and by 10 for a cursor whose i or j is past the last; done where its k is,
   or where there are no cells. */
uint32_t jisampode_octet_step(size_t nx, size_t ny, size_t nz,
                              const double *values, size_t values_length,
                              size_t cursor[3], double octet[8]);

/* ---- a job as text ---------------------------------------------------- */

/* Enough bytes for every listing. */
enum { JISAMPODE_LISTING_BYTES = 88176 };

/*
 * Reads a job's text, runs the job on memory of its own, on the stack
 * (JISAMPODE_LISTING_STACK), and writes its listing at the front of the lent bytes,
 * with 0 after it. written[0]
 * is its length. A job that is refused has a listing too: `(refused N)`, or
 * `(refused 12 LINE)` for a text off its form. Refused by 6 where the bytes are
 * too few.
 */
uint32_t jisampode_list_job(const uint8_t *text, size_t text_length,
                            uint8_t *listing, size_t listing_length,
                            size_t written[1]);

/* ---- sizes ------------------------------------------------------------ */

/* What the archive was compiled for. A compiler that has other sizes stops here. */
typedef char jisampode_a_size_has_8_bytes[sizeof(size_t) == 8 ? 1 : -1];
typedef char jisampode_a_double_has_8_bytes[sizeof(double) == 8 ? 1 : -1];
typedef char jisampode_a_record_has_3032_bytes[sizeof(jisampode_record) == 3032 ? 1 : -1];

#ifdef __cplusplus
}
#endif

#endif
