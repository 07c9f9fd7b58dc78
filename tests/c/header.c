/* Each macro of the header against the numbers of the specification, written out. The other C tests use the macros, so a wrong
 * one has to fail here; tests/c/run sees that it does. Its last line is 'N passed, M failed'. */
#include "flowgoal.h"
#include "images.h"

/* The specification: holds 0, order 1, events 2, refused 3; no 0, yes 1. Of least steps: none 0, a path is shown 1. Of a join, and of
 * a canonical image: written 0. */
static void answers(void)
{
    expect("FLOWGOAL_HOLDS", FLOWGOAL_HOLDS, 0);
    expect("FLOWGOAL_ORDER", FLOWGOAL_ORDER, 1);
    expect("FLOWGOAL_EVENTS", FLOWGOAL_EVENTS, 2);
    expect("FLOWGOAL_REFUSED", FLOWGOAL_REFUSED, 3);
    expect("FLOWGOAL_NO", FLOWGOAL_NO, 0);
    expect("FLOWGOAL_YES", FLOWGOAL_YES, 1);
    expect("FLOWGOAL_NONE", FLOWGOAL_NONE, 0);
    expect("FLOWGOAL_SHOWN", FLOWGOAL_SHOWN, 1);
    expect("FLOWGOAL_WRITTEN", FLOWGOAL_WRITTEN, 0);
}

struct fields {
    uint64_t result, steps;
    unsigned number, answer;
};

/* The specification: 256m + 4k + answer, where a call that writes an image has its length for m. An m takes 32 bits, and what
 * stands above them is no part of it. */
static void fields(void)
{
    static const struct fields cases[] = {
        {0, 0, 0, 0},                                /* holds, no, and none */
        {1, 0, 0, 1},                                /* order or shown, no step; and yes */
        {2, 0, 0, 2},                                /* events, no step */
        {257, 1, 0, 1},                              /* order or shown, 1 step */
        {770, 3, 0, 2},                              /* events, 3 steps */
        {7, 0, 1, 3},                                /* refused 1 */
        {47, 0, 11, 3},                              /* refused 11 */
        {51, 0, 12, 3},                              /* refused 12, of a path of no step */
        {524595, 2049, 12, 3},                       /* refused 12, of 2,049 steps */
        {55, 0, 13, 3},                              /* refused 13 */
        {59, 0, 14, 3},                              /* refused 14 */
        {63, 0, 15, 3},                              /* refused 15 */
        {67, 0, 16, 3},                              /* refused 16 */
        {6144, 24, 0, 0},                            /* written, no record */
        {12585984, 49164, 0, 0},                     /* written, 4,095 records */
        {940031746, 3671999, 0, 2},                  /* as many steps as the largest search has nodes, but one */
        {1024, 4, 0, 0},                             /* the lowest bit but one of the steps */
        {UINT64_C(1) << 39, 2147483648u, 0, 0},      /* the highest bit of the steps */
        {(UINT64_C(1) << 40) + 257, 1, 0, 1},        /* order or shown, 1 step, and the lowest bit above the steps */
        {(UINT64_C(255) << 40) + 6144, 24, 0, 0},    /* written, no record, and eight bits above the length */
        {UINT64_MAX, 4294967295u, 63, 3},            /* every bit */
        {UINT64_C(1) << 63, 0, 0, 0},                /* the highest */
        {128, 0, 32, 0},                             /* the highest of the number */
    };
    for (size_t i = 0; i < sizeof cases / sizeof *cases; i++) {
        expect("FLOWGOAL_STEPS", FLOWGOAL_STEPS(cases[i].result), cases[i].steps);
        expect("FLOWGOAL_LENGTH", FLOWGOAL_LENGTH(cases[i].result), cases[i].steps);
        expect("FLOWGOAL_NUMBER", FLOWGOAL_NUMBER(cases[i].result), cases[i].number);
        expect("FLOWGOAL_ANSWER", FLOWGOAL_ANSWER(cases[i].result), cases[i].answer);
    }
    expect("FLOWGOAL_STEPS of a sum, twice", 2 * FLOWGOAL_STEPS(1280 + 51), 10);
    expect("FLOWGOAL_LENGTH of a sum, twice", 2 * FLOWGOAL_LENGTH(6144 + 3072), 72);
    expect("FLOWGOAL_NUMBER of a sum, twice", 2 * FLOWGOAL_NUMBER(256 + 51), 24);
    expect("FLOWGOAL_ANSWER of a sum, twice", 2 * FLOWGOAL_ANSWER(256 + 51), 6);
}

/* The specification: each work slice needs types x roles x users x 2^legs entries, and a path of m steps takes 2m + 1. */
static void lengths(void)
{
    const uint8_t counts[] = {255, 15, 15, 6};
    expect("FLOWGOAL_WORK_ENTRIES", FLOWGOAL_WORK_ENTRIES(1, 1, 1, 1), 2);
    expect("FLOWGOAL_WORK_ENTRIES of least steps", FLOWGOAL_WORK_ENTRIES(4, 2, 1, 0), 8);
    expect("FLOWGOAL_WORK_ENTRIES of W12", FLOWGOAL_WORK_ENTRIES(4, 2, 1, 2), 32);
    expect("FLOWGOAL_WORK_ENTRIES of the goal program", FLOWGOAL_WORK_ENTRIES(64, 4, 4, 4), 16384);
    expect("FLOWGOAL_WORK_ENTRIES, each its own", FLOWGOAL_WORK_ENTRIES(7, 5, 3, 6), 6720);
    expect("FLOWGOAL_WORK_ENTRIES, the most", FLOWGOAL_WORK_ENTRIES(255, 15, 15, 6), 3672000);
    expect("FLOWGOAL_WORK_ENTRIES of bytes", FLOWGOAL_WORK_ENTRIES(counts[0], counts[1], counts[2], counts[3]), 3672000);
    expect("FLOWGOAL_WORK_ENTRIES of sums, twice", 2 * FLOWGOAL_WORK_ENTRIES(1 + 1, 1 + 2, 1 + 3, 1 + 1), 192);
    expect("FLOWGOAL_LARGEST_WORK", FLOWGOAL_LARGEST_WORK, 3672000);
    expect("FLOWGOAL_PATH_ENTRIES of no step", FLOWGOAL_PATH_ENTRIES(0), 1);
    expect("FLOWGOAL_PATH_ENTRIES", FLOWGOAL_PATH_ENTRIES(3), 7);
    expect("FLOWGOAL_PATH_ENTRIES of the goal program", FLOWGOAL_PATH_ENTRIES(2048), 4097);
    expect("FLOWGOAL_PATH_ENTRIES of a sum, twice", 2 * FLOWGOAL_PATH_ENTRIES(1 + 2), 14);
    expect("FLOWGOAL_PATH_ENTRIES of the steps of a result", FLOWGOAL_PATH_ENTRIES(FLOWGOAL_STEPS(UINT64_C(1) << 39)),
           4294967297u);
}

/* The specification: 24 + 12 x 4,095 and 34 + 8 x 255 bytes. The stack is what README tells the caller: 640 KiB. */
static void sizes(void)
{
    expect("FLOWGOAL_LARGEST_POLICY", FLOWGOAL_LARGEST_POLICY, 49164);
    expect("FLOWGOAL_LARGEST_POLICY, twice", 2 * FLOWGOAL_LARGEST_POLICY, 98328);
    expect("FLOWGOAL_LARGEST_GOAL", FLOWGOAL_LARGEST_GOAL, 2074);
    expect("FLOWGOAL_LARGEST_GOAL, twice", 2 * FLOWGOAL_LARGEST_GOAL, 4148);
    expect("FLOWGOAL_STACK", FLOWGOAL_STACK, 655360);
}

int main(void)
{
    answers();
    fields();
    lengths();
    sizes();
    return results();
}
