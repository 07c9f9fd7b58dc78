/* Least steps through the header: every pair of contexts of the weir policy, the refusals in their order, what stays as it was,
 * and the deepest constraint on a stack of the size that the header names. Its last line is 'N passed, M failed'. */
#include "flowgoal.h"
#include "images.h"

#include <stdio.h>
#include <stdlib.h>
#include <string.h>

/* The weir policy needs 8 entries of work: 4 types, 2 roles, 1 user. */
enum { WORK = 8, PATH = 16, UNTOUCHED = 0x5EED };

static struct policy policy;
static uint32_t path[PATH];

struct context {
    uint32_t type, role, user;
};

/* The contexts of the weir policy that meet rho and mu: what flows goes from each to the next. */
static const struct context station[] = {{1, 1, 1}, {2, 2, 1}, {3, 1, 1}, {4, 2, 1}};

/* Least steps with slices of these lengths. Every entry of the path slice is set before; `path` has what it is after. */
static uint64_t ask(struct context x, struct context y, size_t work1_length, size_t work2_length, size_t path_length)
{
    uint8_t *policy_bytes = lent(policy.bytes, policy.length);
    uint32_t *work1 = lent(NULL, work1_length * sizeof *work1), *work2 = lent(NULL, work2_length * sizeof *work2), *slice;
    uint64_t answer;
    for (unsigned i = 0; i < PATH; i++)
        path[i] = UNTOUCHED;
    slice = lent(path, path_length * sizeof *path);
    answer = flowgoal_least_steps(policy_bytes, policy.length, x.type, x.role, x.user, y.type, y.role, y.user, work1,
                                  work1_length, work2, work2_length, slice, path_length);
    memcpy(path, slice, path_length * sizeof *path);
    free(policy_bytes);
    free(work1);
    free(work2);
    free(slice);
    return answer;
}

static int untouched_from(unsigned entry)
{
    return all_from(path, entry, PATH, UNTOUCHED);
}

static void expect_refused(const char *what, uint64_t result, uint64_t steps, unsigned number)
{
    expect_result(what, result, steps, number, FLOWGOAL_REFUSED);
    expect("the path slice after a refusal", untouched_from(0), 1);
}

static int place(struct context x)
{
    for (int i = 0; i < 4; i++)
        if (memcmp(&x, &station[i], sizeof x) == 0)
            return i;
    return -1;
}

/* From type 1 to type 4 by three steps: 2 reads 1, 2 writes 3, 4 reads 3. Every other path is a part of it. */
static void weir_pairs(void)
{
    static const uint32_t whole[7] = {0x111, 64, 0x221, 65, 0x311, 64, 0x421};
    policy_weir(&policy);
    for (uint32_t i = 0; i < 8 * 8; i++) {
        struct context x = {i % 4 + 1, i / 4 % 2 + 1, 1}, y = {i / 8 % 4 + 1, i / 32 + 1, 1};
        int from = place(x), to = place(y);
        unsigned steps = from < 0 || to < from ? 0 : (unsigned)(to - from), entries = FLOWGOAL_PATH_ENTRIES(steps);
        if (from < 0 || to < from) {
            expect_result("no path", ask(x, y, WORK, WORK, PATH), 0, 0, FLOWGOAL_NONE);
            expect("the path slice after none", untouched_from(0), 1);
            expect_result("no path, and no room asked for", ask(x, y, WORK, WORK, 0), 0, 0, FLOWGOAL_NONE);
            expect_refused("no path, but 11", ask(x, y, WORK - 1, WORK, PATH), 0, 11);
            continue;
        }
        expect_result("a path", ask(x, y, WORK, WORK, PATH), steps, 0, FLOWGOAL_SHOWN);
        expect("its entries", memcmp(path, whole + 2 * from, entries * sizeof *path) == 0, 1);
        expect("the entries after it", untouched_from(entries), 1);
        expect_result("just room for it", ask(x, y, WORK, WORK, entries), steps, 0, FLOWGOAL_SHOWN);
        for (unsigned length = 0; length < entries; length++)
            expect_refused("no room for it", ask(x, y, WORK, WORK, length), steps, 12);
        expect_refused("one entry less in the first", ask(x, y, WORK - 1, WORK, PATH), 0, 11);
        expect_refused("one entry less in the second", ask(x, y, WORK, WORK - 1, PATH), 0, 11);
        expect_refused("11 before 12", ask(x, y, WORK, WORK - 1, 0), 0, 11);
        expect_result("more entries", ask(x, y, WORK + 1, WORK + 2, PATH), steps, 0, FLOWGOAL_SHOWN);
    }
}

/* A transition with equal roles is a step since request f; with different roles it is one where a record of kind 7 says so. */
static void unchanged_roles(void)
{
    static const uint32_t same[5] = {0x111, 64, 0x221, 32, 0x421}, changed[5] = {0x111, 64, 0x221, 32, 0x411};
    const struct context file = {1, 1, 1}, second = {4, 2, 1}, first = {4, 1, 1};
    policy_transition(&policy, 2);
    expect_result("equal roles", ask(file, second, WORK, WORK, PATH), 2, 0, FLOWGOAL_SHOWN);
    expect("its entries", memcmp(path, same, sizeof same) == 0, 1);
    expect_result("equal roles, back", ask(second, file, WORK, WORK, PATH), 0, 0, FLOWGOAL_NONE);
    policy_transition(&policy, 1);
    expect_result("different roles", ask(file, first, WORK, WORK, PATH), 0, 0, FLOWGOAL_NONE);
    expect("the path slice after none", untouched_from(0), 1);
    policy_add(&policy, 7, 2, 1, 0, 0, 0);
    expect_result("different roles, and a record", ask(file, first, WORK, WORK, PATH), 2, 0, FLOWGOAL_SHOWN);
    expect("its entries", memcmp(path, changed, sizeof changed) == 0, 1);
}

/* Each of the six numbers out of range, before the work slices are asked about. */
static void out_of_range(void)
{
    static const uint32_t counts[] = {4, 2, 1};
    policy_weir(&policy);
    for (unsigned i = 0; i < 6; i++) {
        uint32_t wrong[] = {0, counts[i % 3] + 1, 257, 65537, UINT32_MAX};
        for (size_t k = 0; k < sizeof wrong / sizeof *wrong; k++) {
            struct context pair[2] = {station[0], station[3]};
            uint32_t *field[] = {&pair[i / 3].type, &pair[i / 3].role, &pair[i / 3].user};
            *field[i % 3] = wrong[k];
            expect_refused("a context out of range", ask(pair[0], pair[1], WORK, WORK, PATH), 0, 13);
            expect_refused("13 before 11 and 12", ask(pair[0], pair[1], 0, 0, 0), 0, 13);
            expect_refused("out of range, to itself", ask(pair[i / 3], pair[i / 3], WORK, WORK, PATH), 0, 13);
        }
    }
}

/* A refused policy comes before everything else. */
static void refused_policies(void)
{
    struct context nowhere = {0, 0, UINT32_MAX};
    policy_weir(&policy);
    policy.length--;
    expect_refused("a byte short", ask(station[0], station[3], WORK, WORK, PATH), 0, 1);
    policy_weir(&policy);
    policy.bytes[2] = 16;
    expect_refused("16 users", ask(station[0], station[3], WORK, WORK, PATH), 0, 2);
    expect_refused("16 users, and no context or slice", ask(nowhere, nowhere, 0, 0, 0), 0, 2);
    policy_weir(&policy);
    put16(policy.bytes + POLICY_HEADER, 1);
    expect_refused("a next equal to its own number", ask(nowhere, station[0], 0, 0, 0), 0, 3);
    policy_weir(&policy);
    policy_add(&policy, 8, 2, 0, 0, 0, 1);
    expect_refused("no root", ask(station[0], nowhere, 0, 0, 0), 0, 6);
    policy_add(&policy, 4, 3, 1, 2, 0, 1);
    expect_refused("no root, and W9", ask(station[0], nowhere, 0, 0, 0), 0, 6);
    policy_weir(&policy);
    policy_add(&policy, 4, 3, 1, 2, 0, 1);
    expect_refused("W9: an allow from type 3, which is no domain", ask(station[0], station[3], WORK, WORK, PATH), 0, 14);
    expect_refused("W9: 14 before 13 and 11", ask(nowhere, nowhere, 0, 0, 0), 0, 14);
    policy_add(&policy, 1, 3, 0, 0, 0, 0);
    policy_add(&policy, 5, 2, 3, 0, 0, 0);
    expect_result("W9 with type 3 a domain", ask(station[0], (struct context){3, 2, 1}, WORK, WORK, PATH), 1, 0, FLOWGOAL_SHOWN);
}

/* A null pointer with length 0 is an empty slice. */
static void null_pointers(void)
{
    static uint32_t work1[WORK], work2[WORK];
    policy_weir(&policy);
    expect_result("all null", flowgoal_least_steps(NULL, 0, 1, 1, 1, 4, 2, 1, NULL, 0, NULL, 0, NULL, 0), 0, 1,
                  FLOWGOAL_REFUSED);
    expect_result("no work",
                  flowgoal_least_steps(policy.bytes, policy.length, 1, 1, 1, 4, 2, 1, NULL, 0, NULL, 0, NULL, 0), 0, 11,
                  FLOWGOAL_REFUSED);
    expect_result("no path slice",
                  flowgoal_least_steps(policy.bytes, policy.length, 1, 1, 1, 4, 2, 1, work1, WORK, work2, WORK, NULL, 0), 3, 12,
                  FLOWGOAL_REFUSED);
    expect_result("no path slice for no step",
                  flowgoal_least_steps(policy.bytes, policy.length, 1, 1, 1, 1, 1, 1, work1, WORK, work2, WORK, NULL, 0), 0, 12,
                  FLOWGOAL_REFUSED);
    expect_result("no path slice where there is none",
                  flowgoal_least_steps(policy.bytes, policy.length, 4, 2, 1, 1, 1, 1, work1, WORK, work2, WORK, NULL, 0), 0, 0,
                  FLOWGOAL_NONE);
}

/* Just the entries that the header names for no legs, up to the largest policy. */
static void work_lengths(void)
{
    static const unsigned counts[][3] = {{1, 1, 1}, {4, 2, 1}, {64, 4, 4}, {7, 15, 3}, {255, 15, 15}};
    for (size_t i = 0; i < sizeof counts / sizeof *counts; i++) {
        size_t entries = FLOWGOAL_WORK_ENTRIES(counts[i][0], counts[i][1], counts[i][2], 0);
        struct context last = {counts[i][0], 1, counts[i][2]};
        policy_start(&policy, counts[i][0], counts[i][1], counts[i][2], 1);
        expect_refused("one entry less in the first", ask(last, last, entries - 1, entries, PATH), 0, 11);
        expect_refused("one entry less in the second", ask(last, last, entries, entries - 1, PATH), 0, 11);
        expect_result("just the entries", ask(last, last, entries, entries, PATH), 0, 0, FLOWGOAL_SHOWN);
        expect("the context itself", path[0], 256 * last.type + 16 * last.role + last.user);
        expect("the entries after it", untouched_from(1), 1);
    }
}

static uint64_t deep_result;

static void ask_deep(void)
{
    deep_result = ask((struct context){1, 1, 1}, (struct context){2, 1, 1}, WORK, WORK, PATH);
}

static void deepest(int allowed, unsigned last, uint64_t steps, unsigned answer)
{
    size_t used;
    policy_deep(&policy, allowed, last);
    used = stack_of(ask_deep);
    printf("least steps over %u nested nodes took %zu bytes of stack; the header says %d at the most\n",
           allowed ? last - 6 : last - 3, used, FLOWGOAL_STACK);
    expect_result("the deepest constraint", deep_result, steps, 0, answer);
    expect("its stack", used <= FLOWGOAL_STACK, 1);
}

int main(void)
{
    weir_pairs();
    unchanged_roles();
    out_of_range();
    refused_policies();
    null_pointers();
    work_lengths();
    deepest(0, POLICY_MOST, 0, FLOWGOAL_NONE);
    deepest(1, POLICY_MOST, 0, FLOWGOAL_NONE);
    deepest(1, POLICY_MOST - 1, 1, FLOWGOAL_SHOWN);
    return results();
}
