/* The goal question through the header, as the controller's loader asks it: it reads policy.img and goal.img of W1 to W8 from
 * the folder of examples that it is given, and builds the rest. Its last line is 'N passed, M failed'. What the macros of the
 * header say is held to the specification in header.c. */
#include "flowgoal.h"
#include "images.h"

#include <stdio.h>
#include <stdlib.h>
#include <string.h>

/* W1 to W12 need 32 entries of work: 4 types, 2 roles, 1 user, 2 legs. */
enum { WORK = 32, PATH = 16, UNTOUCHED = 0x5EED };

static struct policy policy;
static struct goal goal;
static uint32_t path[PATH];

/* The goal question with slices of these lengths. Every entry of the path slice is set before; `path` has what it is after. */
static uint64_t ask(size_t work1_length, size_t work2_length, size_t path_length)
{
    uint8_t *policy_bytes = lent(policy.bytes, policy.length), *goal_bytes = lent(goal.bytes, goal.length);
    uint32_t *work1 = lent(NULL, work1_length * sizeof *work1), *work2 = lent(NULL, work2_length * sizeof *work2), *slice;
    uint64_t answer;
    for (unsigned i = 0; i < PATH; i++)
        path[i] = UNTOUCHED;
    slice = lent(path, path_length * sizeof *path);
    answer = flowgoal_check(policy_bytes, policy.length, goal_bytes, goal.length, work1, work1_length, work2, work2_length,
                            slice, path_length);
    memcpy(path, slice, path_length * sizeof *path);
    free(policy_bytes);
    free(goal_bytes);
    free(work1);
    free(work2);
    free(slice);
    return answer;
}

static int untouched_from(unsigned entry)
{
    return all_from(path, entry, PATH, UNTOUCHED);
}

static void expect_refused(const char *what, unsigned number)
{
    expect_result(what, ask(WORK, WORK, PATH), 0, number, FLOWGOAL_REFUSED);
    expect("the path slice after a refusal", untouched_from(0), 1);
}

struct weir_case {
    const char *name;
    unsigned steps, answer;
    uint32_t path[7];
};

static void weir_examples(const char *examples)
{
    static const struct weir_case cases[] = {
        {"weir-w1", 0, FLOWGOAL_HOLDS, {0}},
        {"weir-w2", 3, FLOWGOAL_EVENTS, {0x111, 64, 0x221, 65, 0x311, 64, 0x421}},
        {"weir-w3", 0, FLOWGOAL_HOLDS, {0}},
        {"weir-w4", 3, FLOWGOAL_EVENTS, {0x111, 64, 0x221, 65, 0x311, 64, 0x421}},
        {"weir-w5", 1, FLOWGOAL_ORDER, {0x111, 64, 0x421}},
        {"weir-w6", 0, FLOWGOAL_ORDER, {0x111}},
        {"weir-w7", 0, FLOWGOAL_EVENTS, {0x111}},
        {"weir-w8", 0, FLOWGOAL_HOLDS, {0}},
    };
    for (size_t i = 0; i < sizeof cases / sizeof *cases; i++) {
        const struct weir_case *weir = &cases[i];
        unsigned entries = weir->answer == FLOWGOAL_HOLDS ? 0 : FLOWGOAL_PATH_ENTRIES(weir->steps);
        char folder[400];
        snprintf(folder, sizeof folder, "%s/%s", examples, weir->name);
        policy.length = read_image(folder, "policy.img", policy.bytes, sizeof policy.bytes);
        goal.length = read_image(folder, "goal.img", goal.bytes, sizeof goal.bytes);
        expect_result(weir->name, ask(WORK, WORK, PATH), weir->steps, 0, weir->answer);
        expect("its path", memcmp(path, weir->path, entries * sizeof *path) == 0, 1);
        expect("the entries after it", untouched_from(entries), 1);
        for (unsigned length = 0; length < entries; length++) {
            expect_result("no room for its path", ask(WORK, WORK, length), weir->steps, 12, FLOWGOAL_REFUSED);
            expect("the path slice after 12", untouched_from(0), 1);
        }
        if (entries > 0)
            expect_result("just room for its path", ask(WORK, WORK, entries), weir->steps, 0, weir->answer);
    }
}

/* W9: an added allow from type 3, which is no domain, is refused with 14 since request b, before the goal and the work slices are
 * looked at. With type 3 a domain the policy is accepted, wherever the record stands that says so. */
static void weir_9(void)
{
    policy_weir(&policy);
    policy_add(&policy, 4, 3, 1, 2, 0, 1);
    goal_g(&goal);
    expect_refused("W9: G", 14);
    expect_result("W9: no work", ask(0, 0, 0), 0, 14, FLOWGOAL_REFUSED);
    goal.length = 33;
    expect_refused("W9: a goal that is too short", 14);
    goal_g(&goal);
    policy_add(&policy, 1, 3, 0, 0, 0, 0);
    expect_result("W9 with type 3 a domain", ask(WORK, WORK, PATH), 0, 0, FLOWGOAL_HOLDS);
    policy_weir(&policy);
    policy_add(&policy, 4, 3, 1, 2, 0, 0);
    expect_refused("W9 with no permission", 14);
    policy_weir(&policy);
    policy_add(&policy, 4, 3, 0, 2, 0, 1);
    expect_refused("W9 on itself", 14);
    policy_weir(&policy);
    policy_add(&policy, 4, 3, 1, 2, 0, 1);
    policy_add(&policy, 8, 2, 0, 0, 0, 1);
    expect_refused("W9 and a constraint without a root", 6);
}

/* G over a transition: 2 reads 1 and makes one to 4. Since request f that breaks G where the roles are equal; with different roles a
 * record of kind 7 is still needed for it. */
static void unchanged_roles(void)
{
    static const uint32_t same[5] = {0x111, 64, 0x221, 32, 0x421}, changed[5] = {0x111, 64, 0x221, 32, 0x411};
    goal_g(&goal);
    policy_transition(&policy, 2);
    expect_result("equal roles", ask(WORK, WORK, PATH), 2, 0, FLOWGOAL_EVENTS);
    expect("its path", memcmp(path, same, sizeof same) == 0, 1);
    expect("the entries after it", untouched_from(5), 1);
    policy_transition(&policy, 1);
    expect_result("different roles", ask(WORK, WORK, PATH), 0, 0, FLOWGOAL_HOLDS);
    expect("the path slice where it holds", untouched_from(0), 1);
    policy_add(&policy, 7, 2, 1, 0, 0, 0);
    expect_result("different roles, and a record", ask(WORK, WORK, PATH), 2, 0, FLOWGOAL_EVENTS);
    expect("its path", memcmp(path, changed, sizeof changed) == 0, 1);
}

static void weir_10_to_12(void)
{
    policy_start(&policy, 1, 1, 1, 1);
    goal_g(&goal);
    policy.length = 23;
    expect_refused("W10: 23 bytes", 1);
    policy.length = 24;
    goal.length = 0;
    expect_refused("W10: 24 bytes are accepted, so the goal is asked about", 7);
    expect_result("W10: and a bare question is answered", flowgoal_authorized(policy.bytes, 24, 1, 1, 1, 1, 1, 1, 1, 0), 0, 0,
                  FLOWGOAL_NO);
    policy_weir(&policy);
    goal_g(&goal);
    put16(policy.bytes + POLICY_HEADER, 1);
    expect_refused("W11", 3);
    policy_weir(&policy);
    expect_result("W12: 31 entries in the first", ask(31, 32, PATH), 0, 11, FLOWGOAL_REFUSED);
    expect_result("W12: 31 entries in the second", ask(32, 31, PATH), 0, 11, FLOWGOAL_REFUSED);
    expect("W12: its path slice", untouched_from(0), 1);
    expect_result("W12: 32 suffice", ask(32, 32, PATH), 0, 0, FLOWGOAL_HOLDS);
}

struct damage {
    const char *what;
    int in_goal;
    unsigned offset, value, number;
};

/* One byte of the weir policy (with a constraint: not t1 = 2, on read) or of G, and the number that it gets. */
static void refusals(void)
{
    enum { DOMAIN_1 = POLICY_HEADER, NODE = POLICY_HEADER + 11 * POLICY_RECORD, CONSTRAINT = NODE + 2 * POLICY_RECORD };
    static const struct damage cases[] = {
        {"one record more than there are", 0, 4, 15, 1}, {"4,096 records", 0, 5, 16, 1},
        {"no type", 0, 0, 0, 2},                         {"16 users", 0, 2, 16, 2},
        {"a head above N", 0, 6, 15, 3},                 {"a next that falls", 0, DOMAIN_1 + POLICY_RECORD, 1, 3},
        {"a head left out", 0, 6, 0, 4},                 {"kind 10", 0, DOMAIN_1 + 2, 10, 4},
        {"type 5 of 4", 0, DOMAIN_1 + 3, 5, 5},          {"operator 13", 0, NODE + 3, 13, 5},
        {"no root", 0, CONSTRAINT + 6, 0, 6},            {"a child above its node", 0, NODE + POLICY_RECORD + 8, 13, 6},
        {"one goal record more than there are", 1, 2, 6, 7}, {"261 goal records", 1, 3, 1, 7},
        {"no leg", 1, 0, 0, 8},                          {"a flag above the legs", 1, 1, 6, 8},
        {"two equal heads", 1, 30, 1, 9},                {"a next equal to its own number", 1, GOAL_HEADER, 1, 9},
        {"a spare byte", 1, GOAL_HEADER + 7, 1, 10},     {"class 3 of 2", 1, GOAL_HEADER + 3 * GOAL_RECORD + 2, 3, 10},
    };
    for (size_t i = 0; i < sizeof cases / sizeof *cases; i++) {
        policy_weir(&policy);
        policy_add(&policy, 9, 7, 2, 0, 0, 0);
        policy_add(&policy, 9, 1, 0, 0, 0, 12);
        policy_add(&policy, 8, 2, 0, 0, 13, 1);
        goal_g(&goal);
        expect_result("before the damage", ask(WORK, WORK, PATH), 0, 0, FLOWGOAL_HOLDS);
        (cases[i].in_goal ? goal.bytes : policy.bytes)[cases[i].offset] = (uint8_t)cases[i].value;
        expect_refused(cases[i].what, cases[i].number);
    }
}

static uint64_t ask_nulls(size_t policy_length, size_t goal_length, int with_work)
{
    static uint32_t work1[WORK], work2[WORK];
    return flowgoal_check(policy_length == 0 ? NULL : policy.bytes, policy_length, goal_length == 0 ? NULL : goal.bytes,
                          goal_length, with_work ? work1 : NULL, with_work ? WORK : 0, with_work ? work2 : NULL,
                          with_work ? WORK : 0, NULL, 0);
}

/* A null pointer with length 0 is an empty slice. */
static void null_pointers(void)
{
    policy_weir(&policy);
    goal_g(&goal);
    expect_result("all null", ask_nulls(0, 0, 0), 0, 1, FLOWGOAL_REFUSED);
    expect_result("no goal", ask_nulls(policy.length, 0, 1), 0, 7, FLOWGOAL_REFUSED);
    expect_result("no work", ask_nulls(policy.length, goal.length, 0), 0, 11, FLOWGOAL_REFUSED);
    expect_result("no path slice where the goal holds", ask_nulls(policy.length, goal.length, 1), 0, 0, FLOWGOAL_HOLDS);
    policy_add(&policy, 4, 4, 1, 2, 0, 1);
    expect_result("no path slice where it does not", ask_nulls(policy.length, goal.length, 1), 1, 12, FLOWGOAL_REFUSED);
    goal_start(&goal, 1, 0);
    goal_sigma(&goal, SIGMA + 0, 1, 0, 0);
    goal_sigma(&goal, SIGMA + 1, 1, 0, 0);
    expect_result("no path slice for no step", ask_nulls(policy.length, goal.length, 1), 0, 12, FLOWGOAL_REFUSED);
}

/* One entry less than the header names is refused with 11, in either slice, and so is none: that says that both images are
 * accepted, so that the counts may be read from them. */
static void work_lengths(void)
{
    static const unsigned counts[][4] = {{1, 1, 1, 1}, {4, 2, 1, 2}, {64, 4, 4, 4}, {7, 15, 3, 5}, {255, 15, 15, 6}};
    for (size_t i = 0; i < sizeof counts / sizeof *counts; i++) {
        size_t entries = FLOWGOAL_WORK_ENTRIES(counts[i][0], counts[i][1], counts[i][2], counts[i][3]);
        policy_start(&policy, counts[i][0], counts[i][1], counts[i][2], 1);
        goal_start(&goal, counts[i][3], 0);
        expect_result("no work", ask(0, 0, 0), 0, 11, FLOWGOAL_REFUSED);
        expect("the counts in the images",
               FLOWGOAL_WORK_ENTRIES(policy.bytes[0], policy.bytes[1], policy.bytes[2], goal.bytes[0]), entries);
        expect_result("one entry less in the first", ask(entries - 1, entries, 0), 0, 11, FLOWGOAL_REFUSED);
        expect_result("one entry less in the second", ask(entries, entries - 1, 0), 0, 11, FLOWGOAL_REFUSED);
        expect_result("just the entries", ask(entries, entries, 0), 0, 0, FLOWGOAL_HOLDS);
    }
}

/* Images of just the largest lengths are accepted, and one record more is not, in an image that has room for it. */
static void largest_images(void)
{
    static uint8_t longer_policy[sizeof policy.bytes + POLICY_RECORD], longer_goal[sizeof goal.bytes + GOAL_RECORD];
    policy_start(&policy, 1, 1, 1, 1);
    while (policy.records < POLICY_MOST)
        policy_add(&policy, 1, 1, 0, 0, 0, 0);
    goal_start(&goal, 1, 0);
    while (goal.records < GOAL_MOST)
        goal_sigma(&goal, SIGMA + 0, 1, 0, 0);
    expect("FLOWGOAL_LARGEST_POLICY", FLOWGOAL_LARGEST_POLICY, policy.length);
    expect("FLOWGOAL_LARGEST_GOAL", FLOWGOAL_LARGEST_GOAL, goal.length);
    expect_result("the largest images", ask(WORK, WORK, PATH), 0, 0, FLOWGOAL_HOLDS);
    memcpy(longer_policy, policy.bytes, policy.length);
    put16(longer_policy + 4, POLICY_MOST + 1);
    memcpy(longer_goal, goal.bytes, goal.length);
    put16(longer_goal + 2, GOAL_MOST + 1);
    expect_result("a longer policy",
                  flowgoal_check(longer_policy, sizeof longer_policy, goal.bytes, goal.length, NULL, 0, NULL, 0, NULL, 0),
                  0, 1, FLOWGOAL_REFUSED);
    expect_result("a longer goal",
                  flowgoal_check(policy.bytes, policy.length, longer_goal, sizeof longer_goal, NULL, 0, NULL, 0, NULL, 0),
                  0, 7, FLOWGOAL_REFUSED);
}

static uint64_t deep_result;

static void ask_deep(void)
{
    deep_result = ask(WORK, WORK, PATH);
}

static void deepest(int allowed, unsigned last, uint64_t steps, unsigned answer)
{
    size_t used;
    policy_deep(&policy, allowed, last);
    goal_start(&goal, 1, 0);
    goal_sigma(&goal, SIGMA + 0, 1, 0, 0);
    goal_sigma(&goal, SIGMA + 1, 2, 0, 0);
    used = stack_of(ask_deep);
    printf("a goal question over %u nested nodes took %zu bytes of stack; the header says %d at the most\n",
           allowed ? last - 6 : last - 3, used, FLOWGOAL_STACK);
    expect_result("the deepest constraint", deep_result, steps, 0, answer);
    expect("its stack", used <= FLOWGOAL_STACK, 1);
}

int main(int count, char **arguments)
{
    if (count != 2) {
        printf("usage: goals EXAMPLES\n");
        return 2;
    }
    weir_examples(arguments[1]);
    weir_9();
    unchanged_roles();
    weir_10_to_12();
    refusals();
    null_pointers();
    work_lengths();
    largest_images();
    deepest(0, POLICY_MOST, 0, FLOWGOAL_HOLDS);
    deepest(1, POLICY_MOST, 0, FLOWGOAL_HOLDS);
    deepest(1, POLICY_MOST - 1, 1, FLOWGOAL_EVENTS);
    return results();
}
