/* The bare questions through the header: answers on the weir policy, refusals, and the deepest constraint on a stack of the
 * size that the header names. Its last line is 'N passed, M failed'. */
#include "flowgoal.h"
#include "images.h"

#include <stdio.h>

static struct policy policy;

static uint64_t authorized(unsigned t1, unsigned r1, unsigned t2, unsigned r2, unsigned permission)
{
    return flowgoal_authorized(policy.bytes, policy.length, t1, r1, 1, t2, r2, 1, 2, permission);
}

static uint64_t flows(unsigned t1, unsigned r1, unsigned t2, unsigned r2, unsigned permission)
{
    return flowgoal_flows(policy.bytes, policy.length, t1, r1, 1, t2, r2, 1, 2, permission);
}

static void answers(void)
{
    const uint8_t *image = policy.bytes;
    policy_weir(&policy);
    expect_result("2 reads 1", authorized(2, 2, 1, 1, 0), 0, 0, FLOWGOAL_YES);
    expect_result("2 writes no 1", authorized(2, 2, 1, 1, 1), 0, 0, FLOWGOAL_NO);
    expect_result("a read flows in", flows(1, 1, 2, 2, 0), 0, 0, FLOWGOAL_YES);
    expect_result("and not out", flows(2, 2, 1, 1, 0), 0, 0, FLOWGOAL_NO);
    expect_result("permission 32", authorized(2, 2, 1, 1, 32), 0, 13, FLOWGOAL_REFUSED);
    expect_result("type 257", flows(257, 1, 2, 2, 0), 0, 13, FLOWGOAL_REFUSED);
    expect_result("the largest numbers",
                  flowgoal_authorized(image, policy.length, UINT32_MAX, UINT32_MAX, UINT32_MAX, UINT32_MAX, UINT32_MAX,
                                      UINT32_MAX, UINT32_MAX, UINT32_MAX),
                  0, 13, FLOWGOAL_REFUSED);
    expect_result("a null image", flowgoal_authorized(NULL, 0, 2, 2, 1, 1, 1, 1, 2, 0), 0, 1, FLOWGOAL_REFUSED);
    expect_result("a byte short", flowgoal_flows(image, policy.length - 1, 2, 2, 1, 1, 1, 1, 2, 0), 0, 1, FLOWGOAL_REFUSED);
    put16(policy.bytes + POLICY_HEADER, 1);
    expect_result("a next equal to its own number", flows(2, 2, 1, 1, 0), 0, 3, FLOWGOAL_REFUSED);
}

/* W9: an added allow from a type that is no domain is refused with 14, whatever is asked, in range or not. */
static void weir_9(void)
{
    unsigned refused = 1;
    policy_weir(&policy);
    policy_add(&policy, 4, 3, 1, 2, 0, 1);
    for (unsigned i = 0; i < 6 * 2 * 6 * 2 * 34; i++) {
        unsigned t1 = i % 6, r1 = i / 6 % 2 + 1, t2 = i / 12 % 6, r2 = i / 72 % 2 + 1, permission = i / 144;
        refused &= authorized(t1, r1, t2, r2, permission) == 4 * 14 + 3 && flows(t1, r1, t2, r2, permission) == 4 * 14 + 3;
    }
    expect("W9: every question is refused", refused, 1);
    policy_add(&policy, 1, 3, 0, 0, 0, 0);
    policy_add(&policy, 5, 2, 3, 0, 0, 0);
    expect_result("W9 with type 3 a domain: 3 reads 1", authorized(3, 2, 1, 1, 0), 0, 0, FLOWGOAL_YES);
    expect_result("and permission 32 is out of range", authorized(3, 2, 1, 1, 32), 0, 13, FLOWGOAL_REFUSED);
}

/* The transition of (2, r1) to (4, r2), and whether it flows, which it does where it is authorized. */
static void expect_transition(const char *what, unsigned r1, unsigned r2, unsigned answer)
{
    expect_result(what, flowgoal_authorized(policy.bytes, policy.length, 2, r1, 1, 4, r2, 1, 1, 0), 0, 0, answer);
    expect_result("its flow", flowgoal_flows(policy.bytes, policy.length, 2, r1, 1, 4, r2, 1, 1, 0), 0, 0, answer);
    expect_result("no flow back", flowgoal_flows(policy.bytes, policy.length, 4, r2, 1, 2, r1, 1, 1, 0), 0, 0, FLOWGOAL_NO);
}

/* Since request f a transition with equal roles needs no record of kind 7; with different roles it does. */
static void unchanged_roles(void)
{
    policy_transition(&policy, 2);
    expect_transition("equal roles", 2, 2, FLOWGOAL_YES);
    expect_transition("equal roles that hold neither", 1, 1, FLOWGOAL_NO);
    policy_transition(&policy, 1);
    expect_transition("equal roles that do not hold 4", 2, 2, FLOWGOAL_NO);
    expect_transition("different roles", 2, 1, FLOWGOAL_NO);
    policy_add(&policy, 7, 1, 2, 0, 0, 0);
    expect_transition("different roles, and a record the other way", 2, 1, FLOWGOAL_NO);
    policy_add(&policy, 7, 2, 1, 0, 0, 0);
    expect_transition("different roles, and a record", 2, 1, FLOWGOAL_YES);
}

/* The deepest constraint that can be asked about: a class with its permission, a constraint on it, and the rest nodes, each
 * `not` of the one before. Where it is to be answered with yes too, an even number of negations of "same type" stands below
 * the records that authorize the event. */
static uint64_t deep_result;

static void ask_deep(void)
{
    deep_result = flowgoal_authorized(policy.bytes, policy.length, 1, 1, 1, 1, 1, 1, 1, 0);
}

static void deepest(int yes)
{
    size_t used;
    policy_start(&policy, 1, 1, 1, 1);
    policy_add(&policy, 2, 1, 0, 0, 0, 1);
    policy_add(&policy, 8, 1, 0, 0, POLICY_MOST, 1);
    if (yes) {
        policy_add(&policy, 1, 1, 0, 0, 0, 0);
        policy_add(&policy, 4, 1, 0, 1, 0, 1);
        policy_add(&policy, 5, 1, 1, 0, 0, 0);
        policy_add(&policy, 7, 1, 1, 0, 0, 0);
    }
    policy_add(&policy, 9, 4, 0, 0, 0, 0);
    while (policy.records < POLICY_MOST)
        policy_add(&policy, 9, 1, 0, 0, 0, policy.records);
    used = stack_of(ask_deep);
    printf("a constraint of %u nested nodes took %zu bytes of stack; the header says %d at the most\n",
           yes ? POLICY_MOST - 6 : POLICY_MOST - 2, used, FLOWGOAL_STACK);
    expect_result("the deepest constraint", deep_result, 0, 0, yes ? FLOWGOAL_YES : FLOWGOAL_NO);
    expect("its stack", used <= FLOWGOAL_STACK, 1);
}

int main(void)
{
    answers();
    weir_9();
    unchanged_roles();
    deepest(1);
    deepest(0);
    return results();
}
