/* The flow goal checker, for C and C++.
 *
 * Link with the static library that `tools/library` writes to target/staticlib/libflowgoal.a (x86-64). It needs nothing else
 * but memcpy and memset.
 *
 * An example, which the tests compile and run as it stands here:
 *
 *     #include "flowgoal.h"
 *     #include <stdio.h>
 *
 *     // room for 64 types, 4 roles, 4 users and 4 legs, and for a path of 100 steps: what needs more is refused
 *     enum { WORK = FLOWGOAL_WORK_ENTRIES(64, 4, 4, 4), PATH = FLOWGOAL_PATH_ENTRIES(100) };
 *     static uint32_t work1[WORK], work2[WORK], path[PATH];
 *
 *     int may_be_loaded(const uint8_t *policy, size_t policy_length, const uint8_t *goal, size_t goal_length)
 *     {
 *         uint64_t result = flowgoal_check(policy, policy_length, goal, goal_length, work1, WORK, work2, WORK, path, PATH);
 *         uint64_t last = FLOWGOAL_PATH_ENTRIES(FLOWGOAL_STEPS(result)) - 1;
 *         if (FLOWGOAL_ANSWER(result) == FLOWGOAL_REFUSED)
 *             printf("refused with %u\n", FLOWGOAL_NUMBER(result));
 *         else if (FLOWGOAL_ANSWER(result) != FLOWGOAL_HOLDS)
 *             printf("broken by a path from type %u to type %u\n", path[0] / 256, path[last] / 256);
 *         return FLOWGOAL_ANSWER(result) == FLOWGOAL_HOLDS;
 *     }
 *
 * What is lent. An image is lent as a pointer to its first byte and its length in bytes. It is only read, and only while the
 * call runs; nothing is kept. A work slice or a path slice is lent as a pointer to its first entry, of 32 bits, and the number
 * of its entries, the output of a call that writes an image as a pointer to its first byte and the number of its bytes. No memory
 * is allocated, no file is touched, and no state is held between calls, so calls may run at the same time in several threads, also
 * on the same images, each with slices of its own.
 *
 * What comes back. Every call ends, whatever the bytes and the numbers are, and its result is what the specification gives
 * for them: that is proved, for all bytes and all values.
 *
 * What the caller must not do. A pointer must lead to at least so many bytes or entries as its length says, and they must not
 * be changed by anyone else while the call runs: nothing can be promised where they are. No two of the slices of a call may
 * overlap, nor a slice and an image; two images may. A null pointer with length 0 is an empty image or slice; a null pointer
 * with any other length is not allowed.
 *
 * Stack. A call needs FLOWGOAL_STACK bytes of stack at the most: what the goal question and least steps make of the images
 * stands there, and constraints are evaluated by recursion, where the deepest constraint of an accepted policy has 4,093 nested
 * nodes below a permission that can be asked about.
 */
#ifndef FLOWGOAL_H
#define FLOWGOAL_H

#include <stddef.h>
#include <stdint.h>

#ifdef __cplusplus
extern "C" {
#endif

/* The stack that a call needs at the most, in bytes. */
#define FLOWGOAL_STACK (640 * 1024)

/* The largest images, in bytes: 4,095 and 255 records. What is longer is refused with 1 or 7. */
#define FLOWGOAL_LARGEST_POLICY (24 + 12 * 4095)
#define FLOWGOAL_LARGEST_GOAL (34 + 8 * 255)

/* The entries that each work slice needs, for counts in range: T types, R roles and U users stand in bytes 0, 1 and 2 of the
 * policy and n legs in byte 0 of the goal. They may be relied on where a call with work slices of length 0 is refused with 11:
 * then both images are accepted. Least steps has no goal: it needs those of 0 legs. FLOWGOAL_LARGEST_WORK entries, 3,672,000,
 * are enough for all. */
#define FLOWGOAL_WORK_ENTRIES(types, roles, users, legs) \
    ((size_t)(types) * (size_t)(roles) * (size_t)(users) * ((size_t)1 << (legs)))
#define FLOWGOAL_LARGEST_WORK FLOWGOAL_WORK_ENTRIES(255, 15, 15, 6)

/* The entries that the path slice needs for a path of so many steps. */
#define FLOWGOAL_PATH_ENTRIES(steps) (2 * (size_t)(steps) + 1)

/* A result is 256 * steps + 4 * number + answer. The number is that of the refusal, and 0 for every other answer. Steps are
 * those of a shortest path that breaks a goal, or leads from one context to another, and 0 where there is none to tell of. A
 * call that writes an image has in place of steps the length of that image, in bytes, and 0 where it is refused. Steps and length
 * take 32 bits, and what stands from 2^40 on is no part of them. */
#define FLOWGOAL_ANSWER(result) ((unsigned)((result) % 4))
#define FLOWGOAL_NUMBER(result) ((unsigned)((result) / 4 % 64))
#define FLOWGOAL_STEPS(result) ((uint64_t)(uint32_t)((result) / 256))
#define FLOWGOAL_LENGTH(result) ((size_t)(uint32_t)((result) / 256))

/* The answers to the goal question. */
#define FLOWGOAL_HOLDS 0
#define FLOWGOAL_ORDER 1
#define FLOWGOAL_EVENTS 2

/* The answers to the two questions about one event. */
#define FLOWGOAL_NO 0
#define FLOWGOAL_YES 1

/* The answers to least steps. */
#define FLOWGOAL_NONE 0
#define FLOWGOAL_SHOWN 1

/* The answer of a call that writes an image. */
#define FLOWGOAL_WRITTEN 0

/* An answer to all of them: refused, with its number. */
#define FLOWGOAL_REFUSED 3

/* Does the goal hold of the policy?
 *
 * FLOWGOAL_HOLDS   no path, of any length, breaks the goal.
 * FLOWGOAL_ORDER   some path breaks it, none by fewer steps than FLOWGOAL_STEPS, and one of so many steps breaks order: it
 *                  stands in the path slice.
 * FLOWGOAL_EVENTS  likewise, where none of so many steps breaks order: the path in the path slice breaks events.
 *
 * A path of m steps takes 2 * m + 1 entries: entry 2 * j is the context after j steps, as 256 * type + 16 * role + user, and
 * entry 2 * j + 1 is the event of the next step, as 32 * class + permission. Later entries are left as they are, and all of
 * them where the goal holds or the question is refused. The work slices are overwritten; what they hold does not matter.
 *
 * The call refuses with 1 to 6 and 14 as below, or with
 *   7   the goal is shorter than 34 bytes, has more than 255 records, or its length does not fit the number of records
 *   8   the number of legs is out of range, or a flag or a head of a leg that is not there is not 0
 *   9   a head or a next is out of range, a next is not above its record, or a record lies on no chain or on two
 *   10  a field of a record is above its count, or a spare byte is not 0
 *   11  a work slice has fewer than T * R * U * 2^n entries, for T types, R roles, U users and n legs
 *   12  the goal is broken, and the path slice has fewer than 2 * m + 1 entries for a shortest path of m steps, which are
 *       FLOWGOAL_STEPS of the result
 * and these are asked in this order, after those of the policy: the first that applies is the number.
 */
uint64_t flowgoal_check(const uint8_t *policy, size_t policy_length, const uint8_t *goal, size_t goal_length,
                        uint32_t *work1, size_t work1_length, uint32_t *work2, size_t work2_length, uint32_t *path,
                        size_t path_length);

/* Is the permission of the class authorized from the context (t1, r1, u1), which acts, on (t2, r2, u2)?
 *
 * Types, roles, users and classes are numbered from 1, permissions from 0. Permission 0 of class 1 is process transition, which
 * needs a record that lets role r1 change to r2 where the two differ, and none where they are equal. The call refuses with
 *   1   the image is shorter than 24 bytes, has more than 4,095 records, or its length does not fit the number of records
 *   2   a count of types, roles, users or classes is out of range
 *   3   a head or a next is out of range, or a next is not above its record
 *   4   a chain does not hold exactly the records of its kind
 *   5   a field of a record is out of range, or one that is not used is not 0
 *   6   a constraint's root or a node's child is no node, stands too high, or is used twice
 *   14  the source of an allow record is no domain
 *   13  a context, the class or the permission is out of range
 * and these are asked in this order: the first that applies is the number.
 */
uint64_t flowgoal_authorized(const uint8_t *policy, size_t policy_length, uint32_t t1, uint32_t r1, uint32_t u1,
                             uint32_t t2, uint32_t r2, uint32_t u2, uint32_t class_number, uint32_t permission);

/* Does information flow from the context (t1, r1, u1) to (t2, r2, u2) by the permission of the class? That is so where the
 * permission is write-like and authorized from the first on the second, or read-like and authorized from the second on the
 * first. It refuses as flowgoal_authorized does. */
uint64_t flowgoal_flows(const uint8_t *policy, size_t policy_length, uint32_t t1, uint32_t r1, uint32_t u1, uint32_t t2,
                        uint32_t r2, uint32_t u2, uint32_t class_number, uint32_t permission);

/* By how many steps of flow does the context (t1, r1, u1) reach (t2, r2, u2) at the least?
 *
 * FLOWGOAL_NONE   no path, of any length, leads from the first to the second. That is so, too, where the role of one of them
 *                 may not hold its type or its user may not hold its role: such a context does not even reach itself.
 * FLOWGOAL_SHOWN  a path of FLOWGOAL_STEPS steps leads there, and none of fewer: it stands in the path slice, in the form of
 *                 flowgoal_check. Every other context reaches itself by 0 steps.
 *
 * Entries after the path are left as they are, and all of them where there is none or the question is refused. The work slices
 * are overwritten; what they hold does not matter.
 *
 * The call refuses with 1 to 6 and 14 as flowgoal_authorized does, or with
 *   13  a context is out of range
 *   11  a work slice has fewer than T * R * U entries, for T types, R roles and U users
 *   12  there is a path, and the path slice has fewer than 2 * m + 1 entries for a shortest one of m steps, which are
 *       FLOWGOAL_STEPS of the result
 * and these are asked in this order, after those of the policy: the first that applies is the number.
 */
uint64_t flowgoal_least_steps(const uint8_t *policy, size_t policy_length, uint32_t t1, uint32_t r1, uint32_t u1,
                              uint32_t t2, uint32_t r2, uint32_t u2, uint32_t *work1, size_t work1_length, uint32_t *work2,
                              size_t work2_length, uint32_t *path, size_t path_length);

/* Writes the one policy that the maker's and the board's make together.
 *
 * FLOWGOAL_WRITTEN  the first FLOWGOAL_LENGTH bytes of the output are the image: maker_length + board_length - 24 of them, so
 *                   that FLOWGOAL_LARGEST_POLICY bytes are room for all. Later bytes are left as they are.
 *
 * Each count is the larger of the two. The records are those of both, kinds 1 to 9 in turn, the maker's first within a kind and
 * each list in its order; each kind is linked in that order, and constraints and nodes name the same nodes as before by their
 * new numbers. What is allowed is judged on the whole list: a constraint of the board's may take away what the maker allows,
 * and a type that either calls a domain is one.
 *
 * The call refuses with 1 to 6 and 14 as flowgoal_authorized does, of the maker's policy, then of the board's, or with
 *   15  the two have more than 4,095 records together
 *   16  the output is shorter than the image
 * and these are asked in this order: the first that applies is the number. The output is left as it is where the call refuses.
 */
uint64_t flowgoal_join(const uint8_t *maker, size_t maker_length, const uint8_t *board, size_t board_length,
                       uint8_t *output, size_t output_length);

/* Writes the canonical image of a policy: two policies that say the same have one, and two that do not have two.
 *
 * FLOWGOAL_WRITTEN  the first FLOWGOAL_LENGTH bytes of the output are the image; FLOWGOAL_LARGEST_POLICY bytes are room for all.
 *                   Later bytes are left as they are.
 *
 * The counts stay as they are. The records are linked kind by kind, kinds 1 to 9 in turn. Those of kinds 1 to 7 are sorted by a,
 * then b, then c, each key once with the masks of all its records united; a record of kinds 2, 3 or 4 with an empty mask is left
 * out, and flow with b = 3 is written as b = 1 and b = 2. Kinds 8 and 9 keep their order, and constraints and nodes name the same
 * nodes as before by their new numbers. So two policies have equal bytes exactly where their four counts, what their records of
 * kinds 1 to 7 say, permission by permission, and their lists of constraints and of nodes agree, a node being named by its place
 * in the list. flowgoal_authorized, flowgoal_flows, flowgoal_least_steps and flowgoal_check answer of the image as of the policy, and
 * the canonical image of the image is itself. A join with the image may be refused with 15 where one with the policy is not, since flow
 * with b = 3 is two records in it.
 *
 * The call refuses with 1 to 6 and 14 as flowgoal_authorized does, or with
 *   15  the image would have more than 4,095 records
 *   16  the output is shorter than the image
 * and these are asked in this order: the first that applies is the number. The output is left as it is where the call refuses.
 */
uint64_t flowgoal_canonical(const uint8_t *policy, size_t policy_length, uint8_t *output, size_t output_length);

#ifdef __cplusplus
}
#endif

#endif
