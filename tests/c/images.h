/* What the C tests share: policy and goal images, built record by record, and how results are held to what is wanted. */
#ifndef IMAGES_H
#define IMAGES_H

#include <stddef.h>
#include <stdint.h>

enum { POLICY_HEADER = 24, POLICY_RECORD = 12, POLICY_MOST = 4095, GOAL_HEADER = 34, GOAL_RECORD = 8, GOAL_MOST = 255 };

struct policy {
    uint8_t bytes[POLICY_HEADER + POLICY_RECORD * POLICY_MOST];
    size_t length;
    unsigned records;
    unsigned last_of_kind[10];
};

/* The chains of a goal in the order of its heads: sigma 0 to 6 are 0 to 6, gamma 0 to 5 are 7 to 12. */
enum { SIGMA = 0, GAMMA = 7, SIGMA_E = 13, GAMMA_E = 14, CHAINS = 15 };

struct goal {
    uint8_t bytes[GOAL_HEADER + GOAL_RECORD * GOAL_MOST];
    size_t length;
    unsigned records;
    unsigned last_of_chain[CHAINS];
};

void put16(uint8_t *at, unsigned value);
unsigned get16(const uint8_t *at);

void policy_start(struct policy *policy, unsigned types, unsigned roles, unsigned users, unsigned classes);
/* One more record, linked to the one before it of its kind. */
void policy_add(struct policy *policy, unsigned kind, unsigned a, unsigned b, unsigned c, unsigned root, uint32_t mask);
/* The weir policy of the specification. */
void policy_weir(struct policy *policy);
/* The weir policy, damaged so that it is refused with the number: 1 to 6, or 14. */
void policy_refused(struct policy *policy, unsigned number);
/* The same in which 4 may not read 3, but 2 may make a transition to 4, which is write-like, and the role named holds 4. */
void policy_transition(struct policy *policy, unsigned role);
/* The deepest constraints that a search can come to: a class, its way of flow, a constraint, and nodes up to the record named,
 * each `not` of the one before, above "same type". The records that let type 1 write to type 2, where it is allowed, make it
 * come to flow, where an odd number of negations makes the constraint true for them. */
void policy_deep(struct policy *policy, int allowed, unsigned last);

void goal_start(struct goal *goal, unsigned legs, unsigned repeated);
void goal_sigma(struct goal *goal, unsigned chain, unsigned type, unsigned role, unsigned user);
void goal_gamma(struct goal *goal, unsigned chain, unsigned class_number, uint32_t mask);
/* Goal G of the specification. */
void goal_g(struct goal *goal);

/* The file of at most so many bytes, read as a loader does; gives its length. The run ends where it cannot be opened. */
size_t read_image(const char *folder, const char *name, uint8_t *bytes, size_t most);

/* A copy of so many bytes on the heap, with nothing behind it, so that valgrind sees every byte that is touched beyond; of no
 * source, bytes that nobody set, so that it sees where an answer hangs on what they are. To be freed. */
void *lent(const void *source, size_t length);

/* Whether the entries from one on, up to the end, all have the value. */
int all_from(const uint32_t *entries, size_t from, size_t end, uint32_t value);

/* Counts one check, and prints what it got where that is not what was wanted. */
void expect(const char *what, uint64_t got, uint64_t wanted);
/* Holds the result of a call to the number of the specification, and what the header's macros take out of it to its parts. */
void expect_result(const char *what, uint64_t got, uint64_t steps, unsigned number, unsigned answer);
/* Prints 'N passed, M failed'; gives the exit status. */
int results(void);

/* Runs the call in a thread of its own and gives the bytes of stack that it took, with what the thread itself takes. */
size_t stack_of(void (*call)(void));

#endif
