#include "images.h"
#include "flowgoal.h"

#include <pthread.h>
#include <stdio.h>
#include <stdlib.h>
#include <string.h>
#include <sys/mman.h>
#include <valgrind/memcheck.h>

static unsigned passed, failed;

void put16(uint8_t *at, unsigned value)
{
    at[0] = (uint8_t)(value % 256);
    at[1] = (uint8_t)(value / 256);
}

unsigned get16(const uint8_t *at)
{
    return at[0] + 256u * at[1];
}

void policy_start(struct policy *policy, unsigned types, unsigned roles, unsigned users, unsigned classes)
{
    memset(policy, 0, sizeof *policy);
    policy->bytes[0] = (uint8_t)types;
    policy->bytes[1] = (uint8_t)roles;
    policy->bytes[2] = (uint8_t)users;
    policy->bytes[3] = (uint8_t)classes;
    policy->length = POLICY_HEADER;
}

void policy_add(struct policy *policy, unsigned kind, unsigned a, unsigned b, unsigned c, unsigned root, uint32_t mask)
{
    unsigned k = ++policy->records, before = policy->last_of_kind[kind];
    uint8_t *record = policy->bytes + POLICY_HEADER + POLICY_RECORD * (k - 1);
    put16(policy->bytes + 4, k);
    put16(before == 0 ? policy->bytes + 4 + 2 * kind : policy->bytes + POLICY_HEADER + POLICY_RECORD * (before - 1), k);
    policy->last_of_kind[kind] = k;
    policy->length += POLICY_RECORD;
    record[2] = (uint8_t)kind;
    record[3] = (uint8_t)a;
    record[4] = (uint8_t)b;
    record[5] = (uint8_t)c;
    put16(record + 6, root);
    put16(record + 8, mask % 65536);
    put16(record + 10, mask / 65536);
}

void policy_weir(struct policy *policy)
{
    policy_start(policy, 4, 2, 1, 2);
    policy_add(policy, 1, 2, 0, 0, 0, 0);
    policy_add(policy, 1, 4, 0, 0, 0, 0);
    policy_add(policy, 2, 2, 0, 0, 0, 3);
    policy_add(policy, 3, 2, 2, 0, 0, 1);
    policy_add(policy, 3, 2, 1, 0, 0, 2);
    policy_add(policy, 4, 2, 1, 2, 0, 1);
    policy_add(policy, 4, 2, 3, 2, 0, 2);
    policy_add(policy, 4, 4, 3, 2, 0, 1);
    policy_add(policy, 5, 2, 2, 0, 0, 0);
    policy_add(policy, 5, 2, 4, 0, 0, 0);
    policy_add(policy, 6, 1, 2, 0, 0, 0);
}

void policy_refused(struct policy *policy, unsigned number)
{
    policy_weir(policy);
    switch (number) {
    case 1:
        policy->length--;
        break;
    case 2:
        policy->bytes[2] = 16;
        break;
    case 3:
        put16(policy->bytes + POLICY_HEADER, 1);
        break;
    case 4:
        put16(policy->bytes + 6, 0);
        break;
    case 5:
        policy->bytes[POLICY_HEADER + 3] = 5;
        break;
    case 6:
        policy_add(policy, 8, 2, 0, 0, 0, 1);
        break;
    default:
        policy_add(policy, 4, 3, 1, 2, 0, 1);
    }
}

void policy_transition(struct policy *policy, unsigned role)
{
    policy_start(policy, 4, 2, 1, 2);
    policy_add(policy, 1, 2, 0, 0, 0, 0);
    policy_add(policy, 1, 4, 0, 0, 0, 0);
    policy_add(policy, 2, 1, 0, 0, 0, 1);
    policy_add(policy, 2, 2, 0, 0, 0, 3);
    policy_add(policy, 3, 1, 1, 0, 0, 1);
    policy_add(policy, 3, 2, 2, 0, 0, 1);
    policy_add(policy, 3, 2, 1, 0, 0, 2);
    policy_add(policy, 4, 2, 1, 2, 0, 1);
    policy_add(policy, 4, 2, 3, 2, 0, 2);
    policy_add(policy, 4, 2, 4, 1, 0, 1);
    policy_add(policy, 5, 2, 2, 0, 0, 0);
    policy_add(policy, 5, role, 4, 0, 0, 0);
    policy_add(policy, 6, 1, 2, 0, 0, 0);
}

void policy_deep(struct policy *policy, int allowed, unsigned last)
{
    policy_start(policy, 2, 1, 1, 2);
    policy_add(policy, 2, 2, 0, 0, 0, 1);
    policy_add(policy, 3, 2, 1, 0, 0, 1);
    policy_add(policy, 8, 2, 0, 0, last, 1);
    if (allowed) {
        policy_add(policy, 1, 1, 0, 0, 0, 0);
        policy_add(policy, 4, 1, 2, 2, 0, 1);
        policy_add(policy, 5, 1, 1, 0, 0, 0);
    }
    policy_add(policy, 9, 4, 0, 0, 0, 0);
    while (policy->records < last)
        policy_add(policy, 9, 1, 0, 0, 0, policy->records);
}

void goal_start(struct goal *goal, unsigned legs, unsigned repeated)
{
    memset(goal, 0, sizeof *goal);
    goal->bytes[0] = (uint8_t)legs;
    goal->bytes[1] = (uint8_t)repeated;
    goal->length = GOAL_HEADER;
}

/* One more record, linked to the one before it on its chain; gives the record. */
static uint8_t *goal_add(struct goal *goal, unsigned chain)
{
    unsigned k = ++goal->records, before = goal->last_of_chain[chain];
    put16(goal->bytes + 2, k);
    put16(before == 0 ? goal->bytes + 4 + 2 * chain : goal->bytes + GOAL_HEADER + GOAL_RECORD * (before - 1), k);
    goal->last_of_chain[chain] = k;
    goal->length += GOAL_RECORD;
    return goal->bytes + GOAL_HEADER + GOAL_RECORD * (k - 1);
}

void goal_sigma(struct goal *goal, unsigned chain, unsigned type, unsigned role, unsigned user)
{
    uint8_t *record = goal_add(goal, chain);
    record[2] = (uint8_t)type;
    record[3] = (uint8_t)role;
    record[4] = (uint8_t)user;
}

void goal_gamma(struct goal *goal, unsigned chain, unsigned class_number, uint32_t mask)
{
    uint8_t *record = goal_add(goal, chain);
    record[2] = (uint8_t)class_number;
    put16(record + 4, mask % 65536);
    put16(record + 6, mask / 65536);
}

void goal_g(struct goal *goal)
{
    goal_start(goal, 2, 2);
    goal_sigma(goal, SIGMA + 0, 1, 0, 0);
    goal_sigma(goal, SIGMA + 1, 2, 0, 0);
    goal_sigma(goal, SIGMA + 2, 4, 0, 0);
    goal_gamma(goal, GAMMA + 0, 2, 1);
    goal_gamma(goal, GAMMA + 1, 2, 3);
}

size_t read_image(const char *folder, const char *name, uint8_t *bytes, size_t most)
{
    char file[512];
    size_t length;
    FILE *stream;
    snprintf(file, sizeof file, "%s/%s", folder, name);
    stream = fopen(file, "rb");
    if (stream == NULL) {
        printf("%s cannot be opened\n", file);
        exit(1);
    }
    length = fread(bytes, 1, most, stream);
    fclose(stream);
    return length;
}

void *lent(const void *source, size_t length)
{
    void *copy = malloc(length == 0 ? 1 : length);
    if (copy == NULL) {
        printf("no memory\n");
        exit(1);
    }
    if (source != NULL)
        memcpy(copy, source, length);
    return copy;
}

int all_from(const uint32_t *entries, size_t from, size_t end, uint32_t value)
{
    while (from < end && entries[from] == value)
        from++;
    return from == end;
}

void expect(const char *what, uint64_t got, uint64_t wanted)
{
    if (got == wanted) {
        passed++;
    } else {
        failed++;
        printf("%s: %llu, expected %llu\n", what, (unsigned long long)got, (unsigned long long)wanted);
    }
}

void expect_result(const char *what, uint64_t got, uint64_t steps, unsigned number, unsigned answer)
{
    expect(what, got, 256 * steps + 4 * number + answer);
    if (FLOWGOAL_STEPS(got) == steps && FLOWGOAL_NUMBER(got) == number && FLOWGOAL_ANSWER(got) == answer) {
        passed++;
    } else {
        failed++;
        printf("%s: the header takes steps %llu, number %u and answer %u out of %llu\n", what,
               (unsigned long long)FLOWGOAL_STEPS(got), FLOWGOAL_NUMBER(got), FLOWGOAL_ANSWER(got), (unsigned long long)got);
    }
}

int results(void)
{
    printf("%u passed, %u failed\n", passed, failed);
    return failed != 0;
}

static void *run_call(void *call)
{
    (*(void (**)(void))call)();
    return NULL;
}

size_t stack_of(void (*call)(void))
{
    size_t size = 16 << 20, used;
    uint8_t *stack = mmap(NULL, size, PROT_READ | PROT_WRITE, MAP_PRIVATE | MAP_ANONYMOUS, -1, 0);
    pthread_attr_t attributes;
    pthread_t thread;
    if (stack == MAP_FAILED) {
        printf("no memory for a stack\n");
        exit(1);
    }
    memset(stack, 0xAA, size);
    pthread_attr_init(&attributes);
    if (pthread_attr_setstack(&attributes, stack, size) != 0 || pthread_create(&thread, &attributes, run_call, &call) != 0) {
        printf("no thread with a stack of its own\n");
        exit(1);
    }
    pthread_join(thread, NULL);
    pthread_attr_destroy(&attributes);
    /* valgrind would take reading a stack that is no longer in use for an error */
    (void)VALGRIND_MAKE_MEM_DEFINED(stack, size);
    for (used = size; used > 0 && stack[size - used] == 0xAA; used--)
        ;
    munmap(stack, size);
    return used;
}
