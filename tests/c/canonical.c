/* Canonical images through the header: of the weir policy and of policies that say the same in other records, in outputs of every
 * length, the refusals in their order, what stays as it was, and as many records as a policy may have. It reads the images of the
 * canonical example from the folder of examples that it is given. Its last line is 'N passed, M failed'. */
#include "flowgoal.h"
#include "images.h"

#include <stdio.h>
#include <stdlib.h>
#include <string.h>

enum { MORE = 40, UNTOUCHED = 0xC3, KINDS_OF_FACTS = 7 };

static struct policy policy, wanted;
static uint8_t output[FLOWGOAL_LARGEST_POLICY + MORE];

/* Writes the canonical image of the policy into an output of so many bytes. All of them are set before, or none; `output` has
 * what they are after. */
static uint64_t canonical(size_t length, int set)
{
    uint8_t *bytes = lent(policy.bytes, policy.length), *slice;
    uint64_t answer;
    memset(output, UNTOUCHED, sizeof output);
    slice = lent(set ? output : NULL, length);
    answer = flowgoal_canonical(bytes, policy.length, slice, length);
    expect("the policy after its image is written", memcmp(bytes, policy.bytes, policy.length) == 0, 1);
    memcpy(output, slice, length);
    free(bytes);
    free(slice);
    return answer;
}

static int untouched_from(size_t byte)
{
    while (byte < sizeof output && output[byte] == UNTOUCHED)
        byte++;
    return byte == sizeof output;
}

static void expect_refused(const char *what, size_t length, unsigned number)
{
    expect_result(what, canonical(length, 1), 0, number, FLOWGOAL_REFUSED);
    expect("the output after a refusal", untouched_from(0), 1);
}

static void expect_written(const char *what, uint64_t result)
{
    expect_result(what, result, wanted.length, 0, FLOWGOAL_WRITTEN);
    expect("its length", FLOWGOAL_LENGTH(result), wanted.length);
    expect("its bytes", memcmp(output, wanted.bytes, wanted.length) == 0, 1);
}

/* The image is `wanted`, in an output of just its length, whatever that held, and in longer ones; a shorter one is refused. */
static void expect_image(const char *what)
{
    static const size_t more[] = {0, 1, POLICY_RECORD, MORE};
    const size_t less[] = {1, 2, POLICY_RECORD, wanted.length - 1, wanted.length};
    for (size_t i = 0; i < sizeof more / sizeof *more; i++) {
        expect_written(what, canonical(wanted.length + more[i], 1));
        expect("the bytes after it", untouched_from(wanted.length), 1);
    }
    expect_written(what, canonical(wanted.length, 0));
    for (size_t i = 0; i < sizeof less / sizeof *less; i++)
        expect_refused(what, wanted.length - less[i], 16);
}

/* .. and `wanted` is its own canonical image. */
static void expect_canonical(const char *what)
{
    expect_image(what);
    policy = wanted;
    expect_image(what);
}

/* The weir policy with the ways of flow in their order. */
static void weir_sorted(struct policy *sorted)
{
    policy_start(sorted, 4, 2, 1, 2);
    policy_add(sorted, 1, 2, 0, 0, 0, 0);
    policy_add(sorted, 1, 4, 0, 0, 0, 0);
    policy_add(sorted, 2, 2, 0, 0, 0, 3);
    policy_add(sorted, 3, 2, 1, 0, 0, 2);
    policy_add(sorted, 3, 2, 2, 0, 0, 1);
    policy_add(sorted, 4, 2, 1, 2, 0, 1);
    policy_add(sorted, 4, 2, 3, 2, 0, 2);
    policy_add(sorted, 4, 4, 3, 2, 0, 1);
    policy_add(sorted, 5, 2, 2, 0, 0, 0);
    policy_add(sorted, 5, 2, 4, 0, 0, 0);
    policy_add(sorted, 6, 1, 2, 0, 0, 0);
}

static void weir(void)
{
    weir_sorted(&wanted);
    policy_weir(&policy);
    for (size_t length = 0; length < wanted.length; length++)
        expect_refused("no room for the image of the weir policy", length, 16);
    expect_canonical("the weir policy");
}

/* The weir policy said otherwise: in another order, with records repeated, masks in parts that overlap, and empty masks, also of keys
 * that no other record has. */
static void weir_told_otherwise(void)
{
    weir_sorted(&wanted);
    policy_start(&policy, 4, 2, 1, 2);
    policy_add(&policy, 6, 1, 2, 0, 0, 0);
    policy_add(&policy, 5, 2, 4, 0, 0, 0);
    policy_add(&policy, 4, 4, 3, 2, 0, 1);
    policy_add(&policy, 4, 4, 1, 2, 0, 0);
    policy_add(&policy, 4, 4, 0, 2, 0, 0);
    policy_add(&policy, 2, 2, 0, 0, 0, 2);
    policy_add(&policy, 3, 2, 1, 0, 0, 0);
    policy_add(&policy, 3, 2, 2, 0, 0, 1);
    policy_add(&policy, 1, 4, 0, 0, 0, 0);
    policy_add(&policy, 3, 1, 3, 0, 0, 0);
    policy_add(&policy, 4, 2, 3, 2, 0, 2);
    policy_add(&policy, 4, 2, 1, 2, 0, 1);
    policy_add(&policy, 6, 1, 2, 0, 0, 0);
    policy_add(&policy, 2, 1, 0, 0, 0, 0);
    policy_add(&policy, 2, 2, 0, 0, 0, 3);
    policy_add(&policy, 1, 2, 0, 0, 0, 0);
    policy_add(&policy, 1, 4, 0, 0, 0, 0);
    policy_add(&policy, 5, 2, 2, 0, 0, 0);
    policy_add(&policy, 4, 2, 1, 2, 0, 0);
    policy_add(&policy, 3, 2, 1, 0, 0, 2);
    expect_canonical("the weir policy told otherwise");
}

/* A class whose permissions flow both ways, in part by a record of each way; self beside the type itself, in two classes; and
 * permissions that the class has not. */
static void as_written(void)
{
    policy_start(&policy, 3, 2, 2, 3);
    policy_add(&policy, 4, 3, 3, 2, 0, 0x80000000u);
    policy_add(&policy, 3, 2, 3, 0, 0, 6);
    policy_add(&policy, 4, 3, 0, 2, 0, 1);
    policy_add(&policy, 3, 2, 1, 0, 0, 1);
    policy_add(&policy, 1, 3, 0, 0, 0, 0);
    policy_add(&policy, 4, 3, 0, 1, 0, 4);
    policy_add(&policy, 4, 3, 0, 2, 0, 8);
    policy_add(&policy, 3, 2, 2, 0, 0, 4);
    policy_add(&policy, 3, 1, 3, 0, 0, 0);
    policy_add(&policy, 7, 2, 1, 0, 0, 0);
    policy_add(&policy, 7, 1, 2, 0, 0, 0);
    policy_add(&policy, 7, 2, 1, 0, 0, 0);
    policy_start(&wanted, 3, 2, 2, 3);
    policy_add(&wanted, 1, 3, 0, 0, 0, 0);
    policy_add(&wanted, 3, 2, 1, 0, 0, 7);
    policy_add(&wanted, 3, 2, 2, 0, 0, 6);
    policy_add(&wanted, 4, 3, 0, 1, 0, 4);
    policy_add(&wanted, 4, 3, 0, 2, 0, 9);
    policy_add(&wanted, 4, 3, 3, 2, 0, 0x80000000u);
    policy_add(&wanted, 7, 1, 2, 0, 0, 0);
    policy_add(&wanted, 7, 2, 1, 0, 0, 0);
    expect_canonical("facts as written");
}

/* Constraints and nodes stay in their order, also one with an empty mask, one that is repeated and a node that nothing uses, and name
 * the same nodes by their new numbers. */
static void constraints(void)
{
    policy_start(&policy, 4, 2, 1, 2);
    policy_add(&policy, 9, 7, 4, 0, 0, 0);
    policy_add(&policy, 1, 4, 0, 0, 0, 0);
    policy_add(&policy, 9, 5, 0, 0, 0, 0);
    policy_add(&policy, 8, 2, 0, 0, 9, 3);
    policy_add(&policy, 9, 1, 0, 0, 0, 3);
    policy_add(&policy, 1, 4, 0, 0, 0, 0);
    policy_add(&policy, 8, 1, 0, 0, 8, 0);
    policy_add(&policy, 9, 4, 0, 0, 0, 0);
    policy_add(&policy, 9, 3, 0, 0, 0, 5 + 65536 * 1);
    policy_add(&policy, 9, 12, 1, 0, 0, 0);
    policy_start(&wanted, 4, 2, 1, 2);
    policy_add(&wanted, 1, 4, 0, 0, 0, 0);
    policy_add(&wanted, 8, 2, 0, 0, 8, 3);
    policy_add(&wanted, 8, 1, 0, 0, 7, 0);
    policy_add(&wanted, 9, 7, 4, 0, 0, 0);
    policy_add(&wanted, 9, 5, 0, 0, 0, 0);
    policy_add(&wanted, 9, 1, 0, 0, 0, 5);
    policy_add(&wanted, 9, 4, 0, 0, 0, 0);
    policy_add(&wanted, 9, 3, 0, 0, 0, 6 + 65536 * 4);
    policy_add(&wanted, 9, 12, 1, 0, 0, 0);
    expect_canonical("constraints and nodes");
}

static void read_policy(struct policy *read, const char *examples, const char *name)
{
    char folder[400];
    snprintf(folder, sizeof folder, "%s/canonical-weir", examples);
    read->length = read_image(folder, name, read->bytes, sizeof read->bytes);
}

/* The two policies of the example differ and have the same image, of which G holds as it does of both. */
static void example(const char *examples)
{
    static const char *const names[] = {"first.img", "second.img"};
    static uint32_t work1[32], work2[32];
    static struct policy first;
    static struct goal g;
    read_policy(&first, examples, names[0]);
    read_policy(&policy, examples, names[1]);
    expect("two policies with the same bytes", first.length == policy.length, 0);
    read_policy(&wanted, examples, "policy.img");
    goal_g(&g);
    for (size_t i = 0; i < 2; i++) {
        read_policy(&policy, examples, names[i]);
        expect_result("G of the example",
                      flowgoal_check(policy.bytes, policy.length, g.bytes, g.length, work1, 32, work2, 32, NULL, 0), 0, 0,
                      FLOWGOAL_HOLDS);
        expect_canonical("the example");
    }
    expect_result("G of its canonical image",
                  flowgoal_check(wanted.bytes, wanted.length, g.bytes, g.length, work1, 32, work2, 32, NULL, 0), 0, 0,
                  FLOWGOAL_HOLDS);
}

/* A policy without records is its own image, and the counts stay as they are. */
static void empty(void)
{
    policy_start(&policy, 255, 1, 15, 30);
    wanted = policy;
    expect("the header alone", wanted.length, 24);
    expect_canonical("a policy without records");
}

/* The refusals of a policy in their order, each as a damage to the weir policy, whatever the output is; 15 comes behind them. */
static void order_of_refusals(void)
{
    static const unsigned refusals[] = {1, 2, 3, 4, 5, 6, 14};
    static const size_t lengths[] = {0, 1, sizeof output};
    for (unsigned i = 0; i < sizeof refusals / sizeof *refusals * 3; i++) {
        policy_refused(&policy, refusals[i / 3]);
        expect_refused("a policy that is refused", lengths[i % 3], refusals[i / 3]);
    }
}

/* So many records that all stay, the first of them flow both ways, each of a class of its own, which make two. */
static void policy_staying(unsigned records, unsigned both)
{
    policy_start(&policy, 255, 15, 15, 31);
    while (policy.records < both)
        policy_add(&policy, 3, policy.records + 1, 3, 0, 0, 1u << policy.records);
    for (unsigned k = 0; policy.records < records; k++) {
        if (k < 15 * 255)
            policy_add(&policy, 5, 15 - k / 255, 255 - k % 255, 0, 0, 0);
        else if (k < 16 * 255)
            policy_add(&policy, 1, 255 - k % 255, 0, 0, 0, 0);
        else
            policy_add(&policy, 6, 15, 15 - k % 15, 0, 0, 0);
    }
}

static const uint8_t *record_of(unsigned k)
{
    return policy.bytes + POLICY_HEADER + POLICY_RECORD * (k - 1);
}

/* A fact: the kind with a, b and c as one number, and the permissions. */
struct fact {
    uint32_t key, mask;
};

static int by_key(const void *one, const void *other)
{
    uint32_t x = ((const struct fact *)one)->key, y = ((const struct fact *)other)->key;
    return (x > y) - (x < y);
}

/* The facts of `policy`, sorted; gives their number. */
static unsigned sorted_facts(struct fact *facts)
{
    unsigned count = 0;
    for (unsigned k = 1; k <= policy.records; k++) {
        const uint8_t *r = record_of(k);
        unsigned both = r[2] == 3 && r[4] == 3;
        uint32_t mask = get16(r + 8) + 65536u * get16(r + 10);
        if (r[2] > KINDS_OF_FACTS || (r[2] >= 2 && r[2] <= 4 && mask == 0))
            continue;
        for (unsigned b = both ? 1 : r[4]; b <= (both ? 2u : r[4]); b++) {
            facts[count].key = ((r[2] * 256u + r[3]) * 256u + b) * 256u + r[5];
            facts[count++].mask = mask;
        }
    }
    qsort(facts, count, sizeof *facts, by_key);
    return count;
}

/* `wanted` from `policy`: the facts with their masks united, then constraints and nodes with their new numbers, where 0, no node,
 * stays 0. */
static void write_plainly(void)
{
    static struct fact facts[2 * POLICY_MOST];
    static unsigned number[POLICY_MOST + 1];
    unsigned count = sorted_facts(facts), before = 0, nodes = 0;
    policy_start(&wanted, policy.bytes[0], policy.bytes[1], policy.bytes[2], policy.bytes[3]);
    for (unsigned i = 0; i < count; i++) {
        uint32_t key = facts[i].key, mask = 0;
        for (; i < count && facts[i].key == key; i++)
            mask |= facts[i].mask;
        i--;
        policy_add(&wanted, key >> 24, key >> 16 & 255, key >> 8 & 255, key & 255, 0, mask);
    }
    for (unsigned k = 1; k <= policy.records; k++)
        before += record_of(k)[2] == 8;
    before += wanted.records;
    for (unsigned k = 1; k <= policy.records; k++)
        number[k] = record_of(k)[2] == 9 ? before + ++nodes : 0;
    for (unsigned i = 0; i < 2 * policy.records; i++) {
        const uint8_t *r = record_of(i % policy.records + 1);
        unsigned low = get16(r + 8), high = get16(r + 10);
        if (r[2] == 8 && i < policy.records)
            policy_add(&wanted, 8, r[3], 0, 0, number[get16(r + 6)], low + 65536u * high);
        else if (r[2] == 9 && i >= policy.records)
            policy_add(&wanted, 9, r[3], r[4], 0, 0, number[low] + 65536u * number[high]);
    }
}

/* 15 counts the records of the result, and comes before 16. */
static void most_records(void)
{
    static const unsigned records[][2] = {{4095, 0}, {4094, 1}, {4064, 31}, {4095, 1}, {4065, 31}, {4095, 31}};
    for (size_t i = 0; i < sizeof records / sizeof *records; i++) {
        policy_staying(records[i][0], records[i][1]);
        if (records[i][0] + records[i][1] <= POLICY_MOST) {
            write_plainly();
            expect("the largest policy", wanted.length, FLOWGOAL_LARGEST_POLICY);
            expect_canonical("as many records as there may be");
        } else {
            expect_refused("too many records", 0, 15);
            expect_refused("too many records", FLOWGOAL_LARGEST_POLICY, 15);
            expect_refused("too many records", sizeof output, 15);
        }
    }
}

/* So many records over few keys, the kinds mixed: a leaf, the not of it, another leaf and the or of both, and a constraint on that,
 * with other records between them. Of all the facts few are left. */
static void policy_mixed(unsigned records)
{
    policy_start(&policy, 7, 3, 2, 5);
    while (policy.records + 10 <= records) {
        unsigned k = policy.records, t = k % 7 + 1, c = k % 5 + 1;
        policy_add(&policy, 9, 7, t, 0, 0, 0);
        policy_add(&policy, 8, c, 0, 0, k + 5, k % 3);
        policy_add(&policy, 9, 1, 0, 0, 0, k + 1);
        policy_add(&policy, 9, 4, 0, 0, 0, 0);
        policy_add(&policy, 9, 3, 0, 0, 0, k + 3 + 65536 * (k + 4));
        policy_add(&policy, 4, t, k % 8, c, 0, k % 32 == 0 ? 0 : 1u << k % 32);
        policy_add(&policy, 1, t, 0, 0, 0, 0);
        policy_add(&policy, 2, c, 0, 0, 0, 0xFFFFu - k);
        policy_add(&policy, 3, c, k % 3 + 1, 0, 0, 1u << k % 31);
        policy_add(&policy, 6, k % 2 + 1, k % 3 + 1, 0, 0, 0);
    }
    while (policy.records < records)
        policy_add(&policy, 7, 3, policy.records % 3 + 1, 0, 0, 0);
}

static uint64_t large_result;

static void write_large(void)
{
    large_result = canonical(FLOWGOAL_LARGEST_POLICY, 0);
}

/* The largest policies are written on a stack of the size that the header names. */
static void stack(const char *what)
{
    size_t used;
    write_plainly();
    used = stack_of(write_large);
    printf("a canonical image of %u records, from %u, took %zu bytes of stack; the header says %d at the most\n", wanted.records,
           policy.records, used, FLOWGOAL_STACK);
    expect_written(what, large_result);
    expect("its stack", used <= FLOWGOAL_STACK, 1);
}

static void largest(void)
{
    policy_mixed(POLICY_MOST);
    write_plainly();
    expect("fewer records", wanted.records < 2500, 1);
    expect_canonical("a policy of many records and few facts");
    policy_mixed(POLICY_MOST);
    stack("a policy of many records and few facts, in a thread");
    policy_staying(4064, 31);
    stack("a policy of many facts, in a thread");
    /* 4,095 times the same, both ways of flow: two records */
    policy_start(&policy, 1, 1, 1, 1);
    while (policy.records < POLICY_MOST)
        policy_add(&policy, 3, 1, 3, 0, 0, 1u << policy.records % 32);
    policy_start(&wanted, 1, 1, 1, 1);
    policy_add(&wanted, 3, 1, 1, 0, 0, 0xFFFFFFFFu);
    policy_add(&wanted, 3, 1, 2, 0, 0, 0xFFFFFFFFu);
    expect_canonical("one key");
}

/* A null pointer with length 0 is an empty image or slice. */
static void null_pointers(void)
{
    policy_weir(&policy);
    expect_result("all null", flowgoal_canonical(NULL, 0, NULL, 0), 0, 1, FLOWGOAL_REFUSED);
    memset(output, UNTOUCHED, sizeof output);
    expect_result("no policy", flowgoal_canonical(NULL, 0, output, sizeof output), 0, 1, FLOWGOAL_REFUSED);
    expect("the output after a refusal", untouched_from(0), 1);
    expect_result("no output", flowgoal_canonical(policy.bytes, policy.length, NULL, 0), 0, 16, FLOWGOAL_REFUSED);
    policy_staying(4065, 31);
    expect_result("no output, and too many records", flowgoal_canonical(policy.bytes, policy.length, NULL, 0), 0, 15,
                  FLOWGOAL_REFUSED);
}

int main(int count, char **arguments)
{
    if (count != 2) {
        printf("usage: canonical EXAMPLES\n");
        return 2;
    }
    weir();
    weir_told_otherwise();
    as_written();
    constraints();
    example(arguments[1]);
    empty();
    order_of_refusals();
    most_records();
    largest();
    null_pointers();
    return results();
}
