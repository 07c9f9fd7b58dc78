/* Joins through the header: the weir policy's with a board's, every length of the output, the refusals in their order, what stays
 * as it was, and as many records as a policy may have. It reads the images of the joined example from the folder of examples that
 * it is given. Its last line is 'N passed, M failed'. */
#include "flowgoal.h"
#include "images.h"

#include <stdio.h>
#include <stdlib.h>
#include <string.h>

enum { MORE = 40, UNTOUCHED = 0xC3 };

static struct policy maker, board, wanted;
static uint8_t output[FLOWGOAL_LARGEST_POLICY + MORE];

/* Joins the maker's policy and the board's into an output of so many bytes. All of them are set before, or none; `output` has
 * what they are after. */
static uint64_t join(size_t length, int set)
{
    uint8_t *maker_bytes = lent(maker.bytes, maker.length), *board_bytes = lent(board.bytes, board.length), *slice;
    uint64_t answer;
    memset(output, UNTOUCHED, sizeof output);
    slice = lent(set ? output : NULL, length);
    answer = flowgoal_join(maker_bytes, maker.length, board_bytes, board.length, slice, length);
    expect("the policies after a join",
           memcmp(maker_bytes, maker.bytes, maker.length) == 0 && memcmp(board_bytes, board.bytes, board.length) == 0, 1);
    memcpy(output, slice, length);
    free(maker_bytes);
    free(board_bytes);
    free(slice);
    return answer;
}

static int untouched_from(size_t byte)
{
    while (byte < sizeof output && output[byte] == UNTOUCHED)
        byte++;
    return byte == sizeof output;
}

static void expect_refused(const char *what, size_t length, unsigned number)
{
    expect_result(what, join(length, 1), 0, number, FLOWGOAL_REFUSED);
    expect("the output after a refusal", untouched_from(0), 1);
}

static void expect_written(const char *what, uint64_t result)
{
    expect_result(what, result, wanted.length, 0, FLOWGOAL_WRITTEN);
    expect("its length", FLOWGOAL_LENGTH(result), wanted.length);
    expect("its bytes", memcmp(output, wanted.bytes, wanted.length) == 0, 1);
}

/* The join is `wanted`, in an output of just its length, whatever that held, and in longer ones; a shorter one is refused. */
static void expect_joined(const char *what)
{
    static const size_t more[] = {0, 1, POLICY_RECORD, MORE};
    const size_t less[] = {1, 2, POLICY_RECORD, wanted.length - 1, wanted.length};
    for (size_t i = 0; i < sizeof more / sizeof *more; i++) {
        expect_written(what, join(wanted.length + more[i], 1));
        expect("the bytes after it", untouched_from(wanted.length), 1);
    }
    expect_written(what, join(wanted.length, 0));
    for (size_t i = 0; i < sizeof less / sizeof *less; i++)
        expect_refused(what, wanted.length - less[i], 16);
}

/* What the board adds in W5, as a policy that passes alone: the writer of the record may read raw stages. */
static void policy_w5_board(struct policy *policy)
{
    policy_start(policy, 4, 1, 1, 2);
    policy_add(policy, 1, 4, 0, 0, 0, 0);
    policy_add(policy, 2, 2, 0, 0, 0, 1);
    policy_add(policy, 4, 4, 1, 2, 0, 1);
}

/* The weir policy with those records, written out. */
static void policy_w5_joined(struct policy *policy)
{
    policy_start(policy, 4, 2, 1, 2);
    policy_add(policy, 1, 2, 0, 0, 0, 0);
    policy_add(policy, 1, 4, 0, 0, 0, 0);
    policy_add(policy, 1, 4, 0, 0, 0, 0);
    policy_add(policy, 2, 2, 0, 0, 0, 3);
    policy_add(policy, 2, 2, 0, 0, 0, 1);
    policy_add(policy, 3, 2, 2, 0, 0, 1);
    policy_add(policy, 3, 2, 1, 0, 0, 2);
    policy_add(policy, 4, 2, 1, 2, 0, 1);
    policy_add(policy, 4, 2, 3, 2, 0, 2);
    policy_add(policy, 4, 4, 3, 2, 0, 1);
    policy_add(policy, 4, 4, 1, 2, 0, 1);
    policy_add(policy, 5, 2, 2, 0, 0, 0);
    policy_add(policy, 5, 2, 4, 0, 0, 0);
    policy_add(policy, 6, 1, 2, 0, 0, 0);
}

static void expect_image(const char *what, const char *folder, const char *name, const struct policy *policy)
{
    size_t length = read_image(folder, name, output, sizeof output);
    expect(what, length == policy->length && memcmp(output, policy->bytes, length) == 0, 1);
}

/* G holds of the maker's policy, and the joined one breaks it as W5 does. */
static void weir_and_board(const char *examples)
{
    static uint32_t work1[32], work2[32], path[3];
    static struct goal g;
    char folder[400];
    policy_weir(&maker);
    policy_w5_board(&board);
    policy_w5_joined(&wanted);
    expect_joined("the weir policy and W5's");
    for (size_t length = 0; length < wanted.length; length++)
        expect_refused("no room for the joined policy", length, 16);
    snprintf(folder, sizeof folder, "%s/joined-weir", examples);
    expect_image("the example's maker.img", folder, "maker.img", &maker);
    expect_image("the example's board.img", folder, "board.img", &board);
    expect_image("the example's policy.img", folder, "policy.img", &wanted);
    goal_g(&g);
    expect_result("G of the maker's policy",
                  flowgoal_check(maker.bytes, maker.length, g.bytes, g.length, work1, 32, work2, 32, path, 3), 0, 0,
                  FLOWGOAL_HOLDS);
    join(wanted.length, 1);
    expect_result("G of the joined policy",
                  flowgoal_check(output, wanted.length, g.bytes, g.length, work1, 32, work2, 32, path, 3), 1, 0, FLOWGOAL_ORDER);
    expect("its path", path[0] == 0x111 && path[1] == 64 && path[2] == 0x421, 1);
}

/* A constraint of the board's takes away what the maker allows: no read by type 2. The maker has one of its own, so that the
 * nodes of both get other numbers. */
static void board_constrains(void)
{
    policy_weir(&maker);
    policy_add(&maker, 9, 6, 0, 0, 0, 0);
    policy_add(&maker, 8, 2, 0, 0, 12, 3);
    policy_start(&board, 4, 1, 1, 2);
    policy_add(&board, 9, 4, 0, 0, 0, 0);
    policy_add(&board, 9, 7, 2, 0, 0, 0);
    policy_add(&board, 9, 1, 0, 0, 0, 2);
    policy_add(&board, 8, 2, 0, 0, 5, 1);
    policy_add(&board, 9, 3, 0, 0, 0, 1 + 65536 * 3);
    policy_weir(&wanted);
    policy_add(&wanted, 8, 2, 0, 0, 14, 3);
    policy_add(&wanted, 8, 2, 0, 0, 18, 1);
    policy_add(&wanted, 9, 6, 0, 0, 0, 0);
    policy_add(&wanted, 9, 4, 0, 0, 0, 0);
    policy_add(&wanted, 9, 7, 2, 0, 0, 0);
    policy_add(&wanted, 9, 1, 0, 0, 0, 16);
    policy_add(&wanted, 9, 3, 0, 0, 0, 15 + 65536 * 17);
    expect_joined("a board that constrains");
    expect_result("2 reads 1, by the maker's policy",
                  flowgoal_authorized(maker.bytes, maker.length, 2, 2, 1, 1, 1, 1, 2, 0), 0, 0, FLOWGOAL_YES);
    join(wanted.length, 1);
    expect_result("and not by the joined one", flowgoal_authorized(output, wanted.length, 2, 2, 1, 1, 1, 1, 2, 0), 0, 0,
                  FLOWGOAL_NO);
    expect_result("where 4 still reads 3", flowgoal_authorized(output, wanted.length, 4, 2, 1, 3, 1, 1, 2, 0), 0, 0,
                  FLOWGOAL_YES);
}

static const uint8_t *record_of(const struct policy *policy, unsigned k)
{
    return policy->bytes + POLICY_HEADER + POLICY_RECORD * (k - 1);
}

/* `wanted` from `maker` and `board`, which are at most as many records together as there may be: numbered kind by kind, the
 * maker's first, and then added with their nodes' new numbers, where 0, no node, stays 0. */
static void join_plainly(void)
{
    static unsigned number[2][POLICY_MOST + 1];
    static const uint8_t *order[POLICY_MOST];
    const struct policy *both[] = {&maker, &board};
    unsigned counts[4], records = 0, first_of_board[10];
    for (unsigned i = 0; i < 4; i++)
        counts[i] = maker.bytes[i] > board.bytes[i] ? maker.bytes[i] : board.bytes[i];
    for (unsigned i = 0; i < 9 * 2; i++) {
        unsigned kind = i / 2 + 1, who = i % 2;
        if (who == 1)
            first_of_board[kind] = records;
        for (unsigned k = 1; k <= both[who]->records; k++) {
            if (record_of(both[who], k)[2] == kind) {
                order[records] = record_of(both[who], k);
                number[who][k] = ++records;
            }
        }
    }
    policy_start(&wanted, counts[0], counts[1], counts[2], counts[3]);
    for (unsigned i = 0; i < records; i++) {
        const uint8_t *r = order[i];
        const unsigned *new = number[i >= first_of_board[r[2]]];
        unsigned root = r[2] == 8 ? new[get16(r + 6)] : 0, low = get16(r + 8), high = get16(r + 10);
        if (r[2] == 9)
            low = new[low], high = new[high];
        policy_add(&wanted, r[2], r[3], r[4], r[5], root, low + 65536u * high);
    }
}

/* Policies without records have the larger counts, and a policy with itself, as one image, has each record twice. */
static void empty_and_itself(void)
{
    uint64_t result;
    policy_start(&maker, 1, 15, 2, 31);
    policy_start(&board, 255, 1, 15, 30);
    policy_start(&wanted, 255, 15, 15, 31);
    expect_joined("two policies without records");
    policy_weir(&board);
    join_plainly();
    expect("the header and 11 records", wanted.length, 24 + 12 * 11);
    expect_joined("a policy without records and the weir policy");
    policy_weir(&maker);
    policy_start(&board, 1, 1, 1, 1);
    policy_weir(&wanted);
    expect_joined("the weir policy and one without records");
    policy_weir(&board);
    join_plainly();
    expect_joined("the weir policy and itself");
    memset(output, UNTOUCHED, sizeof output);
    result = flowgoal_join(maker.bytes, maker.length, maker.bytes, maker.length, output, sizeof output);
    expect_written("the weir policy and itself, as one image", result);
    expect("the bytes after it", untouched_from(wanted.length), 1);
}

/* The refusals of a policy in their order. */
static const unsigned refusals[] = {1, 2, 3, 4, 5, 6, 14};
enum { REFUSALS = sizeof refusals / sizeof *refusals };

/* So many records that each say that type 1 is a domain. */
static void policy_domains(struct policy *policy, unsigned records)
{
    policy_start(policy, 1, 1, 1, 1);
    while (policy->records < records)
        policy_add(policy, 1, 1, 0, 0, 0, 0);
}

/* The maker's questions come first, then the board's, 15 and 16, whatever the output is. */
static void order_of_refusals(void)
{
    static const size_t lengths[] = {0, 1, sizeof output};
    for (unsigned i = 0; i < REFUSALS * 3; i++) {
        unsigned number = refusals[i / 3];
        size_t length = lengths[i % 3];
        for (unsigned j = 0; j < REFUSALS; j++) {
            policy_refused(&maker, number);
            policy_refused(&board, refusals[j]);
            expect_refused("both refused", length, number);
        }
        policy_weir(&maker);
        policy_refused(&board, number);
        expect_refused("the board's refused", length, number);
        policy_domains(&maker, POLICY_MOST);
        expect_refused("the board's refused, and too many records", length, number);
        policy_refused(&maker, number);
        policy_weir(&board);
        expect_refused("the maker's refused", length, number);
        policy_domains(&board, POLICY_MOST);
        expect_refused("the maker's refused, and too many records", length, number);
        policy_weir(&maker);
        expect_refused("too many records", length, 15);
    }
}

/* A board repeats the domain records that it uses: those of the maker do not count. */
static void domain_not_repeated(void)
{
    policy_weir(&maker);
    policy_start(&board, 4, 1, 1, 2);
    policy_add(&board, 4, 4, 1, 2, 0, 1);
    expect_refused("an allow from a domain of the maker's alone", sizeof output, 14);
    policy_add(&board, 1, 4, 0, 0, 0, 0);
    join_plainly();
    expect_joined("with the domain repeated");
}

/* A null pointer with length 0 is an empty image or slice. */
static void null_pointers(void)
{
    policy_weir(&maker);
    policy_domains(&board, POLICY_MOST);
    expect_result("all null", flowgoal_join(NULL, 0, NULL, 0, NULL, 0), 0, 1, FLOWGOAL_REFUSED);
    expect_result("no maker", flowgoal_join(NULL, 0, maker.bytes, maker.length, NULL, 0), 0, 1, FLOWGOAL_REFUSED);
    expect_result("no board", flowgoal_join(maker.bytes, maker.length, NULL, 0, NULL, 0), 0, 1, FLOWGOAL_REFUSED);
    expect_result("no output", flowgoal_join(maker.bytes, maker.length, maker.bytes, maker.length, NULL, 0), 0, 16,
                  FLOWGOAL_REFUSED);
    expect_result("no output, and too many records",
                  flowgoal_join(maker.bytes, maker.length, board.bytes, board.length, NULL, 0), 0, 15, FLOWGOAL_REFUSED);
}

/* So many records, the kinds mixed: a leaf and the not of it, another leaf and the or of both, and a constraint on that, with
 * other records between them. */
static void policy_mixed(struct policy *policy, unsigned records)
{
    policy_start(policy, 7, 3, 2, 5);
    while (policy->records + 8 <= records) {
        unsigned k = policy->records, t = k % 7 + 1, c = k % 5 + 1;
        policy_add(policy, 9, 7, t, 0, 0, 0);
        policy_add(policy, 8, c, 0, 0, k + 5, k);
        policy_add(policy, 9, 1, 0, 0, 0, k + 1);
        policy_add(policy, 9, 4, 0, 0, 0, 0);
        policy_add(policy, 9, 3, 0, 0, 0, k + 3 + 65536 * (k + 4));
        policy_add(policy, 4, t, k % 8, c, 0, 1u << k % 32);
        policy_add(policy, 1, t, 0, 0, 0, 0);
        policy_add(policy, 2, c, 0, 0, 0, 0xFFFFFFFFu - k);
    }
    while (policy->records < records)
        policy_add(policy, 7, 3, policy->records % 3 + 1, 0, 0, 0);
}

static uint64_t large_result;

static void join_large(void)
{
    large_result = join(FLOWGOAL_LARGEST_POLICY, 0);
}

/* A maker's policy of so many records and a board's of as many as there may be besides: they are written, on a stack of the size
 * that the header names, and one record more is refused. */
static void largest(unsigned of_maker)
{
    size_t used;
    policy_mixed(&maker, of_maker);
    policy_mixed(&board, POLICY_MOST - of_maker);
    join_plainly();
    expect("the largest policy", wanted.length, FLOWGOAL_LARGEST_POLICY);
    expect_joined("the largest policy");
    used = stack_of(join_large);
    printf("a join of %u and %u records took %zu bytes of stack; the header says %d at the most\n", maker.records, board.records,
           used, FLOWGOAL_STACK);
    expect_written("the largest policy, in a thread", large_result);
    expect("its stack", used <= FLOWGOAL_STACK, 1);
    policy_mixed(&maker, of_maker + 1);
    expect_refused("a record too many", 0, 15);
    expect_refused("a record too many", sizeof output, 15);
}

int main(int count, char **arguments)
{
    if (count != 2) {
        printf("usage: join EXAMPLES\n");
        return 2;
    }
    weir_and_board(arguments[1]);
    board_constrains();
    empty_and_itself();
    order_of_refusals();
    domain_not_repeated();
    null_pointers();
    largest(0);
    largest(1);
    largest(2047);
    largest(POLICY_MOST - 1);
    return results();
}
