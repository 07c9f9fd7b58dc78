/* A library that lies about the weir policy, for tests/command/run: LIE says about what. What it is not told to lie about it answers as the
 * test needs it, and no other policy is asked about. */
#include <stddef.h>
#include <stdint.h>
#include <stdlib.h>
#include <string.h>

enum { YES = 1, ORDER = 1, REFUSED = 3 };

static int lie(const char *about)
{
    const char *told = getenv("LIE");
    return told != NULL && strcmp(told, about) == 0;
}

static uint64_t refused(unsigned number)
{
    return 4 * number + REFUSED;
}

/* The path of W2, of 3 steps, or that of W5, of 1. */
static uint64_t show(uint32_t *path, int steps)
{
    static const uint32_t three[] = {0x111, 64, 0x221, 65, 0x311, 64, 0x421};
    static const uint32_t one[] = {0x111, 64, 0x421};
    memcpy(path, steps == 3 ? three : one, (2 * (size_t)steps + 1) * sizeof *path);
    return 256 * (uint64_t)steps;
}

uint64_t flowgoal_authorized(const uint8_t *policy, size_t policy_length, uint32_t t1, uint32_t r1, uint32_t u1, uint32_t t2,
                             uint32_t r2, uint32_t u2, uint32_t class_number, uint32_t permission)
{
    (void)policy, (void)policy_length, (void)r1, (void)u1, (void)t2, (void)r2, (void)u2, (void)class_number, (void)permission;
    return t1 == 0 ? refused(13) : YES;
}

uint64_t flowgoal_flows(const uint8_t *policy, size_t policy_length, uint32_t t1, uint32_t r1, uint32_t u1, uint32_t t2,
                        uint32_t r2, uint32_t u2, uint32_t class_number, uint32_t permission)
{
    (void)policy, (void)policy_length, (void)t1, (void)r1, (void)u1, (void)t2, (void)r2, (void)u2, (void)class_number;
    (void)permission;
    return lie("flow") ? 0 : YES;
}

uint64_t flowgoal_check(const uint8_t *policy, size_t policy_length, const uint8_t *goal, size_t goal_length, uint32_t *work1,
                        size_t work1_length, uint32_t *work2, size_t work2_length, uint32_t *path, size_t path_length)
{
    (void)policy, (void)policy_length, (void)goal, (void)goal_length, (void)work1, (void)work2, (void)work2_length;
    (void)path_length;
    if (work1_length == 0)
        return refused(11);
    if (lie("number"))
        return 65535;
    if (lie("holds"))
        return 0;
    if (lie("path")) {
        path[0] = 0x111;
        return ORDER;
    }
    return show(path, lie("order") ? 3 : 1) + ORDER;
}

uint64_t flowgoal_least_steps(const uint8_t *policy, size_t policy_length, uint32_t t1, uint32_t r1, uint32_t u1, uint32_t t2,
                              uint32_t r2, uint32_t u2, uint32_t *work1, size_t work1_length, uint32_t *work2,
                              size_t work2_length, uint32_t *path, size_t path_length)
{
    (void)policy, (void)policy_length, (void)t1, (void)r1, (void)u1, (void)t2, (void)r2, (void)u2, (void)work1;
    (void)work1_length, (void)work2, (void)work2_length, (void)path_length;
    if (lie("none"))
        return 0;
    path[0] = 0x111;
    return YES;
}

uint64_t flowgoal_join(const uint8_t *maker, size_t maker_length, const uint8_t *board, size_t board_length, uint8_t *output,
                       size_t output_length)
{
    (void)maker, (void)maker_length, (void)board, (void)board_length, (void)output, (void)output_length;
    return refused(16);
}

uint64_t flowgoal_canonical(const uint8_t *policy, size_t policy_length, uint8_t *output, size_t output_length)
{
    (void)policy_length, (void)output_length;
    memcpy(output, policy, 4);
    return 256 * 24;
}
