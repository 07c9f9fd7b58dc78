/* The example in the header, as a loader would call it: of W1 to W8 in the folder of examples that it is given, and of an image
 * that is a byte short. What it prints is compared with what tests/c/run has. */
#include "images.h"

#include <stdio.h>

int may_be_loaded(const uint8_t *policy, size_t policy_length, const uint8_t *goal, size_t goal_length);

static struct policy policy;
static struct goal goal;

static void load(const char *name)
{
    printf("%s:\n", name);
    printf("%s\n", may_be_loaded(policy.bytes, policy.length, goal.bytes, goal.length) ? "loaded" : "not loaded");
}

int main(int count, char **arguments)
{
    if (count != 2) {
        printf("usage: example EXAMPLES\n");
        return 2;
    }
    for (unsigned w = 1; w <= 8; w++) {
        char folder[400], name[8];
        snprintf(name, sizeof name, "W%u", w);
        snprintf(folder, sizeof folder, "%s/weir-w%u", arguments[1], w);
        policy.length = read_image(folder, "policy.img", policy.bytes, sizeof policy.bytes);
        goal.length = read_image(folder, "goal.img", goal.bytes, sizeof goal.bytes);
        load(name);
    }
    goal.length--;
    load("a byte short");
    return 0;
}
