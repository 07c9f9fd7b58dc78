# A river of stations: programs at odd types, files at even ones. Program t writes file t + 1, program t + 2 reads it, and so on
# to type 121: the only way down is by 120 steps, through the six programs that the goal names. Prints a policy (-v what=policy)
# or a goal (-v what=goal). Variants (-v variant=..):
#   follows      as it is
#   bypass       program 79 writes a file that program 83 reads, past program 81
#   append       program 91 appends to its file, which leg 4 does not allow
#   excepted     the bypass leads through a file that is an exception, and another through an event that is one
#   not-excepted the same, with an exception that names the file with a role that it never has
#   users        two users; what one user's program does to the other's file is constrained, but for program 61
#   leak         the same, but for program 11 too
#   wide, wide-bypass  as follows and bypass, with 255 types, four roles and four users: more nodes than the program has room for
function users() { return variant == "users" || variant == "leak" }
function wide() { return variant == "wide" || variant == "wide-bypass" }
function bypassed() { return variant == "bypass" || variant == "wide-bypass" || variant == "excepted" || variant == "not-excepted" }
function policy(t, u) {
    # class 2: 0 read, 1 write, 2 append; class 3: 0 send
    print "policy " (wide() ? "255 4 4 3" : users() ? "128 2 2 3" : "128 2 1 3")
    print "class 2 mask 7\nclass 3 mask 1\nflow 2 read 1\nflow 2 write 6\nflow 3 write 1"
    for (t = 1; t <= 127; t += 2) print "domain " t "\nrole 2 type " t
    for (u = 1; u <= (users() ? 2 : 1); u++) print "user " u " role 2"
    for (t = 1; t <= 119; t += 2) {
        print "allow " t " " (t + 1) " 2 " (variant == "append" && t == 91 ? 4 : 2)
        print "allow " (t + 2) " " (t + 1) " 2 1"
    }
    # what leads back up the river: every reader writes the file that it reads
    for (t = 3; t <= 119; t += 4) print "allow " t " " (t - 1) " 2 2"
    if (bypassed()) print "allow 79 126 2 2\nallow 83 126 2 1"
    if (variant == "excepted" || variant == "not-excepted") print "allow 59 63 3 1"
    if (users()) constraints()
}
# the same user, or the named program, under a role that is not the objects'
function constraints() {
    print "same: node sameuser\nsixty-one: node t1 61\nobject: node r1 1\nlive: node not object"
    print "trusted: node and sixty-one live\nmay: node or same trusted"
    if (variant == "users") print "constrain 2 0xffffffff may"
    else print "eleven: node t1 11\nleaks: node or may eleven\nconstrain 2 0xffffffff leaks"
}
function goal(i, legs) {
    legs = users() ? 5 : 6
    print "goal " legs "\nrepeat " (legs == 6 ? "0 1 2 3 4 5" : "0 1 2 3 4")
    for (i = 0; i <= legs; i++) {
        if (users()) print "sigma " i " " substr("  1 21 61 81101121", 3 * i + 1, 3) " * " (i == 2 ? "*" : i < 2 ? 1 : 2)
        else print "sigma " i " " (20 * i + 1) " * *"
        if (i < legs) print "gamma " i " 2 3"
    }
    if (variant == "excepted") print "sigma e 126 * *\ngamma e 3 1"
    if (variant == "not-excepted") print "sigma e 126 2 *\ngamma e 3 1"
}
BEGIN { if (what == "policy") policy(); else goal() }
