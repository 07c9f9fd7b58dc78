# A station of 255 types, 4 roles and 4 users, as text: files and programs by turns along a river, each program reading the file before it and
# writing the one behind it, and every third starting the next but two. Its goal has three legs, by way of types 86 and 170 to 254.
# Prints a policy (-v what=policy) or a goal (-v what=goal). Variants (-v variant=..):
#   follows  as it is: the goal holds
#   starts   no leg lets a program start another: breaks events
#   bypass   the program of type 254 may read file 99 as well, past type 170: breaks order
BEGIN {
    if (what == "goal") goal()
    else policy()
}

function goal() {
    print "goal 3"
    print "repeat 0 1 2"
    print "sigma 0 1 * *"
    print "sigma 1 86 * *"
    print "sigma 2 170 * *"
    print "sigma 3 254 * *"
    for (leg = 0; leg < 3; leg++) {
        print "gamma", leg, "2 3"
        print "gamma", leg, "3 3"
        if (variant != "starts") print "gamma", leg, "1 1"
    }
    print "sigma e * * 4"
}

function policy(    t, r, u) {
    print "policy 255 4 4 3"
    for (t = 2; t <= 254; t += 2) print "domain", t
    print "class 1 mask 1"
    print "class 2 mask 7"
    print "class 3 mask 3"
    print "flow 1 write 1"
    print "flow 2 read 1"
    print "flow 2 write 2"
    print "flow 2 both 4"
    print "flow 3 both 2"
    for (t = 2; t <= 254; t += 2) {
        print "allow", t, t - 1, "2 1"
        print "allow", t, t + 1, "2 2"
        print "role", 2 + t / 2 % 3, "type", t
    }
    if (variant == "bypass") print "allow 254 99 2 1"
    for (t = 2; t <= 248; t += 6) print "allow", t, t + 6, "1 1"
    for (t = 2; t <= 254; t += 2) print "allow", t, "self 3 3"
    for (u = 1; u <= 4; u++) for (r = 2; r <= 4; r++) if (u == 1 || (u + r) % 2) print "user", u, "role", r
    # files are read and written by those of the same user alone, or by the first
    print "constrain 2 3 either"
    print "same: node sameuser"
    print "first: node u1 1"
    print "either: node or same first"
}
