# A policy in which flow leads from each context to the next one alone, in the order of their numbers: by permission 0 of class 2
# to the next user, by 1 to the first user of the next role, by 2 to the first context of the next type. So the only path from
# the first context to the one m places on has m steps. Set T, R and U, each at least 2.
function node(text) { print "node " text; return ++records }
function record(text) { print text; records++ }
# the node that is true where the field of the process is i and that of the resource i + 1, for some i below the count
function rising(field, count, i, left, right, both, any) {
    for (i = 1; i < count; i++) {
        left = node(field "1 " i)
        right = node(field "2 " (i + 1))
        both = node("and " left " " right)
        any = i == 1 ? both : node("or " any " " both)
    }
    return any
}
# the node that is true where the field of the process is the last and that of the resource the first
function wraps(field, count, left, right) {
    left = node(field "1 " count)
    right = node(field "2 1")
    return node("and " left " " right)
}
function all(left, right) { return node("and " left " " right) }
BEGIN {
    print "policy " T " " R " " U " 2"
    for (t = 1; t <= T; t++) {
        record("domain " t)
        record("allow " t " self 2 3")
        if (t < T) record("allow " t " " (t + 1) " 2 4")
        for (r = 1; r <= R; r++) record("role " r " type " t)
    }
    for (u = 1; u <= U; u++) for (r = 2; r <= R; r++) record("user " u " role " r)
    record("class 2 mask 7")
    record("flow 2 write 7")
    same = node("samerole")
    record("constrain 2 1 " all(same, rising("u", U)))
    record("constrain 2 2 " all(rising("r", R), wraps("u", U)))
    record("constrain 2 4 " all(wraps("r", R), wraps("u", U)))
}
