# What ./check and ./flowgoal share: the toolchain at work, and how far it is. To be sourced, with `root` set to the repository and `me` to
# the name of the command.
# under another locale rt's own lines can be lost
LC_ALL=C
export LC_ALL
began=$(date +%s)

# A crate is told of when it has been under way for so many seconds, and again after so many more.
SOON=2
AGAIN=30

say() { echo "$me: $*" >&2; }

# crates_of CRATE: what it is proved over and itself, in the order in which rt proves them: each after those that it depends on, and else as
# the line of the crate in crates.txt lists them.
crates_of() {
    awk -v crate="$1" '
        function below(name,    i, n, of) {
            if (seen[name]++) return
            n = split(needs[name], of, " ")
            for (i = 1; i <= n; i++) if (of[i] in needs) below(of[i])
            print name
        }
        { sub(/#.*/, "") }
        /:/ {
            name = $1
            sub(/:$/, "", name)
            sub(/^[^:]*:/, "")
            needs[name] = $0
        }
        END { below(crate) }' "$root/crates.txt"
}

# time_so_far: since the command was called
time_so_far() {
    seconds=$(($(date +%s) - began))
    if [ "$seconds" -lt 60 ]; then echo "$seconds s"; else echo "$((seconds / 60)) min $((seconds % 60)) s"; fi
}

# watch LOG CRATES: says which crate is being proved, of how many, and how long it has taken so far, while the command is there. rt says of
# each crate when it begins with it; one that was proved before it passes over in no time, and says nothing.
watch() {
    last='' next=0
    while kill -0 $$ 2>/dev/null; do
        sleep 1
        crate=$(sed -n 's/^rt: chose --jobs [0-9]* for \([a-z_0-9]*\)$/\1/p' "$1" | tail -n 1)
        now=$(date +%s)
        if [ "$crate" != "$last" ]; then
            last=$crate next=$((now + SOON))
        elif [ -n "$crate" ] && [ "$now" -ge "$next" ]; then
            next=$((now + AGAIN))
            say "proving $crate, crate $(grep -nx "$crate" "$2" | cut -d: -f1) of $(grep -c . "$2"); $(time_so_far) so far"
        fi
    done
}

# prove CRATE COMMAND..: runs rt, which proves what has changed since it was last proved, and nothing else. What it says goes to
# target/NAME.log, for the command's name; where it fails, the last of it is shown.
prove() {
    crate=$1
    shift
    mkdir -p "$root/target" || return 1
    log=$root/target/${me#./}.log
    : >"$log" || return 1
    crates_of "$crate" >"$log.crates"
    watch "$log" "$log.crates" &
    watcher=$!
    status=0
    (cd "$root" && "$@") >"$log" 2>&1 || status=$?
    kill "$watcher" 2>/dev/null || :
    rm -f "$log.crates"
    [ "$status" -eq 0 ] || tail -n 5 "$log" >&2
    return "$status"
}
