# What the tests and the tools beside the crates share; to be sourced, with `root` set to the repository.
# under another locale rt's own lines can be lost
LC_ALL=C
export LC_ALL
# all that cargo writes goes here, and it asks no network
CARGO_TARGET_DIR=$root/target/cargo
CARGO_NET_OFFLINE=true
export CARGO_TARGET_DIR CARGO_NET_OFFLINE
# where what rt has proved is kept: the static library, and the goal program. rt makes them in the out/ of their crates, which it empties.
PROVED_LIBRARY=$root/target/staticlib
PROVED_PROGRAM=$root/target/bin/goal_program
# the requests that have landed, by their letters: the second search answers them where it is told to
LANDED=$(cat "$root/tests/landed.txt")

# The Debian package that has a tool. Debian 12's `cargo` is too old for us; `cargo-web` is its newer one.
package_of() {
    case $1 in
    cargo) if apt-cache show cargo-web >/dev/null 2>&1; then echo cargo-web; else echo cargo; fi ;;
    cc) echo gcc ;;
    dot) echo graphviz ;;
    nm) echo binutils ;;
    *) echo "$1" ;;
    esac
}

# seek TOOL: is it there? One that is missing is installed from Debian's packages where that can be done.
seek() {
    command -v "$1" >/dev/null && return
    if [ "$(id -u)" -eq 0 ] && command -v apt-get >/dev/null; then
        echo "installing $1 (Debian package $(package_of "$1")) .."
        apt-get install -y -q "$(package_of "$1")" >/dev/null 2>&1 ||
            { apt-get update -q >/dev/null 2>&1 && apt-get install -y -q "$(package_of "$1")" >/dev/null 2>&1; } || :
    fi
    command -v "$1" >/dev/null
}

# need TOOL..: sees that each tool is there, and else ends the run: no test is passed over for want of a tool.
need() {
    for tool; do
        seek "$tool" && continue
        echo "$0: there is no $tool on the PATH: install it first (Debian package $(package_of "$tool"))" >&2
        exit 1
    done
}

# rust PACKAGE-FOLDER: builds a Rust program beside the crates, optimised, to $CARGO_TARGET_DIR/release. A member of the workspace
# is built by the lock of the workspace, the second search by its own.
rust() {
    need cargo cc
    cargo build --quiet --release --locked --manifest-path "$root/$1/Cargo.toml" && return
    echo "$0: $1 could not be built (cargo says why above)" >&2
    exit 1
}

# contents FILE..: what files and folders hold, as one line; but for what rt keeps in the out/ of a crate
contents() { (cd "$root" && find "$@" -name out -prune -o -type f -exec cksum {} + | sort | cksum); }

# proved_of: what the static library and the goal program are made of
proved_of() { echo "$(rt version 2>/dev/null) $(contents crates crates.txt)"; }

# stamp FILE: the file that says of what it was last made, and what was made
stamp() { echo "$root/target/$(basename "$1").made"; }

# stands FILE SOURCES: is it what was last made, and made of just these sources?
stands() { [ -f "$1" ] && [ "$(cat "$(stamp "$1")" 2>/dev/null)" = "$2 $(cksum <"$1")" ]; }
made() { mkdir -p "$root/target" && echo "$2 $(cksum <"$1")" >"$(stamp "$1")"; }

# ensure FILE SOURCES COMMAND..: makes the file by the command, unless what was last made of just these sources stands there still. The
# sources are looked at before they are used: one that is changed meanwhile is used the next time.
ensure() {
    ensured=$1 sources=$2
    shift 2
    stands "$ensured" "$sources" && return
    "$@" && made "$ensured" "$sources"
}

# make_library: proves the crate flowgoal and what it stands on, as far as that has changed, and makes the static library
make_library() {
    (cd "$root/crates/flowgoal" && rt lib) && mkdir -p "$PROVED_LIBRARY" &&
        cp "$root/crates/flowgoal/out/libflowgoal.a" "$PROVED_LIBRARY"
}

# make_program: likewise the goal program. rt runs it, too, in the folder of its crate, where it finds no images.
make_program() {
    (cd "$root/crates/goal_program" && rt run </dev/null) && kept_program
}
kept_program() {
    mkdir -p "$(dirname "$PROVED_PROGRAM")" && cp "$root/crates/goal_program/out/goal_program" "$PROVED_PROGRAM"
}

# library: sees that FLOWGOAL_LIBRARY names the folder of a libflowgoal.a, whole from the root. Where it names none yet, the
# proved one is made and named.
library() {
    if [ -z "${FLOWGOAL_LIBRARY-}" ]; then
        ensure "$PROVED_LIBRARY/libflowgoal.a" "$(proved_of)" make_library || exit 1
        FLOWGOAL_LIBRARY=$PROVED_LIBRARY
    fi
    FLOWGOAL_LIBRARY=$(cd "$FLOWGOAL_LIBRARY" && pwd) || exit 1
    export FLOWGOAL_LIBRARY
}

# goal_program: sees that GOAL_PROGRAM names a goal program; the proved one where it names none yet, which is made then.
goal_program() {
    if [ -z "${GOAL_PROGRAM-}" ]; then
        ensure "$PROVED_PROGRAM" "$(proved_of)" make_program || exit 1
        GOAL_PROGRAM=$PROVED_PROGRAM
    fi
    export GOAL_PROGRAM
}

# The results of a test, which its last line says as 'N passed, M failed'.
passed=0
failed=0
pass() { passed=$((passed + 1)); }
fail() {
    failed=$((failed + 1))
    echo "$1"
}
results() {
    echo "$passed passed, $failed failed"
    [ "$failed" -eq 0 ]
}

# add_results LINE STATUS WHAT: adds the results of a test by its last line and its exit status. A last line that says no results
# is printed and is one failure, and so is a status that is not 0 where the line says that nothing failed.
add_results() {
    counts=$(printf '%s\n' "$1" | sed -n 's/^\([0-9][0-9]*\) passed, \([0-9][0-9]*\) failed$/\1 \2/p')
    if [ -z "$counts" ]; then
        fail "$1"
        return
    fi
    passed=$((passed + ${counts% *}))
    failed=$((failed + ${counts#* }))
    if [ "$2" -ne 0 ] && [ "${counts#* }" -eq 0 ]; then
        fail "$3 ended with status $2"
    fi
}

# counted LOG COMMAND..: runs a test, prints what it prints but for its last line, and adds its results.
counted() {
    log=$1
    shift
    status=0
    "$@" >"$log" 2>&1 || status=$?
    sed '$d' "$log"
    add_results "$(tail -n 1 "$log")" "$status" "$*"
}
