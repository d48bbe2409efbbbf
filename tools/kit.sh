# shellcheck shell=sh disable=SC2154
# For scripts to source, with `root` set to the repository's folder: the Rattle kit, proving, and a stop in one line.

# The archives. Of CRATE:PART libtoggleashPART.a is made from the crate, with bindings/c/toggleashPART.h and tools/facePART.c.
# shellcheck disable=SC2034 # for the scripts
archives='toggleash_c: resolver_c:_resolve packing_c:_packed shortener_c:_shortest damper_c:_damp'

# Ends the script with one line on standard error.
stop() {
    echo "$(basename "$0"): $*" >&2
    exit 1
}

# Says where the kit at hand is another one than the project is pinned to, and goes on.
tell_kit() {
    found=$(rt version) || stop "the Rattle kit is not whole"
    pinned=$(cat "$root/kit-version")
    [ "$found" = "$pinned" ] && return
    echo "$(basename "$0"): the Rattle kit here is another one than the project is pinned to:"
    echo "$(basename "$0"):   pinned: $pinned"
    echo "$(basename "$0"):   here:   $found"
}

# Sets `processor`, `kit`, the folder of the Rattle kit, and `toolchain`, the part of it that compiles. The kit runs on x86-64.
find_kit() {
    processor=$(uname -m)
    command -v rt > /dev/null || stop "no Rattle kit: rt is not on the PATH"
    kit=$(rt doc) || stop "the Rattle kit is not whole"
    kit=$(dirname "$kit")
    toolchain=$kit/toolchain
    "$toolchain/bin/clang" --version > /dev/null 2>&1 || stop "the Rattle kit in $kit has no compiler for this processor, $processor"
}

# Prints a sum of what is proved and built: the kit, crates.txt and the text of all crates.
sum_texts() {
    (
        cd "$root" || exit
        rt version
        find crates.txt crates -name out -prune -o -type f \( -name '*.rt' -o -name '*.antt' -o -name crates.txt \) -print |
            LC_ALL=C sort | xargs sha256sum
    ) | sha256sum
}

# Tells whether rt ci has proved the crates as they stand here, which ./test notes in target/proved, and whether the libraries and
# programs that it left in their folders are there still: a later check by hand replaces them, with a stamp.
stands_proved() { # CRATE
    for stamp in "$root"/crates/*/out/rlib/stamp; do
        [ ! -e "$stamp" ] || return 1
    done
    [ -d "$root/crates/$1/out" ] && sum_texts | cmp -s - "$root/target/proved"
}

# Proves a crate and what it stands on, and says so where that takes longer than a moment. What rt says goes to a file. With the
# command `run` a program is also linked, to crates/CRATE/out/CRATE, and run on nothing.
prove() { # CRATE FILE [COMMAND]
    ! stands_proved "$1" || return 0
    (
        sleep 10 > /dev/null 2>&1
        ! kill -0 $$ 2> /dev/null || echo "$(basename "$0"): proving the crates that $1 stands on; the first time this takes minutes" >&2
    ) &
    timer=$!
    proved=yes
    (cd "$root/crates/$1" && rt "${3:-check}") > "$2" 2>&1 < /dev/null || proved=no
    kill "$timer" 2> /dev/null || true
    wait "$timer" 2> /dev/null || true
    [ "$proved" = yes ] && return
    cat "$2" >&2
    stop "$1 is not proved"
}
