# What ./lapurendi and the tools share: finding the kit, proving and building a program where that is needed, and running it. To be read by
# a script that has set `root`, the root of the repository, and has a function `fail`, which says what is wrong and ends the script.
# shellcheck shell=sh disable=SC2154

# Prints the crate of the program that a person calls by this name. The kit has a library called check, and no crate may share its name.
crate_of() { # NAME
    case $1 in
    check) echo check_log ;;
    *) echo "$1" ;;
    esac
}

# Sees that there is a toolchain, and that its programs run here: they are for x86-64.
find_kit() {
    command -v rt >/dev/null || fail "the Rattle toolchain is missing: there is no command 'rt'"
    [ "$(uname -m)" = x86_64 ] || fail "the programs of the Rattle toolchain are for x86-64, and this machine is $(uname -m)"
    programs=$root/target/bin
    drop=''
}

# Proves and builds a program, unless nothing has changed since this was last done: neither the kit nor, by the time of the change that the
# system keeps itself, a file or folder below crates/, but for what rt keeps there in out/. `rt run` would find that out too, but two of it at
# a time wait for each other, and several programs may well run at once.
make_ready() { # CRATE
    built=$root/target/bin/$1 mark=$root/target/ready/$1
    if [ -x "$built" ] && [ -f "$mark" ] && [ "$(cat "$mark")" = "$(rt version)" ]; then
        changed=$(find "$root/crates" "$root/crates.txt" -name out -prune -o -cnewer "$mark" -print 2>/dev/null) || changed=unknown
        [ -n "$changed" ] || return 0
    fi
    printf 'lapurendi: proving and building %s (rt run in crates/%s); a first time takes some minutes\n' "$1" "$1" >&2
    mkdir -p "$root/target/ready" "$root/target/bin" || fail "nothing can be built in $root/target"
    # These folders are rt's. Made later, they would change the folders that they stand in.
    for crate_folder in "$root"/crates/*/; do mkdir -p "$crate_folder/out" || fail "nothing can be built in $crate_folder"; done
    # The mark is as old as the beginning, so that what is changed meanwhile is seen the next time.
    rt version >"$mark.$$" || fail "the Rattle toolchain can't say its version"
    # rt leaves the program in out/, only where it is proved, and then runs it once; it finds no files there, and what it says of none is of no use.
    # All of it is under one lock, so that no other takes the program away before it is copied.
    # shellcheck disable=SC2016
    set -- sh -c 'rm -f "$1" && cd "${1%/out/*}" && rt run >/dev/null; [ -x "$1" ] && cp "$1" "$2.$$" && mv "$2.$$" "$2"' \
        sh "$root/crates/$1/out/$1" "$built"
    if command -v flock >/dev/null; then set -- flock "$root/target/ready/lock" "$@"; fi
    # Of all that rt says, a line for each crate is shown while one waits.
    { "$@" && mv "$mark.$$" "$mark"; } </dev/null 2>&1 | tee "$mark.said" |
        while IFS= read -r line; do case $line in 'rt: '*) printf '%s\n' "$line" >&2 ;; esac; done
    if [ -e "$mark.$$" ]; then
        rm -f "$mark.$$"
        fail "${built##*/} is not proved, and so is not run; what rt said is in target/ready/${built##*/}.said"
    fi
}

# Runs a program in a folder. `drop` may hold words that take rights away, `programs` another folder with the programs.
run_program() ( # CRATE FOLDER
    cd -- "$2" || exit 2
    # shellcheck disable=SC2086
    exec $drop "$programs/$1" </dev/null
)
