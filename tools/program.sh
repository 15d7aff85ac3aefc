# shellcheck shell=bash
# What the scripts of the programs share. A script sets `name` to its program's and `usage` to its arguments, and reads this file.
# Every script ends with 0 where it gives what was asked for, 1 where that is refused, 2 on wrong usage or a file that cannot be read,
# 3 where the program could not be proved and built, or its output not written.
set -euo pipefail
# A pipe that is closed, or a file that is over its limit, is then an error of the write, and ends nothing by a signal.
trap '' PIPE XFSZ
root=$(cd "$(dirname "${BASH_SOURCE[0]}")/.." && pwd)
script=$name.sh
program=$root/target/bin/$name

# Says a line on standard error; where that fails there is nowhere left to say so.
say() {
    printf '%s\n' "$1" >&2 2>/dev/null || true
}

# Ends the script with a status, having said why.
fail() {
    say "$script: $2"
    exit "$1"
}

# Ends the script unless it has this many arguments.
expect_arguments() { # HOW-MANY ARGUMENT..
    if [ "${2-}" = --help ] && [ $# -eq 2 ]; then
        printf '%s\n' "usage: ./$script $usage" || exit 3
        exit 0
    fi
    if [ $(($# - 1)) -ne "$1" ]; then
        say "usage: ./$script $usage"
        exit 2
    fi
}

# Ends the script where something cannot be read as a file. A pipe or a device can.
expect_readable() { # FILE
    if [ -d "$1" ]; then
        fail 2 "$1: this is a folder; give a model's file"
    elif [ ! -e "$1" ]; then
        case $1 in
        /dev/stdin | /dev/fd/*) fail 2 "$1: it is closed" ;;
        *) fail 2 "$1: no such file" ;;
        esac
    elif [ ! -r "$1" ]; then
        fail 2 "$1: the file may not be read by you"
    fi
}

# Says in words why something is refused, with a detail where there is one, and what to do: by the operation's row of include/refusals.txt, or that of
# every operation on a file.
say_refusal() { # WHAT NUMBER OPERATION [DETAIL]
    local words
    words=$(awk -F'\t' -v number="$2" -v operation="$3" -v detail="${4:+ ($4)}" '
        $1 != number { next }
        index(", " $2 ",", ", " operation ",") { own = $3 detail "; " $4 }
        index($2, "whatever takes a file") { general = $3 detail "; " $4 }
        END { print own != "" ? own : general }' "$root/include/refusals.txt")
    say "$script: $1: $words"
}

# Why the program has to be built; nothing where it is newer than its sources. A folder is newer where a file in it has come or gone; edits that must
# fail are no sources, nor is what the prover keeps in out/, which makes a crate's own folder newer.
why_stale() {
    if [ ! -x "$program" ]; then
        echo "it is missing"
    else
        (cd "$root" && find crates.txt crates \( -name must-fail -o -name out \) -prune -o ! \( -path 'crates/*' ! -path 'crates/*/*' \) -newer "$program" -print -quit | sed 's/$/ is newer/')
    fi
}

# The number of crates that the program stands on, with itself.
count_crates() {
    awk -v wanted="$name" '
        function visit(crate,    below, i, n) {
            if (!(crate in stands_on) || crate in seen) return
            seen[crate] = 1
            count++
            n = split(stands_on[crate], below, " ")
            for (i = 1; i <= n; i++) visit(below[i])
        }
        { sub(/#.*/, "") }
        /:/ { crate = $1; sub(/:.*/, "", crate); sub(/^[^:]*:/, ""); stands_on[crate] = $0 }
        END { visit(wanted); print count + 0 }' "$root/crates.txt"
}

# Shows which crate was proved last, from what tools/build.py says: on a terminal in one line that is written anew, elsewhere in a line each.
show_progress() {
    local line of proved=0 crate shown=
    of=$(count_crates)
    while IFS= read -r line; do
        case $line in
        "rt: "*" proved ("*) ;;
        *) continue ;;
        esac
        crate=${line#rt: }
        proved=$((proved + 1))
        line="proving $proved of $of: ${crate%% *}"
        if [ -t 2 ]; then
            printf '\r\033[K%s' "$line" >&2 || true
            shown=yes
        else
            say "$line"
        fi
    done
    [ -z "$shown" ] || say ""
}

# Proves and builds the program where it is missing or older than its sources, or ends the script. One run at a time does so.
make_ready() {
    local why
    why=$(why_stale)
    [ -n "$why" ] || return 0
    if ! command -v rt >/dev/null; then
        fail 3 "the program is to be built, since $why, and rt is not on the PATH: install the Rattle kit (/opt/rattle)"
    fi
    if ! command -v python3 >/dev/null; then
        fail 3 "the program is to be built, since $why, and python3 is not on the PATH: install Python 3"
    fi
    if ! { mkdir -p "$root/target/log" && exec 9>"$root/target/proving"; } 2>/dev/null; then
        fail 3 "the program is to be built, since $why, and target/ cannot be written"
    fi
    if ! flock -n 9; then
        say "$script: waiting until another run has proved and built its program"
        flock 9
        why=$(why_stale)
    fi
    [ -z "$why" ] || prove_and_build "$why"
    exec 9>&-
}

# Proves and builds the program, or ends the script.
prove_and_build() { # WHY
    local log=target/log/$script
    say "$script: proving and building the program, since $1; from nothing this takes some minutes"
    # The program counts as old as this moment: what changes while it is built is newer.
    touch "$root/$log.began"
    if ! (cd "$root" && (trap - PIPE XFSZ && exec tools/build.py "$name") 2>&1 </dev/null 9>&- | tee "$log" | show_progress); then
        say "$script: $(grep '^rt: ' "$root/$log" | tail -n 1)"
        fail 3 "the program could not be proved and built, so it is not run: $log has what the prover said"
    fi
    [ -x "$program" ] || fail 3 "target/bin/$name is not there, though it is proved: remove target/ and call $script again"
    touch -r "$root/$log.began" "$program"
}
