#!/usr/bin/env bash
# The benchmark with the engine of an earlier commit beside the present one, in one run: harness/earlier.sh COMMIT [--quick].
# Its C functions that judge must be declared as they are now; by built-in trees it may also judge without a ceiling, as its header shows.
# It is handed old files alone. A commit from before tools/build.py was there (docs/PORT.md) is of an older kit, and cannot be built with this one.
set -euo pipefail
if [ $# -lt 1 ]; then
    echo "usage: harness/earlier.sh COMMIT [--quick]" >&2
    exit 2
fi
cd "$(dirname "${BASH_SOURCE[0]}")/.."
commit=$1
shift
folder=$(mktemp -d)
trap 'rm -rf "$folder"' EXIT
git clone --quiet . "$folder/repository"
git -C "$folder/repository" checkout --quiet "$commit"
(cd "$folder/repository" && tools/build.py solver_c) >&2
tools/build.py solver_c >&2

# Every function that it exports gets another name, so that both libraries can be linked.
nm --defined-only --extern-only "$folder/repository/target/staticlib/libsolver_c.a" |
    awk '$2 == "T" { name = $3; sub(/^solver_/, "earlier_", name); print $3, name }' >"$folder/names"
objcopy --redefine-syms="$folder/names" "$folder/repository/target/staticlib/libsolver_c.a" "$folder/libearlier.a"
if tr '\n' ' ' <"$folder/repository/include/solver.h" | grep -q 'solver_built([^)]*ceiling'; then
    unset EARLIER_WITHOUT_CEILING
else
    export EARLIER_WITHOUT_CEILING=1
fi
cd harness
EARLIER_ENGINE=$folder cargo run --release --quiet -- "$@"
