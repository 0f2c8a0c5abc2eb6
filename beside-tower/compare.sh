#!/bin/sh
# Compares tower with this repository's balancer over made-up runs: every answer, and both lists after every pick.
#   beside-tower/compare.sh SRC [RUNS [SEED]]
# SRC is the folder src/ of tower 0.5.3's sources. The last line is 'same' or 'DIFFERENT', with the first line that differs.
set -eu
here=$(cd "$(dirname "$0")" && pwd)
root=$(cd "$here/.." && pwd)
src=${1:?the path of the folder src/ of the sources of tower 0.5.3}
runs=${2:-100000}
seed=${3:-1}
build=$root/target/beside-tower

"$here/build.sh" "$src" "$build"
(cd "$root/crates/replay" && rt run < /dev/null > /dev/null)
"$build/out/release/generate" "$seed" "$runs" > "$build/runs"
"$build/out/release/reference" "$build/runs" "$build/compared" "$build/expected"
"$root/crates/replay/out/replay" < "$build/compared" > "$build/answered"
if cmp "$build/expected" "$build/answered"; then
    echo same
else
    diff "$build/expected" "$build/answered" | head -4
    echo DIFFERENT
    exit 1
fi
