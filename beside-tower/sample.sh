#!/bin/sh
# Writes the sample that the gate replays: crates/replay/stdin (the runs) and crates/replay/stdout (tower's answers).
#   beside-tower/sample.sh SRC
# beside-tower/picked holds a few runs written by hand, which come first; the others are made by the generator from a fixed start.
set -eu
here=$(cd "$(dirname "$0")" && pwd)
root=$(cd "$here/.." && pwd)
src=${1:?the path of the folder src/ of the sources of tower 0.5.3}
build=$root/target/beside-tower

"$here/build.sh" "$src" "$build"
cat "$here/picked" > "$build/sample"
"$build/out/release/generate" 2026 400 >> "$build/sample"
"$build/out/release/reference" "$build/sample" "$root/crates/replay/stdin" "$root/crates/replay/stdout"
