#!/bin/sh
# Times cycles of poll, call and completion: ours, tower as published, and the reference, in one process.
#   beside-tower/bench.sh SRC
set -eu
here=$(cd "$(dirname "$0")" && pwd)
root=$(cd "$here/.." && pwd)
src=${1:?the path of the folder src/ of the sources of tower 0.5.3}
build=$root/target/beside-tower

"$here/build.sh" "$src" "$build"
(cd "$root/crates/cycles" && rt lib)
kit=$(dirname "$(rt doc)")
cd "$build/cargo"
STATICLIB=$root/crates/cycles/out C_CODE=$kit/c CARGO_TARGET_DIR=$build/out cargo build --release --offline --quiet -p bench
"$build/out/release/bench"
