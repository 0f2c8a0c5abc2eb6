#!/bin/sh
# Builds tower's code as a reference, beside which runs are compared, and the programs that drive it.
#   beside-tower/build.sh SRC [BUILD]
# SRC is the folder src/ of tower 0.5.3's sources; BUILD (target/beside-tower) is made anew and is never committed.
# README.md says what each substitution is for.
set -eu
here=$(cd "$(dirname "$0")" && pwd)
src=${1:?the path of the folder src/ of the sources of tower 0.5.3}
build=${2:-$here/../target/beside-tower}

packages="librust-futures-core-dev librust-futures-util-dev librust-indexmap-dev librust-pin-project-lite-dev
    librust-tower-service-dev librust-tracing-dev librust-tokio-dev"
missing=$(for p in $packages; do dpkg -s "$p" >/dev/null 2>&1 || echo "$p"; done)
if [ -n "$missing" ]; then
    apt-get update
    # shellcheck disable=SC2086
    apt-get install -y --no-install-recommends $missing
fi

mkdir -p "$build"
rm -rf "$build/cargo"
cp -r "$here/cargo" "$build/cargo"
mkdir -p "$build/cargo/.cargo"
cat > "$build/cargo/.cargo/config.toml" <<'END'
[source.crates-io]
replace-with = "debian"

[source.debian]
directory = "/usr/share/cargo/registry"

[net]
offline = true
END

# A copy of the sources that both builds start from.
copy() {
    to=$build/cargo/$1/src
    mkdir -p "$to/ready_cache" "$to/balance/p2c" "$to/load" "$to/util" "$to/discover"
    for f in ready_cache/cache.rs ready_cache/error.rs balance/p2c/service.rs util/rng.rs discover/mod.rs \
        load/mod.rs load/completion.rs load/peak_ewma.rs load/pending_requests.rs; do
        cp "$src/$f" "$to/$f"
    done
    chmod -R u+w "$to"
    cp "$here/cargo/lib.rs" "$to/lib.rs"
    # Debian's indexmap is 1.9, whose get_index_mut lends the key for writing too.
    edit "$to/ready_cache/cache.rs" 's/get_index_mut(idx)\.map(|(k, v)| (k, /get_index_mut(idx).map(|(k, v)| (\&*k, /'
    # Parts of tower that are not built here.
    edit "$to/discover/mod.rs" '/^mod list;$/d'
    edit "$to/discover/mod.rs" '/^pub use self::list::ServiceList;$/d'
    edit "$to/load/mod.rs" '/^mod constant;$/d'
    edit "$to/load/mod.rs" '/^    constant::Constant,$/d'
}

# Edits a file by a sed program, and fails where that changes nothing.
edit() {
    sed "$2" "$1" > "$1.new"
    if cmp -s "$1" "$1.new"; then
        echo "build.sh: $1 has no place for: $2" >&2
        exit 1
    fi
    mv "$1.new" "$1"
}

copy published
copy reference
to=$build/cargo/reference/src
echo 'pub mod handed;' >> "$to/lib.rs"
# Instants in place of the clock.
edit "$to/load/peak_ewma.rs" 's/^use tokio::time::Instant;$/use crate::handed::Instant;/'
# The decay in place of exp.
edit "$to/load/peak_ewma.rs" 's/(-elapsed \/ decay_ns)\.exp()/crate::handed::decay(-elapsed \/ decay_ns)/'
# The ordered pending list in place of FuturesUnordered.
edit "$to/ready_cache/cache.rs" 's/^use futures_util::{stream::FuturesUnordered, task::AtomicWaker};$/use crate::handed::Ordered as FuturesUnordered; use futures_util::task::AtomicWaker;/'
# What a comparison looks at.
cat "$build/cargo/reference/append/cache.rs" >> "$to/ready_cache/cache.rs"
cat "$build/cargo/reference/append/service.rs" >> "$to/balance/p2c/service.rs"
cat "$build/cargo/reference/append/peak_ewma.rs" >> "$to/load/peak_ewma.rs"
cat "$build/cargo/reference/append/pending_requests.rs" >> "$to/load/pending_requests.rs"

cd "$build/cargo"
CARGO_TARGET_DIR=$build/out cargo build --release --offline --quiet -p driver
