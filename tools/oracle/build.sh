#!/bin/sh
# Builds the driver over the unchanged Rust:
#
#   build.sh RUST-SOURCES OUT
#
# RUST-SOURCES holds board.rs, tile.rs, graph.rs, render.rs and cli/tiler.rs, or holds them in a
# folder src. OUT lies outside the repository. Everything is copied to OUT and built there, the
# executable is OUT/oracle. Other sources than those of SHA256SUMS are refused, unless the
# environment has ORACLE_ANY_SOURCES=1.
set -eu

# Where Debian's librust-*-dev packages unpack their crates. Nothing is fetched.
REGISTRY=${REGISTRY:-/usr/share/cargo/registry}

stop() {
    echo "build.sh: $*" >&2
    exit 1
}

[ $# -eq 2 ] || stop "usage: build.sh RUST-SOURCES OUT"
here=$(cd "$(dirname "$0")" && pwd -P)
root=$(cd "$here/../.." && pwd -P)

sources=$1
[ -f "$sources/src/board.rs" ] && sources=$sources/src
[ -f "$sources/board.rs" ] || stop "no board.rs in $1 or in $1/src"

out=$(realpath -m "$2")
case $out/ in
"$root"/*) stop "the output folder must lie outside the repository" ;;
esac

# The driver, and beside its src the Rust, each file compared with the one that was given.
mkdir -p "$out/driver/upstream/cli"
rm -f "$out/oracle"
cp -R "$here/Cargo.toml" "$here/src" "$here/stubs" "$out/driver/"
for file in board.rs tile.rs graph.rs render.rs cli/tiler.rs; do
    cp "$sources/$file" "$out/driver/upstream/$file"
    cmp "$sources/$file" "$out/driver/upstream/$file"
done

cd "$out/driver/upstream"
sha256sum board.rs tile.rs graph.rs render.rs cli/tiler.rs
if ! sha256sum --check --status "$here/SHA256SUMS"; then
    [ "${ORACLE_ANY_SOURCES:-}" = 1 ] || stop "the sources differ from SHA256SUMS"
    echo "build.sh: the sources differ from SHA256SUMS, built all the same" >&2
fi

# Cargo's own files stay in OUT too.
cd "$out/driver"
CARGO_HOME=$out/cargo-home cargo build --release --offline --quiet \
    --target-dir "$out/target" \
    --config 'source.crates-io.replace-with = "debian"' \
    --config "source.debian.directory = \"$REGISTRY\""
cp "$out/target/release/oracle" "$out/oracle"
