#!/bin/sh
# capnp_crate.sh [CRATES]: tests the crate capnp_canonical_capnp, which uses the crate `capnp`: with the `capnp` of the folder
# CRATES, by default the one where Debian's package librust-capnp-dev puts it, and with a stand-in for its newest version. It
# asks no registry. Prints cargo's lines, and for each build `ok: BUILD`. CARGO_TARGET_DIR names the folder for what is built; by
# default it is a temporary one.
set -u
top=$(cd "$(dirname "$0")/../../.." && pwd) || exit 2
crates=${1:-/usr/share/cargo/registry}
work=$(mktemp -d) || exit 2
trap 'rm -rf "$work"' EXIT
trap 'exit 1' INT TERM
: "${CARGO_TARGET_DIR:=$work/target}"
export CARGO_TARGET_DIR

# Copies the crate to a folder, in which cargo may write, and goes there.
#
#     copied FOLDER
copied() {
    mkdir -p "$1/bindings" "$1/generated/rust" "$1/tests/library/rows" && cp -R "$top/bindings/rust" "$1/bindings/rust" &&
        cp -R "$top/generated/rust/src" "$1/generated/rust" && cp "$top/tests/library/rows/messages.txt" "$1/tests/library/rows" &&
        cd "$1/bindings/rust/capnp"
}

# Runs cargo with the crates of a folder and no others.
#
#     cargo_with FOLDER WORD..
cargo_with() {
    folder=$1
    shift
    cargo "$@" --offline --config 'source.crates-io.replace-with="folder"' --config "source.folder.directory='$folder'"
}

# With the crate `capnp` that is there.
installed() {
    copied "$work/installed" && cargo_with "$crates" test && cargo_with "$crates" build --no-default-features &&
        echo "ok: no_std, with $1"
}

# With the stand-in for the newest version.
newest() {
    copied "$work/newest" && mkdir "$work/none" && cd tests/newest && cargo_with "$work/none" test &&
        cargo_with "$work/none" test --no-default-features
}

status=0
there=$(ls -d "$crates"/capnp-[0-9]* 2>/dev/null | head -n 1)
if [ "$there" ]; then (installed "$(basename "$there")") || status=1; else echo "skipped, since $crates has no capnp"; fi
(newest) || status=1
exit $status
