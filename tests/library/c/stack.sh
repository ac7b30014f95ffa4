#!/bin/sh
# stack.sh PREFIX: measures the stack that the library installed at PREFIX takes, and compares what each page says of it. A line
# `ok: PAGE ..` or `FAILED: PAGE ..` for each figure; what was measured is on the lines before.
set -u
here=$(cd "$(dirname "$0")" && pwd) || exit 2
folder=$(mktemp -d) || exit 2
trap 'rm -rf "$folder"' EXIT
export PKG_CONFIG_PATH="$1/lib/pkgconfig"
build=release
[ -z "$(pkg-config --variable=cpu capnp_canonical)" ] || build=install
${CC:-cc} -std=gnu11 -O2 -I"$1/include" -o "$folder/stack" "$here/../../release/stack.c" "$1/lib/libcapnp_canonical.a" -lpthread &&
    "$folder/stack" >"$folder/lines" && cat "$folder/lines" && python3 -B "$here/stack.py" $build <"$folder/lines"
