#!/bin/sh
# stack.sh RELEASE [CC]: measures how many bytes of stack each call of the library takes per level of nesting, for chains of
# structs, of lists of pointers and of lists of structs. The library is built by CC at -O2 and at -O0. Fails if a page says
# less than is measured.
set -eu
here=$(cd "$(dirname "$0")" && pwd)
release=$1
cc=${2:-cc}
folder=$(mktemp -d)
trap 'rm -rf "$folder"' EXIT
optimised=release
case $("$cc" --version) in *clang*) optimised=clang ;; *"Free Software Foundation"*) optimised=gcc ;; esac
status=0
for level in -O2 -O0; do
    # shellcheck disable=SC2086
    "$cc" -std=gnu11 $level -I"$release/bindings/c" -o "$folder/stack" "$here/stack.c" "$release/generated/capnp_canonical.c" -lpthread
    "$folder/stack" >"$folder/lines"
    sed "s/^/$cc $level, /" "$folder/lines"
    [ $level = -O2 ] && build=$optimised || build=unoptimised
    python3 -B "$here/../library/c/stack.py" $build <"$folder/lines" || status=1
done
exit $status
