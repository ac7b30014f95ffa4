#!/bin/sh
# build.sh FOLDER [TO]: compiles FOLDER/capnp_canonical.c, the generated C of the library, to TO/capnp_canonical.wasm, and to
# TO/capnp_canonical_small.wasm, which has no digests; writes TO/module.js, which has the first of these as text, and TO/ORIGIN, which
# names what they were compiled from and by. TO is this folder if it is left out. Needs clang and wasm-ld.
#
# build.sh --module [TO]: writes only TO/module.js again, from TO/capnp_canonical.wasm.
set -eu
here=$(cd "$(dirname "$0")" && pwd)
# Writes module.js in a folder that has the module.
as_text() {
    printf '// The module of capnp_canonical.wasm, in base64. build.sh writes it.\nexport const module =\n  '"'%s';\n" "$(base64 <"$1/capnp_canonical.wasm" | tr -d '\n')" >"$1/module.js"
}
if [ "$1" = --module ]; then
    as_text "${2:-$here}"
    exit
fi
from=$(cd "$1" && pwd)
to=$(cd "${2:-$here}" && pwd)
header=$here/../c/capnp_canonical.h
work=$(mktemp -d)
trap 'rm -rf "$work"' EXIT
# a stack of 768 KB: MAX_NESTING levels of library.js take at most three fifths of it (tests/js/bench/stack.mjs). --stack-first puts
# it below everything else, so a call that takes more ends in a trap, and writes over nothing
clang --target=wasm32 -std=c11 -O2 -Wall -Wextra -Wno-unused-function -nostdlib -ffreestanding -fno-builtin-malloc -fvisibility=hidden \
    -mbulk-memory -msign-ext -mmutable-globals -I"$here/native/include" -I"$from" -I"$here/../c" -c -o "$work/wasm.o" "$here/native/wasm.c"
exports=$(sed -n 's/^[a-z].*[ *]\(capnp_canonical_[a-z_]*\)(.*);$/--export=\1/p' "$header" | sort -u)
link() {
    to_link=$1
    shift
    wasm-ld --no-entry --strip-all --stack-first -z stack-size=786432 --gc-sections "$@" -o "$work/$to_link" "$work/wasm.o"
}
# shellcheck disable=SC2086 # the exports are words
link capnp_canonical.wasm $exports
# shellcheck disable=SC2046 # so are these
link capnp_canonical_small.wasm $(printf '%s\n' "$exports" | grep -v digest)
as_text "$work"
sum() {
    sha256sum "$1" | cut -d ' ' -f 1
}
{
    printf 'sha256 of capnp_canonical.c: %s\n' "$(sum "$from/capnp_canonical.c")"
    printf 'sha256 of capnp_canonical.h: %s\n' "$(sum "$header")"
    printf 'compiler: %s\n' "$(clang --version | head -n 1)"
    printf 'linker: %s\n' "$(wasm-ld --version | head -n 1)"
    printf 'sha256 of capnp_canonical.wasm: %s\n' "$(sum "$work/capnp_canonical.wasm")"
    printf 'sha256 of capnp_canonical_small.wasm: %s\n' "$(sum "$work/capnp_canonical_small.wasm")"
} >"$work/ORIGIN"
cp "$work/capnp_canonical.wasm" "$work/capnp_canonical_small.wasm" "$work/module.js" "$work/ORIGIN" "$to"
wc -c "$to/capnp_canonical.wasm"
