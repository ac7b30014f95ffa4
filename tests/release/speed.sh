#!/bin/sh
# speed.sh RELEASE PREFIX [CC..]: compares the speed of the release's library, built by each compiler at -O2, with that of the
# library that ./install put below PREFIX, in one process: messages of about 210 bytes, and nested ones. Needs `capnp` and an
# idle processor.
set -eu
here=$(cd "$(dirname "$0")" && pwd)
release=$(cd "$1" && pwd)
prefix=$(cd "$2" && pwd)
shift 2
folder=$(mktemp -d)
trap 'rm -rf "$folder"' EXIT
cd "$folder"
cp "$release/tests/peer/people.capnp" .
python3 "$release/tests/peer/people.py" 9 20000 0 | capnp encode people.capnp Person >flat
python3 "$release/tests/peer/people.py" 1 2000 2 | capnp encode people.capnp Person >nested
cc -std=gnu11 -O2 -I"$release/bindings/c" -o speed "$here/speed.c" -ldl
for compiler in "${@:-gcc}"; do
    "$compiler" -std=c11 -O2 -fPIC -shared -I"$release/bindings/c" -o "$compiler.so" "$release/generated/capnp_canonical.c"
    for stream in flat nested; do
        ./speed "$prefix/lib/libcapnp_canonical.so" "./$compiler.so" "$stream" | sed "s/^/$compiler, $stream, /"
    done
done
