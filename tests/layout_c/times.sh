#!/bin/sh
# times.sh [FOLDER]: how long reading, validating, checking and building take in C and in C++: FOLDER/capnp_layout.c, by default that of generated/,
# compiled by CC (gcc). With COUNT, prints the instructions of each part too, of COUNT runs by valgrind.
set -eu
here=$(cd "$(dirname "$0")" && pwd)
top=$(cd "$here/../.." && pwd)
folder=$(cd "${1:-$top/generated}" && pwd)
work=$(mktemp -d)
trap 'rm -rf "$work"' EXIT
cd "$work"
mkdir cpp
cp "$top/tests/typed/addressbook.capnp" .
capnp compile -oc++:cpp addressbook.capnp
"${CC:-gcc}" -std=gnu11 -O2 -DNDEBUG -I"$top/bindings/c" -I"$here" -c -o layout.o "$folder/capnp_layout.c"
"${CC:-gcc}" -std=gnu11 -O2 -DNDEBUG -I"$top/bindings/c" -I"$here" -c -o times_c.o "$here/times.c"
"${CC:-gcc}" -std=gnu11 -O2 -DNDEBUG -I"$top/bindings/c" -c -o times_check.o "$here/times_check.c"
g++ -std=c++17 -O2 -DNDEBUG -I. -I"$here" -o times "$here/times.cc" cpp/addressbook.capnp.c++ times_c.o times_check.o layout.o -Wl,-Bstatic -lcapnp -lkj -Wl,-Bdynamic -pthread
./times
if [ -n "${COUNT:-}" ]; then
    for part in read unlimited validate check build cpp_read cpp_walk cpp_build; do
        for count in 1 $((1 + COUNT)); do
            valgrind --tool=callgrind --callgrind-out-file=out.$count ./times $part $count >log 2>&1
            sed -n 's/^.*Collected : //p' log >of.$count
        done
        echo "$part: $((($(cat of.$((1 + COUNT))) - $(cat of.1)) / COUNT)) instructions"
    done
fi
