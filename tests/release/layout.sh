#!/bin/sh
# layout.sh: tests the library capnp_layout, in both forms; `make check-layout` calls it. Passes one message through the example,
# and runs the tests of the header's functions and the random calls. Needs a C compiler and nothing else.
set -eu
build=${BUILD:-build}
compile() {
    output=$1 source=$2
    shift 2
    # shellcheck disable=SC2086
    ${CC:-cc} -std=c11 -Ibindings/c -Itests/layout_c ${FLAGS-} -o "$build/$output" "$source" "$@"
}

# Runs a command that finds the shared library.
run() {
    # shellcheck disable=SC2086
    LD_LIBRARY_PATH="$build${LD_LIBRARY_PATH:+:$LD_LIBRARY_PATH}" DYLD_LIBRARY_PATH="$build" ${RUNNER-} "$@"
}

compile reading_static bindings/c/reading.c "$build/libcapnp_layout.a"
compile reading_shared bindings/c/reading.c -L"$build" -lcapnp_layout
for program in reading_static reading_shared; do
    run "$build/$program" <tests/layout_c/book.bin | cmp - tests/layout_c/people.txt
done
if [ -f bindings/c/building.c ]; then
    compile building bindings/c/building.c "$build/libcapnp_layout.a"
    run "$build/building" | run "$build/reading_static" | cmp - tests/layout_c/people.txt
fi
echo 'capnp_layout, one message: passed'
compile edges tests/layout_c/edges.c "$build/libcapnp_layout.a"
compile calls tests/layout_c/calls.c -L"$build" -lcapnp_layout
run "$build/edges"
run "$build/calls" 1000
