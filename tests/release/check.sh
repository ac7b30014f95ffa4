#!/bin/sh
# check.sh: tests the library, in both forms, and the program; `make check` calls it. Passes one message through each, runs the
# C test on its messages and, if python3 is there, runs all vectors through the library.
set -eu
build=${BUILD:-build}
python=${PYTHON:-python3}
# a struct of three words that ends in a zero word, and its canonical words
frame='\0\0\0\0\4\0\0\0\0\0\0\0\3\0\0\0\21\21\21\21\21\21\21\21\0\0\0\0\0\0\0\200\0\0\0\0\0\0\0\0'
words='\0\0\0\0\2\0\0\0\21\21\21\21\21\21\21\21\0\0\0\0\0\0\0\200'
# shellcheck disable=SC2059
printf "$frame" >"$build/frame" && printf "$words" >"$build/words"

compile() {
    output=$1 source=$2
    shift 2
    # shellcheck disable=SC2086
    ${CC:-cc} -std=c11 -Ibindings/c ${FLAGS-} -o "$build/$output" "$source" "$@"
}

# Runs a command that finds the shared library.
run() {
    # shellcheck disable=SC2086
    LD_LIBRARY_PATH="$build${LD_LIBRARY_PATH:+:$LD_LIBRARY_PATH}" DYLD_LIBRARY_PATH="$build" ${RUNNER-} "$@"
}

compile example_static bindings/c/example.c "$build/libcapnp_canonical.a"
compile example_shared bindings/c/example.c -L"$build" -lcapnp_canonical
for program in example_static example_shared; do
    run "$build/$program" <"$build/frame" | cmp - "$build/words"
done
run "$build/capnp_canon" canon --flat <"$build/frame" | cmp - "$build/words"
said=$(run "$build/capnp_canon" check <"$build/frame" || true)
[ "$said" = 'not canonical: a data section whose last word is zero at segment 0, word 3' ]
echo 'one message: passed'

compile test_shared tests/library/c/test.c -L"$build" -lcapnp_canonical
run "$build/test_shared" tests/library/rows/messages.txt
if command -v "$python" >/dev/null; then
    # messages have up to 3,000 levels, which need more than the usual stack if the compiler doesn't optimise
    ulimit -s 131072 2>/dev/null || true
    compile vectors tests/release/vectors.c "$build/libcapnp_canonical.a"
    "$python" -B tests/release/lines.py >"$build/vectors.txt"
    run "$build/vectors" <"$build/vectors.txt"
else
    echo 'vectors: skipped, no python3'
fi
