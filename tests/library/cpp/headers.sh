#!/bin/sh
# headers.sh PREFIX: tests the headers for C++ that are installed at PREFIX, by each compiler that is there: what they have for
# programs that are typed strictly or have no exceptions, that no compiler warns of them, which types are visible, and that
# they don't look for Cap'n Proto's own headers. A line `ok: WHAT` or `FAILED: WHAT` for each test.
set -u
here=$(cd "$(dirname "$0")" && pwd) || exit 2
prefix=${1:?usage: headers.sh PREFIX}
folder=$(mktemp -d) || exit 2
trap 'rm -rf "$folder"' EXIT
failed=0
warnings='-Wall -Wextra -Wpedantic -Wconversion -Wsign-conversion -Wshadow -Wundef -Werror'
library=$prefix/lib/libcapnp_canonical.a

report() {
    if [ "$1" = 0 ]; then echo "ok: $2"; else echo "FAILED: $2" && sed 's/^/    /' "$folder/log" && failed=1; fi
}

# Compiles a program with a compiler and flags. Its lines are counted if it is run.
#
#     compiled WHAT SOURCE FLAG..
compiled() {
    what=$1 source=$2
    shift 2
    # shellcheck disable=SC2086
    "$compiler" $warnings -I"$prefix/include" -o "$folder/program" "$source" "$library" "$@" >"$folder/log" 2>&1
    report $? "$compiler, $what"
}

# Runs the program, and shows its lines with the compiler's name.
run() {
    "$folder/program" >"$folder/lines" 2>&1 || failed=1
    sed "s/^\(ok\|FAILED\): /\1: $compiler, $1: /" "$folder/lines"
}

# A program that throws an Error, in which nothing is visible that isn't said to be.
visible() {
    printf '#include "capnp_canonical.hpp"\nvoid use() { capnp_canonical::require_version(); throw capnp_canonical::Error(1); }\n' >"$folder/visible.cpp"
    "$compiler" -std=c++17 -fvisibility=hidden -fPIC -I"$prefix/include" -c -o "$folder/visible.o" "$folder/visible.cpp" &&
        readelf -sW "$folder/visible.o" | c++filt | grep 'typeinfo for capnp_canonical::Error$' | tee "$folder/log" | grep -q ' DEFAULT '
}

# The headers of Cap'n Proto in a program that includes this header, with flags.
included() {
    header=$1
    shift
    printf '#include "%s"\n' "$header" >"$folder/included.cpp"
    "$compiler" -std=c++17 "$@" -I"$prefix/include" -M "$folder/included.cpp" | tr ' ' '\n' | grep '/capnp/' >"$folder/log"
}

# Whether Cap'n Proto's headers are left out unless a program asks for them.
asked_for() {
    included capnp_canonical.hpp && return 1
    included capnp_canonical.hpp -DCAPNP_CANONICAL_WITH_CAPNP && included capnp_canonical_capnp.hpp
}

usual=${CXX:-c++}
[ "$usual" = clang++ ] && compilers=clang++ || compilers="$usual clang++"
for compiler in $compilers; do
    if ! command -v "$compiler" >/dev/null; then
        echo "skipped, since $compiler isn't there"
        continue
    fi
    for standard in c++17 c++20; do
        compiled "$standard" "$here/typed.cpp" -std=$standard -O1 -g -fsanitize=address,undefined -fno-sanitize-recover && run $standard
    done
    compiled 'no exceptions' "$here/plain.cpp" -std=c++17 -O1 -fno-exceptions -fno-rtti && run 'no exceptions'
    "$folder/program" stop >"$folder/log" 2>&1
    [ $? -gt 128 ] && grep -q '^MessageContainsOutOfBoundsPointer at segment 0, word 0: ' "$folder/log"
    report $? "$compiler, a refusal that ends the process"
    compiled 'the example' "$here/../../../bindings/cpp/example.cpp" -std=c++17
    compiled 'the header for C as C++' "$here/limits.cpp" -std=c++17
    if command -v readelf >/dev/null && command -v c++filt >/dev/null; then
        visible
        report $? "$compiler, the type of Error is visible"
    else
        echo "skipped, since readelf or c++filt isn't there: the type of Error is visible"
    fi
    if echo '#include <capnp/message.h>' | "$compiler" -std=c++17 -E -x c++ - >"$folder/log" 2>&1; then
        asked_for
        report $? "$compiler, Cap'n Proto's headers only if they are asked for"
        compiled "the header for Cap'n Proto's types" "$here/adaptors.cpp" -std=c++17 -O1 -lcapnp -lkj
    else
        echo "skipped, since capnp/message.h isn't there: the header for its types"
    fi
done
exit $failed
