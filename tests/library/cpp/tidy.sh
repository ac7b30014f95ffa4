#!/bin/sh
# tidy.sh: clang-tidy over the headers and examples for C and C++, with the checks of bindings/.clang-tidy. A line `ok: FILE` or
# `FAILED: FILE` for each program through which they are read.
set -u
here=$(cd "$(dirname "$0")" && pwd) || exit 2
bindings=$here/../../../bindings
failed=0

# Reads a program with a language's standard; the headers that count have names of this form.
#
#     tidy PROGRAM HEADERS FLAG..
tidy() {
    program=$1 headers=$2
    shift 2
    # shellcheck disable=SC2086 # no word or one
    if clang-tidy --quiet --config-file="$bindings/.clang-tidy" $more --header-filter="$headers" "$program" -- "$@" -I"$bindings/c" -I"$bindings/cpp" >"$folder/log" 2>&1; then
        echo "ok: $(basename "$program")"
    else
        echo "FAILED: $(basename "$program")" && grep -e warning: -e error: "$folder/log" && failed=1
    fi
}

folder=$(mktemp -d) || exit 2
trap 'rm -rf "$folder"' EXIT
more=
tidy "$bindings/c/example.c" 'capnp_canonical.*\.h$' -std=c99
printf '#include "capnp_canonical_limits.h"\nint main(void) { return 0; }\n' >"$folder/limits.c"
tidy "$folder/limits.c" 'capnp_canonical.*\.h$' -std=c99
# a parameter of a macro may be a type there, which can't be in parentheses
more=--checks=-bugprone-macro-parentheses
for example in reading building; do tidy "$bindings/c/$example.c" 'capnp_layout.*\.h$' -std=c99; done
more=
tidy "$bindings/cpp/example.cpp" 'capnp_canonical.*\.hpp$' -std=c++17
tidy "$here/plain.cpp" 'capnp_canonical.*\.hpp$' -std=c++17 -fno-exceptions
if echo '#include <capnp/message.h>' | clang++ -std=c++17 -E -x c++ - >"$folder/log" 2>&1; then
    tidy "$here/adaptors.cpp" 'capnp_canonical.*\.hpp$' -std=c++17
else
    echo "skipped, since capnp/message.h isn't there: adaptors.cpp"
fi
exit $failed
