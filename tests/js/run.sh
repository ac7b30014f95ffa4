#!/bin/sh
# run.sh [FOLDER]: tests the JavaScript package: all vectors, streams, messages, packed bytes and hostile frames under node, the
# types, and the package in a browser. With FOLDER/capnp_canonical.c, the generated C (FOLDER is `generated` if that is there), it
# also builds the module again and compares the bytes, compares the answers over altered frames with those of the native library,
# and shows how fast both are.
#
# What isn't there is skipped, and a line says so. COUNT is the number of altered frames. The last line is `N passed, M failed`.
set -u
here=$(cd "$(dirname "$0")" && pwd) || exit 2
top=$(cd "$here/../.." && pwd) || exit 2
package=$top/bindings/js
c=${1:-$top/generated}
work=$(mktemp -d) || exit 2
trap 'rm -rf "$work"' EXIT
trap 'exit 1' INT TERM
passed=0 failed=0

has() {
    for it; do
        command -v "$it" >/dev/null || { printf '%s: skipped, no %s\n' "$what" "$it"; return 1; }
    done
}

# A part passes by its exit status.
part() {
    if "$@" >"$work/log" 2>&1; then
        passed=$((passed + 1))
        printf '%s: passed\n' "$what"
    else
        failed=$((failed + 1))
        tail -n 30 "$work/log"
        printf '%s: failed\n' "$what"
    fi
}

# Adds the counts of the last line.
counted() {
    sed "s|^|$what: |" "$work/log"
    more=$(sed -n '$s/^\([0-9]*\) passed, \([0-9]*\) failed$/\1 \2/p' "$work/log")
    [ -n "$more" ] || more='0 1'
    passed=$((passed + ${more% *}))
    failed=$((failed + ${more#* }))
}

what='node'
has node python3 || { printf '0 passed, 1 failed\n'; exit 1; }
node --test --test-reporter=tap "$here/canonical.test.mjs" "$here/entries.test.mjs" >"$work/log" 2>&1
sed -n 's/^# \(.*: [0-9]* passed\)$/\1/p; /^not ok/p; /^ *error:/p; /^ *at /p' "$work/log"
more=$(sed -n 's/^# .*: \([0-9]*\) passed$/\1/p' "$work/log" | awk '{ sum += $1 } END { print sum + 0 }')
fails=$(sed -n 's/^# fail \([0-9]*\)$/\1/p' "$work/log")
passed=$((passed + more))
failed=$((failed + ${fails:-1}))

what='the example'
# what `capnp encode` writes for (id = 1, name = "Ada") of tests/peer/people.capnp
printf '\0\0\0\0\20\0\0\0\0\0\0\0\3\0\13\0\1\0\0\0\0\0\0\0%16s\51\0\0\0\42%83sAda\0\0\0\0\0' '' '' | tr ' ' '\0' >"$work/ada"
part sh -c 'node "$1/examples/canonical.js" <"$2" | sha256sum | grep -q ^62cac392152416d2e5417a2626d7f3eae39e50670674e711134666536187c231' sh "$package" "$work/ada"

what='types'
if has tsc; then part tsc --strict --noEmit --target es2022 --module node16 --moduleResolution node16 --lib es2022,dom "$here/types.mts"; fi

what='the modules are those of ORIGIN'
part sh -c 'for it in capnp_canonical capnp_canonical_small; do test "$(sed -n "s/^sha256 of $it.wasm: //p" "$1/ORIGIN")" = "$(sha256sum "$1/$it.wasm" | cut -d " " -f 1)" || exit 1; done' sh "$package"

what='in a browser'
browser=$(command -v chromium || command -v google-chrome || command -v chromium-browser)
if [ -n "$browser" ]; then
    node "$here/browser.mjs" "$browser" >"$work/log" 2>&1
    counted
else
    printf '%s: skipped, no chromium\n' "$what"
fi

what='what the generated C compiles to'
if [ ! -f "$c/capnp_canonical.c" ]; then
    printf '%s, answers and times of the native library: skipped, no generated C\n' "$what"
    printf '%s passed, %s failed\n' "$passed" "$failed"
    [ "$failed" = 0 ]
    exit
fi
if has clang wasm-ld; then
    mkdir "$work/built"
    sh "$package/build.sh" "$c" "$work/built" >"$work/log" 2>&1 || cat "$work/log"
    if [ "$(sed -n '/^compiler\|^linker/p' "$work/built/ORIGIN")" = "$(sed -n '/^compiler\|^linker/p' "$package/ORIGIN")" ]; then
        part sh -c 'for it in capnp_canonical.wasm capnp_canonical_small.wasm module.js; do cmp "$1/$it" "$2/$it" || exit 1; done' sh "$work/built" "$package"
    else
        printf '%s: skipped, ORIGIN names other compilers\n' "$what"
    fi
fi
what='answers of the native library'
if has gcc; then
    gcc -std=c11 -O2 -fPIC -shared -I"$top/bindings/c" -o "$work/libcapnp_canonical.so" "$c/capnp_canonical.c" || exit 2
    node "$here/differ.mjs" "${COUNT:-20000}" >"$work/cases" && CAPNP_CANONICAL_LIBRARY=$work/libcapnp_canonical.so PYTHONPATH=$top/bindings/python python3 -B "$here/differ.py" <"$work/cases" >"$work/log" 2>&1
    counted
    what='times'
    if has capnp; then
        cp "$top/tests/peer/people.capnp" "$work"
        python3 -B "$top/tests/peer/people.py" 9 20000 0 | (cd "$work" && capnp encode people.capnp Person) >"$work/stream"
        node "$here/bench/speed.mjs" "$work/stream"
        gcc -std=gnu11 -O2 -I"$top/bindings/c" -o "$work/speed" "$here/bench/speed.c" "$c/capnp_canonical.c" && "$work/speed" "$work/stream"
    fi
fi
printf '%s passed, %s failed\n' "$passed" "$failed"
[ "$failed" = 0 ]
