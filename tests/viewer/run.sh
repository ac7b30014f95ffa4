#!/bin/sh
# run.sh [--shots FOLDER] [PACKAGE]: compares the viewer's walk with the corpus, builds the page of the JavaScript package in PACKAGE
# (bindings/js if it is left out), checks that viewer/capnp_view.html is that page, and drives it in headless Chromium, named by
# CHROMIUM. With --shots it leaves screenshots in FOLDER. The last line is `N passed, M failed`. Needs node 20, python3 and chromium.
cd "$(dirname "$0")/../.." || exit 2
shots=
if [ "${1-}" = --shots ]; then
    shots=$2
    shift 2
fi
package=${1:-bindings/js}
work=$(mktemp -d)
trap 'rm -rf "$work"' EXIT
node --no-warnings tests/viewer/walk.mjs "$package" >"$work/walk"
cp viewer/capnp_view.html "$work/built.html" 2>/dev/null
if python3 viewer/build.py "$package" "$work/built.html"; then
    if cmp -s "$work/built.html" viewer/capnp_view.html; then
        echo '1 passed, 0 failed' >"$work/built"
    else
        echo 'viewer/capnp_view.html differs from what viewer/build.py makes' && echo '0 passed, 1 failed' >"$work/built"
    fi
    websocket=
    node -e 'process.exit(typeof WebSocket === "function" ? 0 : 1)' || websocket=--experimental-websocket
    # shellcheck disable=SC2086 # a word or none
    node $websocket --no-warnings tests/viewer/drive.mjs "$work/built.html" ${shots:+"$shots"} >"$work/drive"
fi
passed=0 failed=0
for part in walk built drive; do
    sed '$d' "$work/$part" 2>/dev/null
    last=$(tail -n 1 "$work/$part" 2>/dev/null)
    case $last in
    *' passed, '*' failed') echo "$part: $last" ;;
    *) echo "$part: not run, or no count in its last line" && last='0 passed, 1 failed' ;;
    esac
    passed=$((passed + ${last%% *}))
    last=${last#*, }
    failed=$((failed + ${last%% *}))
done
echo "$passed passed, $failed failed"
[ "$failed" -eq 0 ]
