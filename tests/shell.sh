#!/bin/sh
# shell.sh [PROGRAM]: runs the commands of docs/PROGRAM.md and tests/layout_tool.md, part by part in one folder, and compares the output of
# each part with the page. PROGRAM is a built capnp_canon. Without it, runs ./capnp_canon at the top of the repository and also
# dev/layout_tool, which run what is built. A part whose tools are missing is skipped.
#
# Prints a line `ok: COMMAND`, `FAILED: COMMAND` or `skipped: COMMAND: no TOOL` for each part; the last line is
# `N passed, M failed`.
set -u
top=$(cd "$(dirname "$0")/.." && pwd) || exit 2
case ${1-} in '' | /*) program=${1-$top/capnp_canon} ;; *) program=$(pwd)/$1 ;; esac
work=$(mktemp -d) || exit 2
trap 'rm -rf "$work"' EXIT
mkdir "$work/parts" "$work/folder" || exit 2

# Makes a script of this name in the folder; the script runs a program.
run_by() {
    mkdir -p "$(dirname "$work/folder/$1")" && printf '#!/bin/sh\nexec "%s" "$@"\n' "$2" >"$work/folder/$1" && chmod +x "$work/folder/$1"
}

# Writes each part of the page to N.sh or N.bash, and its expected output to N.text.
take_apart() {
    awk -v to="$work/parts/" '
        /^```(sh|bash)$/ { number++; file = to sprintf("%02d", number) "." substr($0, 4); next }
        /^```text$/ { file = to sprintf("%02d", number) ".text"; next }
        /^```$/ { file = ""; next }
        file { print >file }' "$top/docs/PROGRAM.md" "$top/tests/layout_tool.md"
}

# The tools that a part needs and that are missing.
lacking() {
    grep -q layout_tool "$1" && [ ! -e "$work/folder/dev/layout_tool" ] && echo layout_tool
    for tool in bash jq openssl sha256sum xxd; do
        if [ "${1##*.}" = $tool ] || grep -qw -e "$tool" "$1"; then command -v $tool >/dev/null || echo $tool; fi
    done
}

run_by capnp_canon "$program"
[ $# -gt 0 ] || run_by dev/layout_tool "$top/dev/layout_tool"
# a build that is needed is announced here
"$program" --version >"$work/log" || exit 2
[ $# -gt 0 ] || "$top/dev/layout_tool" --help >"$work/log" || exit 2
take_apart
cd "$work/folder" || exit 2
passed=0 failed=0
for part in "$work"/parts/*.*sh; do
    what=$(grep -v '^[^ ]* [|(] *$' "$part" | tail -n 1)
    none=$(lacking "$part" | head -n 1)
    if [ "$none" ]; then
        echo "skipped: $what: no $none"
        continue
    fi
    touch "${part%.*}.text"
    # end a command that waits forever
    LC_ALL=C timeout 60 "${part##*.}" -e "$part" >"$work/written" 2>"$work/error"
    status=$?
    if [ $status = 0 ] && cmp -s "$work/written" "${part%.*}.text"; then
        passed=$((passed + 1))
        echo "ok: $what"
    else
        failed=$((failed + 1))
        diff "${part%.*}.text" "$work/written"
        cat "$work/error"
        echo "FAILED: $what, status $status"
    fi
done
echo "$passed passed, $failed failed"
[ $failed = 0 ] && [ $passed != 0 ]
