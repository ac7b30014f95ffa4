#!/bin/sh
# start.sh: clones the last commit into a temporary folder and types what README.md has under "Quick start", with and without a
# command `rt` in the path. The output is that of the page, nothing is on standard error, and each answer comes within a second.
#
# The command `rt` is a made-up one, which leaves a mark: the scripts at the top may not call it. The last line is
# `N passed, M failed`.
set -u
top=$(cd "$(dirname "$0")/.." && pwd) || exit 2
work=$(cd "$(mktemp -d)" && pwd -P) || exit 2
trap 'rm -rf "$work"' EXIT
trap 'exit 1' INT TERM
passed=0 failed=0

# Counts a fact: what it is, and the command that tests it.
fact() {
    what=$1
    shift
    if "$@"; then
        passed=$((passed + 1))
        echo "ok: $what"
    else
        failed=$((failed + 1))
        echo "FAILED: $what"
    fi
}

# Writes the first block of a kind (`sh` or `text`) of the quick start.
block() {
    awk -v kind="$1" '
        /^## / { here = ($0 == "## Quick start") }
        here && $0 == "```" kind { inside = 1; next }
        inside && /^```$/ { exit }
        inside' "$top/README.md"
}

# A folder whose only command is `rt`, and the same path without any `rt`.
mkdir "$work/bin" && printf '#!/bin/sh\ntouch "%s"\nexit 1\n' "$work/called" >"$work/bin/rt" && chmod +x "$work/bin/rt" || exit 2
without=
IFS=:
for folder in $PATH; do
    if [ -x "$folder/rt" ]; then
        number=$((${number-0} + 1))
        mkdir "$work/bin$number" && ln -s "$folder"/* "$work/bin$number" && rm "$work/bin$number/rt" || exit 2
        folder=$work/bin$number
    fi
    without=$without${without:+:}$folder
done
unset IFS

block text >"$work/wanted"
block sh >"$work/commands"
first=$(head -n 1 "$work/commands")
tail -n +2 "$work/commands" >"$work/questions"
fact 'the quick start clones, builds, and asks' [ "$first" = 'git clone REPOSITORY capnp_layout && cd capnp_layout && make' ]

# Runs make with this path.
built() {
    PATH=$1 make -j2 CC="${CC:-cc}" >"$work/log" 2>&1 || { tail -n 20 "$work/log"; return 1; }
}

# Types the quick start with this path.
#
#     start NAME PATH
start() {
    name=$1
    mkdir "$work/$name" && cd "$work/$name" || exit 2
    git clone -q "$top" capnp_layout && cd capnp_layout || exit 2
    fact "$name: make" built "$2"
    fact "$name: the answers" asked "$2"
    fact "$name: nothing is left in the clone" [ -z "$(git status --porcelain)" ]
    rm -rf build
    fact "$name: the same without make, which is run first" asked "$2" "capnp_canon: build/capnp_canon isn't built yet, so make builds it first"
}

# Whether the questions have the answers of the page, and standard error this line or nothing. Without that line they take at
# most a second each.
asked() {
    begun=$(date +%s)
    PATH=$1 sh "$work/questions" >"$work/said" 2>"$work/errors"
    ended=$(date +%s)
    diff "$work/wanted" "$work/said" && [ "$(cat "$work/errors")" = "${2-}" ] && { [ $# = 2 ] || [ $((ended - begun)) -le "$(wc -l <"$work/questions")" ]; }
}

start 'without rt' "$without"
start 'with rt' "$work/bin:$without"
fact 'the scripts call no rt' [ ! -e "$work/called" ]
echo "$passed passed, $failed failed"
[ $failed = 0 ]
