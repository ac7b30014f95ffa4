#!/bin/sh
# run.sh [FOLDER]: tests reading and building from C: FOLDER/capnp_layout.c, by default that of generated/, and bindings/c/capnp_layout.h.
# Compiles both with each compiler that is there, for 64 and 32 bits, and for two ARMs, whose programs run in qemu. ROUNDS is the
# number of mutated messages, and of lists of calls that build, by default 20,000 for each part that has any. If the tools for a
# part are missing, the part is skipped, and a line says so. The last line is `N passed, M failed`.
set -u
here=$(cd "$(dirname "$0")" && pwd)
top=$(cd "$here/../.." && pwd)
folder=$(cd "${1:-$top/generated}" && pwd)
rounds=${ROUNDS:-20000}
work=$(mktemp -d)
trap 'rm -rf "$work"' EXIT
trap 'exit 1' INT TERM
passed=0 failed=0 skipped=
include="-I$top/bindings/c -I$here"
warnings='-Wall -Wextra -Wpedantic -Wconversion -Wshadow -Werror'
sanitizers='-fsanitize=address,undefined -fno-sanitize-recover=undefined'
# what runs a program, if it is for another machine
runner=

has() {
    for tool; do command -v "$tool" >/dev/null || return 1; done
}

skip() {
    echo "$1: skipped, no $2"
    skipped="$skipped${skipped:+, }$1"
}

# Counts a part that is one test: its name and its command.
part() {
    name=$1
    shift
    if ("$@") >"$work/log" 2>&1; then
        passed=$((passed + 1))
        echo "$name: ok"
    else
        failed=$((failed + 1))
        cat "$work/log"
        echo "$name: FAILED"
    fi
}

# Counts a part whose last line is `N passed, M failed`.
summed() {
    name=$1
    shift
    ("$@") >"$work/log" 2>&1
    status=$?
    sums=$(sed -n '$s/^\([0-9]*\) passed, \([0-9]*\) failed.*/\1 \2/p' "$work/log")
    good=${sums% *} bad=${sums#* }
    if [ -z "$sums" ]; then good=0 bad=1; elif [ "$status" != 0 ] && [ "$bad" = 0 ]; then bad=1; fi
    if [ "$bad" != 0 ]; then cat "$work/log"; else sed -n '$!p' "$work/log"; fi
    echo "$name: $good passed, $bad failed"
    passed=$((passed + good)) failed=$((failed + bad))
}

# Runs a program, which may be for another machine.
run() {
    # shellcheck disable=SC2086
    $runner "$@"
}

# Whether a compiler makes programs with these flags that run.
runs() {
    # shellcheck disable=SC2086
    printf '#include <stdio.h>\nint main(void) { return puts("") < 0; }\n' >"$work/runs.c" && "$1" $2 -o "$work/runs" "$work/runs.c" 2>/dev/null &&
        run "$work/runs" >"$work/said"
}

# The header, a program over it and the generated C, without a warning.
header_c() {
    for standard in c99 c11; do
        for program in edges.c calls.c sound.c check.c defaults.c lists.c print_addressbook.c build_edges.c build_calls.c rebuild_addressbook.c; do
            # shellcheck disable=SC2086
            "$1" $2 -std=$standard -O1 $warnings $include -c -o "$work/it.o" "$here/$program" || return 1
        done
        for program in reading.c building.c; do
            # shellcheck disable=SC2086
            "$1" $2 -std=$standard -O1 $warnings $include -c -o "$work/it.o" "$top/bindings/c/$program" || return 1
        done
        # shellcheck disable=SC2086
        "$1" $2 -std=$standard -O1 $warnings $include -c -o "$work/it.o" "$folder/capnp_layout.c" || return 1
    done
}

header_cpp() {
    for standard in c++11 c++17; do
        for program in edges.c build_edges.c rebuild_addressbook.c; do
            # shellcheck disable=SC2086
            "$1" -std=$standard -O1 $warnings $include -x c++ -c -o "$work/it.o" "$here/$program" || return 1
        done
    done
}

# The library has no name but its own, and calls nothing but memcpy and the like.
names() {
    # shellcheck disable=SC2086
    "$1" -O2 -DNDEBUG $include -c -o "$work/names.o" "$folder/capnp_layout.c" || return 1
    nm "$work/names.o" | sed 's/^[0-9a-f ]*//' | sort >"$work/names"
    ! grep -v -e '^T capnp_layout_' -e '^U mem\(cpy\|move\|set\)$' -e '^[tr] ' -e '^U __stack_chk_fail$' -e '^U _GLOBAL_OFFSET_TABLE_$' "$work/names" || return 1
    grep '^T ' "$work/names" | cut -d ' ' -f 2 >"$work/defined"
    sed -n 's/^[a-z].*[ *]\(capnp_layout_[a-z0-9_]*\)(.*/\1/p' "$top/bindings/c/capnp_layout.h" | sort | cmp - "$work/defined"
}

# A program of this folder with sanitizers: the compiler, its flags, the program, and its arguments.
sanitized() {
    compiler=$1 bits=$2 program=$3
    shift 3
    # shellcheck disable=SC2086
    "$compiler" $bits -std=gnu11 -O1 -g $sanitizers $include -o "$work/$program" "$here/$program.c" "$folder/capnp_layout.c" && run "$work/$program" "$@"
}

# Compares validation with the library that copies and checks, which needs 64 bits: both headers and both libraries in one program.
sound() {
    compiler=$1 bits=$2 other=
    case $bits:$compiler in
    -m64:* | *aarch64*)
        other=$work/canonical.o
        # shellcheck disable=SC2086
        "$compiler" -std=gnu11 -O0 -g $sanitizers -I"$top/bindings/c" -c -o "$other" "$top/generated/capnp_canonical.c" || return 1
        ;;
    esac
    # shellcheck disable=SC2086
    "$compiler" $bits -std=gnu11 -O1 -g $sanitizers $include -o "$work/sound" "$here/sound.c" "$folder/capnp_layout.c" $other &&
        run "$work/sound" "$rounds" "${SEED:-1}"
}

defaults() {
    sanitized "$1" "$2" defaults words >"$work/words" || return 1
    capnp eval -b "$here/defaults.capnp" inner | tail -c +9 | cmp - "$work/words" || return 1
    capnp eval -b "$here/defaults.capnp" set >"$work/set" && capnp eval -b "$here/defaults.capnp" unset >"$work/unset" || return 1
    sanitized "$1" "$2" defaults "$work/set" "$work/unset"
}

plain() {
    # shellcheck disable=SC2086
    "$1" $2 -std=gnu11 -O2 $include -o "$work/it" "$3" "$folder/capnp_layout.c"
}

example() {
    plain "$1" "$2" "$top/bindings/c/reading.c" || return 1
    printf '%s' '(people = [(id = 1, name = "Alice", email = "alice@example.com"), (id = 2, name = "Bob")])' |
        capnp encode "$top/tests/typed/addressbook.capnp" AddressBook >"$work/book" || return 1
    run "$work/it" <"$work/book" >"$work/said" && cmp "$here/people.txt" "$work/said" && cmp "$here/book.bin" "$work/book"
}

decoded() {
    capnp decode "$top/tests/typed/addressbook.capnp" AddressBook <"$1"
}

# What the other example builds is what `capnp decode` and the first example read.
example_that_builds() {
    plain "$1" "$2" "$top/bindings/c/building.c" && run "$work/it" >"$work/book" && decoded "$work/book" >"$work/said" && decoded "$here/book.bin" | cmp - "$work/said" || return 1
    plain "$1" "$2" "$top/bindings/c/reading.c" && run "$work/it" <"$work/book" | cmp - "$here/people.txt"
}

# Random address books: what is read is what `capnp decode` prints.
books() {
    plain "$1" "$2" "$here/print_addressbook.c" || return 1
    for seed in 1 2 3 4 5 6 7 8 9 10; do
        python3 "$here/book.py" $seed $((seed * seed - 1)) | capnp encode "$top/tests/typed/addressbook.capnp" AddressBook >"$work/book" || return 1
        capnp decode --short "$top/tests/typed/addressbook.capnp" AddressBook <"$work/book" >"$work/wanted" || return 1
        run "$work/it" <"$work/book" | cmp - "$work/wanted" || return 1
    done
}

# Random address books, read and built again, also if the buffer grows at each call: `capnp decode` prints the same of them, and
# the bytes are those of `capnp encode` where that writes one segment, and a canonical copy is that of `capnp convert`.
rebuilt() {
    # shellcheck disable=SC2086
    "$1" $2 -std=gnu11 -O1 -g $sanitizers $include -o "$work/rebuild" "$here/rebuild_addressbook.c" "$folder/capnp_layout.c" || return 1
    for seed in 1 2 3 4 5 6 7 8 9 10; do
        python3 "$here/book.py" $seed $((seed * seed - 1)) | capnp encode "$top/tests/typed/addressbook.capnp" AddressBook >"$work/book" || return 1
        decoded "$work/book" >"$work/wanted" || return 1
        for how in 16 1000000 '16 copy' '1000000 copy'; do
            # shellcheck disable=SC2086
            run "$work/rebuild" $how <"$work/book" >"$work/built" && decoded "$work/built" | cmp - "$work/wanted" || return 1
            if [ "$(od -An -tu4 -N4 "$work/book" | tr -d ' ')" = 0 ]; then cmp "$work/built" "$work/book" || return 1; fi
        done
        capnp convert binary:canonical <"$work/book" >"$work/canonical" || return 1
        for size in 16 1000000; do
            run "$work/rebuild" $size canonical <"$work/book" >"$work/built" && tail -c +9 "$work/built" | cmp - "$work/canonical" || return 1
        done
    done
}

lists() {
    sanitized "$1" "$2" lists <"$work/message" >"$work/said" && diff "$here/lists.txt" "$work/said"
}

# What the other library makes of a built frame: `capnp` unpacks it to the same message and makes the same canonical words of
# that, and the digest is theirs.
finished() {
    gcc -std=gnu11 -O0 -g $sanitizers -I"$top/bindings/c" -o "$work/finished" "$here/finished.c" "$folder/capnp_layout.c" "$top/generated/capnp_canonical.c" || return 1
    mkdir -p "$work/with_other" && "$work/finished" "$work/with_other" >"$work/said" && cd "$work/with_other" || return 1
    capnp convert binary:binary <frame >copied && capnp convert packed:binary <packed | cmp - copied || return 1
    capnp convert binary:canonical <frame | cmp - words || return 1
    { echo "$(($(wc -c <frame) / 8 - 2)) words" && echo 'not canonical' && sha256sum words | cut -d ' ' -f 1; } | diff - "$work/said"
}

beside() {
    mkdir -p "$work/cpp" && cp "$top/tests/typed/addressbook.capnp" "$work" && cd "$work" && capnp compile -oc++:cpp addressbook.capnp &&
        cc -std=gnu11 -O1 -g -fsanitize=address,undefined -I"$top/bindings/c" -c -o layout.o "$folder/capnp_layout.c" &&
        c++ -std=c++17 -O1 -g -fsanitize=address -Wall -Wextra -I. -I"$top/bindings/c" -I"$here" -o beside "$here/beside.cc" cpp/addressbook.capnp.c++ layout.o \
            -fsanitize=undefined -lcapnp -lkj && ./beside "$rounds" "${SEED:-1}"
}

built_beside() {
    cd "$work" && cc -std=gnu11 -O1 -g $sanitizers -I"$top/bindings/c" -c -o layout.o "$folder/capnp_layout.c" &&
        c++ -std=c++17 -O1 -g $sanitizers -Wall -Wextra -I"$top/bindings/c" -o build_beside "$here/build_beside.cc" layout.o -lcapnp -lkj &&
        ./build_beside "$rounds" "${SEED:-1}"
}

if has capnp; then capnp eval -b "$here/lists.capnp" lists >"$work/message"; fi
# All parts with a compiler and its flags; the first word is what they are called.
parts_with() {
    called=$1 compiler=$2 flags=$3
    if ! has "$compiler" || ! runs "$compiler" "$flags"; then
        skip "$called" "compiler${runner:+ or no ${runner%% *}}"
        return
    fi
    part "$called, no warnings" header_c "$compiler" "$flags"
    summed "$called, edges" sanitized "$compiler" "$flags" edges
    summed "$called, calls" sanitized "$compiler" "$flags" calls "$rounds" "${SEED:-1}"
    summed "$called, validation" sound "$compiler" "$flags"
    summed "$called, checks" sanitized "$compiler" "$flags" check "$rounds" "${SEED:-1}"
    summed "$called, building, edges" sanitized "$compiler" "$flags" build_edges
    summed "$called, building, calls" sanitized "$compiler" "$flags" build_calls "$rounds" "${SEED:-1}"
    if ! has capnp; then
        skip "$called, messages" capnp
        return
    fi
    summed "$called, defaults" defaults "$compiler" "$flags"
    part "$called, lists" lists "$compiler" "$flags"
    part "$called, example" example "$compiler" "$flags"
    part "$called, example that builds" example_that_builds "$compiler" "$flags"
    if has python3; then
        part "$called, address books" books "$compiler" "$flags"
        part "$called, address books built" rebuilt "$compiler" "$flags"
    fi
}

for compiler in gcc clang; do
    for bits in -m64 -m32; do parts_with "$compiler $bits" "$compiler" $bits; done
done
# for other machines: their programs need no file of the system, and no library for sanitizers
of_this_machine=$sanitizers
sanitizers='-fsanitize=undefined -fsanitize-undefined-trap-on-error'
for machine in arm-linux-gnueabihf aarch64-linux-gnu; do
    runner=qemu-${machine%%-*}
    parts_with "$machine-gcc" "$machine-gcc" -static
    parts_with "clang, $machine" clang "--target=$machine -static"
done
sanitizers=$of_this_machine runner=
for compiler in g++ clang++; do
    if has $compiler; then part "$compiler, no warnings" header_cpp $compiler; else skip "$compiler" compiler; fi
done
if has gcc nm; then part 'names' names gcc; fi
if has capnp gcc sha256sum && grep -q '^uint32_t capnp_canonical_pack(' "$top/generated/capnp_canonical.c"; then
    part 'with the other library' finished
else
    skip 'with the other library' 'gcc, capnp or capnp_canonical_pack'
fi
if has capnp c++ && [ -f /usr/include/capnp/serialize.h ]; then
    summed 'beside C++' beside
    summed 'building, beside C++' built_beside
else
    skip 'beside C++' 'C++ Cap'\''n Proto'
fi
if has python3; then
    python3 -B "$here/sizes.py" --check >"$work/sizes"
    if grep -q '^skipped' "$work/sizes"; then skip 'sizes in docs/C.md' "$(sed 's/^skipped, no //' "$work/sizes")"; else summed 'sizes in docs/C.md' cat "$work/sizes"; fi
fi
echo "$passed passed, $failed failed${skipped:+; skipped: $skipped}"
[ "$failed" = 0 ]
