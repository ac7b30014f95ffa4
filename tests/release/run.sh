#!/bin/sh
# run.sh [-s] [TARBALL]: if `rt` is in the path, writes the C of generated/ again and compares it. Makes two releases of the last
# commit, from two folders, and compares them. Then unpacks one and tests it without `rt` in the path: with each compiler, without and with optimisation, under sanitizers and valgrind, for other
# processors, with make, CMake, cargo and pip. With TARBALL, tests that release and makes none. With -s, runs the streams
# with one build only. CCS names the compilers, if not gcc and clang.
#
# If a tool is missing, its part is skipped, and a line says so. The last line is `N passed, M failed`.
set -u
here=$(cd "$(dirname "$0")" && pwd) || exit 2
top=$(cd "$here/../.." && pwd) || exit 2
work=$(mktemp -d) || exit 2
trap 'rm -rf "$work"' EXIT
trap 'exit 1' INT TERM
passed=0 failed=0 is_short=
# vectors have up to 3,000 levels, which need more than the usual stack if the compiler doesn't optimise
ulimit -s 131072 2>/dev/null
warnings='-Wall -Wextra -Werror'
hardened='-O2 -fstack-protector-strong -fstack-clash-protection -D_FORTIFY_SOURCE=2 -Wformat -Werror=format-security -fPIE'
sanitized='-O1 -g -fno-omit-frame-pointer -fsanitize=address,undefined -fno-sanitize-recover=all'
cross=/usr/aarch64-linux-gnu

say() {
    printf '%s\n' "$*"
}

has() {
    command -v "$1" >/dev/null || { say "$2: skipped, no $1"; return 1; }
}

# Runs a part that passes or fails by its exit status.
#
#     part NAME COMMAND..
part() {
    name=$1
    shift
    if ("$@") >"$work/log" 2>&1; then
        passed=$((passed + 1))
        say "$name: passed$(sed -n '$s/^\([0-9]* passed, 0 failed\).*/ (\1)/p' "$work/log")"
    else
        failed=$((failed + 1))
        tail -n 20 "$work/log"
        say "$name: failed"
    fi
}

# Runs a part that prints its counts in its last line.
summed() {
    name=$1
    shift
    ("$@") >"$work/log" 2>&1
    status=$?
    sums=$(sed -n '$s/^\([0-9]*\) passed, \([0-9]*\) failed.*/\1 \2/p' "$work/log")
    if [ -z "$sums" ] || { [ $status != 0 ] && [ "${sums#* }" = 0 ]; }; then sums='0 1'; fi
    [ "${sums#* }" = 0 ] || tail -n 40 "$work/log"
    sed -n 's/^\(.*skipped.*\)/    \1/p' "$work/log"
    passed=$((passed + ${sums% *})) failed=$((failed + ${sums#* }))
    say "$name: ${sums% *} passed, ${sums#* } failed"
}

# Makes the release here and in a clone elsewhere, and compares them.
releases() {
    git clone -q "$top" "$work/a/folder/elsewhere" && "$top/dev/release" "$work/one" && "$work/a/folder/elsewhere/dev/release" "$work/two" &&
        cmp "$work/one"/*.tar.gz "$work/two"/*.tar.gz
}

# Removes the command `rt` from the path, and keeps the other commands of its folder.
without_rt() {
    number=0
    while rt=$(command -v rt); do
        folder=$(dirname "$rt") number=$((number + 1))
        mkdir "$work/bin$number" && ln -s "$folder"/* "$work/bin$number" && rm "$work/bin$number/rt" || return 1
        PATH=$(printf %s ":$PATH:" | sed "s|:$folder/*:|:$work/bin$number:|g; s/^://; s/:$//")
    done
}

# Builds in a folder of this name, and runs `make check`.
#
#     checked NAME CC CFLAGS [VARIABLE=VALUE..]
checked() {
    name=$1 cc=$2 flags=$3
    shift 3
    make -C "$release" check BUILD="$work/$name" CC="$cc" CFLAGS="$flags" "$@"
}

# Checks that a build answers altered messages like the first build did.
#
#     same_digest NAME [RUNNER..]
same_digest() {
    name=$1
    shift
    "$@" "$work/$name/vectors" 40 <"$work/$name/vectors.txt" >"$work/digest" || return 1
    [ -f "$work/digest_wanted" ] || cp "$work/digest" "$work/digest_wanted"
    cat "$work/digest" && cmp "$work/digest" "$work/digest_wanted"
}

# Builds for this machine, and runs all tests of the build.
#
#     build NAME CC CFLAGS [VARIABLE=VALUE..]
build() {
    part "make check, $1" checked "$@"
    [ -x "$work/$1/vectors" ] && part "altered messages, $1" same_digest "$1"
}

streams() {
    name=$1
    summed "streams, $name" python3 -B "$release/tests/streams/run.py" "$work/$name/capnp_canon" --limit 300
}

# Runs only the cases and the altered streams: for builds that are slow to start, or take more memory.
#
#     some_streams NAME RUNNER
some_streams() {
    summed "streams, $1" env RUNNER="$2" python3 -B "$here/streams.py" "$release/tests/streams" "$work/$1/capnp_canon"
}

installed() {
    make -C "$release" install install-python BUILD="$work/$1" CC="$2" CFLAGS='-O2' PREFIX="$work/prefix_$1"
}

by_compiler() {
    for level in -O0 -O2 -O3; do
        build "$1$level" "$1" "$level $warnings"
        if [ -z "$is_short" ] || [ "$1$level" = "$first-O2" ]; then streams "$1$level"; fi
    done
    build "$1-hardened" "$1" "$hardened $warnings" LDFLAGS='-Wl,-z,relro,-z,now'
    for cpu in x86-64 x86-64-v2 x86-64-v3; do
        if [ "$(uname -m)" != x86_64 ] || ! grep -qw "$(case $cpu in *v3) echo avx2 ;; *) echo sse2 ;; esac)" /proc/cpuinfo; then
            say "$1, $cpu: skipped, not this processor"
        else
            build "$1-$cpu" "$1" "-O2 -march=$cpu $warnings"
        fi
    done
    build "$1-sanitized" "$1" "$sanitized $warnings"
    some_streams "$1-sanitized" ''
    case $1 in clang*) build "$1-memory" "$1" "-O1 -g -fsanitize=memory -fno-sanitize-recover=all $warnings" ;; esac
    if has valgrind "$1 under it"; then
        part "make check, $1 under valgrind" checked "$1-O2" "$1" "-O2 $warnings" RUNNER='valgrind -q --error-exitcode=9 --leak-check=full --show-leak-kinds=all'
    fi
    part "standards of C, $1" by_standard "$1"
    part "make install, $1" installed "$1-O2" "$1"
    summed "library in C, $1" env CC="$1" sh "$release/tests/library/c/run.sh" "$work/prefix_$1-O2"
    part "stack, $1" sh "$here/stack.sh" "$release" "$1"
    sed -n 's/^\(.* bytes per level.*\)/    \1/p; s/^\(FAILED: .*\)/    \1/p' "$work/log"
}

on_aarch64() {
    has qemu-aarch64 aarch64 && has aarch64-linux-gnu-gcc aarch64 || return
    for level in -O0 -O2; do
        part "make check, aarch64$level" checked "aarch64$level" aarch64-linux-gnu-gcc "$level $warnings" RUNNER="qemu-aarch64 -L $cross"
        part "altered messages, aarch64$level" same_digest "aarch64$level" qemu-aarch64 -L "$cross"
    done
    some_streams aarch64-O2 "qemu-aarch64 -L $cross"
}

by_cmake() {
    for shared in ON OFF; do
        cmake -S "$release" -B "$work/cmake_$shared" -DBUILD_SHARED_LIBS=$shared -DCMAKE_INSTALL_PREFIX="$work/by_cmake_$shared" -DCMAKE_INSTALL_LIBDIR=lib &&
            cmake --build "$work/cmake_$shared" --target install && found "$work/by_cmake_$shared" "cmake_$shared" || return 1
    done
    found "$work/prefix_$first-O2" make && same_files "$work/prefix_$first-O2" "$work/by_cmake_ON"
}

# Builds a CMake project that finds the libraries installed at a prefix.
found() {
    mkdir "$work/user_$2" && cat >"$work/user_$2/CMakeLists.txt" <<END
cmake_minimum_required(VERSION 3.13)
project(user C)
find_package(capnp_canonical 1.0 REQUIRED)
add_executable(example $release/bindings/c/example.c)
target_link_libraries(example capnp_canonical::capnp_canonical)
add_executable(static $release/bindings/c/example.c)
target_link_libraries(static capnp_canonical::static)
find_package(capnp_layout 1.1 REQUIRED)
add_executable(reading $release/bindings/c/reading.c)
target_link_libraries(reading capnp_layout::capnp_layout)
add_executable(reading_static $release/bindings/c/reading.c)
target_link_libraries(reading_static capnp_layout::static)
END
    cmake -S "$work/user_$2" -B "$work/user_$2/build" -DCMAKE_PREFIX_PATH="$1" && cmake --build "$work/user_$2/build" || return 1
    for program in example static; do
        "$work/user_$2/build/$program" <"$work/$first-O2/frame" | cmp - "$work/$first-O2/words" || return 1
    done
    for program in reading reading_static; do
        "$work/user_$2/build/$program" <"$release/tests/layout_c/book.bin" | cmp - "$release/tests/layout_c/people.txt" || return 1
    done
}

# CMake installs what make does; the module for Python and the files for CMake itself are the difference.
same_files() {
    for it; do (cd "$it" && find . ! -type d | grep -v -e '/python/' -e '/cmake/' | sort) >"$it.files" || return 1; done
    diff "$1.files" "$2.files"
}

# The library among the sources of another program, whose standard is an older one.
by_standard() {
    for standard in c99 gnu99 c11 gnu17; do
        for library in capnp_canonical capnp_layout; do
            "$1" -std=$standard -O1 -Wall -Wextra -Werror -I"$release/bindings/c" -c -o "$work/standard.o" "$release/generated/$library.c" || return 1
        done
    done
}

by_cargo() {
    CARGO_TARGET_DIR="$work/target" cargo test --offline --locked --manifest-path "$release/bindings/rust/Cargo.toml"
}

by_pip() {
    python3 -m venv "$work/venv" && "$work/venv/bin/pip" wheel --no-index --no-deps -w "$work/wheels" "$release/bindings/python" &&
        "$work/venv/bin/pip" install --no-index "$work/wheels"/*.whl && cd "$release/tests/library/python" && "$work/venv/bin/python" -B -m unittest test_capnp_canonical
}

# Checks that the example of the README prints the hash that the README says.
readme() {
    # shellcheck disable=SC2016
    sed -n '/^    printf/,/sha256sum$/p' "$release/README.md" | sed "s|build/capnp_canon|$work/$first-O2/capnp_canon|" >"$work/readme.sh"
    wanted=$(sed -n 's/^prints `\([0-9a-f]*\)  -`.*/\1/p' "$release/README.md")
    [ -n "$wanted" ] && [ "$(sh "$work/readme.sh")" = "$wanted  -" ]
}

# Runs all vectors with layout_tool.
layout_tool() {
    "$first" -std=c11 -O2 -Wall -Wextra -o "$work/layout_tool" "$release/generated/layout_tool.c" && python3 -B "$top/tests/vectors/run.py" "$work/layout_tool"
}

versions() {
    version=$(basename "$release")
    version=${version##*-}
    [ "$("$work/$first-O2/capnp_canon" --version)" = "capnp_canon $version" ] && grep -qx "version = \"$version\"" "$release/bindings/rust/Cargo.toml" &&
        grep -q "$version" "$release/ORIGIN"
}

[ "${1-}" != -s ] || { is_short=1; shift; }
if [ $# -gt 0 ]; then
    mkdir "$work/one" && cp "$1" "$work/one" || exit 2
else
    if has rt generated; then summed generated "$top/dev/test" --generated; fi
    part 'two releases, from two folders' releases
fi
tar xzf "$work/one"/*.tar.gz -C "$work" || { say '0 passed, 1 failed'; exit 1; }
release=$(echo "$work"/capnp_canonical-*)
summed 'the writer, by instructions' python3 -B "$here/instructions.py"
without_rt || exit 2
first=
for compiler in ${CCS:-gcc clang}; do
    has "$compiler" "$compiler" || continue
    first=${first:-$compiler}
    by_compiler "$compiler"
done
on_aarch64
summed 'vectors over layout_tool' layout_tool
summed 'capnp_layout' env ROUNDS="${ROUNDS:-2000}" sh "$release/tests/layout_c/run.sh"
summed 'run.sh over it' sh "$release/tests/library/run.sh" "$work/prefix_$first-O2"
sed -n 's/^ *\(ratio .*\)/    \1/p' "$work/log"
part 'README' readme
summed pages python3 -B "$release/tests/release/pages.py" "$release"
part versions versions
if has cmake CMake; then part CMake by_cmake; fi
if has cargo cargo; then part cargo by_cargo; fi
part pip by_pip
say "$passed passed, $failed failed"
[ $failed = 0 ]
