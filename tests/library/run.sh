#!/bin/sh
# run.sh [PREFIX]: tests the library installed at PREFIX in C, C++, Rust and Python, with the messages of rows/.
# Without PREFIX, installs it into a temporary folder first. If the tools for a part are missing, the part is skipped, and a
# line says so. The last line is `N passed, M failed`, with what was skipped.
set -u
here=$(cd "$(dirname "$0")" && pwd)
top=$(cd "$here/../.." && pwd)
rows=$here/rows
work=$(mktemp -d)
trap 'rm -rf "$work"' EXIT
trap 'exit 1' INT TERM
passed=0 failed=0 skipped=
cxx=${CXX:-c++}

# Whether all of these tools are there.
has() {
    for tool; do
        command -v "$tool" >/dev/null || return 1
    done
}

skip() {
    echo "$1: skipped, no $2"
    skipped="$skipped${skipped:+, }$1"
}

# Counts a part: its name, how many tests passed and failed, and the status of its command.
count() {
    good=$2 bad=$3
    # the command failed although no test did, or it ran no test
    if [ "$bad" = 0 ] && { [ "$4" != 0 ] || [ "$good" = 0 ]; }; then bad=1; fi
    [ "$bad" = 0 ] || cat "$work/log"
    echo "$1: $good passed, $bad failed"
    if sed -n 's/^skipped/    skipped/p' "$work/log" | grep .; then skipped="$skipped${skipped:+, }some of $1"; fi
    passed=$((passed + good)) failed=$((failed + bad))
}

# Runs a command that prints a line for each test: `ok: TEST` or `FAILED: TEST`, or lines like those of cargo and unittest.
part() {
    name=$1
    shift
    ("$@") >"$work/log" 2>&1
    status=$?
    count "$name" "$(grep -c -e '^ok: ' -e ' \.\.\. ok$' "$work/log")" \
        "$(grep -c -e '^FAILED: ' -e ' \.\.\. FAIL' -e ' \.\.\. ERROR$' "$work/log")" $status
}

# Runs a command whose last line is `N passed, M failed`.
summed() {
    name=$1
    shift
    "$@" >"$work/log" 2>&1
    status=$?
    sums=$(sed -n '$s/^\([0-9]*\) passed, \([0-9]*\) failed.*/\1 \2/p' "$work/log")
    # shellcheck disable=SC2086
    count "$name" ${sums:-0 0} $status
}

cxx_messages() {
    standard=$1
    shift
    "$cxx" -std="$standard" -Wall -Wextra -Wpedantic -Wshadow -Werror -O1 "$@" -I"$prefix/include" \
        -o "$work/messages" "$here/cpp/messages.cpp" "$prefix/lib/libcapnp_canonical.a" &&
        "$work/messages" "$rows/messages.txt" "$rows/packed.txt" "$rows/parts.txt" "$rows/streams.txt" "$rows/places.txt" "$rows/prefixes.txt"
}

# Makes random messages, flat ones and nested ones, and their canonical words with C++ Cap'n Proto.
people() {
    cp "$top/tests/peer/people.capnp" . &&
        python3 "$top/tests/peer/people.py" 9 100000 0 | capnp encode people.capnp Person >people.bin &&
        python3 "$top/tests/peer/people.py" 1 2000 2 | capnp encode people.capnp Person >nested.bin &&
        capnp convert binary:canonical people.capnp Person <people.bin >people.canonical &&
        capnp convert binary:canonical people.capnp Person <nested.bin >nested.canonical &&
        echo 'ok: messages are made'
}

# Tests each form in which a program can have a message of C++ Cap'n Proto.
cxx_types() {
    openssl=
    if echo '#include <openssl/sha.h>' | "$cxx" -E -x c++ - >/dev/null 2>&1; then openssl='-DWITH_OPENSSL -lcrypto'; fi
    # shellcheck disable=SC2086
    capnp compile -oc++ people.capnp &&
        "$cxx" -std="$1" -Wall -Wextra -O1 -I"$prefix/include" -I. -o types "$here/cpp/capnp_types.cpp" people.capnp.c++ \
            -L"$prefix/lib" -Wl,-rpath,"$prefix/lib" -lcapnp_canonical -lcapnp -lkj $openssl && ./types
}

cxx_reader() {
    capnp compile -oc++ people.capnp &&
        "$cxx" -std=c++17 -Wall -Wextra -O2 -DNDEBUG -I"$prefix/include" -I. -o reader "$here/cpp/compare.cpp" \
            people.capnp.c++ -L"$prefix/lib" -Wl,-rpath,"$prefix/lib" -lcapnp_canonical -lcapnp -lkj &&
        ./reader people.bin && ./reader write people.bin >ours && same 'all words' ours people.canonical
}

same() {
    if cmp "$2" "$3"; then echo "ok: $1, sha256 $(sha256sum <"$2" | cut -c 1-16)"; else echo "FAILED: $1"; fi
}

# Runs an example on the nested people, and compares its output with that of `capnp convert binary:canonical`.
example() {
    "$@" <nested.bin >ours && same 'nested people' ours nested.canonical
}

example_c() {
    cc -o example_c "$top/bindings/c/example.c" -I"$prefix/include" "$prefix/lib/libcapnp_canonical.a" && example ./example_c
}

example_cpp() {
    "$cxx" -std=c++17 -o example_cpp "$top/bindings/cpp/example.cpp" -I"$prefix/include" "$prefix/lib/libcapnp_canonical.a" &&
        example ./example_cpp
}

example_rust() {
    cargo build --offline --locked --example canonical --manifest-path "$top/bindings/rust/Cargo.toml" &&
        example target/debug/examples/canonical
}

example_python() {
    example env PYTHONPATH="$prefix/python" python3 -B "$top/bindings/python/examples/canonical.py"
}

page() {
    mkdir page && python3 "$here/page.py" "$prefix" "$work/page"
}

cargo_test() {
    cargo test --offline --locked --manifest-path "$top/bindings/rust/Cargo.toml" && no_unsafe
}

# Whether no code is unsafe. Comments may have the word.
no_unsafe() {
    if grep -rnw unsafe --include='*.rs' "$top/bindings/rust" "$top/generated/rust" | grep -v '^[^:]*:[0-9]*: *//'; then
        echo 'FAILED: no unsafe code'
    else
        echo 'ok: no unsafe code'
    fi
}

# Compares the crate with the library in C, on all vectors and on altered ones.
cargo_beside_c() {
    mkdir -p beside/src && cp "$here/rust/beside_c.rs" beside/src/main.rs && cat >beside/Cargo.toml <<END || return 1
[package]
name = "beside"
version = "0.0.0"
edition = "2021"
[dependencies]
capnp_canonical = { path = "$top/bindings/rust" }
[workspace]
END
    RUSTFLAGS="-L native=$prefix/lib" cargo build --offline --release --manifest-path beside/Cargo.toml &&
        python3 -B "$here/../release/lines.py" >lines && target/release/beside 1 <lines
}

# Tests the crate without its features and as a package, with nothing else of the repository, and makes its documentation.
cargo_package() {
    python3 -B "$top/tools/rust/package.py" "$work/crates" && cd "$work/crates" || return 1
    RUSTDOCFLAGS='-D warnings' cargo doc --offline --no-deps -p capnp_canonical && echo 'ok: cargo doc' || echo 'FAILED: cargo doc'
    RUSTFLAGS='-D warnings' cargo build --offline -p capnp_canonical --no-default-features && echo 'ok: no_std' || echo 'FAILED: no_std'
    if has cargo-clippy; then
        RUSTFLAGS='-D warnings' cargo clippy --offline -p capnp_canonical --lib --test interface && echo 'ok: clippy' || echo 'FAILED: clippy'
    fi
    cargo package --workspace --offline --allow-dirty --no-verify && echo 'ok: cargo package' || return 1
    mkdir "$work/packaged" "$work/nothing" && cd "$work/packaged" || return 1
    for it in "$CARGO_TARGET_DIR"/package/*.crate; do tar xzf "$it" || return 1; done
    cd capnp_canonical-* &&
        cargo_with "$work/nothing" test --config "patch.crates-io.capnp_layout.path='$(echo "$work"/packaged/capnp_layout-*)'"
}

# Runs cargo with the crates of a folder and no others.
cargo_with() {
    crates=$1
    shift
    cargo "$@" --offline --config 'source.crates-io.replace-with="folder"' --config "source.folder.directory='$crates'"
}

# Tests the package as pip installs it, in its own environment.
wheel() {
    python3 -m venv "$work/venv" && mkdir "$work/wheel_of" && cp -R "$top/bindings" "$top/LICENSE" "$work/wheel_of" || return 1
    CAPNP_CANONICAL_LIBRARY=$prefix/lib/libcapnp_canonical.so "$work/venv/bin/pip" install --no-index "$work/wheel_of/bindings/python" || return 1
    cd "$here/python" && env -u PYTHONPATH -u CAPNP_CANONICAL_LIBRARY "$work/venv/bin/python" -B -m unittest -v test_capnp_canonical test_interface test_commands
}

compiled_for_pip() {
    cd "$here/python" && CAPNP_CANONICAL_LIBRARY=$prefix/lib/libcapnp_canonical.so python3 -B -m unittest -v test_build_wheel
}

# Checks the types of the package, of a program that uses it, and of the example.
types_of_python() {
    cd "$prefix/python" && set -- "$(python_with mypy)" -m mypy --strict --cache-dir "$work/mypy" &&
        "$@" -p capnp_canonical && echo 'ok: mypy --strict' &&
        "$@" "$here/python/types_of_python.py" "$top/bindings/python/examples/canonical.py" && echo 'ok: mypy --strict of programs'
}

# Builds a program that finds the library with CMake.
by_cmake() {
    mkdir "$work/cmake" && cp "$top/bindings/c/example.c" "$work/cmake" && cat >"$work/cmake/CMakeLists.txt" <<'END' || return 1
cmake_minimum_required(VERSION 3.13)
project(example LANGUAGES C)
find_package(capnp_canonical 1.1 REQUIRED)
add_executable(shared example.c)
target_link_libraries(shared capnp_canonical::capnp_canonical)
add_executable(static example.c)
target_link_libraries(static capnp_canonical::static)
END
    cmake -S "$work/cmake" -B "$work/cmake/build" -DCMAKE_PREFIX_PATH="$prefix" && cmake --build "$work/cmake/build" || return 1
    for form in shared static; do
        printf '\0\0\0\0\1\0\0\0\374\377\377\377\0\0\0\0' | "$work/cmake/build/$form" >"$work/cmake/words" &&
            printf '\374\377\377\377\0\0\0\0' | cmp - "$work/cmake/words" && echo "ok: find_package, $form"
    done
}

# Whether CMake optimises the generated C in each build type, and tells the compiler what is visible of the shared library.
cmake_flags() {
    for type in Debug Release RelWithDebInfo MinSizeRel None; do
        cmake -S "$top" -B "$work/cmake_flags" -DCMAKE_BUILD_TYPE=$type -DBUILD_SHARED_LIBS=ON -DCMAKE_EXPORT_COMPILE_COMMANDS=ON || return 1
        grep '"command"' "$work/cmake_flags/compile_commands.json" >commands
        if grep -q -v -e ' -O[23s] ' commands; then echo "FAILED: -O, $type"; else echo "ok: -O, $type"; fi
        grep -q -e '-DCAPNP_CANONICAL_BUILDS_SHARED .*-fvisibility=hidden' commands && echo "ok: visibility, $type"
    done
}

# The python3 that has a module, of the system or in the path.
python_with() {
    for python in python3 /usr/bin/python3; do
        "$python" -c "import $1" 2>/dev/null && echo "$python" && return
    done
    return 1
}

cluster() {
    cd "$here/python" && PYTHONPATH=$prefix/python "$(python_with distributed)" -B -m unittest -v test_cluster
}

unittest() {
    cd "$here/python" && PYTHONPATH=$prefix/python "$1" -B -m unittest -v test_capnp_canonical test_interface test_commands
}

if [ $# -gt 0 ]; then
    prefix=$(cd "$1" && pwd) || exit 2
else
    prefix=$work/prefix
    "$top/install" "$prefix" || exit 2
fi
export CARGO_TARGET_DIR="$work/target"

cd "$work" || exit 2
has_cc=$(has cc && echo 1)
has_cxx=$(has "$cxx" && echo 1)
has_cargo=$(has cargo && echo 1)
has_python=$(has python3 && echo 1)
has_capnp=$(has capnp python3 && echo 1)

if [ "$has_cc" ]; then summed C sh "$here/c/run.sh" "$prefix"; else skip C cc; fi
if has cc pkg-config python3 && [ "$(uname -m)" = x86_64 ]; then
    part stack sh "$here/c/stack.sh" "$prefix"
else
    skip stack 'cc, pkg-config, python3 or x86-64'
fi
for standard in c++17 c++20; do
    if [ ! "$has_cxx" ]; then
        skip $standard "$cxx"
    elif ! echo 'int main() {}' | "$cxx" -std=$standard -x c++ -o none - 2>log; then
        skip $standard "$cxx -std=$standard"
    else
        part $standard cxx_messages $standard
        part "$standard with the address sanitizer" cxx_messages $standard -g -fsanitize=address,undefined -fno-sanitize-recover
    fi
done
if [ "$has_cxx" ]; then
    part 'temporaries of C++' sh "$here/cpp/temporaries.sh" "$prefix/include"
    part 'headers of C++' sh "$here/cpp/headers.sh" "$prefix"
fi
if has clang-tidy clang++; then part clang-tidy sh "$here/cpp/tidy.sh"; else skip clang-tidy clang-tidy; fi
if [ "$has_cargo" ]; then
    part Rust cargo_test
    if [ "$has_python" ]; then
        part 'package for cargo' cargo_package
        summed 'Rust beside C' cargo_beside_c
    else
        skip 'package for cargo, Rust beside C' python3
    fi
    part 'crate over capnp' sh "$here/rust/capnp_crate.sh"
else
    skip Rust cargo
fi
if [ "$has_python" ]; then
    part Python unittest "$(python_with numpy || echo python3)"
    if [ "$has_cc" ]; then part 'C compiled for pip' compiled_for_pip; else skip 'C compiled for pip' cc; fi
    if python3 -c 'import venv, ensurepip' 2>log; then part 'package for pip' wheel; else skip 'package for pip' 'venv of python3'; fi
    if python_with mypy >log; then part 'types of Python' types_of_python; else skip 'types of Python' mypy; fi
    if python_with distributed >log; then part 'Dask cluster' cluster; else skip 'Dask cluster' 'distributed of python3'; fi
else
    skip Python python3
fi
if has cmake; then part CMake by_cmake && part 'flags of CMake' cmake_flags; else skip CMake cmake; fi
if has rt; then part ./install sh "$here/install.sh"; else skip ./install rt; fi

if [ ! "$has_capnp" ]; then
    skip 'comparison with capnp' 'capnp or python3'
else
    part 'messages by capnp' people
    if [ ! "$has_cxx" ]; then
        skip MessageReader "$cxx"
    elif ! echo '#include <capnp/message.h>' | "$cxx" -std=c++17 -E -x c++ - >log 2>&1; then
        skip MessageReader capnp/message.h
    else
        part 'types of C++ Cap'\''n Proto' cxx_types c++17
        part MessageReader cxx_reader
        sed -n 's/^ok: \(ratio .*\)/    \1/p' log
        if ! has openssl xxd "$prefix/bin/capnp_canon" || ! echo '#include <openssl/hmac.h>' | "$cxx" -E -x c++ - >log 2>&1; then
            skip 'signed in C++' "openssl, openssl/hmac.h, xxd or $prefix/bin/capnp_canon"
        else
            part 'signed in C++, verified in Python and at the shell' sh "$here/cpp/signed.sh" "$prefix"
        fi
    fi
    [ ! "$has_cc" ] || part 'example in C' example_c
    [ ! "$has_cxx" ] || part 'example in C++' example_cpp
    [ ! "$has_cargo" ] || part 'example in Rust' example_rust
    part 'example in Python' example_python
    part "the pages' examples" page
fi

echo "$passed passed, $failed failed${skipped:+; skipped: $skipped}"
[ $failed = 0 ]
