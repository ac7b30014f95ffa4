#!/bin/sh
# clone.sh [NAME..]: clones the last commit into a temporary folder, and builds and tests it there like a newcomer, with the C
# compiler $CC, or cc, and without the toolchain's command `rt`. NAMEs choose the parts: first, layout, check, compilers, sanitized,
# library, musl, machines, cmake, pip, cargo, wasm, release; by default all. On Windows, `library` is all that works.
#
# If a tool is missing, its part is skipped, and a line says so. The last line is `N passed, M failed`.
set -u
here=$(cd "$(dirname "$0")" && pwd) || exit 2
top=$(cd "$here/../.." && pwd) || exit 2
work=$(cd "$(mktemp -d)" && pwd -P) || exit 2
trap 'rm -rf "$work"' EXIT
trap 'exit 1' INT TERM
clone=$work/clone message=$work/clone/tests/peer/person.bin
canonical=62cac392152416d2e5417a2626d7f3eae39e50670674e711134666536187c231
sanitized='-O1 -g -fno-omit-frame-pointer -fsanitize=address,undefined -fno-sanitize-recover=all'
passed=0 failed=0
: "${CC:=cc}"

say() {
    printf '%s\n' "$*"
}

# Whether these tools are there.
has() {
    what=$1
    shift
    for it; do command -v "$it" >/dev/null || { say "$what: skipped, no $it"; return 1; }; done
}

# Runs a part that passes or fails by its exit status, and says how many seconds it took.
#
#     part NAME COMMAND..
part() {
    name=$1 start=$(date +%s)
    shift
    if (cd "$clone" && "$@") >"$work/log" 2>&1; then
        passed=$((passed + 1))
        say "$name: passed, $(($(date +%s) - start)) s"
    else
        failed=$((failed + 1))
        tail -n 20 "$work/log"
        say "$name: failed"
    fi
}

# Removes the folders that have a command `rt` from the path, and keeps their other commands.
without_rt() {
    number=0
    while rt=$(command -v rt); do
        folder=$(dirname "$rt") number=$((number + 1))
        mkdir "$work/bin$number" && ln -s "$folder"/* "$work/bin$number" && rm "$work/bin$number/rt" || return 1
        PATH=$(printf %s ":$PATH:" | sed "s|:$folder/*:|:$work/bin$number:|g; s/^://; s/:$//")
    done
}

# Whether standard input is the canonical words of the message.
is_canonical() {
    if command -v sha256sum >/dev/null; then set -- sha256sum; else set -- shasum -a 256; fi
    [ "$("$@")" = "$canonical  -" ]
}

# The commands of the README: build, ask.
first() {
    make CC="$CC" && ./capnp_canon canon --flat "$message" | is_canonical
}

# Whether standard input is what bindings/c/reading.c prints of tests/layout_c/book.bin.
is_read() {
    cmp - "$clone/tests/layout_c/people.txt"
}

# The program that reads, with the library capnp_layout as make leaves it, and with its C among the sources.
reading() {
    make layout CC="$CC" && $CC -Ibindings/c -o "$work/reading" bindings/c/reading.c build/libcapnp_layout.a && "$work/reading" <tests/layout_c/book.bin | is_read &&
        $CC -std=c99 -Ibindings/c -o "$work/reading_too" bindings/c/reading.c generated/capnp_layout.c && "$work/reading_too" <tests/layout_c/book.bin | is_read
}

# Builds only the library capnp_layout, for another machine, into a folder of this name, and tests it.
#
#     layout NAME CC [VARIABLE=VALUE..]
layout() {
    name=$1 cc=$2
    shift 2
    make check-layout BUILD="$work/layout_$name" CC="$cc" "$@"
}

# On a machine of 32 bits CMake builds and installs only capnp_layout.
layout_by_cmake() {
    cmake -B "$work/cmake_32" -DCMAKE_C_FLAGS=-m32 -DCMAKE_INSTALL_LIBDIR=lib && cmake --build "$work/cmake_32" && cmake --install "$work/cmake_32" --prefix "$work/of_32" &&
        (cd "$work/of_32/lib" && printf '%s\n' *.*) | grep -qx libcapnp_layout.a
}

# The script of the program that isn't in the quick start, and that scripts pass on input.
programs() {
    make all CC="$CC" && ./capnp_canon canon --flat <"$message" | is_canonical &&
        [ "$(echo 0000000001000000 2a00000000000000 | tr -d ' ' | dev/layout_tool canon 64 8388608)" = 00000000010000002a00000000000000 ]
}

# The generators, which make builds first, write the code that the repository has.
generators() {
    mkdir "$work/typed" && capnp compile --src-prefix=tests/typed -o./capnpc-layout-c:"$work/typed" -o./capnpc-layout-rust:"$work/typed" \
        tests/typed/addressbook.capnp tests/typed/fields.capnp || return 1
    for it in addressbook fields; do
        cmp "$work/typed/$it.capnp.h" "tests/typed/c/$it.capnp.h" && cmp "$work/typed/${it}_capnp.rs" "tests/typed/rust/src/${it}_capnp.rs" || return 1
    done
    [ -x build/capnpc_layout_c ] && [ -x build/capnpc_layout_rust ]
}

# Builds into a folder of this name, and runs `make check`.
#
#     checked NAME CC [CFLAGS [VARIABLE=VALUE..]]
checked() {
    name=$1 cc=$2 flags=${3--O2}
    shift 2
    [ $# = 0 ] || shift
    make check BUILD="$work/$name" CC="$cc" CFLAGS="$flags" "$@"
}

# Builds only the static library, and runs the C test and all vectors with it.
#
#     library NAME CC [RUNNER..]
library() {
    folder=$work/$1 cc=$2
    shift 2
    make BUILD="$folder" CC="$cc" "$folder/libcapnp_canonical.a" || return 1
    for it in tests/library/c/test.c tests/release/vectors.c; do
        # shellcheck disable=SC2086
        $cc -std=c11 -O2 -Ibindings/c -o "$folder/$(basename $it .c).exe" $it "$folder/libcapnp_canonical.a" || return 1
    done
    "$@" "$folder/test.exe" tests/library/rows/messages.txt && python3 -B tests/release/lines.py >"$folder/vectors.txt" && "$@" "$folder/vectors.exe" <"$folder/vectors.txt"
}

on_windows() {
    export WINEPREFIX="$work/wine" WINEDEBUG=-all
    library windows x86_64-w64-mingw32-gcc "$1"
}

# A static program needs no file of the system.
by_musl() {
    make BUILD="$work/musl" CC='musl-gcc -static' "$work/musl/capnp_canon" "$work/musl/libcapnp_canonical.a" && ! ldd "$work/musl/capnp_canon" &&
        "$work/musl/capnp_canon" canon --flat "$message" | is_canonical
}

# Whether the compiler for such a machine refuses each file, and says why. One of 32 bits takes capnp_layout.
#
#     refused WHY CC..
refused() {
    why=$1
    shift
    for it in generated/*.c; do
        case $why:$it in *'64 bits:generated/capnp_layout.c') continue ;; esac
        if "$@" -std=c11 -Ibindings/c -fsyntax-only "$it" 2>"$work/refused" || ! grep "error.*\"$why\"" "$work/refused"; then cat "$work/refused"; return 1; fi
    done
}

# A CMake project that uses both libraries as its lines say. If it has them as a part of itself, nothing of them is installed, and
# nothing is built that isn't linked.
#
#     by_cmake NAME LINE..
by_cmake() {
    project=$work/cmake_$1 name=$1
    shift
    mkdir "$project" && {
        printf 'cmake_minimum_required(VERSION 3.14)\nproject(user C)\n' && printf '%s\n' "$@" && cat <<END
add_executable(example "$clone/bindings/c/example.c")
target_link_libraries(example capnp_canonical::capnp_canonical)
add_executable(reading "$clone/bindings/c/reading.c")
target_link_libraries(reading capnp_layout::capnp_layout)
END
    } >"$project/CMakeLists.txt" && cmake -S "$project" -B "$project/build" -DCMAKE_PREFIX_PATH="$work/prefix" &&
        cmake --build "$project/build" && "$project/build/example" <"$message" | is_canonical &&
        "$project/build/reading" <tests/layout_c/book.bin | is_read || return 1
    [ "$name" = found ] || { cmake --install "$project/build" --prefix "$project/installed" && [ ! -e "$project/installed" ]; } || return 1
    [ -z "$(find "$project/build" -name capnp_canon.dir)" ]
}

# A CMake project that links only capnp_layout builds only that.
layout_within() {
    project=$work/cmake_layout
    mkdir "$project" && cat >"$project/CMakeLists.txt" <<END && cmake -S "$project" -B "$project/build" && cmake --build "$project/build" && "$project/build/reading" <tests/layout_c/book.bin | is_read || return 1
cmake_minimum_required(VERSION 3.14)
project(user C)
add_subdirectory("$clone" of_capnp)
add_executable(reading "$clone/bindings/c/reading.c")
target_link_libraries(reading capnp_layout::capnp_layout)
END
    [ "$(find "$project/build" -name '*.a' | wc -l)" = 1 ]
}

installed_by_cmake() {
    cmake -B "$work/cmake" && cmake --build "$work/cmake" && cmake --install "$work/cmake" --prefix "$work/prefix"
}

installed_by_make() {
    make install PREFIX="$work/made" && "$work/made/bin/capnp_canon" canon --flat "$message" | is_canonical
}

# make installs capnp_layout by itself too, and pkg-config finds it.
layout_installed() {
    make install-layout PREFIX="$work/lone" CC="$CC" || return 1
    flags=$(PKG_CONFIG_PATH="$work/lone/lib/pkgconfig" pkg-config --cflags --libs capnp_layout) || return 1
    # shellcheck disable=SC2086
    $CC -o "$work/lone/reading" bindings/c/reading.c $flags -Wl,-rpath,"$work/lone/lib" && "$work/lone/reading" <tests/layout_c/book.bin | is_read
}

# Installs the package into an environment of its own, and uses it.
#
#     by_pip NAME WHAT
by_pip() {
    python3 -m venv "$work/venv_$1" && "$work/venv_$1/bin/pip" install --no-index "$2" && cd "$work" &&
        "venv_$1/bin/python" -c 'import capnp_canonical, sys; sys.stdout.buffer.write(capnp_canonical.copy_flat(open(sys.argv[1], "rb").read()))' "$message" | is_canonical
}

# Makes a crate with a dependency as `cargo add` is told, and runs it.
#
#     by_cargo NAME WORD..
by_cargo() {
    crate=$work/crate_$1
    shift
    export CARGO_HOME="$work/cargo" CARGO_NET_GIT_FETCH_WITH_CLI=true
    cargo new -q --vcs none --name user "$crate" && cd "$crate" && cargo add "$@" && cat >src/main.rs <<'END' && cargo run -q <"$message" | is_canonical
use std::io::{Read, Write};
fn main() {
    let mut frame = Vec::new();
    std::io::stdin().read_to_end(&mut frame).unwrap();
    let words = capnp_canonical::canonical_words(&frame, capnp_canonical::Limits::default()).unwrap();
    std::io::stdout().write_all(&words).unwrap();
}
END
}

# The module for JavaScript: the same bytes again, if the same compiler makes it.
by_wasm() {
    make wasm || return 1
    if grep -qxF "compiler: $(clang --version | head -n 1)" "$top/bindings/js/ORIGIN"; then git diff --exit-code --stat; fi
    status=$?
    git checkout -q bindings/js && return $status
}

# Two releases of the clone are the same, and one builds.
released() {
    dev/release "$work/one" && dev/release "$work/two" && cmp "$work"/one/*.tar.gz "$work"/two/*.tar.gz && tar xzf "$work"/one/*.tar.gz -C "$work" &&
        make -C "$work"/capnp_canonical-* check CC="$CC"
}

unchanged() {
    git status --short && [ -z "$(git status --porcelain)" ]
}

is_wanted() {
    case " ${parts:=first layout check compilers sanitized library musl machines cmake pip cargo wasm release} " in *" $1 "*) ;; *) return 1 ;; esac
}

parts="$*"
without_rt || exit 2
mkdir "$clone" && part 'git clone' git clone -q "$top" . || exit 1
if is_wanted first; then part 'make, and the first answer' first; fi
if is_wanted layout; then
    part 'a program that reads' reading
    if has 'make install-layout' pkg-config; then part 'make install-layout' layout_installed; fi
    # Debian's names of compilers
    if $CC -m32 -o "$work/runs" -x c - <<END 2>/dev/null && "$work/runs"; then
int main(void) { return sizeof(void *) != 4; }
END
        part 'capnp_layout, 32 bits' layout m32 "$CC -m32"
        if has 'CMake, 32 bits' cmake; then part 'CMake, 32 bits' layout_by_cmake; fi
    else
        say 'capnp_layout, 32 bits: skipped, no compiler for it'
    fi
    if has 'capnp_layout, armhf' arm-linux-gnueabihf-gcc qemu-arm; then
        part 'capnp_layout, armhf' layout armhf arm-linux-gnueabihf-gcc RUNNER='qemu-arm -L /usr/arm-linux-gnueabihf'
    fi
    if has 'capnp_layout, aarch64' aarch64-linux-gnu-gcc qemu-aarch64; then
        part 'capnp_layout, aarch64' layout aarch64 aarch64-linux-gnu-gcc RUNNER='qemu-aarch64 -L /usr/aarch64-linux-gnu'
    fi
fi
if is_wanted check; then
    part 'the programs' programs
    if has 'the generators' capnp; then part 'the generators' generators; fi
    part "make check, $CC" make check CC="$CC"
    if has 'vectors over layout_tool' python3; then part 'vectors over layout_tool' python3 -B tests/vectors/run.py build/layout_tool; fi
    if has 'sums of generated/' python3; then part 'sums of generated/' python3 -B tools/generated.py --sums; fi
fi
if is_wanted compilers; then
    for compiler in gcc clang; do
        if has "make check, $compiler" $compiler; then
            part "make all, $compiler" make all BUILD="$work/$compiler" CC="$compiler" CFLAGS='-O2 -Wall -Wextra -Werror'
            part "make check, $compiler" checked $compiler $compiler '-O2 -Wall -Wextra -Werror'
        fi
    done
fi
if is_wanted sanitized; then part "make check, $CC, sanitized" checked sanitized "$CC" "$sanitized"; fi
if is_wanted library; then
    if has library python3; then part "library, $CC" library library "$CC"; fi
    # Debian's name of the program
    wine=$(command -v wine || echo /usr/lib/wine/wine64)
    if has 'library for Windows' x86_64-w64-mingw32-gcc "$wine" python3; then
        part 'library for Windows' on_windows "$wine"
    fi
fi
if is_wanted musl && has musl musl-gcc; then
    part 'make check, musl' checked musl_check musl-gcc
    part 'a static program, musl' by_musl
fi
if is_wanted machines; then
    # Debian's names of compilers and folders
    if has aarch64 aarch64-linux-gnu-gcc qemu-aarch64; then
        part 'make check, aarch64' checked aarch64 aarch64-linux-gnu-gcc -O2 RUNNER='qemu-aarch64 -L /usr/aarch64-linux-gnu'
    fi
    set -- i686-linux-gnu-gcc
    command -v "$1" >/dev/null || set -- gcc -m32 -idirafter /usr/include/x86_64-linux-gnu
    if printf '#include <errno.h>\n' | "$@" -fsyntax-only -x c - 2>/dev/null; then
        part 'refused, i386' refused 'this needs a machine of 64 bits' "$@"
    else
        say 'i386: skipped, no compiler for it'
    fi
    if has armhf arm-linux-gnueabihf-gcc; then part 'refused, armhf' refused 'this needs a machine of 64 bits' arm-linux-gnueabihf-gcc; fi
    if has s390x s390x-linux-gnu-gcc; then part 'refused, s390x' refused 'this needs gcc or clang, and a little-endian machine' s390x-linux-gnu-gcc; fi
fi
if is_wanted cmake; then
    part 'make install' installed_by_make
    if has CMake cmake; then
        part 'CMake' installed_by_cmake
        part 'CMake, find_package' by_cmake found 'find_package(capnp_canonical 1.0 REQUIRED)' 'find_package(capnp_layout 1.1 REQUIRED)'
        part 'CMake, add_subdirectory, capnp_layout only' layout_within
        part 'CMake, add_subdirectory' by_cmake within "add_subdirectory(\"$clone\" capnp_canonical)"
        part 'CMake, FetchContent' by_cmake fetched 'include(FetchContent)' \
            "FetchContent_Declare(capnp_canonical GIT_REPOSITORY \"file://$clone\" GIT_TAG $(git -C "$clone" rev-parse HEAD))" 'FetchContent_MakeAvailable(capnp_canonical)'
    fi
fi
if is_wanted pip && has pip python3; then
    part 'pip install .' by_pip here "$clone"
    part 'pip install ./bindings/python' by_pip below "$clone/bindings/python"
    part 'pip install git+URL' by_pip git "git+file://$clone"
    part 'pip install git+URL#subdirectory' by_pip git_below "git+file://$clone#subdirectory=bindings/python"
fi
if is_wanted cargo && has cargo cargo; then
    part 'cargo add --path' by_cargo path --path "$clone/bindings/rust"
    part 'cargo add --git' by_cargo git --git "file://$clone" capnp_canonical
    part 'cargo test' env CARGO_TARGET_DIR="$work/target" cargo test --offline --locked --manifest-path bindings/rust/Cargo.toml
    if has 'cargo package' python3; then part 'cargo package' make crate BUILD="$work/packages"; fi
    # for another system, if rustup has Rust's library for it; a library needs no linker
    for target in aarch64-unknown-linux-gnu x86_64-pc-windows-msvc aarch64-apple-darwin x86_64-unknown-none; do
        if [ -d "$(rustc --print sysroot)/lib/rustlib/$target" ]; then
            part "cargo build, $target" env CARGO_TARGET_DIR="$work/target" cargo build --offline --locked --lib --no-default-features --target $target --manifest-path bindings/rust/Cargo.toml
        else
            say "cargo build, $target: skipped, no library of Rust for it"
        fi
    done
fi
if is_wanted release && has release python3; then part 'release' released; fi
if is_wanted wasm && has 'make wasm' clang wasm-ld; then part 'make wasm' by_wasm; fi
part 'nothing is left in the clone' unchanged
say "$passed passed, $failed failed"
[ $failed = 0 ]
