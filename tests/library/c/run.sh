#!/bin/sh
# run.sh PREFIX: runs the C example and the C test with the library that ./install put below PREFIX. If the tools for a part are
# missing, the part is skipped, and a line says so. The last line is `N passed, M failed`.
set -u
here=$(cd "$(dirname "$0")" && pwd) || exit 2
top=$here/../../.. rows=$here/../rows
prefix=${1:?usage: run.sh PREFIX}
CC=${CC:-cc}
PKG_CONFIG_PATH=$prefix/lib/pkgconfig
export PKG_CONFIG_PATH
folder=$(mktemp -d) || exit 2
trap 'rm -rf "$folder"' EXIT
passed=0 failed=0
flags='-std=c99 -Wall -Wextra -Werror -O1 -g'

# Counts a part by its exit status, and shows its output if it fails.
#
#     part NAME COMMAND..
part() {
    name=$1
    shift
    if "$@" >"$folder/said" 2>&1; then
        passed=$((passed + 1))
        echo "$name: $(grep ' passed, ' "$folder/said" || echo passed)"
    else
        failed=$((failed + 1))
        tail -n 20 "$folder/said"
        echo "$name: failed"
    fi
}

has() {
    command -v "$1" >/dev/null || { echo "skipped, because $1 isn't there: $2"; return 1; }
}

# Builds a source with the library.
#
#     build OUTPUT SOURCE WHICH FLAG..    WHICH is static or shared
build() {
    output=$folder/$1 source=$top/$2 which=$3
    shift 3
    case $which in
    static) library=$(pkg-config --variable=libdir capnp_canonical)/libcapnp_canonical.a ;;
    shared) library="$(pkg-config --libs capnp_canonical) -Wl,-rpath,$prefix/lib" ;;
    esac
    "$CC" $flags "$@" $(pkg-config --cflags capnp_canonical) -o "$output" "$source" $library
}

# Runs the example on each message of the data file that has a copy, and compares with C++ Cap'n Proto.
example() {
    grep -v '^#' "$rows/messages.txt" | while read -r name frame copy flat rest; do
        [ "$copy" = Done ] || continue
        printf %s "$frame" | xxd -r -p >"$folder/frame"
        printf %s "$flat" | xxd -r -p >"$folder/flat"
        "$folder/$1" <"$folder/frame" | cmp - "$folder/flat" || exit 1
        if command -v capnp >/dev/null; then
            capnp convert --quiet binary:canonical <"$folder/frame" | cmp - "$folder/flat" || exit 1
        fi
    done
}

# Checks what the example prints about a mistake: one line that says what and where, after the answers before it.
#
#     says EXAMPLE LINE BYTES..    the bytes as hex digits
says() {
    example=$1 line=$2
    shift 2
    printf %s "$@" | xxd -r -p | "$folder/$example" >"$folder/written" 2>"$folder/error"
    [ $? = 2 ] && [ "$(cat "$folder/error")" = "$line" ] || { cat "$folder/error"; return 1; }
}

mistakes() {
    many='refused TooManySegments: the frame has more than 512 segments; the bytes look like'
    good=0000000003000000000000000200000011111111111111110000000000000080
    says "$1" "message 1 at byte 0: $many gzip" 1f8b080000000000 &&
        says "$1" "message 2 at byte 32: $many text" $good 2869642031290a20 && [ "$(wc -c <"$folder/written")" = 24 ] &&
        says "$1" "message 2 at byte 32: $many packed messages" $good 10021001012a &&
        says "$1" "message 1 at byte 0: $many raw canonical words" fcffffff00000000 &&
        says "$1" 'message 2 at byte 32: refused Truncated: the bytes end inside a frame or a packed word' $good 000000000300 &&
        says "$1" 'message 1 at byte 0: refused MessageContainsOutOfBoundsPointer: a pointer points outside its segment' 00000000010000000000000001000000 || return 1
    "$folder/$1" </ 2>"$folder/error"
    [ "$(cat "$folder/error")" = 'standard input: Is a directory' ] || return 1
    printf %s $good | xxd -r -p | "$folder/$1" 2>"$folder/error" >/dev/full
    [ "$(cat "$folder/error")" = 'standard output: No space left on device' ]
}

# Checks that a library has no visible names except those of its header.
#
#     names LIBRARY
names() {
    sed -n "s/^[a-z].* \\($1_[a-z0-9_]*\\)(.*/\\1/p" "$top/bindings/c/$1.h" | sort >"$folder/declared"
    nm -D --defined-only "$prefix/lib/lib$1.so" | awk '$2 == "T" { sub("@.*", "", $3); print $3 }' | sort | cmp - "$folder/declared" \
        && nm -g --defined-only "$prefix/lib/lib$1.a" | awk '$2 == "T" { print $3 }' | sort | cmp - "$folder/declared"
}

# Checks that each function of a library has the symbol version of tools/exports.txt.
#
#     versions LIBRARY
versions() {
    awk -v library="$1" '!/^#/ && index($2, library "_") == 1 { print $2 "@@" toupper(library) "_" $1 }' "$top/tools/exports.txt" | sort >"$folder/listed"
    nm -D --defined-only "$prefix/lib/lib$1.so" | awk '$2 == "T" { print $3 }' | sort | diff "$folder/listed" -
}

# Reads a message with capnp_layout.
#
#     reading FLAG..
reading() {
    "$CC" $flags $(pkg-config --cflags capnp_layout) -o "$folder/reading" "$top/bindings/c/reading.c" "$@" &&
        "$folder/reading" <"$top/tests/layout_c/book.bin" | cmp - "$top/tests/layout_c/people.txt"
}

# Starts a program with a library of version 1.0.0, which lacks functions that it calls: the loader says so.
older() {
    mkdir -p "$folder/older" && awk '$1 == 1 { print "int " $2 "(void) { return 0; }" }' "$top/tools/exports.txt" >"$folder/older.c" &&
        printf 'CAPNP_CANONICAL_1 { global: capnp_canonical_*; local: *; };\n' >"$folder/older.map" &&
        "$CC" -shared -Wl,-soname,libcapnp_canonical.so.1 -Wl,--version-script="$folder/older.map" -o "$folder/older/libcapnp_canonical.so.1" "$folder/older.c" || return 1
    LD_LIBRARY_PATH=$folder/older "$folder/$1" "$rows/messages.txt" >"$folder/written" 2>&1 && return 1
    cat "$folder/written"
    grep -q "CAPNP_CANONICAL_1.1' not found" "$folder/written"
}

# Checks that the shared library has the same visible names if no list tells the linker, but the header the compiler.
visible() {
    "$CC" -std=c11 -O1 -w -fPIC -shared -fvisibility=hidden -DCAPNP_CANONICAL_BUILDS_SHARED -I"$top/bindings/c" -o "$folder/visible.so" "$top/generated/capnp_canonical.c" &&
        nm -D --defined-only "$folder/visible.so" | awk '$2 == "T" { print $3 }' | sort | cmp - "$folder/declared"
}

# Checks that each of these programs of one statement is refused with a warning, and that the header alone gives none.
#
#     warned COMPILER..
warned() {
    for compiler; do
        command -v "$compiler" >/dev/null || continue
        told "$compiler" 'return (int)capnp_canonical_frame_size(bytes, size, 8, &size);' '' || return 1
        told "$compiler" 'capnp_canonical_frame_size(bytes, size, 8, &size);' unused-result || return 1
        told "$compiler" 'capnp_canonical_check_within(bytes, size, NULL, NULL, NULL);' unused-result || return 1
        told "$compiler" 'return (int)capnp_canonical_frame_size(bytes, size, 8, NULL);' nonnull || return 1
        told "$compiler" 'return (int)capnp_canonical_digest_within(bytes, size, NULL, NULL);' nonnull || return 1
        told "$compiler" 'return capnp_canonical_looks_text(bytes, size);' deprecated || return 1
    done
    # only gcc knows how many bytes are read and written
    "$CC" --version | grep -q clang && return
    told "$CC" 'return (int)capnp_canonical_copy_flat((const uint8_t *)"12345678", 10, 64, 8, bytes, size, &size);' stringop-overread &&
        told "$CC" 'uint8_t to[8]; return (int)capnp_canonical_copy_flat(bytes, size, 64, 8, to, 9, &size);' stringop-overflow
}

# Whether a compiler says this of a statement; nothing, if it is empty.
told() {
    printf '#include "capnp_canonical_limits.h"\nint use(uint8_t *bytes, size_t size) {\n    %s\n    return 0;\n}\n' "$2" >"$folder/told.c"
    "$1" -std=c99 -Wall -Wextra -Wpedantic -Wconversion -Wsign-conversion -Wshadow -Wundef -O2 -I"$prefix/include" -c -o "$folder/told.o" "$folder/told.c" 2>"$folder/told"
    if [ "$3" ]; then grep -q -e "-W.*$3" "$folder/told"; else [ ! -s "$folder/told" ]; fi && return
    echo "$1, $2: $3" && cat "$folder/told"
    return 1
}

# Checks that a header that isn't that of a released version any more is refused.
interfaces() {
    python3 -B "$here/../interface.py" || return 1
    for change in 's/REASON_PADDING = 8/REASON_PADDING = 15/' 's/_words_size(const uint8_t \*message, size_t size, int32_t nesting, uint64_t words/_words_size(const uint8_t *message, size_t size, uint64_t words, int32_t nesting/' \
        's/uint64_t pointer_segment;/uint32_t pointer_segment;/' 's/define CAPNP_CANONICAL_TEXT_ROOM 96/define CAPNP_CANONICAL_TEXT_ROOM 97/' 's/ capnp_canonical_looks_text(/ capnp_canonical_seems_text(/'; do
        mkdir -p "$folder/headers" && cp "$top/bindings/c/capnp_canonical_limits.h" "$folder/headers" || return 1
        sed "$change" "$top/bindings/c/capnp_canonical.h" >"$folder/headers/capnp_canonical.h"
        if python3 -B "$here/../interface.py" "$folder/headers" >"$folder/changed"; then echo "$change isn't seen" && return 1; fi
        # one line differs, and the sentence about it names its version
        if [ "$(grep -c '^not as in version 1' "$folder/changed")" != 1 ]; then cat "$folder/changed" && return 1; fi
    done
}

has "$CC" "all of it" && has pkg-config "all of it" || { echo "0 passed, 0 failed"; exit 0; }
for library in capnp_layout capnp_canonical; do
    part "names, $library" names $library
    part "versions of names, $library" versions $library
done
part "capnp_layout, static" reading "$(pkg-config --variable=libdir capnp_layout)/libcapnp_layout.a"
part "capnp_layout, shared" reading $(pkg-config --libs capnp_layout) -Wl,-rpath,"$prefix/lib"
part "names where no list tells the linker" visible
part "what compilers warn of" warned "$CC" clang
if has python3 "names, numbers and layouts of earlier versions"; then part "names, numbers and layouts of earlier versions" interfaces; fi
for which in static shared; do
    part "example, $which, built" build "example_$which" bindings/c/example.c "$which"
    has xxd "the examples' answers" && part "example, $which" example "example_$which"
    has xxd "the example's mistakes" && part "mistakes, $which" mistakes "example_$which"
    part "functions of the header, $which, built" build "inline_$which" tests/library/c/inline.c "$which"
    part "functions of the header, $which" "$folder/inline_$which" "$rows/messages.txt"
    part "limits in a struct, $which, built" build "limits_$which" tests/library/c/limits.c "$which"
    part "limits in a struct, $which" "$folder/limits_$which" "$rows/messages.txt"
    part "test, $which, built" build "test_$which" tests/library/c/test.c "$which"
    part "test, $which" "$folder/test_$which" "$rows/messages.txt"
    part "packed bytes, $which, built" build "unpack_$which" tests/library/c/unpack.c "$which"
    part "packed bytes, $which" "$folder/unpack_$which" "$rows/packed.txt"
    part "pieces of packed streams, $which, built" build "pieces_$which" tests/library/c/pieces.c "$which"
    part "pieces of packed streams, $which" "$folder/pieces_$which" "$rows/streams.txt"
    part "parts of messages, $which, built" build "parts_$which" tests/library/c/parts.c "$which"
    part "parts of messages, $which" "$folder/parts_$which" "$rows/parts.txt"
    part "prefixes, comparisons and packing, $which, built" build "prefixes_$which" tests/library/c/prefixes.c "$which"
    part "prefixes, comparisons and packing, $which" "$folder/prefixes_$which" "$rows/prefixes.txt"
    part "sound messages, $which, built" build "extents_$which" tests/library/c/extents.c "$which"
    part "sound messages, $which" "$folder/extents_$which" "$rows/extents.txt"
    part "places of broken pointers, $which, built" build "places_$which" tests/library/c/places.c "$which"
    part "places of broken pointers, $which" "$folder/places_$which" "$rows/places.txt"
    part "objects of messages, $which, built" build "walks_$which" tests/library/c/walks.c "$which"
    part "objects of messages, $which" "$folder/walks_$which" "$rows/walks.txt"
done
part "a program with an older library" older parts_shared
part "test with the address sanitizer, built" build sanitized tests/library/c/test.c static -fsanitize=address,undefined -fno-sanitize-recover
part "test with the address sanitizer" "$folder/sanitized" "$rows/messages.txt"
part "functions of the header with the address sanitizer, built" build inline_sanitized tests/library/c/inline.c static -fsanitize=address,undefined -fno-sanitize-recover
part "functions of the header with the address sanitizer" "$folder/inline_sanitized" "$rows/messages.txt"
part "limits in a struct with the address sanitizer, built" build limits_sanitized tests/library/c/limits.c static -fsanitize=address,undefined -fno-sanitize-recover
part "limits in a struct with the address sanitizer" "$folder/limits_sanitized" "$rows/messages.txt"
part "packed bytes with the address sanitizer, built" build unpack_sanitized tests/library/c/unpack.c static -fsanitize=address,undefined -fno-sanitize-recover
part "packed bytes with the address sanitizer" "$folder/unpack_sanitized" "$rows/packed.txt"
part "pieces of packed streams with the address sanitizer, built" build pieces_sanitized tests/library/c/pieces.c static -fsanitize=address,undefined -fno-sanitize-recover
part "pieces of packed streams with the address sanitizer" "$folder/pieces_sanitized" "$rows/streams.txt"
part "parts of messages with the address sanitizer, built" build parts_sanitized tests/library/c/parts.c static -fsanitize=address,undefined -fno-sanitize-recover
part "parts of messages with the address sanitizer" "$folder/parts_sanitized" "$rows/parts.txt"
part "prefixes, comparisons and packing with the address sanitizer, built" build prefixes_sanitized tests/library/c/prefixes.c static -fsanitize=address,undefined -fno-sanitize-recover
part "prefixes, comparisons and packing with the address sanitizer" "$folder/prefixes_sanitized" "$rows/prefixes.txt"
part "sound messages with the address sanitizer, built" build extents_sanitized tests/library/c/extents.c static -fsanitize=address,undefined -fno-sanitize-recover
part "sound messages with the address sanitizer" "$folder/extents_sanitized" "$rows/extents.txt"
part "places of broken pointers with the address sanitizer, built" build places_sanitized tests/library/c/places.c static -fsanitize=address,undefined -fno-sanitize-recover
part "places of broken pointers with the address sanitizer" "$folder/places_sanitized" "$rows/places.txt"
part "objects of messages with the address sanitizer, built" build walks_sanitized tests/library/c/walks.c static -fsanitize=address,undefined -fno-sanitize-recover
part "objects of messages with the address sanitizer" "$folder/walks_sanitized" "$rows/walks.txt"
part "packed bytes where malloc is counted, built" build unpack_counting tests/library/c/unpack.c static -DWRAP -Wl,--wrap=malloc -Wl,--wrap=realloc
part "packed bytes where malloc is counted" "$folder/unpack_counting" "$rows/packed.txt"
part "packing with malloc counted, built" build prefixes_counting tests/library/c/prefixes.c static -DWRAP -Wl,--wrap=malloc -Wl,--wrap=realloc
part "packing with malloc counted" "$folder/prefixes_counting" "$rows/prefixes.txt"
part "pieces of packed streams where malloc is counted, built" build pieces_counting tests/library/c/pieces.c static -DWRAP -Wl,--wrap=malloc -Wl,--wrap=realloc
part "pieces of packed streams where malloc is counted" "$folder/pieces_counting" "$rows/streams.txt"
part "test where malloc refuses, built" build refusing tests/library/c/test.c static -DWRAP -Wl,--wrap=malloc -Wl,--wrap=realloc
part "test where malloc refuses" "$folder/refusing" "$rows/messages.txt"
if has valgrind "the example and the test under it"; then
    grep -v '^#' "$rows/messages.txt" | awk '$3 == "Done" { printf "%s", $2 }' | xxd -r -p >"$folder/stream"
    part "example under valgrind" sh -c "valgrind -q --error-exitcode=9 --leak-check=full --show-leak-kinds=all '$folder/example_shared' <'$folder/stream' >/dev/null"
    part "test under valgrind" valgrind -q --error-exitcode=9 --leak-check=full --show-leak-kinds=all "$folder/test_shared" "$rows/messages.txt"
fi
echo "$passed passed, $failed failed"
[ $failed = 0 ]
