#!/bin/sh
# install.sh: tests ./install: a staged installation with its own folder for libraries, the same again over itself, and its
# removal. Builds the library and the program first if that isn't done yet. Prints a line `ok: TEST` or `FAILED: TEST` for
# each test.
set -u
top=$(cd "$(dirname "$0")/../.." && pwd) || exit 2
work=$(mktemp -d) || exit 2
trap 'rm -rf "$work"' EXIT
failed=0

# Runs a test: a command that succeeds or fails.
test_that() {
    what=$1
    shift
    if "$@"; then echo "ok: $what"; else echo "FAILED: $what" && failed=1; fi
}

# Whether two texts are equal.
same() {
    [ "$1" = "$2" ] || { printf 'not so: %s, and %s is wanted\n' "$1" "$2"; return 1; }
}

lists_all() {
    (cd "$stage" && find . -type f -o -type l) | sed 's/^\.//' | sort >"$work/there"
    grep -v '/$' "$stage/usr/share/capnp_canonical/installed" >"$work/listed"
    echo /usr/share/capnp_canonical/installed >>"$work/listed"
    sort -u "$work/listed" | cmp - "$work/there"
}

refuses() {
    "$top/install" "$@" 2>"$work/error"
    [ $? = 2 ] && same "$(wc -l <"$work/error")" 1
}

# Compiles the example of capnp_layout with the installed files, for a form of the library, and runs it.
reads() {
    cc -o "$work/reading" -I"$stage/usr/include" "$top/bindings/c/reading.c" "$1" &&
        LD_LIBRARY_PATH=$stage$libdir "$work/reading" <"$top/tests/layout_c/book.bin" | cmp - "$top/tests/layout_c/people.txt"
}

stage=$work/stage
libdir=/usr/lib/x86_64-linux-gnu
install_staged() {
    DESTDIR=$stage "$top/install" --libdir=$libdir --pythondir=/usr/lib/python3/dist-packages "$@" /usr
}

test_that 'a staged installation' install_staged
test_that 'the list has every file' lists_all
test_that 'the library is in the folder for libraries' [ -f "$stage$libdir/libcapnp_canonical.so.1" ]
test_that 'no file names the stage' sh -c "! grep -rlF '$work' '$stage'"
# The folders are named from that of the .pc file, so they are those of the stage here.
for name in capnp_canonical capnp_layout; do
    test_that "pkg-config says the folders of $name" \
        same "$(realpath "$(PKG_CONFIG_LIBDIR=$stage$libdir/pkgconfig pkg-config --variable=libdir $name)")" "$(realpath "$stage$libdir")"
done

test_that 'a program reads with capnp_layout, static' reads "$stage$libdir/libcapnp_layout.a"
test_that 'a program reads with capnp_layout, shared' reads "$stage$libdir/libcapnp_layout.so"
test_that 'the program runs' "$stage/usr/bin/capnp_canon" --version
test_that 'the package runs' env PYTHONPATH="$stage/usr/lib/python3/dist-packages" CAPNP_CANONICAL_LIBRARY="$stage$libdir/libcapnp_canonical.so" \
    python3 -m capnp_canonical --version
test_that 'the man page' [ -s "$stage/usr/share/man/man1/capnp_canon.1" ]
test_that 'the man page of the library' [ -s "$stage/usr/share/man/man3/capnp_canonical.3" ]
test_that 'the completion for bash' cmp "$top/share/capnp_canon.bash" "$stage/usr/share/bash-completion/completions/capnp_canon"
test_that 'the completion for zsh' cmp "$top/share/_capnp_canon" "$stage/usr/share/zsh/site-functions/_capnp_canon"
for library in capnp_canonical capnp_layout; do
    test_that "the licence of $library" cmp "$top/LICENSE" "$stage/usr/share/doc/$library/LICENSE"
done
echo kept >"$stage/usr/lib/python3/dist-packages/other"
# a file that an older version may have left
echo old >"$stage/usr/include/older.h" && echo /usr/include/older.h >>"$stage/usr/share/capnp_canonical/installed"
test_that 'again, over itself' install_staged
test_that 'what is no longer there is removed' [ ! -e "$stage/usr/include/older.h" ]
test_that 'its removal' install_staged --remove
test_that 'nothing is left but what is others'\''' same "$(find "$stage" ! -type d)" "$stage/usr/lib/python3/dist-packages/other"
test_that 'no folder is left that it made' [ ! -e "$stage/usr/include" ]
test_that 'a second removal says so' refuses --remove "$work/none"
test_that 'a wrong option is named' refuses --nothing "$work/none"
test_that 'no folder' refuses
exit $failed
