#!/bin/sh
# signed.sh PREFIX [PROGRAM]: signs a part of a message in C++, and verifies the signature in Python and at the shell: in the
# message as C++ wrote it, in its canonical copy, with another field beside the part, and with another letter in the part. The
# library is the one installed at PREFIX, and PROGRAM a built capnp_canon, by default PREFIX/bin/capnp_canon.
#
# Prints a line `ok: TEST` or `FAILED: TEST` for each test.
set -u
here=$(cd "$(dirname "$0")" && pwd) || exit 2
prefix=${1:?usage: signed.sh PREFIX [PROGRAM]}
program=${2:-$prefix/bin/capnp_canon}
work=$(mktemp -d) || exit 2
trap 'rm -rf "$work"' EXIT
failed=0
key='a key that both know'

# Runs a test: a command that succeeds or fails.
test_that() {
    what=$1
    shift
    if "$@"; then echo "ok: $what"; else echo "FAILED: $what" && failed=1; fi
}

builds() {
    cp "$here/../rows/signed.capnp" "$work" && (cd "$work" && capnp compile -oc++ signed.capnp) &&
        "${CXX:-c++}" -std=c++17 -Wall -Wextra -O1 -I"$prefix/include" -I"$work" -o "$work/sign" "$here/sign.cpp" "$work/signed.capnp.c++" \
            "$prefix/lib/libcapnp_canonical.a" -lcapnp -lkj -lcrypto
}

# The raw canonical words of the part at a path.
part_of() {
    "$program" canon --flat --at "$1" "$2"
}

# The signature in a message, which is data: a list pointer, and 32 bytes; and the one that its payload has.
signature_in() {
    part_of 1 "$1" | tail -c +9 | head -c 32 | xxd -p -c 32
}

signature_of() {
    part_of 0 "$1" >"$work/payload" && openssl dgst -sha256 -hmac "$key" -r <"$work/payload" | cut -d ' ' -f 1
}

verified_at_the_shell() {
    signature=$(signature_of "$1") && [ ${#signature} = 64 ] && [ "$(signature_in "$1")" = "$signature" ]
}

verified_in_python() {
    PYTHONPATH=$prefix/python python3 -B "$here/../python/verify.py" "$key" "$1" >"$work/said"
}

refused_at_the_shell() {
    signature=$(signature_of "$1") && [ ${#signature} = 64 ] && [ "$(signature_in "$1")" != "$signature" ]
}

refused_in_python() {
    verified_in_python "$1"
    [ $? = 1 ] && [ "$(cat "$work/said")" = 'not verified' ]
}

# Whether the first file has several segments, and the second one has the same value in one.
is_copy() {
    [ "$(head -c 4 "$1" | xxd -p)" != 00000000 ] && [ "$(head -c 4 "$2" | xxd -p)" = 00000000 ] && "$program" check --quiet "$2"
}

# Writes a message in text, as `capnp` reads it, with a change by sed.
changed() {
    capnp decode "$here/../rows/signed.capnp" Signed <"$work/sent" | sed "$1" | capnp encode "$here/../rows/signed.capnp" Signed
}

test_that 'sign in C++' builds || exit 1
"$work/sign" "$key" >"$work/sent"
test_that 'a signed message' test -s "$work/sent"
"$program" canon "$work/sent" >"$work/canonical"
changed 's/number = 5/number = 6/' >"$work/beside"
changed 's/Ada/Bob/' >"$work/inside"
test_that 'the canonical copy is another encoding' is_copy "$work/sent" "$work/canonical"
test_that 'a field beside the part is another' sh -c '! cmp -s "$1" "$2"' sh "$work/canonical" "$work/beside"
for it in sent canonical beside; do
    test_that "verify $it in Python" verified_in_python "$work/$it"
    test_that "verify $it at the shell" verified_at_the_shell "$work/$it"
done
test_that 'refuse another part in Python' refused_in_python "$work/inside"
test_that 'refuse another part at the shell' refused_at_the_shell "$work/inside"
exit $failed
