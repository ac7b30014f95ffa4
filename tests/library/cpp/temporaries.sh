#!/bin/sh
# temporaries.sh INCLUDE..: what the header for C++ makes of bytes that are gone before they are read: kept, refused by each
# compiler, or told by clang, which knows views. INCLUDE are the folders of the headers. A line `ok: WHAT` or `FAILED: WHAT`
# for each program, or that a compiler is skipped.
set -u
folder=$(mktemp -d) || exit 2
trap 'rm -rf "$folder"' EXIT
failed=0
flags='-std=c++17 -Wall -Wextra -Werror -Wno-unused-parameter -fsyntax-only'
for it; do flags="$flags -I$it"; done

# Whether a function of this body is compiled.
compiles() {
    cat >"$folder/body.cpp" <<END
#include "capnp_canonical.hpp"
using namespace capnp_canonical;
void use(Bytes);
void use_digest(Digest);
Bytes body(Bytes frame, std::vector<std::uint8_t>& buffer, const std::string& text, std::string_view view) {
    $2
    return frame;
}
END
    # shellcheck disable=SC2086
    "$1" $flags "$folder/body.cpp" 2>"$folder/log"
}

report() {
    if [ "$1" = 0 ]; then echo "ok: $2"; else echo "FAILED: $2" && sed 's/^/    /' "$folder/log" && failed=1; fi
}

# By a compiler a body is compiled without a warning.
fine() {
    compiles "$compiler" "$2"
    report $? "$compiler: $1"
}

# By a compiler a body isn't compiled.
refused() {
    compiles "$compiler" "$2"
    [ $? != 0 ] && grep -q -e "$3" "$folder/log"
    report $? "$compiler: $1"
}

usual=${CXX:-c++}
[ "$usual" = clang++ ] && compilers=clang++ || compilers="$usual clang++"
for compiler in $compilers; do
    if ! command -v "$compiler" >/dev/null; then
        echo "skipped, since $compiler isn't there: its warnings"
        continue
    fi
    fine 'Frames keeps the result of a call' 'for (Bytes it : Frames(unpack(frame))) { use(it); }'
    fine 'Frames keeps a string' 'for (Bytes it : Frames(text + text)) { use(it); }'
    fine 'Frames of what is kept elsewhere' 'for (Bytes it : Frames(buffer)) { use(it); } for (Bytes it : Frames(text)) { use(it); }'
    fine 'Frames of a view' 'for (Bytes it : Frames(std::string_view(text))) { use(it); } for (Bytes it : Frames({buffer.data(), 8})) { use(it); }'
    fine 'Bytes of a view' 'Bytes bytes = std::string_view(text); use(bytes);'
    fine 'arguments' 'use(copy_flat(unpack(frame))); use(copy_flat(Segments{copy_flat(frame)}));'
    fine 'segments of what is kept elsewhere' 'Segments it; it.add(buffer); it.add(frame); it.add(view); it.add({buffer.data(), 8});'
    fine 'a result that needn'\''t be used' 'copy_flat_into(buffer, frame); unpack_into(buffer, frame);'
    fine 'a result that is used' 'return copy_flat_into(buffer, frame);'
    refused 'a segment that is gone' 'Segments it; it.add(copy_flat(frame));' deleted
    refused 'a fault taken for a yes' 'if (check(frame)) { use(frame); }' deleted
    refused 'a check whose answer isn'\''t used' 'check(frame);' unused-result
    refused 'a yes or no that isn'\''t used' 'is_canonical(frame);' unused-result
    refused 'a copy that isn'\''t used' 'copy_flat(frame);' unused-result
    refused 'a result that isn'\''t used' 'try_validate(frame);' unused-result
    refused 'a result of a check taken for a yes' 'if (try_check(frame)) { use(frame); }' conver
    refused 'raw words as a frame' 'use_digest(digest(canonical_words(frame)));' 'no matching function'
    refused 'raw words as bytes' 'Bytes it = canonical_words(frame); use(it);' 'conversion\|convert'
    fine 'raw words by their calls' 'use_digest(words_digest(canonical_words(frame)));'
done
compiler=clang++
if command -v $compiler >/dev/null; then
    refused 'Bytes of a copy that is gone' 'Bytes it = copy_flat(frame); use(it);' dangling
    refused 'Bytes of a string that is gone' 'Bytes it = text + text; use(it);' dangling
    refused 'a pointer into a copy that is gone' 'Bytes it(copy_flat(frame).data(), 8); use(it);' dangling
    refused 'Frames of bytes that are gone' 'Frames it(Bytes(copy_flat(frame))); use(*it.begin());' dangling
    refused 'a frame of Frames that are gone' 'auto it = Frames(unpack(frame)).begin(); use(*it);' dangling
    refused 'a copy into a buffer that is gone' 'std::vector<std::uint8_t> mine; return copy_into(mine, frame);' return-stack-address
fi
exit $failed
