#!/bin/sh
# packages.sh [NAME..]: makes a release of the last commit and tests what packages are made from: its sums, its bill of materials,
# its signature and the recipes of packaging/; builds the Debian packages, installs them in a new Debian and uses them there.
# NAMEs choose the parts after the release: signed, materials, meson, parsed, debian, installed; by default all. `installed` needs
# `debian`, and a mirror of Debian.
#
# If a tool is missing, its part is skipped, and a line says so. The last line is `N passed, M failed`.
set -u
here=$(cd "$(dirname "$0")" && pwd) || exit 2
top=$(cd "$here/../.." && pwd) || exit 2
work=$(mktemp -d) || exit 2
trap 'rm -rf "$work"' EXIT
trap 'exit 1' INT TERM
passed=0 failed=0
out=$work/out

say() {
    printf '%s\n' "$*"
}

# Whether these tools are there.
has() {
    what=$1
    shift
    for it; do command -v "$it" >/dev/null || { say "$what: skipped, no $it"; return 1; }; done
}

# Runs a part that passes or fails by its exit status.
#
#     part NAME COMMAND..
part() {
    name=$1
    shift
    if ("$@") >"$work/log" 2>&1; then
        passed=$((passed + 1))
        say "$name: passed"
    else
        failed=$((failed + 1))
        tail -n 30 "$work/log"
        say "$name: failed"
        return 1
    fi
}

released() {
    git clone -q "$top" "$work/clone" && ssh-keygen -q -t ed25519 -N '' -C packages -f "$work/key" &&
        "$work/clone/release" "$out" --url=https://example.org/releases --sign="$work/key" && cd "$out" && sha256sum -c SHA256SUMS
}

# The signature holds of the sums, and of nothing else.
verifies() {
    printf 'packages %s\n' "$(cat "$work/key.pub")" >"$work/signers"
    ssh-keygen -Y verify -f "$work/signers" -I packages -n file -s "$out/SHA256SUMS.sig" <"$out/SHA256SUMS" || return 1
    echo more | cat "$out/SHA256SUMS" - >"$work/other"
    ! ssh-keygen -Y verify -f "$work/signers" -I packages -n file -s "$out/SHA256SUMS.sig" <"$work/other"
}

# The bill of materials has the files of the archive, each once, with the sums that sha1sum and sha256sum say.
lists_all() {
    mkdir "$work/listed" && tar -xzf "$out"/*.tar.gz -C "$work/listed" --strip-components 1 && cd "$work/listed" || return 1
    python3 - "$out"/*.spdx.json <<'END' >"$work/said" || return 1
import json, sys
for file in json.load(open(sys.argv[1], encoding='utf-8'))['files']:
    sums = {it['algorithm']: it['checksumValue'] for it in file['checksums']}
    print(sums['SHA1'], sums['SHA256'], file['fileName'], sep='  ')
END
    find . -type f | LC_ALL=C sort | while IFS= read -r file; do
        say "$(sha1sum "$file" | cut -d ' ' -f 1)  $(sha256sum "$file" | cut -d ' ' -f 1)  $file"
    done >"$work/wanted"
    LC_ALL=C sort -k 3 "$work/said" | cmp - "$work/wanted"
}

# A program with both libraries as a subproject.
by_meson() {
    project=$work/meson && mkdir -p "$project/subprojects/packagefiles/capnp_canonical" "$project/subprojects/packagecache" || return 1
    cp "$out/packaging/meson/capnp_canonical.wrap" "$project/subprojects" && cp "$out/packaging/meson/meson.build" "$project/subprojects/packagefiles/capnp_canonical" &&
        cp "$out"/*.tar.gz "$project/subprojects/packagecache" && cp "$top/bindings/c/example.c" "$top/bindings/c/reading.c" "$project" || return 1
    cat >"$project/meson.build" <<'END'
project('user', 'c')
executable('example', 'example.c', dependencies: dependency('capnp_canonical'))
executable('reading', 'reading.c', dependencies: dependency('capnp_layout'))
END
    for form in static shared; do
        meson setup "$project/$form" "$project" --default-library="$form" && meson compile -C "$project/$form" &&
            "$project/$form/example" <"$top/tests/peer/person.bin" | sha256sum | grep -q ^62cac392152416d2 &&
            "$project/$form/reading" <"$top/tests/layout_c/book.bin" | cmp - "$top/tests/layout_c/people.txt" || return 1
    done
}

# The recipes that aren't tried have the syntax of their language.
parsed() {
    cd "$out/packaging" && ! grep -r '@[A-Z0-9]*@' --exclude=README.md . || return 1
    python3 -c 'import ast, json, sys
for file in "conan/conanfile.py", "bazel/capnp_canonical.BUILD": ast.parse(open(file).read())
json.load(open("vcpkg/vcpkg.json"))' || return 1
    cmake -DCMAKE_SCRIPT=1 -P /dev/stdin <vcpkg/portfile.cmake 2>&1 | grep -q 'Unknown CMake command "vcpkg_download_distfile"' || return 1
    if command -v ruby; then ruby -c homebrew/capnp_canonical.rb || return 1; else say 'homebrew: skipped, no ruby'; fi
    if command -v nix-instantiate; then nix-instantiate --parse nix/default.nix; else say 'nix: skipped, no nix-instantiate'; fi
}

# Builds the packages from the release and debian/.
debian_built() {
    version=$(dpkg-parsechangelog -l "$top/debian/changelog" -S Version) && upstream=${version%-*} && mkdir "$work/debian" || return 1
    cp "$out/capnp_canonical-$upstream.tar.gz" "$work/debian/capnp-canonical_$upstream.orig.tar.gz" && cd "$work/debian" &&
        tar -xzf "capnp-canonical_$upstream.orig.tar.gz" && cp -R "$work/clone/debian" "capnp_canonical-$upstream" && cd "capnp_canonical-$upstream" && dpkg-buildpackage -us -uc
}

# lintian finds no error and no warning.
linted() {
    lintian --fail-on error,warning --display-info "$work"/debian/*.changes
}

# Installs the packages in a new Debian and uses them there. The commands run in its root.
installed() {
    mkdir "$work/packages" && cp "$work"/debian/*.deb "$work/packages" && rm -f "$work"/packages/*dbgsym* && cp "$top/tests/peer/person.bin" "$work/packages" || return 1
    mmdebstrap --variant=apt --mode="${MMDEBSTRAP_MODE:-auto}" --include=gcc,g++,libc6-dev,pkg-config,cmake,make,python3 \
        --customize-hook="copy-in $work/packages /" --customize-hook="copy-in $here/in_debian.sh /" --customize-hook='chroot "$1" sh /in_debian.sh' \
        "$(. /etc/os-release && echo "$VERSION_CODENAME")" "$work/root.tar"
}

parts=${*:-signed materials meson parsed debian installed}
wants() {
    case " $parts " in *" $1 "*) return 0 ;; *) return 1 ;; esac
}

has release git python3 ssh-keygen sha256sum || { say '0 passed, 0 failed'; exit 0; }
if part release released; then
    if wants signed; then part signed verifies; fi
    if wants materials; then part materials lists_all; fi
    if wants meson && has meson meson ninja cc; then part meson by_meson; fi
    if wants parsed && has parsed cmake; then part parsed parsed; fi
    if wants debian && has debian dpkg-buildpackage dh dh_python3 lintian && part debian debian_built; then
        part lintian linted
        if wants installed && has installed mmdebstrap; then part installed installed; fi
    fi
fi
say "$passed passed, $failed failed"
[ $failed = 0 ]
