# current.sh: functions that say whether what is built is current, for scripts that read this file with `.`. `top` is the top
# of the repository, and `name` the program or the library that the script is about.

# Prints a line on standard error, after the name.
say() {
    printf '%s\n' "$name: $1" >&2
}

# The crate and the crates that it depends on, lowest first: crates.txt names each crate before those that use it.
#
#     crates_below CRATE
crates_below() {
    awk -v name="$1" '!/^#/ { sub(":", "", $1); line[++n] = $0 }
        END {
            needed[name] = 1
            for (; n; n--) {
                split(line[n], word)
                if (!(word[1] in needed)) continue
                list = word[1] " " list
                for (i in word) needed[word[i]] = 1
            }
            print list
        }' "$top/crates.txt"
}

# The first file of a crate, or of those below it, that is newer than FILE, or nothing. Looks only at these parts of the crates.
#
#     newer CRATE FILE PART..
newer() (
    cd "$top" || exit 1
    crates=$(crates_below "$1") file=$2 folders=
    shift 2
    for crate in $crates; do
        for part; do [ ! -d "crates/$crate/$part" ] || folders="$folders crates/$crate/$part"; done
    done
    # shellcheck disable=SC2086
    find $folders -newer "$file" | head -n 1
)

# Whether a file of the folder `out` of a crate was built from the current sources: none is newer.
#
#     is_built CRATE FILE
is_built() {
    built=crates/$1/out/$2
    [ -f "$top/$built" ] && [ -z "$(newer "$1" "$built" src specs proofs)" ]
}
