# Read by aiger, prove, test and the scripts beside it, which set $top, the repository's folder: what the program's sources
# are, and which program is of these sources.

out=$top/crates/aiger/out

say() { printf 'aiger: %s\n' "$1" >&2; }

fail() {
    say "$1"
    exit 125
}

# read_crates [CRATE]: puts the program's crate, or this one, and those that it stands on, by crates.txt, into $crates,
# each behind its own
read_crates() {
    local line top_crate=${1:-aiger}
    declare -gA stands_on=()
    while IFS= read -r line; do
        [[ ${line%%#*} =~ ^\ *([a-z0-9_]+)[^:]*:(.*)$ ]] && stands_on[${BASH_REMATCH[1]}]=${BASH_REMATCH[2]//,/ }
    done 2> /dev/null < "$top/crates.txt"
    crates=()
    add_crate "$top_crate"
    [ ${#crates[@]} != 0 ] || fail "$top/crates.txt names no crate $top_crate"
}
add_crate() {
    local name
    [[ -v stands_on[$1] && " ${crates[*]} " != *" $1 "* ]] || return 0
    for name in ${stands_on[$1]}; do add_crate "$name"; done
    crates+=("$1")
}

# read_places [CRATE]: puts where the sources are into $places: crates.txt, and three folders of each of these crates
read_places() {
    local name folder
    read_crates "$@"
    places=(crates.txt)
    for name in "${crates[@]}"; do
        for folder in src specs proofs; do
            [ ! -d "$top/crates/$name/$folder" ] || places+=("crates/$name/$folder")
        done
    done
}

sha256() { sha256sum | cut -c 1-64; }

# The SHA-256 of the sources: of a line for each file, in the order of their paths, that has its own SHA-256 and its path.
sources_sum() (
    set -o pipefail
    cd "$top" && find "${places[@]}" -type f \( -name crates.txt -o -name '*.rt' -o -name '*.antt' \) |
        LC_ALL=C sort | tr '\n' '\0' | xargs -0 sha256sum | sha256
)

# manifest NAME: what release/MANIFEST says of that
manifest() {
    local name value
    while read -r name value; do
        [ "$name" != "$1" ] || printf '%s\n' "$value"
    done 2> /dev/null < "$top/release/MANIFEST"
}

# is_program NAME SUM: whether the file of this name in $out is the program with this SHA-256
is_program() { [ -x "$out/$1" ] && [ "$(sha256 < "$out/$1")" = "$2" ]; }

# Whether the program aiger in $out was linked from $sources: prove notes the sums of what it linked.
is_linked() {
    local of_sources of_program
    { read -r of_sources of_program; } 2> /dev/null < "$out/linked" && [ "$of_sources" = "$sources" ] &&
        is_program aiger "$of_program"
}

# The same of the library: whether its archive was built from $library_sources, and where both are.
archive=$top/crates/aigtools_c/out/libaigtools_c.a
is_archived() {
    local of_sources of_archive
    { read -r of_sources of_archive; } 2> /dev/null < "$top/crates/aigtools_c/out/linked" &&
        [ "$of_sources" = "$library_sources" ] && [ "$(sha256 < "$archive")" = "$of_archive" ]
}
library_sources_sum() (
    read_places aigtools_c
    sources_sum
)

# unpack_released NAME KEY FILE: the released file of this name, whose sum the manifest has under that key
unpack_released() {
    { gzip -dc "$top/release/$1.gz" > "$3"; } 2> /dev/null || true
    [ "$(sha256 < "$3")" = "$(manifest "$2")" ] || fail "the released $1 is missing or broken"
}

# write_pc PREFIX LIBRARIES: the file for pkg-config of the library in these folders
write_pc() { sed "s|^prefix=.*|prefix=$1|; s|^libdir=.*|libdir=$2|" "$top/release/aigtools.pc"; }

# write_check MODULES: the program aiger-check, for a folder beside which this one has aiger_check/ and aigtools.py
write_check() {
    sed "2s|.*|# Runs aiger_check of ../$1, with the program aiger beside this one, or the one that AIGER names.|
        s|^modules=.*|modules=\$here/../$1|" "$top/aiger-check"
}

# write_completions FOLDER: the completions for the shells, of the program aiger that lies there, and of aiger-check
write_completions() {
    "$top/release/completions.py" aiger "$1" "$1/aiger" &&
        "$top/release/completions.py" aiger-check "$1" python3 -B "$top/python/aiger_check"
}
