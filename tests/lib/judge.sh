# What the scripts in tests/run share: how many rows passed and failed, a folder $work, what is wanted of a run, and
# whether it came. A run's input, output and errors are the files in, out and err of that folder.

top=$(cd "$(dirname "${BASH_SOURCE[0]}")/../.." && pwd)
program=${AIGER:-$top/crates/aiger/out/aiger}   # AIGER names another executable to try the same rows on
asked=      # a part of the names of the rows that run, empty for all of them
passed=0
failed=0
skipped=0

# pass NAME, fail NAME LINE..: count a row, and say what was wanted and what came
pass() { passed=$((passed + 1)); }
fail() {
    failed=$((failed + 1))
    printf 'FAILED %s\n' "$1"
    shift
    [ $# = 0 ] || printf '    %s\n' "$@"
}
# skip COUNT REASON: counts rows that are left out, and says why
skip() {
    skipped=$((skipped + $1))
    printf 'SKIPPED %s: %s\n' "$1" "$2"
}

# is_asked NAME: whether the row of this name runs
is_asked() { [[ $1 = *"$asked"* ]]; }

# the beginning of a file on one line, for a message
shown() {
    head -c 300 "$1" | od -An -c -v -w1 | awk '{
        byte = substr($0, 2)
        gsub(/ /, "", byte)
        printf "%s", byte == "" ? " " : length(byte) == 3 ? "\\" byte : byte
    }'
}

need_program() {
    [ -x "$program" ] && return
    fail 'the linked program is there' "wanted an executable file $program" "came   none: run ./prove, or ./test --quick"
    finish
}

# need_asked: ends the script where no row has the name that was asked for in its own
need_asked() {
    [ $((passed + failed)) = 0 ] || return 0
    fail "$asked" 'wanted rows with this in their names' 'came   none'
    finish
}

# the last line of each script, which ./test adds up
finish() {
    local skips=
    [ "$skipped" = 0 ] || skips=", $skipped skipped"
    printf '%s passed, %s failed%s\n' "$passed" "$failed" "$skips"
    [ "$failed" = 0 ] && [ "$((passed + skipped))" != 0 ]
    exit
}

work=$(mktemp -d) || exit
trap 'rm -rf "$work"' EXIT

# wants OUTPUT ERRORS STATUS, with the escapes of printf's %b
wants() {
    printf '%b' "$1" > "$work/want_out"
    printf '%b' "$2" > "$work/want_err"
    want_status=$3
}

# came STATUS: whether a run that ended with STATUS gave what is wanted
came() {
    came_status=$1
    [ "$came_status" = "$want_status" ] && cmp -s "$work/out" "$work/want_out" && cmp -s "$work/err" "$work/want_err"
}

# tell NAME: says what was wanted and what came
tell() {
    fail "$1" \
        "wanted status $want_status, output '$(shown "$work/want_out")', errors '$(shown "$work/want_err")'" \
        "came   status $came_status, output '$(shown "$work/out")', errors '$(shown "$work/err")'"
}

# judge NAME STATUS
judge() { if came "$2"; then pass; else tell "$1"; fi; }

# check NAME WORD..: runs the words, and judges what comes. The files are new ones, so nothing that an earlier run left
# behind can write into them.
check() {
    local name=$1
    shift
    rm -f "$work/out" "$work/err"
    "$@" > "$work/out" 2> "$work/err"
    judge "$name" $?
}

has_compiler() { command -v gcc || command -v cc || command -v clang || command -v "${RT:-rt}"; } > /dev/null
# compile_preload NAME: makes $work/NAME.so of tests/preload/NAME.c, with whichever C compiler is there; only what each of
# them has is used, no header and no library. What they said is in $work/compile.
compile_preload() {
    local rt=${RT:-$(command -v rt)} kit
    kit=$(dirname "$(readlink -f "$rt")")/../toolchain/bin
    compile_with "$1" gcc || compile_with "$1" cc || compile_with "$1" clang ||
        compile_with "$1" "$kit/clang" "--ld-path=$kit/ld.lld"
}
compile_with() {
    local name=$1
    shift
    command -v "$1" > /dev/null && "$@" -O1 -fno-builtin -shared -fPIC -nostdinc -nostdlib \
        -o "$work/$name.so" "$top/tests/preload/$name.c" 2>> "$work/compile"
}
