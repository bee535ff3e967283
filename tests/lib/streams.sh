# What scripts share that run the linked program over streams, files and little memory, beside judge.sh.

convert() { "$program" aigtoaig --ascii "$@"; }
unroll() { "$program" aigunroll --frames "$@"; }
small='aag 3 1 1 2 0\n6\n2 7\n2\n0\n'
printf '%b' "$small" > "$work/small"

# the words run with a standard stream that takes nothing
output_closed() { "$@" >&-; }
output_full() { "$@" > /dev/full; }
errors_closed() { "$@" 2>&-; }
errors_full() { "$@" 2> /dev/full; }

# unread WORD..: the program, and then what it left of standard input
unread() { "$program" "$@" 2> /dev/null; cat; }

# refused NAME TEXT WORD..: of what is wrong with arguments: status 2, nothing on standard output, and standard input is left
# alone
refused() {
    local name=$1 text=$2
    shift 2
    { "$program" "$@" > "$work/out" 2> "$work/err"; echo $? > "$work/status"; cat > "$work/rest"; } < "$work/small"
    if [ "$(cat "$work/status")" = 2 ] && [ ! -s "$work/out" ] && grep -qF -- "$text" "$work/err" &&
        cmp -s "$work/rest" "$work/small"; then pass; else
        fail "$name" "wanted status 2 and '$text'" \
            "came   status $(cat "$work/status"), output '$(shown "$work/out")', errors '$(shown "$work/err")'"
    fi
}

# within KILOBYTES WORD..: the words with so much memory, for ten seconds at most
within() { ( ulimit -v "$1" && shift && exec timeout 10 "$@" ); }

# chain CLOSED NUMBER..: 200,000 gates in the order of `seq NUMBER..`. Gate k has the literal 2k + 2, and is over gate k - 1 and
# the input (gate 1 over it twice); gate CLOSED is over the last one, not the one before.
chain() {
    printf 'aag 200001 1 0 1 200000\n2\n400002\n'
    seq "${@:2}" | awk -v closed="$1" '{ print 2 * $1 + 2, ($1 == closed ? 400002 : 2 * $1), 2 }'
}
