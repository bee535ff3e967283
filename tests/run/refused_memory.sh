#!/usr/bin/env bash
# Runs each row of tests/rows/all.sh with its Nth growth of memory refused, N from 1 until there is no Nth growth; of a row
# that grows more than a hundred times, some N.
# A run with a refusal answers 'aiger: out of memory', status 1, and writes nothing; a simulation without --batch has
# then read nothing of its stimulus or its witness either, but where a witness is to be dumped, and aigunroll nothing
# of a solver's answer. Of a witness of a justice property all lines are read and judged, though there is no memory to
# hold its steps, and the first that is wrong may be told. The run without a refusal gives the row's own answer. A row
# counts once.
# What happens before anything is read is the same for all rows with the same words, so it is refused
# once, with a folder as standard input and as the model; and what happens before a stimulus is read is so with the
# same model, with a folder as the stimulus.
#
#     tests/run/refused_memory.sh [K N | NAME]     all rows, or every Nth one from number K on, counted from 0, or those that
#                                                  have NAME in their names
. "$(dirname "${BASH_SOURCE[0]}")/../lib/judge.sh"
. "$top/tests/rows/all.sh"
need_program
[ $# = 2 ] || { asked=${1-} && set --; }
most=200000   # a row that grows more often than this fails
part=${1:-0}
parts=${2:-1}
rows_met=0
each=100      # of a row's own growths so many are refused one by one, and behind them ever fewer of many

if ! compile_preload refuse_growth; then
    fail 'tests/preload/refuse_growth.c compiles' \
        'wanted gcc, cc, clang or that of the kit' "came   $(cat "$work/compile" 2> /dev/null)"
    finish
fi

# run_refusing N WORD..: one run over the file $input with the Nth growth refused, if there is one. Leaves in $position how many
# bytes of it were read.
run_refusing() {
    local number=$1 ended
    shift
    exec 5< "$input"
    REFUSE=$number REFUSED=$work/refused.$number LD_PRELOAD=$work/refuse_growth.so \
        "$program" "$@" <&5 5<&- > "$work/out" 2> "$work/err"
    ended=$?
    read -r _ position < /proc/self/fdinfo/5
    exec 5<&-
    return "$ended"
}

growths=0

# Whether a run with a refusal that ended with STATUS ran out of memory, and wrote nothing; and, of a simulation without --batch
# whose stimulus is the standard input, or of a solver's answer that is, whether it read nothing of that.
ran_out() {
    local line= rest=
    { IFS= read -r line; IFS= read -r rest; } < "$work/err"
    [ "$1" = 1 ] && [ "$line" = 'aiger: out of memory' ] && [ -z "$rest" ] && [ ! -s "$work/out" ] || return
    [ "$reads" != stimulus ] || [ "$position" = 0 ]
}

# names_justice FILE: whether the input, or this file, is a witness that names a justice property
names_justice() {
    local file
    for file in "$work/in" "$1"; do grep -av '^c' "$file" 2> /dev/null | sed -n 2p; done | grep -aq '^j'
}

# Whether the answer may be that without a refusal.
can_do_without() { [ "$status" = 2 ] || { [ "$holds" ] && [ -s "$work/want_err" ]; }; }

# refuse_each FROM WORD..: refuses each growth from number FROM on. Leaves in $number the first that there is not, and in $ended
# the status without a refusal. Fails where a run goes wrong. Where the words are refused, with status 2 in $status, clap can
# do without some growths, for which it has no hint or a shorter one: then what comes is as without the refusal. With a number in
# $sparse, growths are left out behind so many.
refuse_each() {
    local from=$1
    shift
    for ((number = from; number <= most; number += 1 + (number - from) / ${sparse:-$most})); do
        run_refusing "$number" "$@"
        ended=$?
        [ -e "$work/refused.$number" ] || return 0
        growths=$((growths + 1))
        ran_out "$ended" || { can_do_without && came "$ended"; } || return
    done
}

# how many growths come before what the rows with these words and these models have in common is done
declare -A before

# leave_out FROM WORD..: refuses each growth from number FROM on with a folder as standard input, if that was not done for these
# words. Leaves in $known how many growths there are before the folder is read; FROM - 1, if it is not read.
leave_out() {
    local from=$1 input=$work words
    shift
    words="words ${*@Q}"   # which is no empty subscript
    if [ -z "${before[$words]-}" ]; then   # -v would take the quotes out of the subscript
        before[$words]=$((from - 1))
        if refuse_each "$from" "$@" && [[ $(< "$work/err") =~ ^aiger:\ (-|"$work/folds."1+):\ cannot\ read$ ]]; then
            before[$words]=$((number - 1))
        fi
        rm -f "$work"/refused.*
    fi
    known=${before[$words]}
}

# Leaves in $unread the words with a folder in the place of the model, since rows of many models have the same growths before
# their model is read. Its name is as long, and so are the names of all models that take its place.
without_model() {
    local place
    unread=("$@")
    for place in "${!unread[@]}"; do
        [ "${unread[place]}" = "${model-}" ] || continue
        unread[place]=$work/folds.${models//[0-9]/1}
        mkdir -p "${unread[place]}"
    done
}

row() {
    is_asked "$1" && [ $((rows_met++ % parts)) = "$part" ] || return 0
    local name=$1 input=$work/in status=$5 number ended known reads=source position unread sparse= holds=
    printf '%b' "$2" > "$work/in"
    wants "$3" "$4" "$5"
    shift 5
    [[ " $* " != *' --witness '* ]] || ! names_justice "${!#}" || holds=true
    without_model "$@"
    # the model comes by standard input where it is named by -, which in these rows is the first name; and a batch keeps the
    # stimulus that it reads, a dump of a witness the witness
    [ "${1-}" != aigsim ] || [ "${2-}" = - ] || [[ " $* " = *' --batch '* ]] ||
        [[ " $* " = *' --witness '* && " $* " = *' --vcd '* ]] || [ "$holds" ] || reads=stimulus
    [[ " $* " != *' --answer - '* ]] || reads=stimulus
    leave_out 1 "${unread[@]}"
    [ "${unread[*]@Q}" = "${*@Q}" ] || leave_out $((known + 1)) "$@"
    sparse=$each
    if ! refuse_each $((known + 1)) "$@"; then
        came "$ended"
        tell "$name, growth $number refused"
    elif [ "$number" -gt "$most" ]; then
        fail "$name" "wanted an end within $most growths"
    else
        judge "$name, no growth refused" "$ended"
    fi
    rm -f "$work"/refused.*
}
rows

# many lines, so that each buffer and table grows again and again, some of them after many lines are read
many() {
    awk -v lines="$1" 'BEGIN {
        printf "aag %d %d %d %d 0\n", 2 * lines, lines, lines, lines
        for (i = 1; i <= lines; i++) print 2 * i
        for (i = 1; i <= lines; i++) print 2 * (lines + i), i
        for (i = 1; i <= lines; i++) print i + 1
    }'
}
for lines in 10 100 1000; do
    same "$lines inputs, latches and outputs" "$(many "$lines")\n"
done
# a file with so many lines of every section, and a symbol for each
every() {
    awk -v lines="$1" 'BEGIN {
        printf "aag %d %d %d %d %d %d %d %d %d\n", 3 * lines, lines, lines, lines, lines, lines, lines, lines, lines
        for (i = 1; i <= lines; i++) print 2 * i
        for (i = 1; i <= lines; i++) print 2 * (lines + i), 3, i % 3 == 2 ? 2 * (lines + i) : i % 3 == 0 ? "" : 1
        for (i = 0; i < 3 * lines; i++) print i
        for (i = 1; i <= lines; i++) { print i % 4; literals += i % 4 }
        for (i = 0; i < literals + lines; i++) print i % 4
        for (i = 1; i <= lines; i++) print 2 * (2 * lines + i), 2, 3
        for (i = 0; i < lines; i++) for (k = 1; k <= 7; k++) printf "%s%d name\n", substr("ilobcjf", k, 1), i
    }' | sed 's/ $//'
}
for lines in 1 30; do
    same "every section, $lines lines of each" "$(every "$lines")\nc\n"
done
refuses 'a name of the first justice property again at the end' "$(every 30)\nj0 name\n" 'line 497: symbol given twice'
twice="aag 1001 1001 0 0 0\n$(seq 2 2 2000)\n2\n"
refuses 'the first of 1,000 inputs again at the end' "$twice" 'variable 1 defined twice'

# shifted LATCHES: latches in a row behind an input, each an output; shifted_on: the same over three frames
shifted() {
    awk -v latches="$1" 'BEGIN {
        printf "aag %d 1 %d %d 0\n2\n", latches + 1, latches, latches
        for (i = 1; i <= latches; i++) print 2 * i + 2, 2 * i
        for (i = 1; i <= latches; i++) print 2 * i + 2
    }'
}
shifted_on() {
    awk -v latches="$1" 'BEGIN {
        printf "aag 3 3 0 %d 0\n2\n4\n6\n", 3 * latches
        for (frame = 0; frame < 3; frame++) for (i = 1; i <= latches; i++) print i <= frame ? 2 * (frame - i + 1) : 0
    }'
}
for latches in 10 1000; do
    unrolls "$latches latches over three frames" 3 "$(shifted "$latches")\n" "$(shifted_on "$latches")\n"
done

need_asked
# without a single growth refused the table would show nothing
if [ "$growths" -gt 0 ]; then
    pass
else
    fail 'some growth was refused' 'wanted at least one' 'came   none: was refuse_growth.so loaded?'
fi
printf '%s growths refused\n' "$growths"
finish
