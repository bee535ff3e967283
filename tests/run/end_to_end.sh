#!/usr/bin/env bash
# Runs the linked program on real files and pipes: the rows of tests/rows/all.sh, and what needs a device of the system, as a
# closed standard output, a large file or little memory.
#
#     tests/run/end_to_end.sh [rows [NAME] | rest]     all of this, or the rows alone, of these perhaps only those that have
#                                                      NAME in their names, or all but the rows
. "$(dirname "${BASH_SOURCE[0]}")/../lib/judge.sh"
. "$top/tests/lib/streams.sh"
. "$top/tests/rows/all.sh"
case $#${1:-} in
    0 | 1rows | 1rest) ;;
    2rows) asked=$2 ;;
    *) echo "usage: $0 [rows [NAME] | rest]" >&2; exit 2 ;;
esac
need_program

# each row through a pipe, and from a file
row() {
    local name=$1 input=$2
    is_asked "$name" || return 0
    wants "$3" "$4" "$5"
    shift 5
    printf '%b' "$input" > "$work/in"
    cat "$work/in" 2> /dev/null | "$program" "$@" > "$work/out" 2> "$work/err"
    judge "$name (pipe)" "${PIPESTATUS[1]}"
    check "$name (file)" "$program" "$@" < "$work/in"
}
if [ "${1:-rows}" = rows ]; then
    rows
    need_asked
fi
[ "${1:-rest}" = rest ] || finish

# a part of this table, by name; a name that no row has is an error
wants '2 passed, 0 failed\n' '' 0
check 'one row alone' "$top/tests/run/end_to_end.sh" rows 'a last line with spaces and without LF'
wants 'FAILED no such row\n    wanted rows with this in their names\n    came   none\n0 passed, 1 failed\n' '' 1
check 'a row that there is not' "$top/tests/run/end_to_end.sh" rows 'no such row'
wants 'FAILED no such row: wanted rows with this in their names; came none\n0 passed, 1 failed\n' '' 1
for file in by_chance cuts failed_calls little_memory sizes; do
    check "a row that there is not of $file" "$top/tests/run/$file.py" "$program" 'no such row'
done
wants '1 passed, 0 failed\n' '' 0
check 'one circuit made by chance, alone' "$top/tests/run/by_chance.py" "$program" images 3
wants '' "usage: $top/tests/run/end_to_end.sh [rows [NAME] | rest]\n" 2
check 'a part that there is not' "$top/tests/run/end_to_end.sh" rest 'a toggle'

# --- devices ---
wants '' 'aiger: -: cannot write\n' 1
check 'a closed standard output' output_closed convert < "$work/small"
check 'a full standard output' output_full convert < "$work/small"
# the reader of the pipe goes after one byte, with more to come than a pipe holds
awk 'BEGIN { print "aag 0 0 0 100000 0"; for (i = 0; i < 100000; i++) print i % 2 }' > "$work/long"
: > "$work/out"
convert < "$work/long" 2> "$work/err" | head -c 1 > "$work/first"
judge 'a pipe that nobody reads any more' "${PIPESTATUS[0]}"

wants '' 'aiger: -: cannot read\n' 1
check 'a directory as standard input' convert < "$work"
check 'a closed standard input' convert <&-

# a fault of the file is told before anything is written, so a standard output that fails is not seen
wants '' 'aiger: -: line 1: not an AIGER file\n' 1
check 'a refusal with a closed standard output' output_closed convert < /dev/null
check 'a refusal with a full standard output' output_full convert < /dev/null

# that the message cannot be told changes nothing
wants '' '' 1
check 'a refusal with a closed standard error' errors_closed convert < /dev/null
check 'a refusal with a full standard error' errors_full convert < /dev/null
wants '' '' 2
check 'no words with a closed standard error' errors_closed "$program" < /dev/null
check 'no words with a full standard error' errors_full "$program" < /dev/null

wants "$small" '' 0
in_pieces() { printf 'aag 3 1'; sleep 0.1; printf ' 1 2 0\n6\n2'; sleep 0.1; printf ' 7\n2\n0\n'; }
in_pieces | convert > "$work/out" 2> "$work/err"
judge 'a file that comes in pieces' "${PIPESTATUS[1]}"
convert < "$work/small" 2> "$work/err" | cat > "$work/out"
judge 'into a pipe' "${PIPESTATUS[0]}"
# arguments that are refused leave standard input alone, for whoever reads it next
then_read() { errors_closed "$program"; cat; }
check 'nothing is read for arguments that are refused' then_read < "$work/small"

# the program's own path is no word of the command line, and may be no text
mkdir "$work/"$'d\377'
cp "$program" "$work/"$'d\377/aiger'
wants "$small" '' 0
check 'a path of the program that is no text' "$work/"$'d\377/aiger' aigtoaig --ascii < "$work/small"

# --- large files: 100,000 lines after the header, canonical, so that they come back as they are ---
large() {
    awk -v inputs="$1" -v latches="$2" -v outputs="$3" 'BEGIN {
        variables = inputs + latches
        printf "aag %d %d %d %d 0\n", variables, inputs, latches, outputs
        for (i = 1; i <= inputs; i++) print 2 * i
        for (i = 1; i <= latches; i++) print 2 * (inputs + i), (i * 7919) % (2 * variables + 2)
        for (i = 1; i <= outputs; i++) print (i * 104729) % (2 * variables + 2)
    }'
}
round_trip() {
    wants '' '' 0
    large "$2" "$3" "$4" > "$work/in"
    cp "$work/in" "$work/want_out"
    check "a large file comes back: $1" convert < "$work/in"
}
round_trip 'all sections' 20000 40000 40000
round_trip 'inputs' 100000 0 0
round_trip 'latches' 0 100000 0
round_trip 'outputs' 1 0 99999

# properties RESET BAD CONSTRAINTS JUSTICE FAIRNESS: a latch with this reset, and so many lines of each; the justice properties
# have 0, 1, 2, 0, .. literals
properties() {
    awk -v reset="$1" -v bad="$2" -v constraints="$3" -v justice="$4" -v fairness="$5" 'BEGIN {
        printf "aag 1 0 1 0 0 %d %d %d %d\n2 3%s\n", bad, constraints, justice, fairness, reset
        for (i = 0; i < bad + constraints; i++) print i * 104729 % 4
        for (i = 0; i < justice; i++) { print i % 3; literals += i % 3 }
        for (i = 0; i < literals + fairness; i++) print i * 7919 % 4
    }'
}
through_binary() { "$program" aigtoaig < "$1" | convert; }
properties_come_back() {
    wants '' '' 0
    properties "${@:2}" > "$work/in"
    cp "$work/in" "$work/want_out"
    check "100,000 lines come back: $1" convert < "$work/in"
    check "100,000 lines come back through binary: $1" through_binary "$work/in"
}
properties_come_back 'bad states, constraints, justice and fairness' ' 2' 20000 20000 20000 20000
properties_come_back 'bad states' ' 1' 99998 0 0 1
properties_come_back 'justice properties' '' 0 0 50000 1

{ printf 'aag 100001 100001 0 0 0\n'; seq 2 2 200000; printf '2\n'; } > "$work/in"
wants '' 'aiger: -: variable 1 defined twice\n' 1
check 'the first variable again, after 100,000 lines' convert < "$work/in"
{ printf 'aag 100000 100000 0 0 0\n'; seq 2 2 199998; printf 'x\n'; } > "$work/in"
wants '' 'aiger: -: line 100001: bad line\n' 1
check 'a bad line after 100,000 lines' convert < "$work/in"
{ printf 'aag 1 0 0 1 0\n'; head -c 3000000 /dev/zero | tr '\0' '0'; printf '\n'; } > "$work/in"
wants 'aag 1 0 0 1 0\n0\n' '' 0
check 'a line of 3,000,000 digits' convert < "$work/in"

# --- chains of 200,000 gates ---
chain_comes_back() {
    chain 0 "${@:2}" > "$work/in"
    wants '' '' 0
    cp "$work/in" "$work/want_out"
    check "200,000 gates come back: $1" convert < "$work/in"
}
chain_comes_back 'in the order of the chain' 1 200000
through_ascii() { convert < "$1" | "$program" aigtoaig; }
check '200,000 gates in order come back through binary' through_binary "$work/in"
with_map() { "$program" aigtoaig --keep-map < "$1" | "$program" aigtoaig --undo-map --ascii; }
check '200,000 gates in order come back by their map' with_map "$work/in"
chain_comes_back 'each before the gate that it is over' 200000 -1 1
check '200,000 gates in reverse order come back by their map' with_map "$work/in"

# chain_is_cyclic NAME LITERAL CLOSED NUMBER..
chain_is_cyclic() {
    chain "${@:3}" > "$work/in"
    wants '' "aiger: -: gate $2 depends on a cycle\n" 1
    check "a cycle of gates: $1" convert < "$work/in"
}
chain_is_cyclic 'all 200,000' 4 1 1 200000
chain_is_cyclic 'all 200,000, the last one first' 400002 1 200000 -1 1
chain_is_cyclic 'from gate 100,000 on' 200002 100000 1 200000

# --- large tails ---
# a comment of NULs, CRs and LFs, which ends with CR and no LF
{ printf 'aag 0 0 0 0 0\nc\n'; yes 'comment@~' 2> /dev/null | head -c 999999 | tr '@~' '\0\r'; } > "$work/in"
wants '' '' 0
cp "$work/in" "$work/want_out"
check 'a comment of 1 MB comes back' convert < "$work/in"

# all_named NAME NUMBER..: 100,000 inputs, with symbols for the positions that `seq NUMBER..` gives
all_named() {
    local name=$1
    shift
    { printf 'aag 100000 100000 0 0 0\n'; seq 2 2 200000; seq -f 'i%.0f a name' "$@"; } > "$work/in"
    wants '' '' 0
    cp "$work/in" "$work/want_out"
    check "100,000 symbols come back: $name" convert < "$work/in"
    printf 'i0 again\n' >> "$work/in"
    wants '' 'aiger: -: line 200002: symbol given twice\n' 1
    check "a symbol given again after 100,000: $name" convert < "$work/in"
}
all_named 'in order' 0 99999
all_named 'in reverse order' 99999 -1 0

# --- little memory: what a header asks for is not taken before its lines are there ---
for header in '2147483647 2147483647 0 0 0' '2147483647 0 2147483647 0 0' '2147483647 0 0 2147483647 0' \
    '0 0 0 0 0 2147483647' '0 0 0 0 0 0 2147483647' '0 0 0 0 0 0 0 2147483647' '0 0 0 0 0 0 0 0 2147483647'; do
    printf 'aag %s\n' "$header" > "$work/in"
    wants '' 'aiger: -: line 2: file ends too early\n' 1
    check "200 MB are enough for the header $header" within 204800 "$program" aigtoaig --ascii < "$work/in"
done
printf 'aag 0 0 0 0 0 0 0 1\n2147483647\n' > "$work/in"
wants '' 'aiger: -: line 3: file ends too early\n' 1
check '200 MB are enough for the size of a justice property' within 204800 "$program" aigtoaig --ascii < "$work/in"
widest='aag 2147483647 2 0 1 0\n4294967294\n2\n4294967295\n'
printf '%b' "$widest" > "$work/in"
wants "$widest" '' 0
check '200 MB are enough for the largest variable' within 204800 "$program" aigtoaig --ascii < "$work/in"
printf 'aag 2147483647 0 0 0 0\n' > "$work/in"
wants '' 'aiger: -: too large to compare\n' 1
check '10 MB are enough for two circuits that are too large' within 10240 "$program" aigmiter "$work/in" - < "$work/in"
large 0 2000000 0 > "$work/in"
wants '' 'aiger: out of memory\n' 1
check 'a file larger than the 20 MB of memory' within 20480 "$program" aigtoaig --ascii < "$work/in"
# 40 MB that tell a small circuit: the text is not held
{ echo 'aag 0 0 0 100000 0'; yes "$(printf '%0400d' 0)" | head -n 100000; } > "$work/in"
wants '' '' 0
{ echo 'aag 0 0 0 100000 0'; yes 0 | head -n 100000; } > "$work/want_out"
check 'a text larger than the 20 MB of memory' within 20480 "$program" aigtoaig --ascii < "$work/in"

# --- simulation ---
printf 'aag 3 2 0 1 1\n2\n4\n6\n6 2 4\n' > "$work/gate"
printf 'aag 1 0 1 2 0\n2 3\n2\n3\n' > "$work/toggle"
simulate() { "$program" aigsim "$work/gate"; }
gate_dump() { "$program" aigsim --vcd "$work/gate"; }
printf '11\n.\n0x\n' > "$work/steps"
printf '11\n1\n' > "$work/late_bad"
printf '1\n11\n' > "$work/early_bad"

wants '' 'aiger: -: cannot write\n' 1
check 'a trace into a closed standard output' output_closed simulate < "$work/steps"
check 'a trace into a full standard output' output_full simulate < "$work/steps"
check 'a dump into a closed standard output' output_closed gate_dump < "$work/steps"
check 'a dump into a full standard output' output_full gate_dump < "$work/steps"
# the head at least is written where the trace is empty
check 'the dump of nothing into a full standard output' output_full gate_dump < /dev/null
# whose step came first, and could not be written
check 'a trace and a bad line, a closed standard output' output_closed simulate < "$work/late_bad"
check 'a trace and a bad line, a full standard output' output_full simulate < "$work/late_bad"
: > "$work/out"
yes 11 | "$program" aigsim "$work/gate" 2> "$work/err" | head -c 1 > "$work/first"
judge 'a trace into a pipe that nobody reads any more' "${PIPESTATUS[1]}"
: > "$work/out"
yes 11 | gate_dump 2> "$work/err" | head -c 1 > "$work/first"
judge 'a dump into a pipe that nobody reads any more' "${PIPESTATUS[1]}"
# a trace of nothing is not written, so nothing can go wrong there
wants '' '' 0
check 'an empty trace and a closed standard output' output_closed simulate < /dev/null
check 'an empty trace and a full standard output' output_full simulate < /dev/null
wants '' 'aiger: -: line 1: bad stimulus line\n' 1
check 'a bad line first, a closed standard output' output_closed simulate < "$work/early_bad"
check 'a bad line first, a full standard output' output_full simulate < "$work/early_bad"
wants '' '' 1
check 'a bad line first, a closed standard error' errors_closed simulate < "$work/early_bad"
check 'a bad line first, a full standard error' errors_full simulate < "$work/early_bad"
wants ' 11 1 \n' '' 1
check 'a bad line behind a step, a closed standard error' errors_closed simulate < "$work/late_bad"
wants '' 'aiger: -: cannot read\n' 1
check 'a directory as stimulus' simulate < "$work"
check 'a closed standard input as model' "$program" aigsim - "$work/steps" <&-
# the model's file then has the number of the standard input, until it is closed
check 'a closed standard input as stimulus' "$program" aigsim "$work/gate" <&-

# a model that is refused, or of which the words are, leaves the stimulus alone for whoever reads it next
wants '11\n.\n0x\n' '' 0
check 'the stimulus of a model that is refused' unread aigsim "$work/steps" < "$work/steps"
check 'the stimulus of a model that is not there' unread aigsim "$work/none" < "$work/steps"
check 'the stimulus of words that are refused' unread aigsim --max-var x "$work/gate" < "$work/steps"
check 'standard input, where model and stimulus are named' unread aigsim "$work/gate" /dev/null < "$work/steps"

# in_turn NAME MODEL SENT TRACE .. REST: sends each text to a simulation, and waits, ten seconds at most, for the trace behind it:
# all of that comes before more is sent. Then the stimulus ends, and what comes is REST. An option may stand before MODEL.
in_turn() {
    local name=$1 words came= wanted= said count
    read -ra words <<< "$2"
    shift 2
    : > "$work/err"
    coproc simulation { exec "$program" aigsim "${words[@]}" 2> "$work/err"; }
    local from=${simulation[0]} to=${simulation[1]} child=$simulation_PID answers questions
    exec {answers}<&"$from" {questions}>&"$to"
    eval "exec $from<&- $to>&-"
    while [ $# -gt 1 ]; do
        wanted+=$2
        printf '%b' "$1" >&"$questions"
        for ((count = $(printf '%b' "$2" | wc -l); count > 0; count--)); do
            if IFS= read -r -t 10 -u "$answers" said; then came+=$said'\n'; else came+='(not in time)'; break; fi
        done
        shift 2
    done
    exec {questions}>&-
    while IFS= read -r -t 10 -u "$answers" said; do came+=$said'\n'; done
    exec {answers}<&-
    wait "$child" 2> /dev/null
    ended=$?
    wants "$wanted$1" '' 0
    printf '%b' "$came" > "$work/out"
    judge "$name" "$ended"
}
in_turn 'each line of a trace comes before more is sent' "$work/gate" '11\n' ' 11 1 \n' '0x\n' ' 0x 0 \n' '.\n' '.\n' \
    '1x\n' ' 1x x \n' '.\n'
in_turn 'lines sent in pieces, and several at once' "$work/gate" '1' '' '1\n0' ' 11 1 \n' '0\n.\n11\n' ' 00 0 \n.\n 11 1 \n' \
    '1' '' '1\r' '' '\n' ' 11 1 \n' '.\n'
in_turn 'empty lines' "$work/toggle" '\n' '0  01 1\n' '\r\n' '1  10 0\n' '\n.\n' '0  01 1\n.\n' ''

# of a dump the head comes with the first frame, and the last time when the stimulus ends
gate_head=$(dump "$(scope inputs 'wire 1 i0 i0' 'wire 1 i1 i1')$(scope outputs 'wire 1 o0 o0')" '')
in_turn 'each frame of a dump comes before more is sent' "--vcd $work/gate" '11\n' \
    "$gate_head$(at 0 'b0 r' 1i0 1i1 1o0)" '0x\n11\n' "$(at 1 0i0 xi1 0o0)$(at 2 1i0 1i1 1o0)" \
    '.\n' "$(at 3 zi0 zi1 zo0)" '1' '' '1\n' "$(at 4 'b1 r' 1i0 1i1 1o0)" "$(at 5 zi0 zi1 zo0)$(at 6)"

wants ' 11 1 \n 0x 0 \n.\n' '' 0
steps_in_pieces() { printf '1'; sleep 0.1; printf '1\n0'; sleep 0.1; printf 'x\r'; sleep 0.1; printf '\n'; }
steps_in_pieces | simulate > "$work/out" 2> "$work/err"
judge 'a stimulus that comes in pieces' "${PIPESTATUS[1]}"
wants ' 11 1 \n' 'aiger: -: line 2: bad stimulus line\n' 1
bad_in_pieces() { printf '11\n1'; sleep 0.1; printf '11'; sleep 0.1; printf '1\n11\n'; }
bad_in_pieces | simulate > "$work/out" 2> "$work/err"
judge 'a line that is too long and comes in pieces' "${PIPESTATUS[1]}"

# 100 MB of stimulus in 20 MB of memory, through pipes: a line of the trace is written once, with how often it came
printf 'aag 12 10 1 1 1\n%s22 22 1\n24\n24 22 20\n' "$(printf '%s\n' $(seq 2 2 20))
" > "$work/wide"
many_steps() { yes 01x01x01x1 2> /dev/null | head -n 9090910; }
in_little() { ( ulimit -v 20480 && exec timeout 300 "$program" aigsim "$@" "$work/wide" ); }
wants '9090910 1 01x01x01x1 1 1\n1 .\n' '' 0
many_steps | in_little 2> "$work/err" | uniq -c | sed 's/^ *//' > "$work/out"
judge '100 MB of stimulus in 20 MB of memory' "${PIPESTATUS[1]}"
# as many steps as do not fit into the memory: of all but the first the dump has the time alone
wants '' '' 0
many_steps | head -n 1 | in_little --vcd | awk -v steps=2000000 '
    $0 == "#1" { for (time = 1; time < steps; time++) print "#" time }
    /^#[12]$/ { $0 = "#" steps - 1 + substr($0, 2) }
    { print }' > "$work/want_out"
many_steps | head -n 2000000 | in_little --vcd > "$work/out" 2> "$work/err"
judge 'the dump of 22 MB of stimulus in 20 MB of memory' "${PIPESTATUS[2]}"
wants '' 'aiger: -: line 1: bad stimulus line\n' 1
head -c 100000000 /dev/zero | tr '\0' 1 | in_little > "$work/out" 2> "$work/err"
judge 'a line of 100 MB in 20 MB of memory' "${PIPESTATUS[2]}"

yes 11 | head -n 100000 > "$work/in"
printf 'x\n' >> "$work/in"
wants '' 'aiger: -: line 100001: bad stimulus line\n' 1
yes ' 11 1 ' | head -n 100000 > "$work/want_out"
check 'a bad line after 100,000 steps' simulate < "$work/in"

# --- simulation with --batch: nothing is sent before the stimulus was read to its end and found right ---
batched() { "$program" aigsim --batch "$work/gate"; }
printf '11\n.\n0x\n' > "$work/steps"
wants '' 'aiger: -: cannot write\n' 1
check 'a batch into a closed standard output' output_closed batched < "$work/steps"
check 'a batch into a full standard output' output_full batched < "$work/steps"
: > "$work/out"
yes 11 2> /dev/null | head -n 100000 | batched 2> "$work/err" | head -c 1 > "$work/first"
judge 'a batch into a pipe that nobody reads any more' "${PIPESTATUS[2]}"
wants '' '' 0
check 'an empty batch and a closed standard output' output_closed batched < /dev/null
check 'an empty batch and a full standard output' output_full batched < /dev/null
# which is told, though the step before it could not have been written
wants '' 'aiger: -: line 2: bad stimulus line\n' 1
check 'a batch with a bad line, a closed standard output' output_closed batched < "$work/late_bad"
check 'a batch with a bad line, a full standard output' output_full batched < "$work/late_bad"
wants '' '' 1
check 'a batch with a bad line, a closed standard error' errors_closed batched < "$work/late_bad"
check 'a batch with a bad line, a full standard error' errors_full batched < "$work/late_bad"
wants '' 'aiger: -: cannot read\n' 1
check 'a directory as stimulus of a batch' batched < "$work"
check 'a closed standard input as stimulus of a batch' "$program" aigsim --batch "$work/gate" <&-
wants '11\n.\n0x\n' '' 0
check 'the stimulus of a batch whose model is refused' unread aigsim --batch "$work/steps" < "$work/steps"
wants ' 11 1 \n 0x 0 \n.\n' '' 0
steps_in_pieces | batched > "$work/out" 2> "$work/err"
judge 'a stimulus of a batch that comes in pieces' "${PIPESTATUS[1]}"
wants '' 'aiger: -: line 2: bad stimulus line\n' 1
bad_in_pieces | batched > "$work/out" 2> "$work/err"
judge 'a line of a batch that is too long and comes in pieces' "${PIPESTATUS[1]}"
# what came of the first step is looked at before the second one is sent
: > "$work/out"
looks_between() { printf '11\n'; sleep 0.2; wc -c < "$work/out" > "$work/between"; printf '0x\n'; }
wants ' 11 1 \n 0x 0 \n.\n' '' 0
looks_between | batched > "$work/out" 2> "$work/err"
judge 'a stimulus of a batch that waits' "${PIPESTATUS[1]}"
if [ "$(< "$work/between")" = 0 ]; then pass; else
    fail 'nothing is sent before the stimulus of a batch ends' "came   $(< "$work/between") bytes"
fi
wants '' 'aiger: -: line 100001: bad stimulus line\n' 1
check 'a bad line of a batch after 100,000 steps' batched < "$work/in"
# a batch keeps its stimulus
wants '' 'aiger: out of memory\n' 1
many_steps | in_little --batch > "$work/out" 2> "$work/err"
judge 'a batch of 100 MB of stimulus in 20 MB of memory' "${PIPESTATUS[1]}"

# each gate of a chain is the input
chain_is_simulated() {
    chain 0 "${@:2}" > "$work/chain"
    "$program" aigtoaig --keep-map < "$work/chain" > "$work/mapped"
    printf '1\n0\nx\n' > "$work/in"
    wants ' 1 1 \n 0 0 \n x x \n.\n' '' 0
    check "200,000 gates, $1" "$program" aigsim "$work/chain" < "$work/in"
    check "the mapped image of 200,000 gates, $1" "$program" aigsim "$work/mapped" < "$work/in"
    check "200,000 gates in a batch, $1" "$program" aigsim --batch "$work/chain" < "$work/in"
}
chain_is_simulated 'in the order of the chain' 1 200000
chain_is_simulated 'each before the gate that it is over' 200000 -1 1

# memory for a simulation is taken before the stimulus is read, for the gates that are there and not for the largest variable
printf '%b' "$widest" > "$work/in"
printf '10\n' > "$work/steps"
wants ' 10 0 \n.\n' '' 0
check '20 MB are enough to simulate the largest variable' within 20480 "$program" aigsim - "$work/steps" < "$work/in"
check '20 MB are enough for a batch with the largest variable' within 20480 "$program" aigsim --batch - "$work/steps" < "$work/in"
printf 'aig 100000000 100000000 0 0 0\n' > "$work/inputs"
wants '11\n' '' 0
printf '11\n' > "$work/in"
in_too_little() { within 204800 "$program" aigsim "$work/inputs" 2> "$work/told"; cat; }
check 'a model too large for the memory, and its stimulus' in_too_little < "$work/in"
if [ "$(cat "$work/told")" = 'aiger: out of memory' ]; then pass; else
    fail 'a model too large for the memory' "came   $(cat "$work/told")"
fi

# --- unrolling ---
printf '%b' 'aag 0 0 0 0 0 0 0 1\n0\n' > "$work/live"
wants '' 'aiger: -: cannot write\n' 1
check 'an unrolled circuit into a closed standard output' output_closed unroll 2 < "$work/toggle"
check 'an unrolled circuit into a full standard output' output_full unroll 2 < "$work/toggle"
: > "$work/out"
unroll 1000000 < "$work/toggle" 2> "$work/err" | head -c 1 > "$work/first"
judge 'an unrolled circuit into a pipe that nobody reads any more' "${PIPESTATUS[0]}"
wants '' 'aiger: -: cannot read\n' 1
check 'a directory as standard input, to unroll' unroll 2 < "$work"
check 'a closed standard input, to unroll' unroll 2 <&-
wants '' 'aiger: -: justice or fairness cannot be unrolled\n' 1
check 'a refusal to unroll, with a closed standard output' output_closed unroll 2 < "$work/live"
check 'a refusal to unroll, with a full standard output' output_full unroll 2 < "$work/live"
wants '' '' 1
check 'a refusal to unroll, with a closed standard error' errors_closed unroll 2 < "$work/live"
wants 'aig 0 0 0 4 0\n0\n1\n1\n0\n' '' 0
unroll 2 < "$work/toggle" 2> "$work/err" | cat > "$work/out"
judge 'an unrolled circuit into a pipe' "${PIPESTATUS[0]}"

# carried GATES: a chain of gates over the input, which begins at a latch that starts at 1 and ends as its next state
carried() {
    printf 'aag %d 1 1 1 %d\n2\n4 %d 1\n%d\n' $(($1 + 2)) "$1" $((2 * $1 + 4)) $((2 * $1 + 4))
    seq "$1" | awk '{ print 2 * $1 + 4, 2 * $1 + 2, 2 }'
}
# carried_on GATES FRAMES: the same unrolled. The chain goes on from frame to frame, over another input in each.
carried_on() {
    awk -v gates="$1" -v frames="$2" 'BEGIN {
        printf "aag %d %d 0 %d %d\n", frames + frames * gates, frames, frames, frames * gates
        for (frame = 1; frame <= frames; frame++) print 2 * frame
        for (frame = 1; frame <= frames; frame++) print 2 * (frames + frame * gates)
        print 2 * (frames + 1), 2, 1
        for (gate = 2; gate <= frames * gates; gate++)
            print 2 * (frames + gate), 2 * (frames + gate - 1), 2 * int((gate - 1) / gates) + 2
    }'
}
wants '' '' 0
carried 20000 > "$work/in"
carried_on 20000 50 > "$work/want_out"
check '20,000 gates over 50 frames in 10 MB of memory' within 10240 "$program" aigunroll --frames 50 --ascii < "$work/in"
within 10240 "$program" aigunroll --frames 50 < "$work/in" 2> "$work/err" | convert 2> /dev/null > "$work/out"
judge '20,000 gates over 50 frames in 10 MB of memory, to binary' "${PIPESTATUS[0]}"

# a chain of 200,000 gates, each over the one behind it, so that numbers and places go in opposite orders
{
    printf 'aag 200001 1 0 1 200000\n2\n4\n'
    seq 2 200000 | awk '{ print 2 * $1, 2 * $1 + 2, 2 }'
    printf '400002 2 2\n'
} > "$work/chain"
# chain_over FRAMES: the chain unrolled, over an input in each frame
chain_over() {
    awk -v frames="$1" -v gates=200000 'BEGIN {
        printf "aag %d %d 0 %d %d\n", frames + frames * gates, frames, frames, frames * gates
        for (frame = 1; frame <= frames; frame++) print 2 * frame
        for (frame = 1; frame <= frames; frame++) print 2 * (frames + frame * gates)
        for (gate = 0; gate < frames * gates; gate++) {
            own = 2 * (frames + 1 + gate)
            input = 2 * int(gate / gates) + 2
            print own, gate % gates ? own - 2 : input, input
        }
    }'
}
# its binary text: the first deltas are 2 and 0, and those of the gate of variable n are 2 and 2n - 4
image_of_chain() {
    PYTHONPATH=$top/tests python3 -B -c '
import sys
from lib import images
deltas = b"".join(images.spelled(2) + images.spelled(2 * n - 4) for n in range(2, 200002))
sys.stdout.buffer.write(b"aig 200001 1 0 1 200000\n400002\n" + deltas)'
}
wants '' '' 0
image_of_chain > "$work/want_out"
check 'the image of 200,000 gates, each over the one behind it' "$program" aigtoaig < "$work/chain"
cp "$work/chain" "$work/want_out"
check '200,000 gates, each over the one behind it, come back' convert < "$work/chain"
check '200,000 gates, each over the one behind it, come back by their map' with_map "$work/chain"
wants ' 1 1 \n.\n' '' 0
printf '1\n' > "$work/in"
check '200,000 gates, each over the one behind it, are simulated' "$program" aigsim "$work/chain" < "$work/in"
check '200,000 gates, each over the one behind it, in a batch' "$program" aigsim --batch "$work/chain" < "$work/in"
wants '' '' 0
for frames in 1 3; do
    chain_over $frames > "$work/want_out"
    check "200,000 gates, each over the one behind it, over $frames frames" unroll $frames --ascii < "$work/chain"
    "$program" aigtoaig < "$work/want_out" > "$work/in"
    cp "$work/in" "$work/want_out"
    check "200,000 gates, each over the one behind it, over $frames frames, to binary" unroll $frames < "$work/chain"
done

# least_memory WORD..: how many kilobytes the words need over the file in, up to 128 more than that
least_memory() {
    local enough=65536 few=1024 between
    while [ $((enough - few)) -gt 128 ]; do
        between=$(((enough + few) / 2))
        if within "$between" "$@" < "$work/in" > /dev/null 2>&1; then enough=$between; else few=$between; fi
    done
    echo "$enough"
}
# needs_no_more NAME WORD..: 50 frames need no more memory than one does
needs_no_more() {
    local name=$1 one
    shift
    one=$(least_memory "$program" aigunroll --frames 1 "$@")
    if [ "$one" -lt 65536 ] && within $((one + 256)) "$program" aigunroll --frames 50 "$@" < "$work/in" > /dev/null 2>&1; then pass; else
        fail "$name" "wanted 50 frames in $((one + 256)) KB, since one needs $one KB"
    fi
}
carried 100000 > "$work/in"
needs_no_more '100,000 gates over 50 frames need as much memory as over one'
needs_no_more '100,000 gates over 50 frames need as much memory as over one, in ASCII' --ascii
# a bad state and a constraint for each latch, each of which is uninitialised and gets the value of the next
awk 'BEGIN {
    count = 10000
    printf "aag %d 0 %d %d 0 %d %d\n", count, count, count, count, count
    for (i = 1; i <= count; i++) print 2 * i, 2 * (i % count + 1), 2 * i
    for (i = 1; i <= 3 * count; i++) print 2 * (i % count + 1)
}' > "$work/in"
needs_no_more '10,000 latches, outputs, bad states and constraints over 50 frames need as much memory as over one'

yes '0
1
1
0' 2> /dev/null | head -n 2000000 > "$work/want_out"
sed -i '1i aag 0 0 0 2000000 0' "$work/want_out"
check 'a toggle over as many frames as there may be, in 10 MB of memory' within 10240 "$program" aigunroll --frames 1000000 --ascii \
    < "$work/toggle"

# begins NAME LINE: the first line of the file in over 524,287 frames; the rest would take long, and is not waited for
begins() {
    local from child line=
    # What it says when it is stopped goes nowhere: it may come when a later run has the file err.
    exec {from}< <(ulimit -v 204800 && exec timeout 10 "$program" aigunroll --frames 524287 --ascii < "$work/in" 2> /dev/null)
    child=$!
    IFS= read -r -t 10 line <&"$from"
    kill "$child"
    wait "$child" 2> /dev/null
    exec {from}<&-
    : > "$work/err"
    printf '%s\n' "$line" > "$work/out"
    wants "$2\n" '' 0
    judge "$1" 0
}
{ printf 'aig 8191 4096 4095 0 0\n'; seq -f '0 %.0f' 8194 2 16382; } > "$work/in"
begins 'as many variables as there may be' 'aag 2147483647 2147483647 0 0 0'
{ printf 'aag 0 0 0 4096 0\n'; yes 0 2> /dev/null | head -n 4096; } > "$work/in"
begins 'nearly as many outputs as there may be' 'aag 0 0 0 2147479552 0'
{ printf 'aag 0 0 0 0 0 4096\n'; yes 0 2> /dev/null | head -n 4096; } > "$work/in"
begins 'nearly as many bad states as there may be' 'aag 2147479552 0 0 0 2147479552 2147479552'

# --- the examples ---
# some_steps INPUTS: two runs of 20 steps, which look made by chance
some_steps() {
    awk -v inputs="$1" 'BEGIN {
        for (step = 0; step < 40; step++) {
            line = ""
            for (i = 0; i < inputs; i++) {
                at = (at * 16807 + 1) % 2147483647
                line = line substr("0011x", int(at / 65536) % 5 + 1, 1)
            }
            print line
            if (step == 19) print "."
        }
    }'
}
for file in "$top"/examples/*.aag "$top"/examples/*.aig; do
    canonical=${file##*/}
    canonical=$top/examples/canonical/${canonical%.*}.aag
    wants '' '' 0
    cp "$canonical" "$work/want_out"
    check "the example ${file##*/}" convert < "$file"
    check "the example ${file##*/}, once more" convert < "$canonical"
    "$program" aigtoaig < "$file" > "$work/want_out"
    cp "$work/want_out" "$work/in"
    check "the binary image of ${file##*/} comes back" through_ascii "$work/in"
    cp "$canonical" "$work/want_out"
    check "the example ${file##*/} comes back by its map" with_map "$canonical"

    "$program" aigtoaig --keep-map < "$file" > "$work/mapped"
    some_steps "$(head -n 1 "$canonical" | cut -d ' ' -f 3)" > "$work/steps"
    "$program" aigsim --properties "$file" "$work/steps" > "$work/want_out"
    check "the trace of the binary image of ${file##*/}" "$program" aigsim --properties "$work/in" "$work/steps"
    check "the trace of the mapped image of ${file##*/}" "$program" aigsim --properties "$work/mapped" "$work/steps"
    check "the trace of a batch over ${file##*/}" "$program" aigsim --batch --properties "$file" "$work/steps"
    if [ "$(grep -c ' ' "$work/want_out")" = 40 ]; then pass; else fail "the trace of the example ${file##*/} has 40 steps"; fi
done

finish
