#!/usr/bin/env bash
# Witnesses and solvers' answers over devices of the system: standard streams that fail, names, pipes, and little memory.
#
#     tests/run/witness_devices.sh
. "$(dirname "${BASH_SOURCE[0]}")/../lib/judge.sh"
. "$top/tests/lib/streams.sh"
need_program

# a toggle that is bad where it is 1, and its witnesses: confirmed, not confirmed, and with bad lines
make_witnesses() {
    local toggle='aag 1 0 1 0 0 1\n2 3\n2\n'
    judged=$work/judged
    mkdir "$judged"
    printf '%b' "$toggle" > "$judged/model.aag"
    printf '1\nb0\n0\n\n\n.\n' > "$judged/witness"
    printf '1\nb0\n0\n\n.\n' > "$judged/short"
    printf '2\n' > "$judged/early_bad"
    printf '1\nb0\n0\n\n\n.\n\n' > "$judged/late_bad"
    printf 'aag 1 1 0 0 0\n' > "$judged/cut.aag"
}
confirm() { "$program" aigsim --witness "$judged/model.aag" "$@"; }

witness_outputs() {
    local stream
    for stream in closed full; do
        wants '' 'aiger: -: cannot write\n' 1
        check "a witness that is confirmed, a $stream standard output" "output_$stream" confirm "$judged/witness"
        check "a witness that is not confirmed, a $stream standard output" "output_$stream" confirm "$judged/short"
        wants '' "aiger: $judged/early_bad: line 1: bad witness line\n" 1
        check "a bad witness, a $stream standard output" "output_$stream" confirm "$judged/early_bad"
        wants '' '' 1
        check "a bad witness, a $stream standard error" "errors_$stream" confirm "$judged/late_bad"
        wants 'not confirmed\n' '' 1
        check "a witness that is not confirmed, a $stream standard error" "errors_$stream" confirm "$judged/short"
        wants 'confirmed 1\n' '' 0
        check "a witness that is confirmed, a $stream standard error" "errors_$stream" confirm "$judged/witness"
    done
    # the reader of the pipe has gone when the answer comes
    wants '' 'aiger: -: cannot write\n' 1
    : > "$work/out"
    { sleep 0.3; confirm "$judged/witness"; } 2> "$work/err" | :
    judge 'an answer into a pipe that nobody reads any more' "${PIPESTATUS[0]}"
}

witness_inputs() {
    wants '' 'aiger: -: cannot read\n' 1
    check 'a directory as witness by standard input' confirm < "$work"
    check 'a closed standard input as witness' confirm <&-
    check 'a closed standard input as model of a witness' "$program" aigsim --witness - "$judged/witness" <&-
    wants '' "aiger: $work: cannot read: Is a directory\n" 1
    check 'a directory as witness' confirm "$work"
    wants '' "aiger: $judged/none: cannot read: No such file or directory\n" 1
    check 'a witness that is not there, a full standard output' output_full confirm "$judged/none"
    wants 'confirmed 1\n' '' 0
    check 'the witness by standard input' confirm < "$judged/witness"
    check 'the witness by -' confirm - < "$judged/witness"
    check 'the model of a witness by standard input' \
        "$program" aigsim --witness - "$judged/witness" < "$judged/model.aag"
    check 'all other streams closed' eval 'confirm "$judged/witness" <&- 2>&-'
}

# a witness whose model is refused, or of which the words are, is left alone for whoever reads standard input next
witness_left_alone() {
    wants '1\nb0\n0\n\n\n.\n' '' 0
    check 'the witness of a model that is refused' unread aigsim --witness "$judged/cut.aag" < "$judged/witness"
    check 'the witness of a model that is not there' unread aigsim --witness "$judged/none" < "$judged/witness"
    check 'the witness of words that are refused' \
        unread aigsim --witness --batch "$judged/model.aag" < "$judged/witness"
    wants 'confirmed 1\n1\nb0\n0\n\n\n.\n' '' 0
    check 'standard input, where model and witness are named' \
        unread aigsim --witness "$judged/model.aag" "$judged/witness" < "$judged/witness"
}

# the answer waits for the end of the witness, since a line behind the dot would make it a bad one
witness_in_pieces() {
    pieces() { printf '1\nb'; sleep 0.1; printf '0\n0\r'; sleep 0.1; printf '\n\n'; sleep 0.1; printf '\n.'; }
    bad_pieces() { printf '1\nb0\n0\n0'; sleep 0.1; printf '0'; sleep 0.1; printf '0\n.\n'; }
    dot_then() { printf '1\nb0\n0\n\n\n.\n'; sleep 0.2; wc -c < "$work/out" > "$work/between"; printf '%b' "$1"; }
    wants 'confirmed 1\n' '' 0
    pieces | confirm > "$work/out" 2> "$work/err"
    judge 'a witness that comes in pieces' "${PIPESTATUS[1]}"
    wants '' 'aiger: -: line 4: bad witness line\n' 1
    bad_pieces | confirm > "$work/out" 2> "$work/err"
    judge 'a line of a witness that is too long and comes in pieces' "${PIPESTATUS[1]}"
    wants '' 'aiger: -: line 7: bad witness line\n' 1
    : > "$work/out"
    dot_then 'z' | confirm > "$work/out" 2> "$work/err"
    judge 'a byte that comes late behind the dot' "${PIPESTATUS[1]}"
    wants 'confirmed 1\n' '' 0
    : > "$work/out"
    dot_then '' | confirm > "$work/out" 2> "$work/err"
    judge 'a witness that ends late' "${PIPESTATUS[1]}"
    if [ "$(< "$work/between")" = 0 ]; then pass; else
        fail 'nothing is answered before the witness ends' "came   $(< "$work/between") bytes"
    fi
}

witness_names() {
    local name=$judged/$'two\nlines and spaces'
    cp "$judged/witness" "$judged/-w"
    cp "$judged/model.aag" "$judged/-m"
    cp "$judged/witness" "$judged/witness.gzip"
    cp "$judged/witness" "$name"
    ln -s witness "$judged/link"
    chmod 400 "$judged/model.aag" "$judged/witness"
    wants 'confirmed 1\n' '' 0
    check 'model and witness that may only be read' confirm "$judged/witness"
    check 'a link to a witness' confirm "$judged/link"
    check 'any ending of the name of a witness' confirm "$judged/witness.gzip"
    check 'a name of a witness with a line feed and spaces' confirm "$name"
    check 'names that begin with - behind --, to judge' eval 'cd "$judged" && "$program" aigsim --witness -- -m -w'
    check 'options behind the names of model and witness' \
        "$program" aigsim "$judged/model.aag" "$judged/link" --max-var=1 --witness
    wants '' "aiger: $judged/late_bad: line 7: bad witness line\n" 1
    check 'a bad witness is named' confirm "$judged/late_bad"
    wants '' "aiger: $judged/cut.aag: line 2: file ends too early\n" 1
    check 'a refused model is named, and not the bad witness' \
        "$program" aigsim --witness "$judged/cut.aag" "$judged/late_bad"
    check 'a refused model is named, and not a witness that is not there' \
        "$program" aigsim --witness "$judged/cut.aag" "$judged/none"
    refused 'a witness in a batch' 'aiger: --witness stands alone' aigsim --witness --batch a b
    refused 'a witness with properties' 'aiger: --witness stands alone' aigsim --witness --properties a
    refused 'one stream for model and witness' 'aiger: model and stimulus are both standard input' aigsim --witness -
    refused 'three names to judge' 'c' aigsim --witness a b c
}

witness_pipes() {
    mkfifo "$judged/model_pipe" "$judged/pipe"
    timeout 10 bash -c 'cat "$1/model.aag" > "$1/model_pipe"' cat "$judged" &
    timeout 10 bash -c 'cat "$1/witness" > "$1/pipe"' cat "$judged" &
    wants 'confirmed 1\n' '' 0
    check 'pipes as model and as witness' "$program" aigsim --witness "$judged/model_pipe" "$judged/pipe"
    wait
    wants '' "aiger: $judged/cut.aag: line 2: file ends too early\n" 1
    check 'no witness is waited for where a model is refused' \
        timeout 10 "$program" aigsim --witness "$judged/cut.aag" "$judged/pipe"
}

# memory is taken for the model and one line, before the witness is read, however many steps it has
witness_memory() {
    local input='aag 10 10 0 0 0 1\n2\n4\n6\n8\n10\n12\n14\n16\n18\n20\n20\n'
    in_little_memory() { ( ulimit -v 20480 && exec timeout 300 "$program" aigsim --witness "$work/model" ); }
    # head_of COUNT LINE: a witness of the input's model whose first COUNT steps are LINE
    head_of() { printf '1\nb0\n\n'; yes "$2" 2> /dev/null | head -n "$1"; }
    printf '%b' "$input" > "$work/model"
    wants 'confirmed 1000000\n' '' 0
    { head_of 1000000 1111111110; printf '0000000001\n.\n'; } | in_little_memory > "$work/out" 2> "$work/err"
    judge '1,000,001 steps in 20 MB of memory' "${PIPESTATUS[1]}"
    wants 'not confirmed\n' '' 1
    { head_of 1000000 xxxxxxxxxx; printf '.\n'; } | in_little_memory > "$work/out" 2> "$work/err"
    judge '1,000,000 steps that are not confirmed in 20 MB of memory' "${PIPESTATUS[1]}"
    wants '' 'aiger: -: line 1000005: bad witness line\n' 1
    { head_of 1000000 1111111111; printf '.\n.\n'; } | in_little_memory > "$work/out" 2> "$work/err"
    judge 'a bad line behind 1,000,000 steps' "${PIPESTATUS[1]}"
    wants '' 'aiger: -: line 4: bad witness line\n' 1
    { printf '1\nb0\n\n'; head -c 100000000 /dev/zero | tr '\0' 1; } | in_little_memory > "$work/out" 2> "$work/err"
    judge 'a step of 100 MB in 20 MB of memory' "${PIPESTATUS[1]}"
    wants '' 'aiger: -: line 1: bad witness line\n' 1
    head -c 100000000 /dev/zero | tr '\0' 1 | in_little_memory > "$work/out" 2> "$work/err"
    judge 'a first line of 100 MB in 20 MB of memory' "${PIPESTATUS[2]}"
    wants '' 'aiger: -: line 2: bad witness line\n' 1
    { printf '1\nb'; head -c 100000000 /dev/zero | tr '\0' 0; } | in_little_memory > "$work/out" 2> "$work/err"
    judge 'a position of 100 MB in 20 MB of memory' "${PIPESTATUS[1]}"
    witness_of_a_chain 'in the order of the chain' 1 200000
    witness_of_a_chain 'each before the gate that it is over' 200000 -1 1
    printf 'aag 2147483647 2 0 0 0 1\n4294967294\n2\n4294967295\n' > "$work/in"
    printf '1\nb0\n\n10\n00\n.\n' > "$work/witness"
    wants 'confirmed 1\n' '' 0
    check '20 MB are enough to judge a witness of the largest variable' \
        within 20480 "$program" aigsim --witness - "$work/witness" < "$work/in"
    witness_without_memory
}

# A toggle that is to be 1 again and again. The steps of a witness are held, while there is memory for them.
lasso_streams() {
    local stream
    printf 'aag 1 0 1 0 0 0 0 1\n2 3\n1\n2\n' > "$judged/live.aag"
    printf '1\nj0\n0\n\n\n\n.\n' > "$judged/lasso"
    printf '1\nj0\n0\n\n.\n' > "$judged/no_lasso"
    close_loop() { "$program" aigsim --witness "$judged/live.aag" "$@"; }
    for stream in closed full; do
        wants '' 'aiger: -: cannot write\n' 1
        check "a lasso that is confirmed, a $stream standard output" "output_$stream" close_loop "$judged/lasso"
        check "the run of a lasso, a $stream standard output" "output_$stream" close_loop --vcd "$judged/lasso"
        check "no lasso, a $stream standard output" "output_$stream" close_loop "$judged/no_lasso"
        wants 'confirmed 1\n' '' 0
        check "a lasso that is confirmed, a $stream standard error" "errors_$stream" close_loop "$judged/lasso"
    done
    wants '' 'aiger: -: cannot read\n' 1
    check 'a directory as lasso by standard input' close_loop < "$work"
    lasso_in_pieces() { printf '1\nj'; sleep 0.1; printf '0\n0\r'; sleep 0.1; printf '\n\n\n'; sleep 0.1; printf '\n.'; }
    wants 'confirmed 1\n' '' 0
    : > "$work/out"
    lasso_in_pieces | close_loop > "$work/out" 2> "$work/err"
    judge 'a lasso that comes in pieces' "${PIPESTATUS[1]}"
    check 'all other streams closed, of a lasso' eval 'close_loop "$judged/lasso" <&- 2>&-'
}

lasso_memory() {
    local input='aag 11 10 1 0 0 0 0 1\n2\n4\n6\n8\n10\n12\n14\n16\n18\n20\n22 20\n1\n22\n'
    # in_memory KILOBYTES
    in_memory() { ( ulimit -v "$1" && exec timeout 300 "$program" aigsim --witness "$work/model" ); }
    million() { printf '1\nj0\n0\n'; yes 1111111110 2> /dev/null | head -n 1000000; printf '0000000001\n0000000001\n.\n'; }
    printf '%b' "$input" > "$work/model"
    wants 'confirmed 1000001\n' '' 0
    million | in_memory 20480 > "$work/out" 2> "$work/err"
    judge 'a lasso of 11 MB in 20 MB of memory' "${PIPESTATUS[1]}"
    wants '' 'aiger: out of memory\n' 1
    million | in_memory 12288 > "$work/out" 2> "$work/err"
    judge 'a lasso of 11 MB in 12 MB of memory' "${PIPESTATUS[1]}"
    wants '' 'aiger: -: line 1000007: bad witness line\n' 1
    { million; printf '.\n'; } | in_memory 12288 > "$work/out" 2> "$work/err"
    judge 'a bad line behind a lasso for which there is no memory' "${PIPESTATUS[1]}"
    wants '' 'aiger: -: line 4: bad witness line\n' 1
    { printf '1\nj0\n0\n'; head -c 100000000 /dev/zero | tr '\0' 1; } | in_memory 20480 > "$work/out" 2> "$work/err"
    judge 'a step of a lasso of 100 MB in 20 MB of memory' "${PIPESTATUS[1]}"
    wants '' 'aiger: -: line 2: bad witness line\n' 1
    { printf '1\nj'; head -c 100000000 /dev/zero | tr '\0' 0; } | in_memory 20480 > "$work/out" 2> "$work/err"
    judge 'a position of a justice property of 100 MB in 20 MB of memory' "${PIPESTATUS[1]}"
    printf 'aag 2147483647 1 0 0 0 0 0 1\n4294967294\n1\n4294967295\n' > "$work/in"
    printf '1\nj0\n\n1\n0\n.\n' > "$work/witness"
    wants 'confirmed 0\n' '' 0
    check '20 MB are enough to judge a lasso of the largest variable' \
        within 20480 "$program" aigsim --witness - "$work/witness" < "$work/in"
}

# witness_of_a_chain NAME NUMBER..: 200,000 gates, of which each is the input, and the last is the bad state
witness_of_a_chain() {
    chain 0 "${@:2}" | sed '1s/.*/aag 200001 1 0 0 200000 1/' > "$work/chain"
    printf '1\nb0\n\n0\nx\n1\n.\n' > "$work/in"
    wants 'confirmed 2\n' '' 0
    check "a witness of 200,000 gates, $1" "$program" aigsim --witness "$work/chain" < "$work/in"
}

# a model of few bytes with 10^8 inputs: nothing was read of its witness when memory runs out
witness_without_memory() {
    printf 'aig 100000000 100000000 0 0 0\n' > "$work/inputs"
    printf '1\nb0\n\n' > "$work/in"
    too_large_to_judge() { within 204800 "$program" aigsim --witness "$work/inputs" 2> "$work/told"; cat; }
    wants '1\nb0\n\n' '' 0
    check 'a model too large for the memory, and its witness' too_large_to_judge < "$work/in"
    if [ "$(cat "$work/told")" = 'aiger: out of memory' ]; then pass; else
        fail 'a model of a witness too large for the memory' "came   $(cat "$work/told")"
    fi
}

# a solver's answer that gives the witness, over the same model
reach() { "$program" aigunroll --frames 2 --answer "$@" "$judged/model.aag"; }
clauses() { "$program" aigunroll --frames 2 --cnf "$judged/model.aag"; }
run='1\nb0\n0\n\n\n.\n'

answer_streams() {
    local stream
    printf 's SATISFIABLE\nv 0\n' > "$judged/answer"
    printf 's SAT\n' > "$judged/bad_answer"
    for stream in closed full; do
        wants '' 'aiger: -: cannot write\n' 1
        check "clauses, a $stream standard output" "output_$stream" clauses
        check "an answer, a $stream standard output" "output_$stream" reach "$judged/answer"
        wants '' "aiger: $judged/bad_answer: line 1: bad answer line\n" 1
        check "a bad answer, a $stream standard output" "output_$stream" reach "$judged/bad_answer"
        wants '' '' 1
        check "a bad answer, a $stream standard error" "errors_$stream" reach "$judged/bad_answer"
        wants "$run" '' 0
        check "an answer, a $stream standard error" "errors_$stream" reach "$judged/answer"
    done
    wants '' 'aiger: -: cannot read\n' 1
    check 'a directory as answer by standard input' reach - < "$work"
    check 'a closed standard input as answer' reach - <&-
    check 'a closed standard input as model of an answer' "$program" aigunroll --frames 2 - --answer "$judged/answer" <&-
    wants "$run" '' 0
    check 'the answer by standard input' reach - < "$judged/answer"
    check 'a name of an answer that begins with -, behind =' eval 'cp "$judged/answer" "$judged/-a" && cd "$judged" && reach=-a &&
        "$program" aigunroll --frames 2 --answer=$reach model.aag'
    answer_in_pieces() { printf 'c\ns SAT'; sleep 0.1; printf 'ISFIABLE\r'; sleep 0.1; printf '\nv 4'; sleep 0.1; printf '2 0'; }
    answer_in_pieces | reach - > "$work/out" 2> "$work/err"
    judge 'an answer that comes in pieces' "${PIPESTATUS[1]}"
    # clauses, the solver and its answer side by side, as the model has a name
    wants '' 'aiger: -: unsatisfiable\n' 1
    clauses | { cat > "$work/through"; printf 's UNSATISFIABLE\n'; } | reach - > "$work/out" 2> "$work/err"
    judge 'from clauses to an answer in one pipe' "${PIPESTATUS[2]}"
}

# an answer whose model is refused, or of which the words are, is left alone for whoever reads standard input next
answers_left_alone() {
    wants 's SATISFIABLE\nv 0\n' '' 0
    check 'the answer on a model that is refused' unread aigunroll --frames 2 --answer - "$judged/cut.aag" < "$judged/answer"
    check 'the answer on a model that is not there' unread aigunroll --frames 2 --answer - "$judged/none" < "$judged/answer"
    check 'the answer on no such bad state' \
        unread aigunroll --frames 2 --answer - --bad 1 "$judged/model.aag" < "$judged/answer"
    check 'the answer of words that are refused' \
        unread aigunroll --frames 2 --cnf --answer - "$judged/model.aag" < "$judged/answer"
    wants "${run}s SATISFIABLE\nv 0\n" '' 0
    check 'standard input, where model and answer are named' \
        unread aigunroll --frames 2 --answer "$judged/answer" "$judged/model.aag" < "$judged/answer"
}

# memory is taken for the model and the inputs of all frames, and not for what an answer holds besides
answer_memory() {
    reach_in_little() { ( ulimit -v 20480 && exec timeout 300 "$program" aigunroll --frames 2 --answer - "$judged/model.aag" ); }
    # many COUNT BYTES: these bytes so often
    many() { yes "$2" 2> /dev/null | head -n "$1" | tr -d '\n'; }
    wants "$run" '' 0
    { printf 'c'; many 2000000 ' a comment of 25 characters'; printf '\ns SATISFIABLE\nv 0\n'; } | reach_in_little > "$work/out" 2> "$work/err"
    judge 'a comment of 50 MB in 20 MB of memory' "${PIPESTATUS[1]}"
    { printf 's SATISFIABLE\nv'; many 4000000 ' -2147483647'; printf ' 0\n'; } | reach_in_little > "$work/out" 2> "$work/err"
    judge 'a line of values of 48 MB in 20 MB of memory' "${PIPESTATUS[1]}"
    wants '' 'aiger: -: line 2: bad answer line\n' 1
    { printf 's SATISFIABLE\nv '; many 4000000 '1234567890'; printf ' 0\n'; } | reach_in_little > "$work/out" 2> "$work/err"
    judge 'a number of 40 MB in 20 MB of memory' "${PIPESTATUS[1]}"
    # which has no end, so that it must not be waited for
    wants '' 'aiger: -: line 3: bad answer line\n' 1
    { printf 'c\nc\n'; yes wrong 2> /dev/null; } | reach_in_little > "$work/out" 2> "$work/err"
    judge 'a wrong answer without an end' "${PIPESTATUS[1]}"
    # too many inputs for the memory: nothing was read of the answer
    printf 'aig 100000000 100000000 0 0 0 1\n2\n' > "$work/inputs"
    too_large_to_reach() { within 204800 "$program" aigunroll --frames 2 --answer - "$work/inputs" 2> "$work/told"; cat; }
    wants 's SATISFIABLE\nv 0\n' '' 0
    check 'a model too large for the memory, and an answer' too_large_to_reach < "$judged/answer"
    if [ "$(cat "$work/told")" = 'aiger: out of memory' ]; then pass; else
        fail 'a model of an answer too large for the memory' "came   $(cat "$work/told")"
    fi
}

# a refutation of a model of which two inputs have none of their four values: that needs a lemma
refute() { "$program" aigunroll --frames 1 --refutation "$@" "$judged/four.aag"; }

refutation_streams() {
    local stream
    printf 'aag 9 2 0 0 7 1\n2\n4\n18\n6 5 3\n8 5 2\n10 4 3\n12 4 2\n14 9 7\n16 13 11\n18 16 14\n' > "$judged/four.aag"
    printf '2 3 0\nd 3 2 0\n3 0\n0\n' > "$judged/proof"
    printf '0\n' > "$judged/forged"
    for stream in closed full; do
        wants '' 'aiger: -: cannot write\n' 1
        check "a refutation, a $stream standard output" "output_$stream" refute "$judged/proof"
        wants '' "aiger: $judged/forged: line 1: does not follow\n" 1
        check "a forged refutation, a $stream standard output" "output_$stream" refute "$judged/forged"
        wants '' '' 1
        check "a forged refutation, a $stream standard error" "errors_$stream" refute "$judged/forged"
        wants 'none within 1\n' '' 0
        check "a refutation, a $stream standard error" "errors_$stream" refute "$judged/proof"
    done
    wants '' 'aiger: -: cannot read\n' 1
    check 'a directory as refutation by standard input' refute - < "$work"
    check 'a closed standard input as refutation' refute - <&-
    check 'a closed standard input as model of a refutation' "$program" aigunroll --frames 1 - --refutation "$judged/proof" <&-
    wants 'none within 1\n' '' 0
    check 'the refutation by standard input' refute - < "$judged/proof"
    refutation_in_pieces() { printf 'c\n2'; sleep 0.1; printf ' 3 0\r'; sleep 0.1; printf '\n3'; sleep 0.1; printf ' 0'; }
    refutation_in_pieces | refute - > "$work/out" 2> "$work/err"
    judge 'a refutation that comes in pieces' "${PIPESTATUS[1]}"
}

refutations_left_alone() {
    wants '0\n' '' 0
    check 'the refutation on a model that is refused' unread aigunroll --frames 2 --refutation - "$judged/cut.aag" < "$judged/forged"
    check 'the refutation on a model that is not there' unread aigunroll --frames 2 --refutation - "$judged/none" < "$judged/forged"
    check 'the refutation on no such bad state' \
        unread aigunroll --frames 2 --refutation - --bad 1 "$judged/four.aag" < "$judged/forged"
    check 'the refutation of words that are refused' \
        unread aigunroll --frames 2 --cnf --refutation - "$judged/four.aag" < "$judged/forged"
}

# memory is taken for the clauses that are there, and not for those that are gone
refutation_memory() {
    local lemma
    refute_in() { ( ulimit -v "$1" && exec timeout 300 "$program" aigunroll --frames 1 --refutation - "$judged/four.aag" ); }
    refute_in_little() { refute_in 20480; }
    wants 'none within 1\n' '' 0
    lemma=$(many 1000 '2 3 ')
    { many 5000 "${lemma}0 d ${lemma}0 "; printf '3 0\n'; } | refute_in_little > "$work/out" 2> "$work/err"
    judge 'a refutation of 40 MB in 20 MB of memory' "${PIPESTATUS[1]}"
    { printf 'c'; many 2000000 ' a comment of 25 characters'; printf '\n3 0\n'; } | refute_in_little > "$work/out" 2> "$work/err"
    judge 'a comment of 50 MB in a refutation in 20 MB of memory' "${PIPESTATUS[1]}"
    # which have no end, so that they must not be waited for
    wants '' 'aiger: -: line 3: bad line\n' 1
    { printf 'c\nc\n'; yes wrong 2> /dev/null; } | refute_in_little > "$work/out" 2> "$work/err"
    judge 'a wrong refutation without an end' "${PIPESTATUS[1]}"
    wants '' 'aiger: -: line 1: does not follow\n' 1
    yes 0 2> /dev/null | refute_in_little > "$work/out" 2> "$work/err"
    judge 'a forged refutation without an end' "${PIPESTATUS[1]}"
    wants '' 'aiger: out of memory\n' 1
    # (in less memory, since each lemma is sought among all those before it)
    yes '2 3 0' 2> /dev/null | refute_in 14336 > "$work/out" 2> "$work/err"
    judge 'lemmas without an end' "${PIPESTATUS[1]}"
}

# an invariant: never are both latches 1 that exchange their values
invariant_streams() {
    local stream
    strengthen() { "$program" aigunroll --invariant - "$@" "$judged/tokens.aag"; }
    printf 'aag 3 0 2 0 1 1\n2 4 1\n4 2\n6\n6 4 2\n' > "$judged/tokens.aag"
    printf '#\n11 1\n' > "$judged/rows"
    printf -- '-10 0\n' > "$judged/tokens.drat"
    for stream in closed full; do
        wants '' 'aiger: -: cannot write\n' 1
        check "an invariant, a $stream standard output" "output_$stream" strengthen --refutation "$judged/tokens.drat" < "$judged/rows"
        check "clauses of an invariant, a $stream standard output" "output_$stream" strengthen --cnf < "$judged/rows"
        wants '' '' 1
        check "a wrong invariant, a $stream standard error" "errors_$stream" strengthen --cnf < "$judged/tokens.drat"
        wants 'never\n' '' 0
        check "an invariant, a $stream standard error" "errors_$stream" strengthen --refutation "$judged/tokens.drat" < "$judged/rows"
    done
    wants '' 'aiger: -: cannot read\n' 1
    check 'a directory as invariant by standard input' strengthen --cnf < "$work"
    check 'a closed standard input as invariant' strengthen --cnf <&-
    wants 'never\n' '' 0
    rows_in_pieces() { printf '#\n1'; sleep 0.1; printf '1 '; sleep 0.1; printf '1'; }
    rows_in_pieces | strengthen --refutation "$judged/tokens.drat" > "$work/out" 2> "$work/err"
    judge 'an invariant that comes in pieces' "${PIPESTATUS[1]}"
    wants '#\n11 1\n' '' 0
    check 'an invariant of a model that is refused' unread aigunroll --invariant - --cnf "$judged/cut.aag" < "$judged/rows"
    check 'an invariant of words that are refused' unread aigunroll --invariant - "$judged/tokens.aag" < "$judged/rows"
    check 'an invariant of no such bad state' unread aigunroll --invariant - --cnf --bad 1 "$judged/tokens.aag" < "$judged/rows"
    wants '-10 0\n' '' 0
    check 'a refutation beside a wrong invariant' \
        unread aigunroll --invariant "$judged/tokens.drat" --refutation - "$judged/tokens.aag" < "$judged/tokens.drat"
}

make_witnesses
witness_outputs
witness_inputs
witness_left_alone
witness_in_pieces
witness_names
witness_pipes
witness_memory
lasso_streams
lasso_memory
answer_streams
answers_left_alone
answer_memory
refutation_streams
refutations_left_alone
refutation_memory
invariant_streams
finish
