# The rows of aigsim --witness for bad states, for the table of all.sh. The witness comes by standard input, unless a
# row names another; the model is the file that was made last. What is wanted was worked out by hand from
# docs/FORMAT.md, "Witness".

# confirms NAME WITNESS STEP, denies NAME WITNESS: the answer to a witness of the right form
confirms() { row "$1" "$2" "confirmed $3\n" '' 0 aigsim --witness "$model"; }
denies() { row "$1" "$2" 'not confirmed\n' '' 1 aigsim --witness "$model"; }
# bad_witness NAME WITNESS LINE: this line is the first that is not as it has to be
bad_witness() { row "$1" "$2" '' "aiger: -: line $3: bad witness line\n" 1 aigsim --witness "$model"; }
# cuts NAME WITNESS STEP ANSWER..: what is answered to a witness that is cut after each of its bytes: a bad line, or +
# where it is confirmed with this step
cuts() {
    local plain step=$3 answers count
    plain=$(printf '%b-' "$2")
    answers=("${@:4}")
    for ((count = 0; count < ${#answers[@]}; count++)); do
        if [ "${answers[count]}" = + ]; then
            confirms "$1 cut after $count" "${plain:0:count}" "$step"
        else
            bad_witness "$1 cut after $count" "${plain:0:count}" "${answers[count]}"
        fi
    done
}
# unjudged NAME INPUT TEXT WORD..: an error before the witness is judged, or in place of that
unjudged() {
    local name=$1 given=$2 text=$3
    shift 3
    row "$name" "$given" '' "aiger: $text\n" 1 aigsim "$@"
}
# no_judged_model NAME MODEL MESSAGE: a model that is refused, whatever the witness is
no_judged_model() {
    model "$2"
    unjudged "$1, and a witness" '1\nb0\nx' "$model: $3" --witness "$model"
}

rows_witnesses() {
    rows_witness_answers
    rows_witness_values
    rows_witness_constraints
    rows_first_states
    rows_bad_positions
    rows_bad_first_lines
    rows_bad_state_lines
    rows_bad_step_lines
    rows_behind_the_dot
    rows_witness_comments
    rows_witness_ends
    rows_witness_cuts
    rows_long_witnesses
    rows_judged_models
    rows_witness_names
    rows_witness_words
}

# a toggle, which is bad where it is 1; without inputs, without latches, without both
rows_witness_answers() {
    model 'aag 1 0 1 0 0 1\n2 3\n2\n'
    confirms 'a toggle is 1 in step 1' '1\nb0\n0\n\n\n.\n' 1
    confirms 'the first of several bad steps' '1\nb0\n0\n\n\n\n\n\n\n.\n' 1
    denies 'one step of a toggle' '1\nb0\n0\n\n.\n'
    denies 'no step of a toggle' '1\nb0\n0\n.\n'
    model 'aig 1 0 1 0 0 1\n3\n2\n'
    confirms 'a toggle in binary' '1\nb0\n0\n\n\n.\n' 1
    denies 'one step of a toggle in binary' '1\nb0\n0\n\n.\n'
    model 'aag 1 0 1 0 0 2\n2 3 1\n2\n3\n'
    confirms 'a toggle that starts at 1' '1\nb0\n1\n\n.\n' 0
    confirms 'the negation of a toggle that starts at 1' '1\nb1\n1\n\n\n.\n' 1
    model 'aag 3 2 0 0 1 2\n2\n4\n6\n7\n6 2 4\n'
    confirms 'a gate without latches' '1\nb0\n\n10\n01\n11\n10\n.\n' 2
    confirms 'the second bad state' '1\nb1\n\n10\n11\n.\n' 0
    denies 'a gate that stays 0' '1\nb0\n\n10\n01\n00\n.\n'
    denies 'a gate that stays 1, its negation asked for' '1\nb1\n\n11\n11\n.\n'
    model 'aag 0 0 0 0 0 2\n0\n1\n'
    confirms 'a bad state that is always 1' '1\nb1\n\n\n.\n' 0
    denies 'a bad state that is always 1, and no step' '1\nb1\n\n.\n'
    denies 'a bad state that is always 0' '1\nb0\n\n\n\n\n.\n'
    model 'aag 4 1 3 0 0 1\n2\n8 4\n4 6\n6 2\n8\n'
    confirms 'a shift register, in any order of variables' '1\nb0\n000\n0\n1\n0\n0\n0\n0\n.\n' 4
    denies 'a shift register, one step too few' '1\nb0\n000\n0\n1\n0\n0\n.\n'
    model 'aag 5 2 0 0 3 1\n2\n4\n6\n6 10 2\n8 2 4\n10 4 2\n'
    confirms 'gates before those that they are over' '1\nb0\n\n01\n11\n.\n' 1
    model 'aag 2147483647 1 1 0 1 1\n4294967294\n4 4294967292\n4\n4294967292 4294967295 5\n'
    confirms 'the largest variables in a witness' '1\nb0\n0\n0\n1\n.\n' 1
}

# what is x is neither 1 nor 0
rows_witness_values() {
    model 'aag 1 0 1 0 0 1\n2 3 2\n2\n'
    confirms 'an uninitialised toggle that starts at 1' '1\nb0\n1\n\n.\n' 0
    confirms 'an uninitialised toggle that starts at 0' '1\nb0\n0\n\n\n.\n' 1
    denies 'an uninitialised toggle that starts at x' '1\nb0\nx\n\n.\n'
    denies 'an uninitialised toggle that stays x' '1\nb0\nx\n\n\n\n\n.\n'
    model 'aag 2 1 1 0 0 1\n2\n4 2\n4\n'
    denies 'x in the next state' '1\nb0\n0\nx\n0\n0\n.\n'
    confirms '1 behind x' '1\nb0\n0\nx\n1\n0\n.\n' 2
    model 'aag 2 1 0 0 1 1\n2\n5\n4 2 3\n'
    denies 'a bad state that is x, though either value makes it 1' '1\nb0\n\nx\n.\n'
    confirms 'the same with a known value' '1\nb0\n\nx\n0\n.\n' 1
    model 'aag 3 2 0 0 1 1\n2\n4\n7\n6 2 4\n'
    confirms 'x beside a value that decides' '1\nb0\n\n1x\nx0\n.\n' 1
}

# all constraints have to be 1 in the step and in each before it; afterwards they say nothing
rows_witness_constraints() {
    model 'aag 2 1 1 0 0 1 1\n2\n4 2\n4\n3\n'
    denies 'a constraint that fails in step 0' '1\nb0\n0\n1\n0\n.\n'
    denies 'a bad state that stays 0' '1\nb0\n0\n0\n0\n.\n'
    model 'aag 2 2 0 0 0 1 1\n2\n4\n2\n4\n'
    confirms 'a constraint that holds' '1\nb0\n\n01\n01\n11\n.\n' 2
    confirms 'a constraint that fails behind the bad step' '1\nb0\n\n01\n11\n00\nxx\n.\n' 1
    denies 'a constraint that fails in the bad step' '1\nb0\n\n01\n10\n.\n'
    denies 'a constraint that fails in the step before' '1\nb0\n\n01\n00\n11\n.\n'
    denies 'a constraint that fails in the first step of many' '1\nb0\n\n00\n01\n01\n11\n11\n.\n'
    denies 'a constraint that is x in the bad step' '1\nb0\n\n01\n1x\n.\n'
    denies 'a constraint that is x in a step before' '1\nb0\n\n0x\n11\n.\n'
    denies 'a constraint that holds again in a later bad step' '1\nb0\n\n10\n11\n.\n'
    confirms 'a bad state that was x before' '1\nb0\n\nx1\n11\n.\n' 1
    model 'aag 2 2 0 0 0 1 2\n2\n4\n1\n2\n5\n'
    confirms 'two constraints' '1\nb0\n\n10\n.\n' 0
    denies 'the first of two constraints fails' '1\nb0\n\n00\n.\n'
    denies 'the second of two constraints fails' '1\nb0\n\n11\n.\n'
    denies 'the first of two constraints is x' '1\nb0\n\nx0\n.\n'
    denies 'the second of two constraints is x' '1\nb0\n\n1x\n.\n'
    denies 'both constraints fail, one after the other' '1\nb0\n\n00\n11\n10\n.\n'
    model 'aag 0 0 0 0 0 1 1\n1\n0\n'
    denies 'a constraint that is always 0' '1\nb0\n\n\n\n.\n'
    model 'aag 0 0 0 0 0 1 1\n1\n1\n'
    confirms 'a constraint that is always 1' '1\nb0\n\n\n.\n' 0
    model 'aag 1 0 1 0 0 1 1\n2 2 2\n1\n2\n'
    denies 'a constraint over a latch that starts at x' '1\nb0\nx\n\n.\n'
    confirms 'a constraint over a latch that starts at 1' '1\nb0\n1\n\n.\n' 0
}

# The first values agree with the resets: those of the three latches are 0, 1 and any.
rows_first_states() {
    local given state
    for given in 'aag 4 1 3 0 0 1\n2\n4 2\n6 2 1\n8 2 8\n1\n' 'aig 4 1 3 0 0 1\n2\n2 1\n2 8\n1\n'; do
        model "$given"
        for state in 010 011 01x; do
            confirms "first values $state" "1\nb0\n$state\n0\n.\n" 0
        done
        for state in 000 001 00x 0x0 0x1 0xx 110 111 11x 100 x10 x11 x1x xxx; do
            bad_witness "first values $state" "1\nb0\n$state\n0\n.\n" 3
        done
    done
    model 'aag 1 0 1 0 0 1\n2 3\n2\n'
    bad_witness 'a first value that is not the reset' '1\nb0\n1\n\n.\n' 3
    bad_witness 'a first value x, where the reset is 0' '1\nb0\nx\n\n.\n' 3
    model 'aag 1 0 1 0 0 1\n2 3 1\n2\n'
    bad_witness 'a first value 0, where the reset is 1' '1\nb0\n0\n\n.\n' 3
    bad_witness 'a first value x, where the reset is 1' '1\nb0\nx\n\n.\n' 3
    model 'aag 2 0 2 0 0 1\n2 3 2\n4 5 4\n2\n'
    bad_witness 'too few first values' '1\nb0\n0\n\n.\n' 3
    bad_witness 'too many first values' '1\nb0\n000\n\n.\n' 3
    confirms 'the first values of two uninitialised latches' '1\nb0\n1x\n\n.\n' 0
}

# positions of bad states: 0 to 11, of which 10 and 11 are always 1
rows_bad_positions() {
    local line
    model 'aag 0 0 0 0 0 12\n0\n0\n0\n0\n0\n0\n0\n0\n0\n0\n1\n1\n'
    confirms 'a position of two digits' '1\nb10\n\n\n.\n' 0
    confirms 'the last position' '1\nb11\n\n\n.\n' 0
    denies 'a position below it' '1\nb9\n\n\n.\n'
    denies 'the first position' '1\nb0\n\n\n.\n'
    for line in '' b b12 b20 b110 b00 b010 b011 b+0 b-0 b+10 b1x bx b1. bb0 'b 0' 'b0 ' ' b0' b0b1 'b0 b1' B0 j0 f0 \
        o0 i0 l0 0 10 . 'b1\t' 'b1\0000' 'b\0261' '\0001b0' b2147483647 b4294967295 b4294967296 b4294967306 \
        b18446744073709551616 b18446744073709551626; do
        bad_witness "a second line '$line'" "1\n$line\n\n\n.\n" 2
    done
    bad_witness 'a position of 400 digits' "1\nb$(digits 400 1)\n\n\n.\n" 2
    bad_witness 'a position of 400 digits, of which the last may be meant' "1\nb$(digits 400 0)\n\n\n.\n" 2
    bad_witness 'two bad states' '1\nb10\nb11\n\n\n.\n' 3
    model 'aag 1 0 1 0 0 1\n2 3\n2\n'
    bad_witness 'the position behind the only one' '1\nb1\n0\n\n.\n' 2
    model 'aag 0 0 0 0 0\n'
    bad_witness 'a circuit without bad states' '1\nb0\n\n\n.\n' 2
    bad_witness 'a circuit without bad states, and a first line that is bad' '2\nb0\n\n\n.\n' 1
    bad_witness 'a circuit without bad states, and no second line' '1\n' 2
    model 'aag 0 0 0 1 0\n1\n'
    bad_witness 'an output is no bad state' '1\nb0\n\n\n.\n' 2
    model 'aag 0 0 0 0 0 0 1\n1\n'
    bad_witness 'a constraint is no bad state' '1\nb0\n\n\n.\n' 2
}

rows_bad_first_lines() {
    local line
    model 'aag 1 0 1 0 0 1\n2 3\n2\n'
    for line in '' 0 2 01 10 11 +1 '1 ' ' 1' '1.' '.' x b0 sat '1\t' '1\0000' '\0001' '\0261' '#1' C; do
        bad_witness "a first line '$line'" "$line\nb0\n0\n\n\n.\n" 1
    done
    bad_witness 'no line at all' '' 1
    bad_witness 'a first line of a witness of another tool' 'sat\nb0\n0\n\n\n.\n' 1
    bad_witness 'an empty line before a witness' '\n1\nb0\n0\n\n\n.\n' 1
    bad_witness 'a witness without its first line' 'b0\n0\n\n\n.\n' 1
    bad_witness 'the first of several bad lines' '2\nb1\n1\n2\n.\n.\n' 1
    bad_witness 'the second of several bad lines' '1\nb1\n1\n2\n.\n.\n' 2
    bad_witness 'the third of several bad lines' '1\nb0\n1\n2\n.\n.\n' 3
}

# a line is due for the latches, also where there are none
rows_bad_state_lines() {
    local line
    model 'aag 2 0 2 0 0 1\n2 3 2\n4 5 4\n2\n'
    for line in '' 0 000 '0 0' ' 00' '00 ' 0- 02 0X X0 xX ab . .. .0 '0\0000' '\0260\0260' '0\t' b0; do
        bad_witness "a third line '$line'" "1\nb0\n$line\n\n.\n" 3
    done
    model 'aag 1 1 0 0 0 1\n2\n2\n'
    bad_witness 'no latches, and no line for them' '1\nb0\n1\n.\n' 3
    bad_witness 'no latches, and a dot in the place of their line' '1\nb0\n.\n' 3
    bad_witness 'no latches, and a value' '1\nb0\n0\n1\n.\n' 3
    bad_witness 'no latches, and a space' '1\nb0\n \n1\n.\n' 3
    bad_witness 'no latches, and CR CR LF' '1\nb0\n\r\r\n1\n.\n' 3
    confirms 'no latches, and CR LF' '1\nb0\n\r\n1\n.\n' 0
    confirms 'no latches, and LF' '1\nb0\n\n1\n.\n' 0
}

rows_bad_step_lines() {
    local line
    model 'aag 2 2 0 0 0 1\n2\n4\n2\n'
    for line in '' 0 000 0000 '0 0' ' 00' '00 ' 0- 02 X0 xX ab .. '. ' ' .' .0 0. .00 '0\0000' '\0260\0260' \
        '0\t' b0 1; do
        bad_witness "a first step '$line'" "1\nb0\n\n$line\n11\n.\n" 4
        bad_witness "a step '$line' behind one that is bad" "1\nb0\n\n11\n$line\n.\n" 5
        [ -z "$line" ] || bad_witness "a last line '$line'" "1\nb0\n\n01\n$line" 5
    done
    bad_witness 'steps that no dot ends' '1\nb0\n\n11\n00\n' 6
    bad_witness 'no step and no dot' '1\nb0\n\n' 4
    model 'aag 1 0 1 0 0 1\n2 3\n2\n'
    bad_witness 'a value, where there are no inputs' '1\nb0\n0\n0\n.\n' 4
    bad_witness 'a space, where there are no inputs' '1\nb0\n0\n\n \n.\n' 5
    bad_witness 'CR CR LF, where there are no inputs' '1\nb0\n0\n\n\r\r\n.\n' 5
    bad_witness 'no dot behind an empty step' '1\nb0\n0\n\n' 5
    bad_witness 'no dot behind two empty steps' '1\nb0\n0\n\n\n' 6
    model 'aag 1 1 0 0 0 1\n2\n2\n'
    for line in / 2 w y '\0260' '\0261' '\0370'; do
        bad_witness "the step '$line', beside 0, 1 and x" "1\nb0\n\n1\n$line\n.\n" 5
    done
}

# nothing follows the dot, though a step before it would confirm
rows_behind_the_dot() {
    local line
    model 'aag 1 0 1 0 0 1\n2 3\n2\n'
    for line in '' '\r' 1 . 0 x C b0 ' ' ' c' '# end' z '\0000'; do
        bad_witness "the line '$line' behind the dot" "1\nb0\n0\n\n\n.\n$line\n" 7
        bad_witness "the line '$line' behind the dot, and no step" "1\nb0\n0\n.\n$line\n" 5
        [ -z "$line" ] || bad_witness "the bytes '$line' behind the dot" "1\nb0\n0\n\n\n.\n$line" 7
    done
    bad_witness 'two witnesses' '1\nb0\n0\n\n\n.\n1\nb0\n0\n\n\n.\n' 7
    bad_witness 'two witnesses, and comments' 'c a\n1\nb0\n0\n\n\n.\nc b\n1\nb0\n0\n\n\n.\n' 9
    bad_witness 'a line behind a comment behind the dot' '1\nb0\n0\n\n\n.\nc\nfound by hand\n' 8
    bad_witness 'a dot behind the dot' '1\nb0\n0\n\n\n.\n.' 7
}

# lines that begin with c say nothing, wherever they stand, and are counted
rows_witness_comments() {
    local line long longer
    long=$(digits 65535 7)
    longer=$(digits 65536 7)
    model 'aag 1 0 1 0 0 1\n2 3\n2\n'
    for line in c 'c ' 'c found by hand' c0 cb0 'c.' 'c\r' 'c\0000\0377' "c$long" "c$long\r"; do
        confirms "the comment '${line::20}' before a witness" "$line\n1\nb0\n0\n\n\n.\n" 1
        confirms "the comment '${line::20}' behind a witness" "1\nb0\n0\n\n\n.\n$line\n" 1
        confirms "the comment '${line::20}' after each line" \
            "1\n$line\nb0\n$line\n0\n$line\n\n$line\n\n$line\n.\n$line\n" 1
        bad_witness "a comment '${line::20}' alone" "$line\n" 2
        bad_witness "a comment '${line::20}' in the place of the line of the bad state" "1\n$line\n0\n\n\n.\n" 3
        bad_witness "a comment '${line::20}' before a bad first line" "$line\n2\nb0\n0\n\n\n.\n" 2
        bad_witness "a comment '${line::20}' behind a bad line" "1\nb1\n$line\n0\n\n\n.\n" 2
        bad_witness "a comment '${line::20}' and no dot" "1\nb0\n0\n\n\n$line\n" 7
    done
    for line in C ' c' '\rc' '#' ';' '//' "c$longer" "c$longer\r"; do
        bad_witness "the line '${line::20}' is no comment" "1\nb0\n$line\n0\n\n\n.\n" 3
    done
    confirms 'comments alone between many steps' "1\nb0\n0\n$(printf 'c %d\\n%.0s' $(seq 3000))\n\n.\n" 1
    denies 'a comment in the place of a step' '1\nb0\n0\n\nc\n.\n'
    model 'aag 2 1 1 0 0 1\n2\n4 2 4\n4\n'
    confirms 'comments between values' '1\nc\nb0\nc\nx\nc 1\n1\nc\n0\nc\n.\n' 1
    cuts 'a witness with comments' 'c\n1\nca\nb0\nx\n1\nc\n0\n.\nc' 1 1 2 2 3 3 4 4 4 4 5 5 6 6 7 7 8 8 9 9 \
        + + +
    model 'aag 0 0 0 0 0\n'
    bad_witness 'a comment, and a circuit without bad states' '1\nc\nb0\n\n\n.\n' 3
}

# where a CR is dropped, and where not; the last line may lack its LF
rows_witness_ends() {
    model 'aag 1 0 1 0 0 1\n2 3\n2\n'
    confirms 'CR LF at each line' '1\r\nb0\r\n0\r\n\r\n\r\n.\r\n' 1
    confirms 'LF and CR LF' '1\nb0\r\n0\n\r\n\n.\n' 1
    confirms 'no LF at the end' '1\nb0\n0\n\n\n.' 1
    denies 'no LF at the end, and no step' '1\nb0\n0\n.'
    confirms 'CR LF, and no LF at the end' '1\r\nb0\r\n0\r\n\r\n\r\n.' 1
    bad_witness 'CR at the end, behind the dot' '1\nb0\n0\n\n\n.\r' 6
    bad_witness 'CR alone in the place of the dot' '1\nb0\n0\n\n\n\r' 6
    bad_witness 'CR CR LF at the first line' '1\r\r\nb0\n0\n\n.\n' 1
    bad_witness 'CR CR LF at the second line' '1\nb0\r\r\n0\n\n.\n' 2
    bad_witness 'CR CR LF at the third line' '1\nb0\n0\r\r\n\n.\n' 3
    bad_witness 'CR CR LF behind the dot' '1\nb0\n0\n\n.\r\r\n' 5
    bad_witness 'CR, space, LF' '1\r \nb0\n0\n\n.\n' 1
    bad_witness 'CR in front of a line' '1\n\rb0\n0\n\n.\n' 2
    bad_witness 'CR in the place of LF' '1\rb0\r0\r\r\r.\r' 1
    bad_witness 'CR inside a line' '1\nb\r0\n0\n\n.\n' 2
    model 'aag 3 2 1 0 0 1\n2\n4\n6 2 6\n6\n'
    confirms 'CR LF behind values' '1\r\nb0\r\nx\r\n10\r\n0x\r\n.\r\n' 1
    bad_witness 'CR in the place of a value' '1\nb0\n\r\n10\n0x\n.\n' 3
    bad_witness 'CR in the place of an input' '1\nb0\nx\n1\r\n0x\n.\n' 4
    bad_witness 'CR at the end, behind a step' '1\nb0\nx\n10\n0x\r' 5
}

# witnesses that are cut after each of their bytes
rows_witness_cuts() {
    model 'aag 1 0 1 0 0 1\n2 3\n2\n'
    cuts 'a witness' '1\nb0\n0\n\n\n.\n' 1 1 2 2 2 3 3 4 4 5 6 + +
    cuts 'a witness' '1\r\nb0\r\n0\r\n\r\n\r\n.\r\n' 1 1 2 1 2 2 3 2 3 4 3 4 4 5 5 6 + 6 +
    model 'aag 2 1 1 0 0 1\n2\n4 2 4\n4\n'
    cuts 'a witness' '1\nb0\nx\n1\n0\n.\n' 1 1 2 2 2 3 3 4 4 5 5 6 6 + +
    model 'aag 0 0 0 0 0 1\n1\n'
    cuts 'a witness' '1\nb0\n\n\n.\n' 0 1 2 2 2 3 3 4 5 + +
}

# shifted_to_bad LATCHES: latches in a row behind an input, the last of which is the bad state
shifted_to_bad() {
    awk -v latches="$1" 'BEGIN {
        printf "aag %d 1 %d 0 0 1\n2\n", latches + 1, latches
        for (i = 1; i <= latches; i++) print 2 * i + 2, 2 * i
        print 2 * latches + 2
    }'
}
# A line that is longer than a right one is read to its end, and then it is bad.
rows_long_witnesses() {
    local long line count
    long=$(digits 20000 0)
    model 'aag 2 1 1 0 0 1\n2\n4 2\n4\n'
    bad_witness 'a first line of 20,000 bytes' "$long\nb0\n0\n1\n0\n.\n" 1
    bad_witness 'a first line that begins right' "1$long\nb0\n0\n1\n0\n.\n" 1
    bad_witness 'a second line of 20,000 bytes' "1\nb$long\n0\n1\n0\n.\n" 2
    bad_witness 'a third line of 20,000 bytes' "1\nb0\n$long\n1\n0\n.\n" 3
    bad_witness 'a step of 20,000 bytes' "1\nb0\n0\n1\n$long\n.\n" 5
    bad_witness 'a step of 20,000 bytes with CR LF' "1\nb0\n0\n1\n$long\r\n.\n" 5
    bad_witness 'a step of 20,000 bytes without LF' "1\nb0\n0\n1\n$long" 5
    bad_witness '20,000 bytes behind the dot' "1\nb0\n0\n1\n0\n.\n$long\n" 7
    bad_witness 'a dot and 20,000 bytes' "1\nb0\n0\n1\n0\n.$long\n" 6
    for line in 00 000 0000 00000 000000000000 0000000000000 00000000000000 000000000000000; do
        bad_witness "a third line of ${#line} bytes" "1\nb0\n$line\n1\n0\n.\n" 3
        bad_witness "a step of ${#line} bytes" "1\nb0\n0\n$line\n0\n.\n" 4
        bad_witness "a step of ${#line} bytes with CR LF" "1\nb0\n0\n$line\r\n0\n.\n" 4
    done
    model "aag 300 300 0 0 0 1\n$(printf '%s\\n' $(seq 2 2 600))600\n"
    confirms '300 inputs in a witness' "1\nb0\n\n$(digits 299 1)0\n$(digits 300 x)\r\n$(digits 299 0)1\n.\n" 2
    bad_witness '299 values for 300 inputs in a witness' "1\nb0\n\n$(digits 300 1)\n$(digits 299 1)\n.\n" 5
    bad_witness '301 values for 300 inputs in a witness' "1\nb0\n\n$(digits 300 1)\n$(digits 301 1)\n.\n" 5
    bad_witness '300 values in a witness, the last one bad' "1\nb0\n\n$(digits 300 1)\n$(digits 299 1)y\n.\n" 5
    model "aag 300 0 300 0 0 1\n$(for line in $(seq 2 2 600); do printf '%s\\n' "$line $line $line"; done)600\n"
    confirms '300 latches' "1\nb0\n$(digits 299 x)1\n\n.\n" 0
    denies '300 latches, the last one 0' "1\nb0\n$(digits 299 1)0\n\n.\n"
    bad_witness '299 values for 300 latches' "1\nb0\n$(digits 299 1)\n\n.\n" 3
    bad_witness '301 values for 300 latches' "1\nb0\n$(digits 301 1)\n\n.\n" 3
    for count in 10 1000; do
        model "$(shifted_to_bad "$count")\n"
        confirms "$count latches in a row" \
            "1\nb0\n$(digits "$count" 0)\n1\n$(printf '0\\n%.0s' $(seq "$count")).\n" "$count"
    done
    model 'aag 1 1 0 0 0 1\n2\n2\n'
    confirms 'the last of 5,001 steps' "1\nb0\n\n$(printf '0\\n%.0s' $(seq 5000))1\n.\n" 5000
    denies '5,000 steps' "1\nb0\n\n$(printf 'x\\n%.0s' $(seq 5000)).\n"
    bad_witness 'a bad line behind 5,000 steps' "1\nb0\n\n$(printf '1\\n%.0s' $(seq 5000))2\n.\n" 5004
}

# the model is read before the witness, and its errors come first; justice and fairness do not concern a bad state
rows_judged_models() {
    no_judged_model 'an empty model' '' 'line 1: not an AIGER file'
    no_judged_model 'a model that is a witness' '1\nb0\n\n\n.\n' 'line 1: not an AIGER file'
    no_judged_model 'a model that ends too early' 'aag 2 1 0 1 1\n2\n4\n' 'line 4: file ends too early'
    no_judged_model 'a model with a bad reset' 'aag 1 0 1 0 0 1\n2 3 3\n2\n' 'line 2: bad reset'
    no_judged_model 'a literal of the model not defined' 'aag 2 1 0 0 0 1\n2\n4\n' 'literal 4 not defined'
    no_judged_model 'a cycle of the model' 'aag 3 1 0 0 2 1\n2\n4\n4 6 2\n6 4 2\n' 'gate 4 depends on a cycle'
    no_judged_model 'a model with a bad delta' 'aig 1 0 0 0 1 1\n2\n\x03\x00' 'gate 1: bad delta'
    model 'aag 4 1 2 1 1 2 1 2 1\n2\n4 3 1\n6 4 6\n8\n6\n7\n9\n2\n1\n3\n4\n8\n5\n8 6 3\n'
    confirms 'a model with each section' '1\nb0\n11\n1\n.\n' 0
    confirms 'a model with each section, the second bad state' '1\nb1\n10\n0\n.\n' 0
    confirms 'a model with each section, from x' '1\nb0\n1x\n1\n1\n.\n' 1
    denies 'a model with each section, whose constraint fails' '1\nb0\n11\n0\n1\n.\n'
    model 'aig 4 1 2 1 1 2 1 2 1\n3 1\n4 6\n8\n6\n7\n9\n2\n1\n3\n4\n8\n5\n\x02\x03j1 a\nc\nx'
    confirms 'a binary model with each section' '1\nb0\n1x\n1\n1\n.\n' 1
    row 'a witness over a model within the limit' '1\nb0\n1x\n1\n1\n.\n' 'confirmed 1\n' '' 0 \
        aigsim --max-var 4 --witness "$model"
    unjudged 'a witness over a model above the limit' '1\n' "$model: line 1: number above the limit" \
        --witness --max-var 3 "$model"
}

rows_witness_names() {
    local toggle='aag 1 0 1 0 0 1\n2 3\n2\n'
    printf '1\nb0\n0\n\n\n.\n' > "$work/witness"
    printf '1\nb0\n0\n\n.\n' > "$work/short_witness"
    printf '1\nb0\n0\n\n\n' > "$work/bad_witness"
    model "$toggle"
    row 'a witness by its name' 'bad\n' 'confirmed 1\n' '' 0 aigsim --witness "$model" "$work/witness"
    row 'a witness by its name that is not confirmed' 'bad\n' 'not confirmed\n' '' 1 \
        aigsim --witness "$model" "$work/short_witness"
    row 'a witness by -' '1\nb0\n0\n\n\n.\n' 'confirmed 1\n' '' 0 aigsim --witness "$model" -
    row 'the option behind the names' '' 'confirmed 1\n' '' 0 aigsim "$model" "$work/witness" --witness
    row 'the model of a witness by standard input' "$toggle" 'confirmed 1\n' '' 0 aigsim - "$work/witness" --witness
    row 'a binary model of a witness by standard input' 'aig 1 0 1 0 0 1\n3\n2\n' 'not confirmed\n' '' 1 \
        aigsim - "$work/short_witness" --witness
    unjudged 'a bad witness by its name' '' "$work/bad_witness: line 6: bad witness line" \
        --witness "$model" "$work/bad_witness"
    unjudged 'a bad witness by its name, the model by -' "$toggle" "$work/bad_witness: line 6: bad witness line" \
        - "$work/bad_witness" --witness
    unjudged 'the model as its own witness' '' "$model: line 1: bad witness line" --witness "$model" "$model"
    unjudged 'a witness that is not there' '1\n' "$work/none: cannot read: No such file or directory" --witness "$model" "$work/none"
    unjudged 'an empty name of the witness' '1\n' ': cannot read: No such file or directory' --witness "$model" ''
    unjudged 'a folder as witness' '1\n' "$work: cannot read: Is a directory" --witness "$model" "$work"
    unjudged 'a model that is not there, and a witness' '1\n' "$work/none: cannot read: No such file or directory" --witness "$work/none"
    unjudged 'neither model nor witness is there' '' "$work/none: cannot read: No such file or directory" --witness "$work/none" "$work/nothing"
    unjudged 'a refused model by standard input, and no witness' 'aag 1 1 0 0 0\nx\n' '-: line 2: bad line' \
        - "$work/none" --witness
}

# the option with others, which are refused before any file is opened
rows_witness_words() {
    local sim='\n\nUsage: aiger aigsim' convert='\n\nUsage: aiger aigtoaig [OPTIONS] [source] [destination]'
    local all="$sim [OPTIONS] <model> [stimulus]" with="$sim --witness <model> [stimulus]" tip='\n\n  tip:'
    local one='model and stimulus are both standard input' alone='--witness stands alone'
    unwanted 'model and witness by standard input' "$one" aigsim --witness -
    unwanted 'model and witness by -' "$one" aigsim --witness - -
    unwanted 'model and witness by standard input, in a batch' "$one" aigsim --witness --batch -
    unwanted 'a witness in a batch' "$alone" aigsim --witness --batch "$work/none"
    unwanted 'a witness with properties' "$alone" aigsim --properties "$work/none" "$work/none" --witness
    unwanted 'a witness in a batch with properties' "$alone" \
        aigsim --properties --batch --witness --max-var=0 - "$work/none"
    misused 'the option of witnesses twice' "the argument '--witness' cannot be used multiple times$all" \
        aigsim --witness x --witness
    misused 'a witness in a batch, and a name too many' "unexpected argument 'z' found$all" \
        aigsim --witness --batch x y z
    misused 'a part of the option of witnesses' \
        "unexpected argument '--witnes' found$tip a similar argument exists: '--witness'$with" aigsim --witnes x
    misused 'the option of witnesses for a conversion' \
        "unexpected argument '--witness' found$tip to pass '--witness' as a value, use '-- --witness'$convert" \
        aigtoaig --witness
}
