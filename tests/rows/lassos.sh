# The rows of aigsim --witness for justice properties, for the table of all.sh, in the words of witnesses.sh. What is
# wanted was worked out by hand from docs/FORMAT.md, "Witness".

rows_judged_lassos() {
    rows_lasso_answers
    rows_lasso_goals
    rows_lasso_values
    rows_lasso_constraints
    rows_lasso_properties
    rows_lasso_positions
    rows_bad_lasso_lines
    rows_long_lassos
    rows_lasso_names
}

# a toggle that is to be 1 again and again; a latch that takes the input; one that stays 1 once the input was
rows_lasso_answers() {
    local given
    for given in 'aag 1 0 1 0 0 0 0 1\n2 3\n1\n2\n' 'aig 1 0 1 0 0 0 0 1\n3\n1\n2\n'; do
        model "$given"
        confirms 'a toggle comes back' '1\nj0\n0\n\n\n.\n' 0
        confirms 'a toggle comes back, behind a stem' '1\nj0\n0\n\n\n\n.\n' 1
        confirms 'the first of two steps at which a loop begins' '1\nj0\n0\n\n\n\n\n.\n' 0
        denies 'a toggle that is not back' '1\nj0\n0\n\n.\n'
        denies 'a lasso of no step' '1\nj0\n0\n.\n'
    done
    model 'aag 1 0 1 0 0 0 0 1\n2 3 1\n1\n3\n'
    confirms 'a toggle from 1 comes back' '1\nj0\n1\n\n\n.\n' 0
    model 'aag 2 1 1 0 0 0 0 1\n2\n4 2\n1\n4\n'
    confirms 'a loop of one step' '1\nj0\n0\n1\n1\n.\n' 1
    confirms 'a loop of two steps' '1\nj0\n0\n1\n0\n.\n' 0
    confirms 'the longest loop of several' '1\nj0\n0\n1\n0\n0\n.\n' 0
    confirms 'a stem of two steps' '1\nj0\n0\n0\n1\n1\n1\n.\n' 2
    denies 'a state that did not come before' '1\nj0\n0\n0\n0\n1\n.\n'
    model 'aag 4 1 3 0 0 0 0 1\n2\n8 4\n4 6\n6 2\n1\n8\n'
    confirms 'a shift register, in any order of variables, comes back' '1\nj0\n000\n0\n1\n0\n0\n0\n.\n' 0
    denies 'a shift register that is not back' '1\nj0\n000\n0\n1\n0\n0\n.\n'
    denies 'a shift register that is back before it shows the goal' '1\nj0\n000\n0\n0\n.\n'
    model 'aag 2147483647 1 1 0 1 0 0 1\n4294967294\n4 4294967292\n1\n4\n4294967292 4294967295 5\n'
    confirms 'the largest variables in a lasso' '1\nj0\n0\n0\n1\n.\n' 0
    denies 'the largest variables in no lasso' '1\nj0\n0\n0\n.\n'
}

# each goal in some step of the loop; one that is met before it does not count
rows_lasso_goals() {
    model 'aag 3 1 1 0 1 0 0 1\n2\n4 7\n1\n2\n6 3 5\n'
    confirms 'a goal in the loop' '1\nj0\n0\n1\n1\n.\n' 1
    denies 'a goal before the loop alone' '1\nj0\n0\n1\n0\n.\n'
    denies 'a goal before a longer loop alone' '1\nj0\n0\n0\n1\n0\n0\n.\n'
    confirms 'a goal in the last step' '1\nj0\n0\n0\n1\n0\n1\n.\n' 2
    confirms 'a goal in the first step of the longest loop alone' '1\nj0\n0\n0\n1\n1\n0\n.\n' 2
    denies 'a goal that is never met' '1\nj0\n0\n0\n0\n.\n'
    model 'aag 0 0 0 0 0 0 0 1\n0\n'
    confirms 'no goals, no latches' '1\nj0\n\n\n.\n' 0
    confirms 'no goals, no latches, and more steps' '1\nj0\n\n\n\n\n.\n' 0
    denies 'no goals, no latches and no step' '1\nj0\n\n.\n'
    model 'aag 1 0 1 0 0 0 0 1\n2 3\n0\n'
    confirms 'a run without goals that comes back' '1\nj0\n0\n\n\n.\n' 0
    denies 'a run without goals that does not' '1\nj0\n0\n\n.\n'
    model 'aag 1 1 0 0 0 0 0 1\n2\n1\n2\n'
    confirms 'no latches' '1\nj0\n\n1\n.\n' 0
    confirms 'no latches, and a goal in the last step' '1\nj0\n\n0\n0\n1\n.\n' 0
    denies 'no latches, and a goal that is not met' '1\nj0\n\n0\n0\n.\n'
    model 'aag 1 1 0 0 0 0 0 2\n2\n1\n2\n1\n0\n2\n'
    confirms 'a goal that is always 1' '1\nj0\n\n0\n.\n' 0
    denies 'a goal that is always 0, and another' '1\nj1\n\n1\n1\n.\n'
}

# an x is not 1; states are equal where both have an x
rows_lasso_values() {
    model 'aag 1 0 1 0 0 0 0 2\n2 2 2\n1\n1\n2\n3\n'
    confirms 'a latch that stays 1' '1\nj0\n1\n\n.\n' 0
    denies 'a latch that stays 0' '1\nj0\n0\n\n.\n'
    confirms 'the negation of a latch that stays 0' '1\nj1\n0\n\n.\n' 0
    denies 'a goal that stays x' '1\nj0\nx\n\n.\n'
    denies 'the negation of one that stays x' '1\nj1\nx\n\n\n.\n'
    model 'aag 1 0 1 0 0 0 0 1\n2 3 2\n0\n'
    confirms 'a toggle that stays x is back' '1\nj0\nx\n\n.\n' 0
    denies 'a toggle from 0 is not back so soon' '1\nj0\n0\n\n.\n'
    confirms 'a toggle from 0 is back' '1\nj0\n0\n\n\n.\n' 0
    model 'aag 2 1 1 0 0 0 0 2\n2\n4 2\n0\n1\n4\n'
    confirms 'an x behind an x' '1\nj0\n0\nx\nx\n.\n' 1
    denies 'an x behind 0' '1\nj0\n0\nx\n.\n'
    denies 'an x behind 1' '1\nj0\n0\n1\nx\n.\n'
    denies '1 behind an x' '1\nj0\n0\nx\n1\n.\n'
    confirms '0 behind an x, as at first' '1\nj0\n0\nx\n0\n.\n' 0
    denies 'a goal that is x in the loop' '1\nj1\n0\nx\nx\n.\n'
    confirms 'a goal that is x and 1 in the loop' '1\nj1\n0\nx\n1\nx\n.\n' 1
    model 'aag 4 2 2 0 0 0 0 1\n2\n4\n6 2\n8 4\n0\n'
    confirms 'states with an x at the same place' '1\nj0\n00\nx1\nx1\n.\n' 1
    denies 'states with an x at another place' '1\nj0\n00\nx1\n1x\n.\n'
    denies 'states that differ beside an x' '1\nj0\n00\nx1\nx0\n.\n'
    model 'aag 3 1 1 0 1 0 0 1\n2\n4 4\n1\n7\n6 2 3\n'
    denies 'a goal that is x, though either value makes it 1' '1\nj0\n0\nx\n.\n'
    confirms 'the same goal with a known value' '1\nj0\n0\nx\n0\n.\n' 0
}

# all constraints have to be 1 in each step, before the loop and in it
rows_lasso_constraints() {
    model 'aag 3 2 1 0 0 0 1 1\n2\n4\n6 2\n4\n1\n6\n'
    confirms 'a constraint that holds in each step' '1\nj0\n0\n11\n11\n.\n' 1
    denies 'a constraint that fails before the loop' '1\nj0\n0\n10\n11\n.\n'
    denies 'a constraint that fails in the loop' '1\nj0\n0\n11\n10\n.\n'
    denies 'a constraint that fails in the first step of many' '1\nj0\n0\n00\n01\n11\n11\n11\n.\n'
    denies 'a constraint that is x before the loop' '1\nj0\n0\n1x\n11\n.\n'
    denies 'a constraint that is x in the loop' '1\nj0\n0\n11\n1x\n.\n'
    confirms 'a loop of two steps with a constraint' '1\nj0\n0\n11\n01\n.\n' 0
    model 'aag 2 2 0 0 0 0 2 1\n2\n4\n2\n5\n0\n'
    confirms 'two constraints in each step' '1\nj0\n\n10\n10\n.\n' 0
    denies 'the first of two constraints fails in the loop' '1\nj0\n\n10\n00\n.\n'
    denies 'the second of two constraints fails in the loop' '1\nj0\n\n11\n10\n.\n'
    model 'aag 0 0 0 0 0 0 1 1\n0\n0\n'
    denies 'no run is kept on' '1\nj0\n\n\n.\n'
    model 'aag 1 0 1 0 0 0 1 1\n2 2 2\n2\n0\n'
    confirms 'a constraint over a latch that stays 1' '1\nj0\n1\n\n.\n' 0
    denies 'a constraint over a latch that stays x' '1\nj0\nx\n\n.\n'
}

# several properties, of no goal, one and two, beside a fairness constraint; and a bad state beside a justice property
rows_lasso_properties() {
    model 'aag 2 1 1 0 0 0 0 3 1\n2\n4 5\n0\n1\n2\n5\n4\n3\n2\n'
    confirms 'fairness alone' '1\nj0\n0\n1\n0\n.\n' 0
    confirms 'one goal and fairness' '1\nj1\n0\n1\n0\n.\n' 0
    confirms 'two goals and fairness, in several steps' '1\nj2\n0\n1\n0\n.\n' 0
    denies 'two goals of which one is not met' '1\nj2\n0\n1\n1\n.\n'
    confirms 'a goal of another property that is not met' '1\nj1\n0\n1\n1\n.\n' 0
    denies 'fairness alone that is not met' '1\nj0\n0\n0\n0\n.\n'
    denies 'fairness that is not met, and a goal that is' '1\nj1\n0\n0\n0\n.\n'
    denies 'fairness that is met before the loop alone' '1\nj1\n0\n1\n0\n0\n.\n'
    confirms 'goals behind a stem' '1\nj2\n0\n0\n1\n0\n.\n' 1
    confirms 'a goal and fairness behind a stem' '1\nj1\n0\n0\n1\n0\n.\n' 1
    denies 'fairness that is x' '1\nj0\n0\nx\n0\n.\n'
    model 'aag 1 0 1 0 0 1 0 1\n2 3\n3\n1\n2\n'
    confirms 'the bad state of a model with both' '1\nb0\n0\n\n.\n' 0
    confirms 'the justice property of a model with both' '1\nj0\n0\n\n\n.\n' 0
    denies 'a bad state is no lasso' '1\nj0\n0\n\n.\n'
    bad_witness 'a second bad state of a model with both' '1\nb1\n0\n\n.\n' 2
    bad_witness 'a second justice property of a model with both' '1\nj1\n0\n\n\n.\n' 2
    model 'aag 4 1 2 1 1 2 1 2 1\n2\n4 3 1\n6 4 6\n8\n6\n7\n9\n2\n1\n3\n4\n8\n5\n8 6 3\nj1 live\n'
    confirms 'a lasso of a model with each section' '1\nj0\n10\n0\n1\n1\n0\n.\n' 0
    denies 'a goal that a constraint is against' '1\nj1\n10\n0\n1\n1\n0\n.\n'
    denies 'a lasso of a model with each section, whose constraint fails' '1\nj0\n11\n0\n1\n1\n0\n0\n.\n'
}

# positions of justice properties: 0 to 11, of which 10 has no goal, 11 one that is 1, and the others one that is 0
rows_lasso_positions() {
    local line
    model "aag 0 0 0 0 0 0 0 12\n$(printf '1\\n%.0s' $(seq 10))0\n1\n$(printf '0\\n%.0s' $(seq 10))1\n"
    confirms 'a justice position of two digits' '1\nj10\n\n\n.\n' 0
    confirms 'the last justice position' '1\nj11\n\n\n.\n' 0
    denies 'a justice position below it' '1\nj9\n\n\n.\n'
    denies 'the first justice position' '1\nj0\n\n\n.\n'
    for line in j j12 j20 j110 j00 j010 j011 j01 j+0 j-0 j+10 j1x jx j1. jj0 'j 0' 'j0 ' ' j0' j0j1 'j0 j1' J0 b0 b10 \
        'j1\t' 'j1\0000' 'j\0261' '\0001j0' jb0 bj0 j0b0 j2147483647 j2147483648 j4294967295 j4294967296 j4294967306 \
        j18446744073709551616 j18446744073709551626; do
        bad_witness "a second line '$line', of justice" "1\n$line\n\n\n.\n" 2
    done
    bad_witness 'a justice position of 400 digits' "1\nj$(digits 400 1)\n\n\n.\n" 2
    bad_witness 'a justice position of 400 digits, of which the last may be meant' "1\nj$(digits 400 0)\n\n\n.\n" 2
    bad_witness 'two justice properties' '1\nj10\nj11\n\n\n.\n' 3
    bad_witness 'a justice property and a bad state' '1\nj10\nb0\n\n\n.\n' 3
    model 'aag 1 0 1 0 0 1 0 0 1\n2 3\n2\n2\n'
    bad_witness 'fairness is no justice property' '1\nj0\n0\n\n\n.\n' 2
    model 'aag 0 0 0 0 0\n'
    bad_witness 'a circuit without justice properties' '1\nj0\n\n\n.\n' 2
    bad_witness 'a circuit without justice properties, and a first line that is bad' '2\nj0\n\n\n.\n' 1
}

rows_bad_lasso_lines() {
    local line
    model 'aag 4 2 2 0 0 0 0 1\n2\n4\n6 2\n8 4 8\n1\n6\n'
    confirms 'CR LF at each line of a lasso' '1\r\nj0\r\n0x\r\n1x\r\n1x\r\n.\r\n' 1
    confirms 'no LF at the end of a lasso' '1\nj0\n01\n11\n11\n.' 1
    bad_witness 'the first line of a lasso' '01\nj0\n01\n11\n11\n.\n' 1
    bad_witness 'CR CR LF at the second line of a lasso' '1\nj0\r\r\n01\n11\n.\n' 2
    for line in '' 0 000 '0 1' ' 01' '01 ' 0- 02 0X 11 x1 xx . .0 j0 '0\0000' '0\t'; do
        bad_witness "a third line '$line' of a lasso" "1\nj0\n$line\n11\n11\n.\n" 3
    done
    for line in '' 0 000 0000 '0 0' ' 00' '00 ' 0- 02 X0 .. '. ' ' .' .0 0. '0\0000' '0\t' j0 1; do
        bad_witness "a first step '$line' of a lasso" "1\nj0\n01\n$line\n11\n.\n" 4
        bad_witness "a step '$line' behind a loop" "1\nj0\n01\n11\n11\n$line\n.\n" 6
        [ -z "$line" ] || bad_witness "a last line '$line' of a lasso" "1\nj0\n01\n11\n11\n$line" 6
    done
    bad_witness 'a lasso that no dot ends' '1\nj0\n01\n11\n11\n' 6
    bad_witness 'a lasso of no step and no dot' '1\nj0\n01\n' 4
    bad_witness 'a lasso without its first state' '1\nj0\n' 3
    for line in '' '\r' . 11 j0 C '\0000'; do
        bad_witness "the line '$line' behind the dot of a lasso" "1\nj0\n01\n11\n11\n.\n$line\n" 7
        [ -z "$line" ] || bad_witness "the bytes '$line' behind the dot of a lasso" "1\nj0\n01\n11\n11\n.\n$line" 7
    done
    bad_witness 'two lassos' '1\nj0\n01\n11\n11\n.\n1\nj0\n01\n11\n11\n.\n' 7
    bad_witness 'the first of several bad lines of a lasso' '1\nj0\n11\n2\n.\n.\n' 3
    model 'aag 1 0 1 0 0 0 0 1\n2 3\n1\n2\n'
    bad_witness 'a first value 1 of a lasso, where the reset is 0' '1\nj0\n1\n\n\n.\n' 3
    bad_witness 'a first value x of a lasso, where the reset is 0' '1\nj0\nx\n\n\n.\n' 3
    bad_witness 'a value of a lasso, where there are no inputs' '1\nj0\n0\n\n0\n.\n' 5
    confirms 'comments in a lasso' 'c\n1\ncj0\nj0\nc b0\n0\nc.\n\nc\n\nc\n.\nc\n' 0
    bad_witness 'two lassos, and comments' 'c\n1\nc\nj0\n0\n\n\n.\nc\n1\nj0\n0\n\n\n.\n' 10
    bad_witness 'a second line behind a comment, of no property' '1\ncj0\nj1\n0\n\n\n.\n' 3
    cuts 'a lasso' '1\nj0\n0\n\n\n.\n' 0 1 2 2 2 3 3 4 4 5 6 + +
    cuts 'a lasso' '1\r\nj0\r\n0\r\n\r\n\r\n.\r\n' 0 1 2 1 2 2 3 2 3 4 3 4 4 5 5 6 + 6 +
}

rows_long_lassos() {
    local long line
    long=$(digits 20000 0)
    model 'aag 3 1 1 0 1 0 0 1\n2\n4 7\n1\n2\n6 3 5\n'
    confirms 'a loop behind 5,001 steps' "1\nj0\n0\n$(printf '0\\n%.0s' $(seq 5000))1\n1\n.\n" 5001
    confirms 'a loop of 5,001 steps' "1\nj0\n0\n1\n1\n$(printf '0\\n%.0s' $(seq 5000)).\n" 1
    denies 'a goal before a loop of 5,000 steps' "1\nj0\n0\n1\n$(printf '0\\n%.0s' $(seq 5000)).\n"
    bad_witness 'a bad line behind a loop of 5,000 steps' "1\nj0\n0\n1\n$(printf '1\\n%.0s' $(seq 5000))2\n.\n" 5005
    bad_witness 'a second line of 20,000 bytes, of justice' "1\nj$long\n0\n1\n1\n.\n" 2
    bad_witness 'a third line of 20,000 bytes of a lasso' "1\nj0\n$long\n1\n1\n.\n" 3
    bad_witness 'a step of 20,000 bytes of a lasso' "1\nj0\n0\n1\n$long\n.\n" 5
    bad_witness 'a step of 20,000 bytes of a lasso, without LF' "1\nj0\n0\n1\n$long" 5
    model "aag 300 300 0 0 0 0 0 1\n$(printf '%s\\n' $(seq 2 2 600))1\n600\n"
    confirms '300 inputs in a lasso' "1\nj0\n\n$(digits 299 1)0\n$(digits 299 x)1\n.\n" 0
    bad_witness '299 values for 300 inputs in a lasso' "1\nj0\n\n$(digits 300 1)\n$(digits 299 1)\n.\n" 5
    model "aag 300 0 300 0 0 0 0 1\n$(for line in $(seq 2 2 600); do printf '%s\\n' "$line $line $line"; done)1\n600\n"
    confirms '300 latches in a lasso' "1\nj0\n$(digits 299 x)1\n\n.\n" 0
    denies '300 latches in a lasso, the last one x' "1\nj0\n$(digits 300 x)\n\n.\n"
}

rows_lasso_names() {
    local toggle='aag 1 0 1 0 0 0 0 1\n2 3\n1\n2\n'
    printf '1\nj0\n0\n\n\n.\n' > "$work/lasso"
    printf '1\nj0\n0\n\n\n' > "$work/bad_lasso"
    model "$toggle"
    row 'a lasso by its name' 'bad\n' 'confirmed 0\n' '' 0 aigsim --witness "$model" "$work/lasso"
    row 'the model of a lasso by standard input' "$toggle" 'confirmed 0\n' '' 0 aigsim - "$work/lasso" --witness
    row 'a lasso over a model within the limit' '1\nj0\n0\n\n\n.\n' 'confirmed 0\n' '' 0 \
        aigsim --max-var 1 --witness "$model"
    unjudged 'a bad lasso by its name' '' "$work/bad_lasso: line 6: bad witness line" \
        --witness "$model" "$work/bad_lasso"
    unjudged 'a lasso over a model above the limit' '1\n' "$model: line 1: number above the limit" \
        --witness --max-var 0 "$model"
}
