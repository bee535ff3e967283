# The rows of aigsim, for the table of all.sh. The stimulus comes by standard input, unless a row names another; the model is
# the file that was made last.

models=0
# model TEXT: makes the model of the rows that follow, in a file of its own, since rows with the same words read the same model
model() {
    models=$((models + 1))
    model=$work/model.$models
    printf '%b' "$1" > "$model"
}
# traced NAME STIMULUS TRACE WORD..: a simulation that ends well. With --batch the same text comes.
traced() {
    local name=$1 given=$2 trace=$3
    shift 3
    row "$name" "$given" "$trace" '' 0 aigsim "$@"
    row "$name, in a batch" "$given" "$trace" '' 0 aigsim --batch "$@"
}
# untraced NAME STIMULUS TRACE TEXT WORD..: a simulation that fails, with what was traced by then. With --batch the same is
# said, and nothing is traced.
untraced() {
    local name=$1 given=$2 trace=$3 text=$4
    shift 4
    row "$name" "$given" "$trace" "aiger: $text\n" 1 aigsim "$@"
    row "$name, in a batch" "$given" '' "aiger: $text\n" 1 aigsim --batch "$@"
}
traces() { traced "$1" "$2" "$3" "$model"; }
with_properties() { traced "$1" "$2" "$3" --properties "$model"; }
# stops NAME STIMULUS TRACE LINE: this line is bad, and the trace of those before it stands
stops() { untraced "$1" "$2" "$3" "-: line $4: bad stimulus line" "$model"; }
# a model that is refused, whatever the stimulus is
no_model() {
    model "$2"
    untraced "$1" '0\nx.\n' '' "$model: $3" "$model"
}

rows_traces() {
    rows_steps
    rows_values
    rows_starts
    rows_runs
    rows_no_inputs
    rows_stimulus_ends
    rows_bad_stimulus
    rows_long_stimulus
    rows_stimulus_cuts
    rows_trace_columns
    rows_models
    rows_stimulus_names
    rows_many_runs
    rows_side_by_side
}

# a gate, without latches; a latch; and both
rows_steps() {
    model 'aag 3 2 0 1 1\n2\n4\n6\n6 2 4\n'
    traces 'a gate' '0x\n1x\n11\n' ' 0x 0 \n 1x x \n 11 1 \n.\n'
    traces 'no stimulus' '' ''
    model 'aag 3 1 1 1 1\n2\n4 6\n6\n6 2 5\n'
    traces 'an input, a latch and a gate' '1\n1\n' '0 1 1 1\n1 1 0 0\n.\n'
    traces 'the latch of the step before' '1\n0\n1\nx\n0\n1\n' '0 1 1 1\n1 0 0 0\n0 1 1 1\n1 x 0 0\n0 0 0 0\n0 1 1 1\n.\n'
    model 'aig 3 1 1 1 1\n6\n6\n\x01\x03'
    traces 'the same in binary' '1\n1\n' '0 1 1 1\n1 1 0 0\n.\n'
    model 'aag 2 0 2 2 0\n2 4 1\n4 2\n2\n5\n'
    traces 'latches that exchange their values' '\n\n\n' '10  11 01\n01  00 10\n10  11 01\n.\n'
    model 'aag 4 1 3 1 0\n8\n4 8\n2 4\n6 2\n6\n'
    traces 'a shift register, in any order of variables' '1\n0\n0\n0\n1\n' \
        '000 1 0 100\n100 0 0 010\n010 0 0 001\n001 0 1 000\n000 1 0 100\n.\n'
    model 'aag 7 2 0 2 3\n2\n4\n6\n12\n6 13 15\n12 2 4\n14 3 5\ni0 x\ni1 y\no0 s\no1 c\nc\nhalf adder\n'
    traces 'a half adder, its gates in any order' '00\n01\n10\n11\n1x\nxx\n' \
        ' 00 00 \n 01 10 \n 10 10 \n 11 01 \n 1x xx \n xx xx \n.\n'
    model 'aag 5 2 0 3 3\n2\n4\n6\n8\n10\n6 10 2\n8 2 4\n10 4 2\n'
    traces 'gates before those that they are over' '11\n10\nx1\n' ' 11 111 \n 10 000 \n x1 xxx \n.\n'
    model 'aag 2147483647 1 1 1 1\n4294967294\n4 4294967292\n4294967293\n4294967292 4294967295 5\n'
    traces 'the largest variables' '0\n0\n' '0 0 0 1\n1 0 1 0\n.\n'
    model 'aag 0 0 0 0 0\n'
    traces 'a circuit of nothing' '\n\n.\n' '   \n   \n.\n'
    model 'aag 1 0 0 0 0\n'
    traces 'variables that nothing defines' '\n' '   \n.\n'
}

# what 0, 1 and x make of one another
rows_values() {
    model 'aag 6 2 0 4 4\n2\n4\n6\n8\n10\n12\n6 2 4\n8 2 5\n10 3 4\n12 3 5\n'
    traces 'both operands of a gate, with each sign' '00\n01\n0x\n10\n11\n1x\nx0\nx1\nxx\n' \
        ' 00 0001 \n 01 0010 \n 0x 00xx \n 10 0100 \n 11 1000 \n 1x xx00 \n x0 0x0x \n x1 x0x0 \n xx xxxx \n.\n'
    model 'aag 2 1 0 1 1\n2\n4\n4 2 3\n'
    traces 'x and its negation are x, though neither value is' '0\n1\nx\n' ' 0 0 \n 1 0 \n x x \n.\n'
    model 'aag 2 1 0 2 1\n2\n4\n5\n4 2 2\n'
    traces 'equal operands' '0\n1\nx\n' ' 0 01 \n 1 10 \n x xx \n.\n'
    model 'aag 1 1 0 5 0\n2\n0\n1\n2\n3\n2\n'
    traces 'outputs that are constants, inputs and negations' '0\n1\nx\n' ' 0 01010 \n 1 01101 \n x 01xxx \n.\n'
    model 'aag 5 1 0 4 4\n2\n4\n6\n8\n10\n4 2 0\n6 1 2\n8 0 1\n10 1 1\n'
    traces 'operands that are constants' '0\n1\nx\n' ' 0 0001 \n 1 0101 \n x 0x01 \n.\n'
    model 'aag 3 1 2 2 0\n2\n4 0\n6 1\n4\n6\n'
    traces 'next states that are constants' 'x\nx\n' '00 x 00 01\n01 x 01 01\n.\n'
    model 'aag 4 1 1 2 2\n2\n4 8\n6\n9\n6 2 4\n8 3 5\n'
    traces 'x is kept by a latch, until a value is known' '0\nx\n1\n' '0 0 00 1\n1 x x1 0\n0 1 01 0\n.\n'
}

# what latches start at
rows_starts() {
    model 'aag 4 1 3 0 0\n2\n4 2\n6 2 1\n8 2 8\n'
    traces 'each reset, in each run' '1\n.\n0\nx\n.\nx\n' '01x 1  111\n.\n01x 0  000\n000 x  xxx\n.\n01x x  xxx\n.\n'
    model 'aig 4 1 3 0 0\n2\n2 1\n2 8\n'
    traces 'each reset, in binary' '1\n.\n0\n' '01x 1  111\n.\n01x 0  000\n.\n'
    model 'aag 1 0 1 2 0\n2 3 1\n2\n3\n'
    traces 'a toggle that starts at 1' '\n\n' '1  10 0\n0  01 1\n.\n'
    model 'aag 1 0 1 1 0\n2 2 2\n3\n'
    traces 'an uninitialised latch that keeps itself' '\n\n' 'x  x x\nx  x x\n.\n'
    model 'aag 2 1 1 1 0\n2\n4 2 4\n5\n'
    traces 'an uninitialised latch that is known later' '0\n1\nx\n' 'x 0 x 0\n0 1 1 1\n1 x 0 x\n.\n'
}

rows_runs() {
    model 'aag 3 1 1 1 1\n2\n4 6\n6\n6 2 5\n'
    traces 'two runs, each from the reset state' '1\n.\n1\n.\n' '0 1 1 1\n.\n0 1 1 1\n.\n'
    traces 'a last run that no line ends' '1\n.\n1\n' '0 1 1 1\n.\n0 1 1 1\n.\n'
    traces 'a run of no step' '.\n' '.\n'
    traces 'runs of no step' '.\n.\n.\n' '.\n.\n.\n'
    traces 'runs of no step before, between and behind others' '.\n1\n.\n.\n1\n1\n.\n.\n' \
        '.\n0 1 1 1\n.\n.\n0 1 1 1\n1 1 0 0\n.\n.\n'
    traces 'a last line without LF' '1\n1' '0 1 1 1\n1 1 0 0\n.\n'
    traces 'a last line . without LF' '1\n.' '0 1 1 1\n.\n'
    traces 'a line . alone, without LF' '.' '.\n'
    traces 'CR LF' '1\r\n.\r\n1\r\n' '0 1 1 1\n.\n0 1 1 1\n.\n'
    traces 'LF and CR LF' '1\n1\r\n.\n1\r\n.\r\n' '0 1 1 1\n1 1 0 0\n.\n0 1 1 1\n.\n'
}

# A toggle: an empty line is a step, if it has its LF.
rows_no_inputs() {
    model 'aag 1 0 1 2 0\n2 3\n2\n3\n'
    traces 'a toggle' '\n\n\n.\n' '0  01 1\n1  10 0\n0  01 1\n.\n'
    traces 'a toggle, its run not ended' '\n\n' '0  01 1\n1  10 0\n.\n'
    traces 'a toggle, no stimulus' '' ''
    traces 'a toggle, CR LF' '\r\n\r\n' '0  01 1\n1  10 0\n.\n'
    traces 'a toggle, CR LF and . without LF' '\r\n\n.' '0  01 1\n1  10 0\n.\n'
    traces 'a toggle, runs of no step' '.\n.\n\n.' '.\n.\n0  01 1\n.\n'
    traces 'a toggle, a step behind a run' '\n.\n\n' '0  01 1\n.\n0  01 1\n.\n'
    stops 'a toggle, CR alone' '\r' '' 1
    stops 'a toggle, CR alone at the end' '\n\r' '0  01 1\n' 2
    stops 'a toggle, CR alone behind a run' '\n.\n\r' '0  01 1\n.\n' 3
    stops 'a toggle, CR CR LF' '\n\r\r\n' '0  01 1\n' 2
    stops 'a toggle, a space' ' \n' '' 1
    stops 'a toggle, a value' '\n0\n\n' '0  01 1\n' 2
    stops 'a toggle, x without LF' '\nx' '0  01 1\n' 2
    stops 'a toggle, a byte NUL' '\0000\n' '' 1
    stops 'a toggle, . and a space' '. \n' '' 1
    stops 'a toggle, a longer line' '\n\n...\n' '0  01 1\n1  10 0\n' 3
}

# where a CR is dropped, and where not
rows_stimulus_ends() {
    model 'aag 3 2 0 1 1\n2\n4\n6\n6 2 4\n'
    traces 'a CR before LF, of a step and of .' '11\r\n.\r\n' ' 11 1 \n.\n'
    stops 'a CR that ends the stimulus' '11\r' '' 1
    stops 'a CR that ends the stimulus, behind a step' '10\n11\r' ' 10 0 \n' 2
    stops 'a CR alone' '\r' '' 1
    stops 'CR LF alone' '\r\n' '' 1
    stops 'a CR behind . that ends the stimulus' '11\n.\r' ' 11 1 \n' 2
    stops 'CR, CR, LF' '11\r\r\n' '' 1
    stops '., CR, CR, LF' '11\n.\r\r\n' ' 11 1 \n' 2
    stops 'CR, space, LF' '11\r \n' '' 1
    stops 'a space before CR LF' '11 \r\n' '' 1
    stops 'a CR first in a line' '\r11\n' '' 1
    stops 'a CR between values' '1\r1\n' '' 1
    stops 'a CR in the place of a value' '1\r' '' 1
    stops 'a CR in the place of a value, and LF' '1\r\n' '' 1
    stops 'a CR and .' '\r.\n' '' 1
}

rows_bad_stimulus() {
    local line
    model 'aag 3 2 0 1 1\n2\n4\n6\n6 2 4\n'
    stops 'the second line is bad' '0x\n1\n11\n' ' 0x 0 \n' 2
    for line in '' 0 111 1111 11111 ' 11' '11 ' '1 1' '1 ' ' 1' 'X1' '12' '1-' '1\t' '\t1' '1.' '.1' '..' '. ' ' .' '.11' '1\0000' \
        '\00001' '\0001\0001' '1\0377' '\0261\0261' 'xX' 'ab' '1?' '#' '# 11' 'c'; do
        stops "a bad line first, '$line'" "$line\n11\n" '' 1
        stops "a bad line last, '$line'" "11\n0x\n$line\n" ' 11 1 \n 0x 0 \n' 3
        stops "a bad line behind a run, '$line'" "11\n.\n$line\n11\n" ' 11 1 \n.\n' 3
        [ -z "$line" ] || stops "a bad line without LF, '$line'" "11\n$line" ' 11 1 \n' 2
    done
    stops 'an empty line behind a run that is ended' '11\n.\n\n' ' 11 1 \n.\n' 3
    stops 'the first of two bad lines' '11\n1\n0\n' ' 11 1 \n' 2
    stops 'lines are counted over all runs' '11\n.\n.\n10\n11\n.\n1\n' ' 11 1 \n.\n.\n 10 0 \n 11 1 \n.\n' 7
    stops 'a bad line behind a run of no step' '.\nx\n' '.\n' 2
    stops 'a bad line behind CR LF' '11\r\n1\r\n' ' 11 1 \n' 2
    model 'aag 1 1 0 0 0\n2\n'
    stops 'a character between 1 and x' '2\n' '' 1
    stops 'a slash, before 0' '/\n' '' 1
    stops 'a w, before x' 'w\n' '' 1
    stops 'a y, behind x' 'y\n' '' 1
    stops 'a byte of 0 with the top bit' '\0260\n' '' 1
    stops 'a byte of x with the top bit' '\0370\n' '' 1
    traces 'one input, . and a value' '.\n1\n' '.\n 1  \n.\n'
}

# A line that is longer than a right one is read to its LF, and then it is bad.
rows_long_stimulus() {
    local long
    long=$(digits 20000 1)
    model 'aag 3 2 0 1 1\n2\n4\n6\n6 2 4\n'
    stops 'a line of one byte too many' '11\n111\n' ' 11 1 \n' 2
    stops 'a line of one byte too many, CR LF' '11\n111\r\n' ' 11 1 \n' 2
    stops 'a line of two bytes too many' '11\n1111\n' ' 11 1 \n' 2
    stops 'a line of three bytes too many' '11\n11111\n' ' 11 1 \n' 2
    stops 'a line of three bytes too many without LF' '11\n11111' ' 11 1 \n' 2
    stops 'a right line, CR, and more' '11\r1\n' '' 1
    stops 'a right line, CR, and a right line' '11\r11\n' '' 1
    stops 'a line that begins and ends right' '11zzzz11\n11\n' '' 1
    stops 'a line that begins right and ends with CR LF' '11111\r\n' '' 1
    stops 'a long line of dots' '......\n' '' 1
    stops 'a line of 20,000 values' "11\n$long\n11\n" ' 11 1 \n' 2
    stops 'a line of 20,000 values without LF' "11\n$long" ' 11 1 \n' 2
    stops 'a line of 20,000 values with CR LF' "11\n$long\r\n" ' 11 1 \n' 2
    model "aag 300 300 0 0 0\n$(printf '%s\\n' $(seq 2 2 600))"
    traces '300 inputs' "$(digits 300 x)\n$(digits 300 1)\r\n.\n$(digits 300 0)" \
        " $(digits 300 x)  \n $(digits 300 1)  \n.\n $(digits 300 0)  \n.\n"
    stops '299 values for 300 inputs' "$(digits 300 x)\n$(digits 299 x)\n" " $(digits 300 x)  \n" 2
    stops '301 values for 300 inputs' "$(digits 300 x)\n$(digits 301 x)\n" " $(digits 300 x)  \n" 2
    stops '300 values, the last one bad' "$(digits 300 x)\n$(digits 299 x)y\n" " $(digits 300 x)  \n" 2
    model "aag 0 0 0 9000 0\n$(printf '1\\n%.0s' $(seq 9000))"
    traces 'a line of the trace that is longer than 8,192 bytes' '\n\n' "  $(digits 9000 1) \n  $(digits 9000 1) \n.\n"
    stops 'a line of the trace that is longer than 8,192 bytes, and a bad one' '\n1\n' "  $(digits 9000 1) \n" 2
}

# stimuli that are cut after each of their bytes
rows_stimulus_cuts() {
    local cut plain
    model 'aag 3 2 0 1 1\n2\n4\n6\n6 2 4\n'
    plain=$(printf '0x\r\n.\r\n11\n.\n.\n-')
    stops 'a stimulus cut after 1' "${plain:0:1}" '' 1
    traces 'a stimulus cut after 2' "${plain:0:2}" ' 0x 0 \n.\n'
    stops 'a stimulus cut after 3' "${plain:0:3}" '' 1
    traces 'a stimulus cut after 4' "${plain:0:4}" ' 0x 0 \n.\n'
    traces 'a stimulus cut after 5' "${plain:0:5}" ' 0x 0 \n.\n'
    stops 'a stimulus cut after 6' "${plain:0:6}" ' 0x 0 \n' 2
    traces 'a stimulus cut after 7' "${plain:0:7}" ' 0x 0 \n.\n'
    stops 'a stimulus cut after 8' "${plain:0:8}" ' 0x 0 \n.\n' 3
    for cut in 9 10 11 12; do
        traces "a stimulus cut after $cut" "${plain:0:cut}" ' 0x 0 \n.\n 11 1 \n.\n'
    done
    for cut in 13 14; do
        traces "a stimulus cut after $cut" "${plain:0:cut}" ' 0x 0 \n.\n 11 1 \n.\n.\n'
    done
    model 'aag 1 0 1 2 0\n2 3\n2\n3\n'
    plain=$(printf '\r\n\n.\r\n\n-')
    stops 'a stimulus without inputs cut after 1' "${plain:0:1}" '' 1
    traces 'a stimulus without inputs cut after 2' "${plain:0:2}" '0  01 1\n.\n'
    traces 'a stimulus without inputs cut after 3' "${plain:0:3}" '0  01 1\n1  10 0\n.\n'
    traces 'a stimulus without inputs cut after 4' "${plain:0:4}" '0  01 1\n1  10 0\n.\n'
    stops 'a stimulus without inputs cut after 5' "${plain:0:5}" '0  01 1\n1  10 0\n' 3
    traces 'a stimulus without inputs cut after 6' "${plain:0:6}" '0  01 1\n1  10 0\n.\n'
    traces 'a stimulus without inputs cut after 7' "${plain:0:7}" '0  01 1\n1  10 0\n.\n0  01 1\n.\n'
}

# The columns of a trace line, each of which may be empty; the space before it stays.
rows_trace_columns() {
    model 'aag 1 0 1 0 0 1\n2 3 2\n2\n'
    with_properties 'a bad state' '\n' 'x   x x \n.\n'
    traces 'a bad state that is not asked for' '\n' 'x   x\n.\n'
    model 'aag 3 2 0 1 1\n2\n4\n6\n6 2 4\n'
    with_properties 'properties of a circuit that has none' '11\n.\n0x\n' ' 11 1   \n.\n 0x 0   \n.\n'
    untraced 'a bad line beside properties' '11\n1\n' ' 11 1   \n' '-: line 2: bad stimulus line' --properties "$model"
    model 'aag 0 0 0 0 0\n'
    with_properties 'properties of a circuit of nothing' '\n' '     \n.\n'
    model 'aag 1 1 0 0 0 0 1\n2\n3\n'
    with_properties 'a constraint' '0\n1\nx\n' ' 0    1\n 1    0\n x    x\n.\n'
    model 'aag 2 2 0 0 0 2 3\n2\n4\n2\n5\n0\n4\n3\n'
    with_properties 'bad states and constraints in their order' '01\n1x\n' ' 01   00 011\n 1x   1x 0x0\n.\n'
    traces 'bad states and constraints that are not asked for' '01\n1x\n' ' 01  \n 1x  \n.\n'
    model 'aag 4 1 2 1 1 2 1 2 1\n2\n4 3 1\n6 4 6\n8\n6\n7\n9\n2\n1\n3\n4\n8\n5\n8 6 3\n'
    with_properties 'each section' '0\n1\n.\nx\n' '1x 0 x 11 xx x\n11 1 0 01 10 1\n.\n1x x x x1 xx x\n.\n'
    traces 'each section, the four columns alone' '0\n1\n.\nx\n' '1x 0 x 11\n11 1 0 01\n.\n1x x x x1\n.\n'
    model 'aig 4 1 2 1 1 2 1 2 1\n3 1\n4 6\n8\n6\n7\n9\n2\n1\n3\n4\n8\n5\n\x02\x03j1 a\nc\nx'
    with_properties 'each section, in binary' '0\n1\n.\nx\n' '1x 0 x 11 xx x\n11 1 0 01 10 1\n.\n1x x x x1 xx x\n.\n'
    model 'aag 1 0 1 0 0 1 1\n2 3\n2\n3\n'
    with_properties 'a run goes on where a constraint is 0' '\n\n\n' '0   1 0 1\n1   0 1 0\n0   1 0 1\n.\n'
}

# the model is read before the stimulus, and its faults come first
rows_models() {
    no_model 'an empty model' '' 'line 1: not an AIGER file'
    no_model 'a model that is a stimulus' '\n\n.\n' 'line 1: not an AIGER file'
    no_model 'a model that ends too early' 'aag 2 1 0 1 1\n2\n4\n' 'line 4: file ends too early'
    no_model 'a bad line of the model' 'aag 1 1 0 0 0\nx\n' 'line 2: bad line'
    no_model 'a model with a bad reset' 'aag 1 0 1 0 0\n2 3 3\n' 'line 2: bad reset'
    no_model 'a model with a bad symbol line' 'aag 0 0 0 0 0\nx\n' 'line 2: bad symbol line'
    no_model 'a model with a bad delta' 'aig 1 0 0 0 1\n\x03\x00' 'gate 1: bad delta'
    no_model 'a variable of the model defined twice' 'aag 2 2 0 0 0\n2\n2\n' 'variable 1 defined twice'
    no_model 'a literal of the model not defined' 'aag 2 1 0 1 0\n2\n4\n' 'literal 4 not defined'
    no_model 'a cycle of the model' 'aag 3 1 0 0 2\n2\n4 6 2\n6 4 2\n' 'gate 4 depends on a cycle'
    model 'aag 3 2 0 1 1\n2\n4\n6\n6 2 4\n'
    traced 'a model within the limit' '11\n' ' 11 1 \n.\n' --max-var 3 "$model"
    untraced 'a model above the limit' '1\n' '' "$model: line 1: number above the limit" --max-var 2 "$model"
    untraced 'a model that is not there' '11\n' '' "$work/none: cannot read: No such file or directory" "$work/none"
    untraced 'neither model nor stimulus is there' '' '' "$work/none: cannot read: No such file or directory" "$work/none" "$work/nothing"
    untraced 'an empty name of the model' '11\n' '' ': cannot read: No such file or directory' ''
    untraced 'a folder as model' '11\n' '' "$work: cannot read: Is a directory" "$work"
    printf 'aag 1 1 0 0 0\nx\n' > "$work/model.bad"
    untraced 'a model that is refused, and no stimulus' '' '' "$work/model.bad: line 2: bad line" \
        "$work/model.bad" "$work/none"
    untraced 'a refused model by standard input, and no stimulus' 'aag 1 1 0 0 0\nx\n' '' '-: line 2: bad line' \
        - "$work/none"
    untraced 'an empty model by standard input' '' '' '-: line 1: not an AIGER file' - "$model"
}

rows_stimulus_names() {
    local gate='aag 3 2 0 1 1\n2\n4\n6\n6 2 4\n'
    printf '11\n.\n0x\n' > "$work/steps"
    printf '11\n.\n0\n' > "$work/bad_steps"
    model "$gate"
    traced 'a stimulus by its name' 'bad\n' ' 11 1 \n.\n 0x 0 \n.\n' "$model" "$work/steps"
    traced 'the stimulus by -' '11\n' ' 11 1 \n.\n' "$model" -
    traced 'the model by standard input' "$gate" ' 11 1 \n.\n 0x 0 \n.\n' - "$work/steps"
    traced 'a binary model by standard input' 'aig 3 2 0 1 1\n6\n\x02\x02' ' 11 1 \n.\n 0x 0 \n.\n' - "$work/steps"
    untraced 'a bad line by its name' '' ' 11 1 \n.\n' "$work/bad_steps: line 3: bad stimulus line" \
        "$model" "$work/bad_steps"
    untraced 'a bad line by its name, the model by -' "$gate" ' 11 1 \n.\n' "$work/bad_steps: line 3: bad stimulus line" \
        - "$work/bad_steps"
    untraced 'a stimulus that is not there' '11\n' '' "$work/none: cannot read: No such file or directory" "$model" "$work/none"
    untraced 'an empty name of the stimulus' '11\n' '' ': cannot read: No such file or directory' "$model" ''
    untraced 'a folder as stimulus' '11\n' '' "$work: cannot read: Is a directory" "$model" "$work"
    untraced 'the model as its own stimulus' '' '' "$model: line 1: bad stimulus line" "$model" "$model"
    traced 'options behind names' '11\n' ' 11 1   \n.\n' "$model" --max-var=3 --properties
    unwanted 'model and stimulus by standard input' 'model and stimulus are both standard input' aigsim -
    unwanted 'model and stimulus by -' 'model and stimulus are both standard input' aigsim - -
    unwanted 'model and stimulus by -, with options' 'model and stimulus are both standard input' aigsim --properties -- - -
}

# more runs than go side by side, of different lengths
rows_many_runs() {
    local runs trace
    model 'aag 3 1 1 1 1\n2\n4 6\n6\n6 2 5\n'
    # every_run LINE OTHER: runs of 0 to 299 lines, which take turns
    every_run() {
        awk -v line="$1" -v other="$2" 'BEGIN {
            for (run = 0; run < 300; run++) {
                for (step = 0; step < run; step++) printf "%s\\n", step % 2 ? other : line
                printf ".\\n"
            }
        }'
    }
    runs=$(every_run 1 1)
    trace=$(every_run '0 1 1 1' '1 1 0 0')
    traces '300 runs of 0 to 299 steps' "$runs" "$trace"
    stops '300 runs of 0 to 299 steps, and a bad line' "${runs}0\n2\n" "${trace}0 0 0 0\n" 45152
    row 'the option --batch behind a name' '1\n.\n1\n' '0 1 1 1\n.\n0 1 1 1\n.\n' '' 0 aigsim "$model" --batch -
    unwanted 'model and stimulus by -, in a batch' 'model and stimulus are both standard input' aigsim --batch -
}

# steps without latches, which are taken 256 at once
rows_side_by_side() {
    local count
    model 'aag 3 2 0 1 1\n2\n4\n6\n6 2 4\n'
    # in_turn COUNT TEXTS: so many lines, of which each is the next of these texts
    in_turn() {
        awk -v count="$1" -v texts="$2" 'BEGIN {
            size = split(texts, each, "|")
            for (line = 0; line < count; line++) printf "%s\\n", each[line % size + 1]
        }'
    }
    for count in 1 15 16 255 256 257 513; do
        traces "$count steps without latches" "$(in_turn "$count" '11|0x|10|x1|xx')" \
            "$(in_turn "$count" ' 11 1 | 0x 0 | 10 0 | x1 x | xx x ').\n"
    done
    traces '300 runs of a step' "$(in_turn 600 '11|.')" "$(in_turn 600 ' 11 1 |.')"
    traces '600 runs of no step' "$(in_turn 600 .)" "$(in_turn 600 .)"
    traces 'runs that end amid 256 steps' "$(in_turn 700 '11|0x|.|x1|.|.')" "$(in_turn 700 ' 11 1 | 0x 0 |.| x1 x |.|.').\n"
    stops 'a bad line behind 2 steps' "$(in_turn 2 '11|0x')12\n11\n" "$(in_turn 2 ' 11 1 | 0x 0 ')" 3
    stops 'a bad line behind 300 steps' "$(in_turn 300 '11|0x')12\n11\n" "$(in_turn 300 ' 11 1 | 0x 0 ')" 301
    traces '300 steps, the last without LF' "$(in_turn 299 '11|0x')0x" "$(in_turn 300 ' 11 1 | 0x 0 ').\n"
}
