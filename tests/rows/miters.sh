# The rows of aigmiter, for the table of all.sh. What is wanted was worked out by hand from docs/FORMAT.md, "Miter".

# miters NAME FIRST SECOND TEXT WORD..: the miter of two circuits in ASCII; miters_to_binary: in binary
miters() {
    model "$2"
    row "$1" "$3" "$4" '' 0 aigmiter --ascii "${@:5}" "$model" -
}
miters_to_binary() {
    model "$2"
    row "$1" "$3" "$4" '' 0 aigmiter "${@:5}" "$model" -
}
# no_miter NAME FIRST SECOND MESSAGE WORD..: the second circuit is refused
no_miter() {
    model "$2"
    row "$1" "$3" '' "aiger: -: $4\n" 1 aigmiter "${@:5}" "$model" -
}
# no_first NAME FIRST MESSAGE WORD..: the first circuit is refused, before the second is read, which is none
no_first() { row "$1" "$2" '' "aiger: -: $3\n" 1 aigmiter "${@:4}" - "$none"; }

rows_miters() {
    model 'x\n'
    none=$model
    rows_compared
    rows_compared_latches
    rows_equal_starts
    rows_compared_constraints
    rows_compared_gates
    rows_by_names
    rows_mixed_names
    rows_wrong_names
    rows_other_names
    rows_incomparable
    rows_too_large_to_compare
    rows_compared_sources
    rows_miter_words
    rows_miter_traces
}

# two inverters, and their miter
inverter='aag 1 1 0 1 0\n2\n3\n'
inverters='aag 5 1 0 0 4 1\n2\n10\n4 2 1\n6 5 3\n8 4 2\n10 9 7\n'
inverters_binary='aig 5 1 0 0 4 1\n10\n\x02\x01\x01\x02\x04\x02\x01\x02'
# an uninitialised toggle
started='aag 1 0 1 1 0\n2 3 2\n2\n'

# outputs, bad states, constants and inputs
rows_compared() {
    miters 'two inverters' "$inverter" "$inverter" "$inverters"
    miters_to_binary 'two inverters, to binary' "$inverter" "$inverter" "$inverters_binary"
    miters 'an inverter and a wire' "$inverter" 'aag 1 1 0 1 0\n2\n2\n' \
        'aag 5 1 0 0 4 1\n2\n10\n4 2 1\n6 4 3\n8 5 2\n10 9 7\n'
    miters 'two inverters, the first in binary' 'aig 1 1 0 1 0\n3\n' "$inverter" "$inverters"
    miters 'two inverters, the second in binary' "$inverter" 'aig 1 1 0 1 0\n3\n' "$inverters"
    miters_to_binary 'two inverters, both in binary' 'aig 1 1 0 1 0\n3\n' 'aig 1 1 0 1 0\n3\n' "$inverters_binary"
    miters 'two inverters, whose names and comments are left out' 'aag 1 1 0 1 0\n2\n3\ni0 x\no0 y\nc\nfirst\n' \
        'aag 1 1 0 1 0\n2\n3\ni0 y\nc\n' "$inverters"
    miters 'two circuits of nothing' 'aag 0 0 0 0 0\n' 'aag 0 0 0 0 0\n' 'aag 0 0 0 0 0\n'
    miters_to_binary 'two circuits of nothing, to binary' 'aag 0 0 0 0 0\n' 'aag 0 0 0 0 0\n' 'aig 0 0 0 0 0\n'
    local inputs='aag 2 2 0 0 0\n4\n2\n' others='aag 3 2 0 0 0\n2\n6\n'
    miters 'inputs of other variables' "$inputs" "$others" 'aag 5 2 0 0 2\n4\n2\n6 4 1\n10 2 1\n'
    miters_to_binary 'inputs of other variables, to binary' "$inputs" "$others" 'aig 4 2 0 0 2\n\x04\x01\x04\x03'
    miters 'constants' 'aag 0 0 0 2 0\n0\n1\n' 'aag 0 0 0 2 0\n1\n1\n' \
        'aag 6 0 0 0 6 2\n6\n12\n2 1 0\n4 1 0\n6 5 3\n8 1 1\n10 0 0\n12 11 9\n'
    miters_to_binary 'constants, to binary' 'aag 0 0 0 2 0\n0\n1\n' 'aag 0 0 0 2 0\n1\n1\n' \
        'aig 6 0 0 0 6 2\n6\n12\n\x01\x01\x03\x01\x01\x02\x07\x00\x0a\x00\x01\x02'
    miters 'variables that nothing defines, twice' 'aag 5 0 0 1 0\n0\n' 'aag 7 0 0 1 0\n1\n' \
        'aag 15 0 0 0 3 1\n30\n26 1 0\n28 1 0\n30 29 27\n'
    miters_to_binary 'variables that nothing defines, twice, to binary' 'aag 5 0 0 1 0\n0\n' 'aag 7 0 0 1 0\n1\n' \
        'aig 3 0 0 0 3 1\n6\n\x01\x01\x03\x01\x01\x02'
    local lists
    local both='aag 10 2 0 0 8 2\n2\n4\n14\n20\n6 2 1\n8 4 1\n10 6 2\n12 7 3\n14 13 11\n16 9 5\n18 8 4\n20 19 17\n'
    for lists in '2 0' '1 0 1' '0 0 2'; do
        miters "an output and a bad state beside these counts: $lists" 'aag 2 2 0 1 0 1\n2\n4\n2\n5\n' \
            "aag 2 2 0 $lists\n2\n4\n2\n5\n" "$both"
    done
    miters 'two bad states beside outputs' 'aag 2 2 0 0 0 2\n2\n4\n2\n5\n' 'aag 2 2 0 2 0\n2\n4\n2\n5\n' "$both"
}

# latches of each reset; those without initial value are alike only where both circuits have some
rows_compared_latches() {
    local toggle='aag 1 0 1 1 0\n2 3\n2\n' gates='6 4 2\n8 5 3\n10 9 7\n'
    miters 'two toggles, of which one starts at 1' "$toggle" 'aag 1 0 1 1 0\n2 3 1\n3\n' \
        'aag 5 0 2 0 3 1\n2 3\n4 5 1\n10\n6 5 2\n8 4 3\n10 9 7\n'
    miters_to_binary 'two toggles, of which one starts at 1, to binary' "$toggle" 'aag 1 0 1 1 0\n2 3 1\n3\n' \
        'aig 5 0 2 0 3 1\n3\n5 1\n10\n\x01\x03\x04\x01\x01\x02'
    miters 'a toggle without initial value, and one that has it' "$started" "$toggle" \
        "aag 5 0 2 0 3 1\n2 3 2\n4 5\n10\n$gates"
    miters 'a toggle with initial value, and one that has none' 'aag 1 0 1 1 0\n2 3 1\n2\n' "$started" \
        "aag 5 0 2 0 3 1\n2 3 1\n4 5 4\n10\n$gates"
    miters_to_binary 'a toggle with initial value, and one that has none, to binary' \
        'aag 1 0 1 1 0\n2 3 1\n2\n' "$started" 'aig 5 0 2 0 3 1\n3 1\n5 4\n10\n\x02\x02\x03\x02\x01\x02'
    miters 'a latch without initial value, and no latch' "$started" 'aag 0 0 0 1 0\n0\n' \
        'aag 4 0 1 0 3 1\n2 3 2\n8\n4 2 0\n6 3 1\n8 7 5\n'
}

# pairs of uninitialised latches: the latch that says which step is the first one, and a constraint for each
rows_equal_starts() {
    miters 'two toggles without initial values' "$started" "$started" \
        'aag 10 0 3 0 7 1 1\n2 3 2\n4 5 4\n12 1\n10\n21\n6 4 2\n8 5 3\n10 9 7\n14 4 2\n16 5 3\n18 17 15\n20 18 13\n'
    miters_to_binary 'two toggles without initial values, to binary' "$started" "$started" \
        'aig 10 0 3 0 7 1 1\n3 2\n5 4\n1\n12\n21\n\x04\x02\x05\x02\x01\x02\x0a\x02\x0b\x02\x01\x02\x02\x0b'
    local more='aag 3 0 3 1 0\n2 2 2\n4 4\n6 6 6\n6\n' fewer='aag 2 0 2 1 0\n4 4 1\n2 2 2\n2\n'
    miters 'more latches without initial value in the first' "$more" "$fewer" \
        "aag 13 0 6 0 7 1 1\n2 2 2\n4 4\n6 6 6\n10 10 1\n8 8 8\n18 1\n16\n27\n$(
        )12 8 6\n14 9 7\n16 15 13\n20 8 2\n22 9 3\n24 23 21\n26 24 19\n"
    miters 'more latches without initial value in the second' "$fewer" "$more" \
        "aag 13 0 6 0 7 1 1\n4 4 1\n2 2 2\n6 6 6\n8 8\n10 10 10\n18 1\n16\n27\n$(
        )12 10 2\n14 11 3\n16 15 13\n20 6 2\n22 7 3\n24 23 21\n26 24 19\n"
    miters 'pairs of latches in the order of lines' 'aag 2 0 2 0 0\n4 2 4\n2 4 2\n' 'aag 2 0 2 0 0\n2 4 2\n4 2 4\n' \
        "aag 13 0 5 0 8 0 2\n4 2 4\n2 4 2\n6 8 6\n8 6 8\n10 1\n25\n27\n$(
        )12 6 4\n14 7 5\n16 15 13\n18 8 2\n20 9 3\n22 21 19\n24 16 11\n26 22 11\n"
    miters 'a pair of latches beside variables that nothing defines' 'aag 3 0 1 0 0\n2 2 2\n' 'aag 2 0 1 0 0\n4 0 4\n' \
        'aag 10 0 3 0 4 0 1\n2 2 2\n10 0 10\n12 1\n21\n14 10 2\n16 11 3\n18 17 15\n20 18 13\n'
}

# constraints of the first are kept; those of the second are bad states more, behind what is compared
rows_compared_constraints() {
    local both='aag 1 1 0 0 0 0 1\n2\n2\n' three='aag 1 1 0 0 0 0 2\n2\n3\n1\n'
    miters 'constraints of both' "$both" "$three" 'aag 2 1 0 0 1 2 1\n2\n4\n0\n2\n4 2 1\n'
    miters_to_binary 'constraints of both, to binary' "$both" "$three" 'aig 2 1 0 0 1 2 1\n4\n0\n2\n\x02\x01'
    miters 'more constraints of the first' "$three" "$both" 'aag 2 1 0 0 1 1 2\n2\n5\n3\n1\n4 2 1\n'
    miters 'a constraint of the second behind an output' 'aag 1 1 0 1 0\n2\n2\n' 'aag 1 1 0 0 0 1 1\n2\n2\n3\n' \
        'aag 5 1 0 0 4 2\n2\n10\n4\n4 2 1\n6 4 2\n8 5 3\n10 9 7\n'
    miters 'a constraint of the first before those of a pair' \
        'aag 1 0 1 0 0 0 1\n2 2 2\n3\n' 'aag 1 0 1 0 0 0 1\n2 2 2\n2\n' \
        'aag 7 0 3 0 4 1 2\n2 2 2\n4 4 4\n6 1\n5\n3\n15\n8 4 2\n10 5 3\n12 11 9\n14 12 7\n'
}

# gates as they are in both files, those in place of inputs between them; in binary in the order of places
rows_compared_gates() {
    local one='aag 3 2 0 1 1\n2\n4\n6\n6 2 4\n' two='aag 5 2 0 1 2\n2\n4\n10\n10 8 8\n8 4 2\n'
    miters 'a gate, and two of which the first is over the second' "$one" "$two" \
        'aag 11 2 0 0 8 1\n2\n4\n22\n6 2 4\n8 2 1\n10 4 1\n16 14 14\n14 10 8\n18 16 6\n20 17 7\n22 21 19\n'
    miters_to_binary 'a gate, and two of which the first is over the second, to binary' "$one" "$two" \
        'aig 10 2 0 0 8 1\n20\n\x02\x02\x06\x01\x06\x03\x02\x02\x02\x00\x02\x08\x03\x08\x01\x02'
    local held='aag 3 1 1 1 1\n2\n4 6\n6\n6 2 5\n' moved='aag 4 1 1 1 2\n8\n2 6\n6\n6 8 3\n4 6 6\n'
    miters 'an input, a latch and gates by other variables' "$held" "$moved" \
        'aag 10 1 2 0 7 1\n2\n4 6\n8 12\n20\n6 2 5\n14 2 1\n12 14 9\n10 12 12\n16 12 6\n18 13 7\n20 19 17\n'
    miters_to_binary 'an input, a latch and gates by other variables, to binary' "$held" "$moved" \
        'aig 10 1 2 0 7 1\n8\n12\n20\n\x03\x03\x08\x01\x02\x03\x02\x00\x04\x04\x05\x04\x01\x02'
    miters 'a circuit that is in binary' 'aig 3 1 1 1 1\n6\n6\n\x01\x03' "$moved" \
        'aag 10 1 2 0 7 1\n2\n4 6\n8 12\n20\n6 5 2\n14 2 1\n12 14 9\n10 12 12\n16 12 6\n18 13 7\n20 19 17\n'
}

# inputs and outputs in another order, which the first circuit's names give; all else keeps its order
rows_by_names() {
    local first='aag 2 2 0 1 0\n2\n4\n2\ni0 a\ni1 b\no0 f\n' second='aag 2 2 0 1 0\n2\n4\n4\ni0 b\ni1 a\no0 f\n'
    miters 'inputs exchanged, by name' "$first" "$second" \
        'aag 7 2 0 0 5 1\n2\n4\n14\n8 2 1\n6 4 1\n10 8 2\n12 9 3\n14 13 11\n' --by-name
    miters_to_binary 'inputs exchanged, by name, to binary' "$first" "$second" \
        'aig 7 2 0 0 5 1\n14\n\x04\x01\x04\x03\x04\x04\x05\x04\x01\x02' --by-name
    miters 'inputs exchanged, by their places' "$first" "$second" \
        'aag 7 2 0 0 5 1\n2\n4\n14\n6 2 1\n8 4 1\n10 8 2\n12 9 3\n14 13 11\n'
    miters 'outputs exchanged, by name' 'aag 0 0 0 2 0\n0\n1\no0 f\no1 g\n' 'aag 0 0 0 2 0\n1\n0\no0 g\no1 f\n' \
        'aag 6 0 0 0 6 2\n6\n12\n2 0 0\n4 1 1\n6 5 3\n8 1 1\n10 0 0\n12 11 9\n' --by-name
    miters 'names that begin alike' 'aag 3 3 0 0 0\n2\n4\n6\ni0 a\ni1 ab\ni2 a b\n' \
        'aag 3 3 0 0 0\n2\n4\n6\ni0 a b\ni1 a\ni2 ab\n' 'aag 6 3 0 0 3\n2\n4\n6\n10 2 1\n12 4 1\n8 6 1\n' --by-name
    miters 'names of any bytes' 'aag 2 2 0 0 0\n2\n4\ni0 \xff\0\ni1  \n' 'aag 2 2 0 0 0\n2\n4\ni1 \xff\0\ni0  \nc\nx' \
        'aag 4 2 0 0 2\n2\n4\n8 2 1\n6 4 1\n' --by-name
    miters 'nothing that could have a name' 'aag 1 0 1 0 0\n2 2\n' 'aag 0 0 0 0 0\n' 'aag 1 0 1 0 0\n2 2\n' --by-name
    miters 'latches and constraints by name, whose symbols say nothing' \
        'aag 3 1 2 0 0 0 1\n2\n4 2 4\n6 2\n4\nl0 a\nl1 a\nc0 a\ni0 a\n' \
        'aag 3 1 2 0 0 0 1\n2\n4 2\n6 2 6\n4\nl1 a\ni0 a\n' \
        "aag 11 1 5 0 5 1 2\n2\n4 2 4\n6 2\n10 8\n12 8 12\n14 1\n11\n4\n23\n$(
        )8 2 1\n16 12 4\n18 13 5\n20 19 17\n22 20 15\n" --by-name
}

# outputs and bad states are named as one list, so that each may be with the other in the second circuit
rows_mixed_names() {
    local mixed="aag 11 1 0 0 10 3\n2\n10\n16\n22\n4 2 1\n$(
        )6 4 2\n8 5 3\n10 9 7\n12 5 3\n14 4 2\n16 15 13\n18 1 0\n20 1 0\n22 21 19\n"
    local first='aag 1 1 0 1 0 2\n2\n2\n3\n0\n' second='aag 1 1 0 2 0 1\n2\n1\n2\n3\n'
    miters 'outputs and bad states mixed, by name' \
        "${first}i0 i\no0 x\nb0 y\nb1 z\n" "${second}i0 i\no0 z\no1 x\nb0 y\n" "$mixed" --by-name
    miters 'symbol lines in any order' \
        "${first}b1 z\no0 x\ni0 i\nb0 y\n" "${second}b0 y\no1 x\no0 z\ni0 i\n" "$mixed" --by-name
    miters 'names of inputs that outputs have too' \
        "${first}i0 x\no0 x\nb0 y\nb1 z\n" "${second}o0 z\no1 x\nb0 y\ni0 x\n" "$mixed" --by-name
    miters 'outputs that all are bad states, by name' \
        'aag 0 0 0 2 0\n0\n1\no0 f\no1 g\n' 'aag 0 0 0 0 0 2\n1\n0\nb0 g\nb1 f\n' \
        'aag 6 0 0 0 6 2\n6\n12\n2 0 0\n4 1 1\n6 5 3\n8 1 1\n10 0 0\n12 11 9\n' --by-name
}

# a circuit with two inputs, two outputs and two bad states, and right names
six='aag 2 2 0 2 0 2\n2\n4\n2\n4\n3\n5\n'
six_names='i0 a\ni1 b\no0 c\no1 d\nb0 e\nb1 f\n'

# names that are missing or stand twice: of inputs, and then of outputs and bad states, in either circuit
rows_wrong_names() {
    # wrong_names NAME SYMBOLS MESSAGE
    wrong_names() {
        no_first "$1, in the first" "$six$2" "$3" --by-name
        no_miter "$1, in the second" "$six$six_names" "$six$2" "$3" --by-name
    }
    local ab='i0 a\ni1 b\n' cd='o0 c\no1 d\n' ef='b0 e\nb1 f\n'
    wrong_names 'no symbols' 'c\n' 'input 0: no name'
    wrong_names 'no name of an input' "i0 a\n$cd$ef" 'input 1: no name'
    wrong_names 'no name of an output' "${ab}o1 d\n$ef" 'output 0: no name'
    wrong_names 'no name of a bad state' "$ab${cd}b0 e\n" 'bad state 1: no name'
    wrong_names 'no names of outputs and bad states' "$ab" 'output 0: no name'
    wrong_names 'no names of bad states' "$ab$cd" 'bad state 0: no name'
    wrong_names 'a name twice, of inputs' "i0 a\ni1 a\n$cd$ef" 'input 1: name given twice'
    wrong_names 'a name twice, of outputs' "i1 b\ni0 a\no1 c\no0 c\n$ef" 'output 1: name given twice'
    wrong_names 'a name twice, of bad states' "$ab${cd}b1 e\nb0 e\n" 'bad state 1: name given twice'
    wrong_names 'a name twice, of an output and a bad state' "$ab${cd}b0 d\nb1 f\n" 'bad state 0: name given twice'
    wrong_names 'a name of a bad state twice, and of an output' "$ab${cd}b0 c\nb1 c\n" 'bad state 0: name given twice'
    wrong_names 'a name of an input twice, and then no name' 'i0 a\ni1 a\n' 'input 1: name given twice'
    wrong_names 'no name of an input, and then names twice' 'i1 a\no0 c\no1 c\nb0 c\nb1 c\n' 'input 0: no name'
    wrong_names 'a name of an output twice, and then no name' "${ab}o0 c\no1 c\n" 'output 1: name given twice'
    wrong_names 'no name of an output, and then names twice' "${ab}o0 c\nb0 c\nb1 c\n" 'output 1: no name'
    wrong_names 'a name twice that the other has not' "i0 x\ni1 x\n$cd$ef" 'input 1: name given twice'
}

# right names, of which the first circuit does not have one; their places are those of the second
rows_other_names() {
    # other_name NAME SYMBOLS PLACE
    other_name() { no_miter "$1" "$six$six_names" "$six$2" "$3: no such name in the other file" --by-name; }
    local first='aag 0 0 0 1 0 1\n0\n1\no0 x\nb0 y\n' no='no such name in the other file'
    local ab='i0 a\ni1 b\n' cd='o0 c\no1 d\n' ef='b0 e\nb1 f\n'
    other_name 'no such name of an input' "i0 b\ni1 x\n$cd$ef" 'input 1'
    other_name 'no such name of an output' "${ab}o0 x\no1 d\n$ef" 'output 0'
    other_name 'no such name of a bad state' "$ab${cd}b0 e\nb1 x\n" 'bad state 1'
    other_name 'an input with the name of an output' "i0 a\ni1 c\n$cd$ef" 'input 1'
    other_name 'an output with the name of an input' "${ab}o0 a\no1 d\n$ef" 'output 0'
    other_name 'a name in capitals' "i0 A\ni1 b\n$cd$ef" 'input 0'
    other_name 'a name with a space behind it' "i0 a\ni1 b \n$cd$ef" 'input 1'
    other_name 'no such names of inputs and of an output' "i0 y\ni1 x\no0 c\no1 z\n$ef" 'input 0'
    other_name 'no such names of an output and a bad state' "${ab}o0 c\no1 z\nb0 y\nb1 f\n" 'output 1'
    no_miter 'no such name, of an output more' "$first" 'aag 0 0 0 2 0\n0\n1\no0 x\no1 z\n' "output 1: $no" --by-name
    no_miter 'no such name, of a bad state more' "$first" 'aag 0 0 0 0 0 2\n0\n1\nb0 x\nb1 z\n' \
        "bad state 1: $no" --by-name
    no_miter 'a name of a bad state more, twice' "$first" 'aag 0 0 0 0 0 2\n0\n1\nb0 y\nb1 y\n' \
        'bad state 1: name given twice' --by-name
}

# Of the second circuit the first of these is told: justice or fairness, counts of inputs, of outputs and bad states,
# that both are too large. By name the counts and the names come first.
rows_incomparable() {
    local liveness='justice or fairness cannot be compared'
    local inputs='not as many inputs' outputs='not as many outputs and bad states'
    local justice='aag 0 0 0 0 0 0 0 1\n0\n' fairness='aag 0 0 0 0 0 0 0 0 1\n1\n' empty='aag 0 0 0 0 0\n'
    no_first 'a justice property of the first' 'aag 1 1 0 0 0 0 0 1\n2\n2\n2\n3\n' "$liveness"
    no_first 'a justice property of the first, without literals' "$justice" "$liveness"
    no_first 'a fairness constraint of the first' "$fairness" "$liveness"
    no_first 'justice and fairness of the first, in binary' 'aig 1 1 0 0 0 1 1 1 1\n2\n3\n1\n2\n3\n' "$liveness"
    no_first 'a fairness constraint of the first, by name' "$fairness" "$liveness" --by-name
    no_first 'a justice property, and no names' 'aag 1 1 0 0 0 0 0 1\n2\n0\n' "$liveness" --by-name
    no_miter 'a justice property of the second' "$empty" "$justice" "$liveness"
    no_miter 'a fairness constraint of the second' "$empty" "$fairness" "$liveness"
    no_miter 'justice and fairness of the second, in binary' 'aag 1 1 0 0 0 1\n2\n2\n' \
        'aig 1 1 0 0 0 1 1 1 1\n2\n3\n1\n2\n3\n' "$liveness"
    no_miter 'a fairness constraint of the second, by name' "$empty" "$fairness" "$liveness" --by-name
    no_miter 'fewer inputs' "$inverter" 'aag 0 0 0 1 0\n0\n' "$inputs"
    no_miter 'more inputs' "$inverter" 'aag 2 2 0 1 0\n2\n4\n3\n' "$inputs"
    no_miter 'more inputs, by name' 'aag 1 1 0 0 0\n2\ni0 a\n' 'aag 2 2 0 0 0\n2\n4\n' "$inputs" --by-name
    no_miter 'fewer outputs' "$inverter" 'aag 1 1 0 0 0\n2\n' "$outputs"
    no_miter 'more outputs' "$inverter" 'aag 1 1 0 2 0\n2\n3\n3\n' "$outputs"
    no_miter 'a bad state more beside an output' "$inverter" 'aag 1 1 0 1 0 1\n2\n3\n3\n' "$outputs"
    no_miter 'fewer bad states' 'aag 1 1 0 1 0 1\n2\n3\n3\n' "$inverter" "$outputs"
    no_miter 'a constraint in the place of an output' "$inverter" 'aag 1 1 0 0 0 0 1\n2\n3\n' "$outputs"
    no_miter 'more outputs, by name' "${inverter}i0 a\no0 b\n" 'aag 1 1 0 2 0\n2\n3\n3\n' "$outputs" --by-name
    no_miter 'justice, and more inputs' "$inverter" 'aag 2 2 0 1 0 0 0 1\n2\n4\n3\n0\n' "$liveness"
    no_miter 'justice, and more outputs' "$inverter" 'aag 1 1 0 2 0 0 0 1\n2\n3\n3\n0\n' "$liveness"
    no_miter 'more inputs, and no outputs' "$inverter" 'aag 2 2 0 0 0\n2\n4\n' "$inputs"
    no_miter 'more inputs, and no outputs, by name' "${inverter}i0 a\no0 b\n" 'aag 2 2 0 0 0\n2\n4\n' \
        "$inputs" --by-name
    no_miter 'more inputs and justice, by name' 'aag 0 0 0 0 0\n' 'aag 1 1 0 0 0 0 0 1\n2\n0\n' "$inputs" --by-name
    no_miter 'more outputs, and no names' 'aag 1 1 0 0 0\n2\ni0 a\n' 'aag 1 1 0 1 0\n2\n2\n' "$outputs" --by-name
    no_miter 'no name of an output, and no such name of an input' "${inverter}i0 a\no0 b\n" "${inverter}i0 x\n" \
        'output 0: no name' --by-name
    no_miter 'no such name, and fairness' 'aag 1 1 0 0 0\n2\ni0 a\n' 'aag 1 1 0 0 0 0 0 0 1\n2\n0\ni0 b\n' \
        'input 0: no such name in the other file' --by-name
}

# as many variables as there may be, and one more; gates and latches for what is compared count too
rows_too_large_to_compare() {
    local large='too large to compare' empty='aag 0 0 0 0 0\n' all='aag 2147483647 0 0 0 0\n'
    local last='aag 1 0 1 0 0\n2 2 2\n'
    no_miter 'two circuits of the most variables' "$all" "$all" "$large"
    miters 'the most variables, and none' "$all" "$empty" "$all"
    miters 'no variables, and the most' "$empty" "$all" "$all"
    miters_to_binary 'the most variables, and none, to binary' "$all" "$empty" 'aig 0 0 0 0 0\n'
    no_miter 'one variable too many for both' "$all" 'aag 1 0 0 0 0\n' "$large"
    no_miter 'one variable too many for both, by name' "$all" 'aag 1 0 0 0 0\n' "$large" --by-name
    miters 'the largest gates' 'aag 2147483643 0 0 1 0\n0\n' 'aag 1 0 0 1 0\n0\n' \
        'aag 2147483647 0 0 0 3 1\n4294967294\n4294967290 0 0\n4294967292 1 1\n4294967294 4294967293 4294967291\n'
    no_miter 'a gate too many' 'aag 2147483644 0 0 1 0\n0\n' 'aag 1 0 0 1 0\n0\n' "$large"
    miters 'the largest constraint of a pair' 'aag 2147483641 0 1 0 0\n2 2 2\n' "$last" \
        "aag 2147483647 0 3 0 4 0 1\n2 2 2\n4294967284 4294967284 4294967284\n4294967286 1\n4294967295\n$(
        )4294967288 4294967284 2\n4294967290 4294967285 3\n$(
        )4294967292 4294967291 4294967289\n4294967294 4294967292 4294967287\n"
    no_miter 'a pair too many' 'aag 2147483642 0 1 0 0\n2 2 2\n' "$last" "$large"
    no_miter 'more inputs, and too large' "$all" 'aag 1 1 0 0 0\n2\n' 'not as many inputs'
    no_miter 'more outputs, and too large' "$all" 'aag 1 0 0 1 0\n0\n' 'not as many outputs and bad states'
    no_miter 'justice, and too large to compare' "$all" 'aag 1 0 0 0 0 0 0 1\n0\n' \
        'justice or fairness cannot be compared'
}

# errors of the first circuit come first, those of the second are told by its own name, and a limit is one on each
rows_compared_sources() {
    local first second live='aag 0 0 0 0 0 0 0 0 1\n1\n' toggle='aag 1 0 1 2 0\n2 3\n2\n3\n'
    no_first 'an empty first file' '' 'line 1: not an AIGER file'
    no_first 'a first file that ends too early' 'aag 2 1 0 1 1\n2\n4\n' 'line 4: file ends too early'
    no_first 'a cycle in the first file' 'aag 3 1 0 0 2\n2\n4 6 2\n6 4 2\n' 'gate 4 depends on a cycle'
    no_first 'a symbol given twice in the first file' 'aag 1 1 0 0 0\n2\ni0 a\ni0 b\n' \
        'line 4: symbol given twice' --by-name
    no_first 'a bad line behind justice in the first file' 'aag 0 0 0 0 0 0 0 1 1\n0\nx\n' 'line 3: bad line'
    no_first 'a limit that the first does not keep' "$inverter" 'line 1: number above the limit' --max-var 0
    no_miter 'an empty second file' "$inverter" '' 'line 1: not an AIGER file'
    no_miter 'a second file that ends too early' "$inverter" 'aag 1 1 0 1 0\n2\n' 'line 3: file ends too early'
    no_miter 'a bad delta in the second file' "$inverter" 'aig 1 0 0 0 1\n\x03\x00' 'gate 1: bad delta'
    no_miter 'a cycle in the second file' "$inverter" 'aag 3 1 0 0 2\n2\n4 6 2\n6 4 2\n' 'gate 4 depends on a cycle'
    no_miter 'an undefined literal, and more inputs' "$inverter" 'aag 3 2 0 1 0\n2\n4\n6\n' 'literal 6 not defined'
    no_miter 'a second file by name that ends too early' "${inverter}i0 a\no0 b\n" 'aag 1 1 0 1 0\n2\n' \
        'line 3: file ends too early' --by-name
    no_miter 'a limit that the second does not keep' "$inverter" 'aag 2 1 0 1 0\n4\n5\n' \
        'line 1: number above the limit' --max-var 1
    miters 'a limit that both keep and their miter does not' "$inverter" "$inverter" "$inverters" --max-var 1
    model "$inverter"
    first=$model
    row 'the first circuit by standard input' 'aag 1 1 0 1 0\n2\n2\n' \
        'aag 5 1 0 0 4 1\n2\n10\n4 2 1\n6 5 2\n8 4 3\n10 9 7\n' '' 0 aigmiter --ascii - "$first"
    row 'a circuit compared with itself' x "$inverters" '' 0 aigmiter --ascii "$first" "$first"
    row 'a circuit compared with itself, to -' x "$inverters_binary" '' 0 aigmiter "$first" "$first" -
    row 'circuits by a name and by -, behind --' "$inverter" "$inverters_binary" '' 0 aigmiter -- "$first" - -
    row 'a miter to a file with a name' "$inverter" '' '' 0 aigmiter "$first" - "$work/miter.aag"
    model "$live"
    second=$model
    row 'a refused second circuit by its name' "$inverter" '' \
        "aiger: $second: justice or fairness cannot be compared\n" 1 aigmiter - "$second"
    row 'a refused first circuit by its name' "$live" '' \
        "aiger: $second: justice or fairness cannot be compared\n" 1 aigmiter "$second" - "$work/miter.aig"
    model "$toggle"
    row 'a second circuit with other inputs, by its name' "$inverter" '' "aiger: $model: not as many inputs\n" 1 \
        aigmiter - "$model"
    row 'two circuits with other inputs, by their names' x '' "aiger: $model: not as many inputs\n" 1 \
        aigmiter "$first" "$model" "$work/miter.aig"
    row 'a first circuit without names, by its name' "$toggle" '' "aiger: $model: output 0: no name\n" 1 \
        aigmiter --by-name "$model" -
    row 'a second circuit without names, by its name' "${toggle}o0 a\no1 b\n" '' \
        "aiger: $model: output 0: no name\n" 1 aigmiter --by-name - "$model"
}

rows_miter_words() {
    local all='\n\nUsage: aiger aigmiter [OPTIONS] <first> <second> [destination]'
    local few='\n\nUsage: aiger aigmiter <first> <second> [destination]'
    local needed='the following required arguments were not provided:' both='both circuits are standard input'
    local sync='--sync needs the name of a destination' gz='compressed output is not supported: use aiger COMMAND .. - | gzip > FILE.gz'
    misused 'no circuits' "$needed\n  <first>\n  <second>$few" aigmiter
    misused 'one circuit' "$needed\n  <second>$few" aigmiter none/x
    misused 'one circuit, by name' \
        "$needed\n  <second>\n\nUsage: aiger aigmiter --by-name <first> <second> [destination]" aigmiter --by-name -
    misused 'a name too many to compare' "unexpected argument 'z' found$all" aigmiter w x y z
    misused 'pairs by name twice' "the argument '--by-name' cannot be used multiple times$all" \
        aigmiter --by-name x --by-name y
    misused 'a part of the option of comparisons' "unexpected argument '--by-nam' found$(
        )\n\n  tip: a similar argument exists: '--by-name'$(
        )\n\nUsage: aiger aigmiter --by-name <first> <second> [destination]" aigmiter --by-nam x y
    misused 'an option of conversions, to compare' \
        "unexpected argument '--strip' found\n\n  tip: to pass '--strip' as a value, use '-- --strip'$all" \
        aigmiter --strip x y
    misused 'ASCII by another letter, to compare' \
        "unexpected argument '-a' found\n\n  tip: to pass '-a' as a value, use '-- -a'$all" aigmiter -a x y
    misused 'the option of comparisons for a conversion' "unexpected argument '--by-name' found$(
        )\n\n  tip: to pass '--by-name' as a value, use '-- --by-name'$(
        )\n\nUsage: aiger aigtoaig [OPTIONS] [source] [destination]" aigtoaig --by-name
    misused 'a limit of comparisons above the largest' \
        "invalid value '2147483648' for '--max-var <N>': 2147483648 is not in 0..=2147483647" \
        aigmiter --max-var 2147483648 x y
    unwanted 'both circuits by standard input' "$both" aigmiter - -
    unwanted 'both circuits by standard input, behind --' "$both" aigmiter --by-name --ascii -- - -
    unwanted 'both circuits by standard input, and a compressed miter' "$both" aigmiter - - x.gz
    unwanted 'both circuits by standard input, and no disk' "$both" aigmiter - - --sync
    unwanted 'a compressed miter' "$gz" aigmiter none/x none/y z.aig.gz
    unwanted 'a compressed miter on a disk' "$gz" aigmiter --sync none/x none/y z.gz
    unwanted 'no miter on a disk' "$sync" aigmiter none/x none/y --sync
    unwanted 'standard output for a miter on a disk' "$sync" aigmiter --sync none/x none/y -
    missing 'a first circuit that is not there' none/x aigmiter none/x -
    missing 'a second circuit that is not there' none/x aigmiter - none/x
    missing 'two circuits that are not there' none/x aigmiter none/x none/y none/z
    row 'a first circuit that is refused before a second that is not there' 'aag 0 0 0 0 0 0 0 0 1\n1\n' '' \
        'aiger: -: justice or fairness cannot be compared\n' 1 aigmiter - none/x
    row 'the version where circuits are wanted' '' 'aiger 1.7.0\n' '' 0 aigmiter --version
}

# What is written tells where the two differ.
rows_miter_traces() {
    model "$inverters"
    with_properties 'two inverters side by side' '0\n1\nx\n' ' 0   0 \n 1   0 \n x   x \n.\n'
    model 'aag 5 1 0 0 4 1\n2\n10\n4 2 1\n6 5 2\n8 4 3\n10 9 7\n'
    with_properties 'an input and an inverter side by side' '0\n1\nx\n' ' 0   1 \n 1   1 \n x   x \n.\n'
    model 'aag 2 1 0 0 1 2 1\n2\n4\n0\n2\n4 2 1\n'
    with_properties 'constraints side by side' '0\n1\nx\n' ' 0   00 0\n 1   10 1\n x   x0 x\n.\n'
    model 'aag 10 0 3 0 7 1 1\n2 3 2\n4 5 4\n12 1\n10\n21\n6 4 2\n8 5 3\n10 9 7\n14 4 2\n16 5 3\n18 17 15\n20 18 13\n'
    with_properties 'two toggles without initial values side by side' '\n\n' 'xx0   xx1 x x\nxx1   xx1 x 1\n.\n'
    row 'toggles that start unlike' '1\nb0\n010\n\n\n.\n' 'not confirmed\n' '' 1 aigsim --witness "$model"
    model 'aag 10 0 3 0 7 1 1\n2 3 2\n4 5 4\n12 1\n10\n21\n6 5 2\n8 4 3\n10 9 7\n14 4 2\n16 5 3\n18 17 15\n20 18 13\n'
    row 'toggles that start alike, of which one is negated' '1\nb0\n110\n\n\n.\n' 'confirmed 0\n' '' 0 \
        aigsim --witness "$model"
}
