# The rows of --simplify, for the table of all.sh. What is wanted was worked out by hand from docs/FORMAT.md, "Simplified
# circuit".

# simple NAME SOURCE TEXT WORD..: the simplified circuit, in ASCII; simple_binary: in binary
simple() { row "$1" "$2" "$3" '' 0 aigtoaig --simplify --ascii "${@:4}"; }
simple_binary() { row "$1" "$2" "$3" '' 0 aigtoaig --simplify "${@:4}"; }
# stays NAME TEXT: a circuit that is simple already
stays() { simple "$1" "$2" "$2"; }
# goes_through OPERANDS LITERAL NEGATION: a gate over two inputs goes, and outputs that are it and its negation are these literals
goes_through() { simple "a gate over $1" "aag 3 2 0 2 1\n2\n4\n6\n7\n6 $1\n" "aag 2 2 0 2 0\n2\n4\n$2\n$3\n"; }
# needs_gate OPERANDS ORDERED: a gate over two inputs stays
needs_gate() { simple "a gate over $1, which stays" "aag 3 2 0 2 1\n2\n4\n6\n7\n6 $1\n" "aag 3 2 0 2 1\n2\n4\n6\n7\n6 $2\n"; }
# become_one OPERANDS OPERANDS ORDERED: of two gates over two inputs there is one
become_one() { simple "gates over $1 and $2" "aag 4 2 0 2 2\n2\n4\n6\n9\n6 $1\n8 $2\n" "aag 3 2 0 2 1\n2\n4\n6\n7\n6 $3\n"; }
# stay_two OPERANDS OPERANDS: both are there
stay_two() { stays "gates over $1 and $2, which stay" "aag 4 2 0 2 2\n2\n4\n6\n9\n6 $1\n8 $2\n"; }

rows_simplified() {
    rows_folded_gates
    rows_equal_gates
    rows_folded_chains
    rows_unused_gates
    rows_needed_gates
    rows_not_folded
    rows_kept_beside_gates
    rows_simple_images
    rows_simplified_with_options
    rows_simplified_sources
    rows_simplified_unrolled
    rows_simplified_clauses
    rows_no_simplified_clauses
    rows_simplified_answers
    rows_simplified_refutations
    rows_simplified_invariants
    rows_simplified_miters
    rows_simplify_words
}

# what a gate is, by its operands alone
rows_folded_gates() {
    local operands
    for operands in '2 0' '0 2' '3 0' '0 3' '0 0' '0 1' '1 0'; do goes_through "$operands" 0 1; done
    goes_through '1 1' 1 0
    for operands in '2 1' '1 2' '2 2'; do goes_through "$operands" 2 3; done
    for operands in '3 1' '1 3' '3 3'; do goes_through "$operands" 3 2; done
    goes_through '5 5' 5 4
    for operands in '4 2' '5 2' '4 3' '5 3'; do
        needs_gate "$operands" "$operands"
        needs_gate "${operands#* } ${operands% *}" "$operands"
    done
    # it is x where the input is
    needs_gate '3 2' '3 2'
    needs_gate '2 3' '3 2'
    needs_gate '4 5' '5 4'
}

# gates with the same operands: the first of them stays
rows_equal_gates() {
    become_one '4 2' '4 2' '4 2'
    become_one '2 4' '4 2' '4 2'
    become_one '5 2' '2 5' '5 2'
    become_one '3 5' '5 3' '5 3'
    become_one '2 3' '3 2' '3 2'
    stay_two '4 2' '5 2'
    stay_two '4 2' '4 3'
    stay_two '5 3' '4 2'
    stay_two '3 2' '5 4'
    simple 'three equal gates' 'aag 5 2 0 3 3\n2\n4\n10\n9\n6\n6 2 4\n8 4 2\n10 2 4\n' 'aag 3 2 0 3 1\n2\n4\n6\n7\n6\n6 4 2\n'
    simple 'the first of equal gates in the order of the image' 'aag 5 2 0 3 3\n2\n4\n6\n8\n10\n8 6 3\n6 2 4\n10 4 2\n' \
        'aag 4 2 0 3 2\n2\n4\n6\n8\n6\n6 4 2\n8 6 3\n'
}

# what is known of one gate makes others known
rows_folded_chains() {
    simple 'gates that are equal once those below are' 'aag 6 2 0 2 4\n2\n4\n10\n13\n6 2 4\n8 4 2\n10 6 2\n12 8 2\n' \
        'aag 4 2 0 2 2\n2\n4\n8\n9\n6 4 2\n8 6 2\n'
    simple 'gates that are equal once 1 has gone through' 'aag 5 2 0 2 3\n2\n4\n8\n10\n6 2 1\n8 6 4\n10 2 4\n' \
        'aag 3 2 0 2 1\n2\n4\n6\n6\n6 4 2\n'
    simple 'equal operands once those below are equal' 'aag 5 2 0 1 3\n2\n4\n10\n6 5 2\n8 2 5\n10 9 7\n' \
        'aag 3 2 0 1 1\n2\n4\n7\n6 5 2\n'
    simple '0 goes through three gates' 'aag 4 1 0 3 3\n2\n4\n6\n9\n4 2 0\n6 5 2\n8 6 4\n' 'aag 1 1 0 3 0\n2\n0\n2\n1\n'
    simple '1 goes through four gates, and negations' 'aag 6 1 0 2 5\n2\n10\n12\n4 2 1\n6 1 4\n8 7 1\n10 9 9\n12 10 3\n' \
        'aag 2 1 0 2 1\n2\n2\n4\n4 3 2\n'
    simple 'a gate and its negation once those below are equal' 'aag 5 2 0 1 3\n2\n4\n10\n6 4 2\n8 2 4\n10 9 6\n' \
        'aag 4 2 0 1 2\n2\n4\n8\n6 4 2\n8 7 6\n'
    simple 'operands in another order once they are folded' 'aag 5 3 0 1 2\n2\n4\n6\n10\n8 6 6\n10 8 4\n' \
        'aag 4 3 0 1 1\n2\n4\n6\n8\n8 6 4\n'
}

# gates that nothing shown needs
rows_unused_gates() {
    simple 'a gate that nothing uses' 'aag 3 2 0 1 1\n2\n4\n5\n6 4 2\n' 'aag 2 2 0 1 0\n2\n4\n5\n'
    simple 'two gates that nothing uses' 'aag 4 2 0 0 2\n2\n4\n6 4 2\n8 7 2\n' 'aag 2 2 0 0 0\n2\n4\n'
    simple 'a gate behind one that nothing uses' 'aag 5 2 0 1 3\n2\n4\n10\n6 4 2\n8 7 2\n10 5 3\n' 'aag 3 2 0 1 1\n2\n4\n6\n6 5 3\n'
    simple 'a gate between two that are used' 'aag 5 2 0 1 3\n2\n4\n11\n6 4 2\n8 5 2\n10 7 3\n' 'aag 4 2 0 1 2\n2\n4\n9\n6 4 2\n8 7 3\n'
    simple 'a gate that only a folded one uses' 'aag 4 2 0 1 2\n2\n4\n9\n6 4 2\n8 6 0\n' 'aag 2 2 0 1 0\n2\n4\n1\n'
    simple 'gates that only a second one of equals uses' 'aag 6 2 0 1 4\n2\n4\n13\n6 4 2\n8 6 3\n10 8 8\n12 3 6\n' \
        'aag 4 2 0 1 2\n2\n4\n9\n6 4 2\n8 6 3\n'
}

# gates that each of these needs, alone
rows_needed_gates() {
    local gates='6 4 2\n8 7 3\n'
    stays 'the gates of an output' "aag 4 2 0 1 2\n2\n4\n9\n$gates"
    stays 'the gates of a next state' "aag 4 1 1 0 2\n2\n4 9 1\n$gates"
    stays 'the gates of a bad state' "aag 4 2 0 0 2 1\n2\n4\n8\n$gates"
    stays 'the gates of a constraint' "aag 4 2 0 0 2 0 1\n2\n4\n9\n$gates"
    stays 'the gates of a justice property' "aag 4 2 0 0 2 0 0 2\n2\n4\n0\n1\n8\n$gates"
    stays 'the gates of a fairness constraint' "aag 4 2 0 0 2 0 0 0 1\n2\n4\n9\n$gates"
    stays 'a gate of each' 'aag 8 1 1 1 6 1 1 1 1\n2\n4 6 4\n8\n10\n12\n1\n14\n16\n6 4 2\n8 5 2\n10 4 3\n12 5 3\n14 3 2\n16 5 4\n'
}

# what is the same only in some runs, or in each but those with x
rows_not_folded() {
    stays 'an input and its negation' 'aag 2 1 0 1 1\n2\n4\n4 3 2\n'
    stays 'an input that a constraint wants to be 1' 'aag 3 2 0 1 1 0 1\n2\n4\n6\n2\n6 4 2\n'
    stays 'a latch that stays 0' 'aag 3 1 1 1 1\n2\n4 4\n6\n6 4 2\n'
    stays 'a latch that is 1 at first and for ever' 'aag 3 1 1 1 1\n2\n4 1 1\n6\n6 4 2\n'
    stays 'a latch that is 0 from then on' 'aag 3 1 1 1 1\n2\n4 0 4\n6\n6 4 2\n'
    stays 'two latches that are alike' 'aag 4 1 2 1 1\n2\n4 2\n6 2\n8\n8 6 5\n'
    stays 'a gate that is 0 by two others' 'aag 5 2 0 1 3\n2\n4\n10\n6 4 2\n8 5 2\n10 8 6\n'
    stays 'a gate within a gate' 'aag 4 2 0 1 2\n2\n4\n8\n6 4 2\n8 6 2\n'
}

# all but gates
rows_kept_beside_gates() {
    stays 'the empty circuit, which is simple' 'aag 0 0 0 0 0\n'
    simple 'variables that nothing defines, which go' 'aag 9 0 0 0 0\n' 'aag 0 0 0 0 0\n'
    stays 'inputs and latches that nothing uses' 'aag 4 2 2 0 0\n2\n4\n6 6\n8 8 8\n'
    stays 'literals given twice' 'aag 1 1 0 2 0 2 2 1 2\n2\n3\n3\n2\n2\n0\n0\n2\n1\n1\n2\n2\n'
    simple 'names of each kind, and a comment' \
        'aag 6 1 1 1 3 1 1 1 1\n2\n4 8 4\n12\n9\n8\n1\n8\n12\n8 4 1\n10 4 2\n12 8 2\nf0 f\nj0 j\nc0 c\nb0 b\no0 o\nl0 l\ni0 i\nc\nx' \
        'aag 3 1 1 1 1 1 1 1 1\n2\n4 4 4\n6\n5\n4\n1\n4\n6\n6 4 2\nf0 f\nj0 j\nc0 c\nb0 b\no0 o\nl0 l\ni0 i\nc\nx'
    simple 'an empty comment, which stays' 'aag 2 1 0 1 1\n2\n5\n4 2 2\no0 \nc\n' 'aag 1 1 0 1 0\n2\n3\no0 \nc\n'
    simple 'justice properties of each size' 'aag 4 1 0 0 3 0 0 3 1\n2\n0\n2\n1\n4\n7\n9\n6\n4 2 1\n6 4 3\n8 4 4\n' \
        'aag 2 1 0 0 1 0 0 3 1\n2\n0\n2\n1\n2\n5\n3\n4\n4 3 2\n'
    simple 'latches of each reset' 'aag 5 0 3 0 2\n2 8 1\n4 9 4\n6 11\n8 4 1\n10 8 4\n' 'aag 3 0 3 0 0\n2 4 1\n4 5 4\n6 5\n'
    simple_binary 'latches of each reset, to binary' 'aag 5 0 3 0 2\n2 8 1\n4 9 4\n6 11\n8 4 1\n10 8 4\n' \
        'aig 3 0 3 0 0\n4 1\n5 4\n5\n'
}

# what is simple comes as its binary image
rows_simple_images() {
    local half='aag 5 2 0 2 3\n2\n4\n10\n6\n6 4 2\n8 5 3\n10 9 7\ni0 x\ni1 y\no0 s\no1 c\nc\nhalf adder\n'
    local half_binary='aig 5 2 0 2 3\n10\n6\n\x02\x02\x03\x02\x01\x02i0 x\ni1 y\no0 s\no1 c\nc\nhalf adder\n'
    local half_source='aag 7 2 0 2 3\n2\n4\n6\n12\n6 13 15\n12 2 4\n14 3 5\ni0 x\ni1 y\no0 s\no1 c\nc\nhalf adder\n'
    simple 'a half adder, in binary order' "$half_source" "$half"
    simple_binary 'a half adder that is simple' "$half_source" "$half_binary"
    simple_binary 'a half adder in binary, which comes back' "$half_binary" "$half_binary"
    simple 'gates of a simple circuit in any order' 'aag 9 2 0 1 3\n4\n2\n6\n6 10 2\n8 2 5\n10 4 8\n' \
        'aag 5 2 0 1 3\n2\n4\n10\n6 4 3\n8 6 2\n10 8 4\n'
    simple 'the largest variable of a simple circuit' 'aag 2147483647 1 0 1 1\n4294967292\n4294967295\n4294967294 4294967293 4294967292\n' \
        'aag 2 1 0 1 1\n2\n5\n4 3 2\n'
    simple_binary 'deltas of a simple circuit' 'aag 4 1 0 1 3\n2\n8\n4 2 2\n6 2 3\n8 4 7\n' 'aig 3 1 0 1 2\n6\n\x01\x01\x01\x03'
}

rows_simplified_with_options() {
    local named='aag 3 1 0 1 2\n2\n6\n4 2 1\n6 4 3\ni0 a\no0 o\nc\nx'
    row 'simplified, without names and comment' "$named" 'aag 2 1 0 1 1\n2\n4\n4 3 2\n' '' 0 aigtoaig --ascii --strip --simplify
    row 'simplified, outputs as bad states' "$named" 'aag 2 1 0 0 1 1\n2\n4\n4 3 2\ni0 a\nb0 o\nc\nx' '' 0 \
        aigtoaig --simplify --outputs-as-bad --ascii
    row 'simplified, outputs as bad states, to binary' "$named" 'aig 2 1 0 0 1 1\n4\n\x01\x01i0 a\nb0 o\nc\nx' '' 0 \
        aigtoaig --outputs-as-bad --simplify
    row 'no simplified circuit of outputs beside bad states' 'aag 0 0 0 1 0 1\n0\n0\n' '' 'aiger: -: bad states are there already\n' 1 \
        aigtoaig --simplify --outputs-as-bad
    row 'a justice property as a bad state, simplified' 'aag 0 0 0 0 0 0 0 1\n0\n' 'aag 3 1 1 0 1 1\n2\n4 7\n4\n6 5 3\n' '' 0 \
        aigtoaig --simplify --ascii --justice-as-bad 0
    row 'no simplified circuit of no justice property' 'aag 0 0 0 0 0\n' '' 'aiger: -: no justice property 3\n' 1 \
        aigtoaig --simplify --justice-as-bad 3
    row 'undone by its map, and simplified' 'aig 3 1 0 1 2\n6\n\x02\x01\x02\x01c\naigmap 1 9 1 0 2 1\n9\n7 0 1\n3 1 0\naigmap end\nx' \
        'aag 2 1 0 1 1\n2\n4\n4 3 2\nc\nx' '' 0 aigtoaig --simplify --undo-map --ascii
    row 'no map to simplify behind' "$named" '' 'aiger: -: no map\n' 1 aigtoaig --simplify --undo-map
    row 'a block of a map as a comment of a simplified circuit' 'aig 2 1 0 1 1\n4\n\x01\x01c\naigmap 1 2 1 0 1 0\n1\n2 0 1\naigmap end\n' \
        'aig 2 1 0 1 1\n4\n\x01\x01c\naigmap 1 2 1 0 1 0\n1\n2 0 1\naigmap end\n' '' 0 aigtoaig --simplify
    row 'the limit is one on the source of a simplified circuit' 'aag 9 0 0 0 0\n' '' 'aiger: -: line 1: number above the limit\n' 1 \
        aigtoaig --simplify --max-var 8
}

rows_simplified_sources() {
    no_simple() { row "$1" "$2" '' "aiger: -: $3\n" 1 aigtoaig --simplify "${@:4}"; }
    no_simple 'an empty file to simplify' '' 'line 1: not an AIGER file'
    no_simple 'a file to simplify that ends too early' 'aag 2 1 0 1 1\n2\n4\n' 'line 4: file ends too early' --ascii
    no_simple 'a cycle to simplify' 'aag 3 1 0 0 2\n2\n4 6 2\n6 4 2\n' 'gate 4 depends on a cycle'
    no_simple 'a cycle to simplify to ASCII, which nothing needs' 'aag 3 1 0 0 2\n2\n4 6 0\n6 4 0\n' 'gate 4 depends on a cycle' --ascii
    no_simple 'a literal that is not defined, times 0' 'aag 3 1 0 1 1\n2\n4\n4 6 0\n' 'literal 6 not defined'
    no_simple 'a bad symbol line behind what is to be simplified' 'aag 1 1 0 0 0\n2\nx\n' 'line 3: bad symbol line'
    missing 'a file to simplify that is not there' none/x aigtoaig --simplify none/x
}

# unrolls_simply NAME FRAMES SOURCE TEXT: as ASCII
unrolls_simply() { row "$1" "$3" "$4" '' 0 aigunroll --simplify --frames "$2" --ascii; }

# resets and constants go through all frames; outputs stay
rows_simplified_unrolled() {
    local taken='aag 3 1 1 1 1\n2\n4 6\n6\n6 2 5\n' sections='aag 4 1 2 1 1 2 2\n2\n4 3 1\n6 4 6\n8\n6\n7\n9\n2\n8 6 3\ni0 a\nb1 b\nc0 c\nc\nx\n'
    unrolls_simply 'a reset goes through a frame' 1 "$taken" 'aag 1 1 0 1 0\n2\n2\n'
    unrolls_simply 'a reset goes through two frames' 2 "$taken" 'aag 3 2 0 2 1\n2\n4\n2\n6\n6 4 3\n'
    unrolls_simply 'a reset goes through three frames' 3 "$taken" 'aag 5 3 0 3 2\n2\n4\n6\n2\n8\n10\n8 4 3\n10 9 6\n'
    row 'a reset goes through two frames, to binary' "$taken" 'aig 3 2 0 2 1\n2\n6\n\x02\x01' '' 0 aigunroll --frames 2 --simplify
    unrolls_simply 'a reset goes through, from binary' 2 'aig 3 1 1 1 1\n6\n6\n\x01\x03' 'aag 3 2 0 2 1\n2\n4\n2\n6\n6 4 3\n'
    unrolls_simply 'a latch that stays 0, in each frame' 3 'aag 3 1 1 1 1\n2\n4 6\n6\n6 4 2\n' 'aag 3 3 0 3 0\n2\n4\n6\n0\n0\n0\n'
    unrolls_simply 'a latch that stays 1, in each frame' 2 'aag 3 1 1 1 1\n2\n4 4 1\n6\n6 5 3\n' 'aag 2 2 0 2 0\n2\n4\n0\n0\n'
    unrolls_simply 'a latch without initial value, in each frame' 2 'aag 3 1 1 1 1\n2\n4 4 4\n6\n6 4 2\n' \
        'aag 5 3 0 2 2\n2\n4\n6\n8\n10\n8 4 2\n10 6 2\n'
    unrolls_simply 'a gate over latches alone is there once' 3 'aag 3 0 2 1 1\n2 2 2\n4 4 4\n6\n6 4 2\n' \
        'aag 3 2 0 3 1\n2\n4\n6\n6\n6\n6 4 2\n'
    unrolls_simply 'a latch and its negation, without initial value' 2 'aag 2 0 1 1 1\n2 2 2\n4\n4 2 3\n' 'aag 2 1 0 2 1\n2\n4\n4\n4 3 2\n'
    unrolls_simply 'each section simplified' 2 "$sections" \
        'aag 9 3 0 2 6 4\n2\n4\n6\n8\n7\n12\n14\n18\n0\n8 5 2\n10 9 4\n12 10 2\n14 10 3\n16 10 6\n18 16 6\n'
    unrolls_simply 'a bad state without constraints needs no gate' 2 'aag 1 1 0 0 0 1\n2\n3\n' 'aag 2 2 0 0 0 2\n2\n4\n3\n5\n'
    unrolls_simply 'a constraint without bad states needs none' 2 'aag 1 1 0 1 0 0 1\n2\n2\n3\n' 'aag 2 2 0 2 0\n2\n4\n2\n4\n'
    unrolls_simply 'a constraint that is 0' 2 'aag 1 1 0 0 0 1 1\n2\n2\n0\n' 'aag 2 2 0 0 0 2\n2\n4\n0\n0\n'
    unrolls_simply 'a constraint that is 0 from the second frame on' 3 'aag 2 1 1 0 0 1 1\n2\n4 4 4\n2\n4\n' \
        'aag 7 4 0 0 3 3\n2\n4\n6\n8\n10\n12\n14\n10 4 2\n12 6 2\n14 8 2\n'
    unrolls_simply 'a circuit of nothing over the most frames, simplified' 1000000 'aag 0 0 0 0 0\n' 'aag 0 0 0 0 0\n'
    row 'no simplified frames of justice' 'aag 0 0 0 0 0 0 0 1\n0\n' '' 'aiger: -: justice or fairness cannot be unrolled\n' 1 \
        aigunroll --simplify --frames 1
    row 'too large to unroll and simplify' "aag 0 0 0 2148 0\n$(times 2148 '1\\n')" '' 'aiger: -: too large to unroll\n' 1 \
        aigunroll --simplify --frames 1000000
}

# simple_clauses NAME FRAMES SOURCE TEXT WORD..
simple_clauses() { clauses "$1" "$2" "$3" "$4" --simplify "${@:5}"; }

# what is left for bad states alone: they are written though they are constants, equal, or inputs
rows_simplified_clauses() {
    local chosen='aag 6 3 0 0 3 1\n2\n4\n6\n12\n8 4 2\n10 6 3\n12 11 9\n'
    local sections='aag 4 1 2 1 1 2 2\n2\n4 3 1\n6 4 6\n8\n6\n7\n9\n2\n8 6 3\n' shown='aag 4 2 0 1 2 1\n2\n4\n6\n8\n6 4 2\n8 5 2\n'
    simple_clauses 'simplified clauses of a toggle' 1 "$toggle" 'p cnf 1 2\n-1 0\n1 0\n'
    simple_clauses 'simplified clauses of a toggle, two frames' 2 "$toggle" 'p cnf 1 2\n-1 0\n1 -1 0\n'
    simple_clauses 'simplified clauses of a latch that stays 0' 2 "$never" 'p cnf 3 2\n-1 0\n1 1 0\n'
    simple_clauses 'simplified clauses of a latch without initial value' 1 "$free" 'p cnf 4 5\n-1 0\n-4 3 0\n-4 2 0\n4 -3 -2 0\n4 0\n'
    simple_clauses 'simplified clauses of a constraint' 1 "$held" 'p cnf 3 2\n-1 0\n3 0\n'
    simple_clauses 'simplified clauses of a constraint, two frames' 2 "$held" \
        'p cnf 7 8\n-1 0\n-6 5 0\n-6 3 0\n6 -5 -3 0\n-7 6 0\n-7 2 0\n7 -6 -2 0\n3 7 0\n'
    simple_clauses 'simplified clauses of two bad states' 1 "$two" 'p cnf 4 5\n-1 0\n-4 3 0\n-4 2 0\n4 -3 -2 0\n4 -4 0\n'
    simple_clauses 'simplified clauses of one of two bad states' 1 "$two" 'p cnf 4 5\n-1 0\n-4 3 0\n-4 2 0\n4 -3 -2 0\n-4 0\n' --bad 1
    simple_clauses 'simplified clauses of a bad state that is 1' 2 "$always" 'p cnf 1 2\n-1 0\n-1 -1 0\n'
    simple_clauses 'simplified clauses of a bad state that is 0' 1 'aag 0 0 0 0 0 1\n0\n' 'p cnf 1 2\n-1 0\n1 0\n'
    simple_clauses 'simplified clauses of a constraint that is 0' 1 'aag 1 1 0 0 0 1 1\n2\n2\n0\n' 'p cnf 2 2\n-1 0\n1 0\n'
    simple_clauses 'gates of outputs are not in simplified clauses' 1 "$shown" 'p cnf 4 5\n-1 0\n-4 -3 0\n-4 2 0\n4 3 -2 0\n4 0\n'
    simple_clauses 'gates of next states are not, behind the last frame' 1 'aag 4 2 1 0 1 1\n2\n4\n6 8\n2\n8 4 2\n' 'p cnf 3 2\n-1 0\n2 0\n'
    simple_clauses 'an input and its negation in simplified clauses' 1 'aag 2 1 0 0 1 1\n2\n4\n4 2 3\n' \
        'p cnf 3 5\n-1 0\n-3 -2 0\n-3 2 0\n3 2 -2 0\n3 0\n'
    simple_clauses 'a multiplexer in simplified clauses' 1 "$chosen" 'p cnf 7 6\n-1 0\n2 -4 -7 0\n2 4 7 0\n-2 -3 -7 0\n-2 3 7 0\n7 0\n'
    simple_clauses 'a multiplexer with a gate that is a bad state' 1 'aag 6 3 0 0 3 2\n2\n4\n6\n12\n8\n8 4 2\n10 6 3\n12 11 9\n' \
        'p cnf 7 11\n-1 0\n-5 3 0\n-5 2 0\n5 -3 -2 0\n-6 4 0\n-6 -2 0\n6 -4 2 0\n-7 -6 0\n-7 -5 0\n7 6 5 0\n7 5 0\n'
    simple_clauses 'simplified clauses of each section' 2 "$sections" \
        "p cnf 10 20\n-1 0\n-5 -3 0\n-5 2 0\n5 3 -2 0\n-6 -5 0\n-6 3 0\n6 5 -3 0\n-7 6 0\n-7 2 0\n7 -6 -2 0\n$(
        )-8 6 0\n-8 -2 0\n8 -6 2 0\n-9 6 0\n-9 4 0\n9 -6 -4 0\n-10 9 0\n-10 4 0\n10 -9 -4 0\n7 8 10 1 0\n"
    simple_clauses 'simplified clauses of a thousand frames' 1000 "$toggle" "p cnf 1 2\n-1 0\n$(times 500 '1 -1 ')0\n"
    simple_clauses 'simplified clauses of a justice property' 1 'aag 0 0 0 0 0 0 0 1\n0\n' 'p cnf 2 2\n-1 0\n1 0\n' --justice 0
    simple_clauses 'simplified clauses of a justice property, two frames' 2 'aag 0 0 0 0 0 0 0 1\n0\n' 'p cnf 3 2\n-1 0\n1 2 0\n' --justice 0
    simple_clauses 'the limit is one on the source of simplified clauses' 1 "$toggle" 'p cnf 1 2\n-1 0\n1 0\n' --max-var 1
}

# what is refused, is so as without the option
rows_no_simplified_clauses() {
    no_clauses 'no bad states, simplified' 2 "$unbad" 'no bad states' --simplify
    no_clauses 'a bad state that there is not, simplified' 2 "$toggle" 'no bad state 1' --simplify --bad 1
    no_clauses 'a justice property that there is not, simplified' 2 "$toggle" 'no justice property 0' --justice 0 --simplify
    no_clauses 'justice, and no bad states, simplified' 1 'aag 0 0 0 0 0 0 0 1\n0\n' 'justice or fairness cannot be unrolled' --simplify
    no_clauses 'simplified clauses of too many bad states' 1000000 "aag 0 0 0 0 0 2148\n$(times 2148 '1\\n')" 'too large to unroll' --simplify
    no_clauses 'simplified clauses of an empty source' 2 '' 'line 1: not an AIGER file' --simplify
}

# inputs keep their numbers, so an answer is read the same with the option and without
rows_simplified_answers() {
    local yes='s SATISFIABLE\nv' option
    for option in '' --simplify; do
        model "$held"
        answers "a simplified answer with a constraint, by '$option'" 2 "$yes -1 2 3 4 5 6 7 0\n" '1\nb0\n1\n11\n.\n' $option
        model 'aag 2 1 1 0 0 1\n2\n4 2\n4\n'
        answers "a simplified answer to the second frame, by '$option'" 3 "$yes -1 2 -3 -4 0\n" '1\nb0\n0\n1\n0\n.\n' $option
        model "$free"
        answers "a simplified answer without initial value, by '$option'" 1 "$yes -1 2 3 4 0\n" '1\nb0\n1\n1\n.\n' $option
        model "$toggle"
        answers "a simplified answer without inputs, by '$option'" 2 "$yes -1 0\n" '1\nb0\n0\n\n\n.\n' $option
        unreached "a simplified answer of fewer frames, by '$option'" 1 "$yes -1 0\n" $option
        model "$two"
        answers "a simplified answer for one of two bad states, by '$option'" 1 "$yes -1 2 -3 -4 0\n" '1\nb1\n\n10\n.\n' --bad 1 $option
        model "$takes"
        answers "a simplified answer for a justice property, by '$option'" 3 "$yes 2 4 5 0\n" '1\nj0\n0\n1\n1\n.\n' --justice 0 $option
    done
}

# an output whose gate is the first one: by it the gates have other numbers in the clauses of the whole, where 12 is the bad state
unequal='aag 10 2 0 1 8 1\n2\n4\n20\n18\n20 3 2\n6 5 3\n8 5 2\n10 4 3\n12 4 2\n14 9 7\n16 13 11\n18 16 14\n'

rows_simplified_refutations() {
    simply() { refutes "$1" "$2" "$3" --simplify "${@:4}"; }
    model "$four"
    simply 'a refutation of simplified clauses' 1 '3 0\n0\n'
    simply 'a binary refutation of simplified clauses' 1 'a\006\000a\000'
    simply 'a refutation of simplified clauses in LRAT' 1 '24 3 0 4 7 0\n25 0 24 10 13 0\n' --lrat
    simply 'a refutation of simplified clauses of one bad state' 1 '3 0\n' --bad 0
    simply 'a new variable beside simplified clauses' 1 '11 -2 -3 0\n-11 2 0\n-11 3 0\n3 0\n'
    simply 'a refutation of simplified clauses, two frames' 2 '-12 3 0\n-12 0\n5 0\n'
    unrefuted 'a refutation of all clauses for simplified ones' 2 '-13 3 0\n-13 0\n5 0\n' 'line 1: does not follow' --simplify
    unrefuted 'no refutation of simplified clauses' 1 '' 'no refutation' --simplify
    unrefuted 'a line that does not follow of simplified clauses' 1 '0\n' 'line 1: does not follow' --simplify
    model 'aag 6 2 0 0 4 1\n2\n4\n12\n6 4 2\n8 4 3\n10 9 7\n12 10 4\n'
    simply 'a refutation of a multiplexer' 1 '0\n'
    simply 'a refutation of a multiplexer in LRAT' 1 '10 0 9 6 7 2 4 0\n' --lrat
    model "$unequal"
    simply 'a refutation of simplified clauses, by its gates' 1 '8 0\n3 0\n0\n'
    refutes 'a refutation of all clauses, by its gates' 1 '12 0\n3 0\n0\n'
    unrefuted 'simplified clauses refuted, for all clauses' 1 '8 0\n3 0\n0\n' 'line 1: does not follow'
    unrefuted 'all clauses refuted, for simplified ones' 1 '12 0\n3 0\n0\n' 'line 1: bad line' --simplify
    simply 'what both have is refuted for both' 1 '3 0\n'
    model "$toggle"
    simply 'simplified clauses that need no refutation' 1 ''
    unrefuted 'simplified clauses that can be satisfied' 2 '' 'no refutation' --simplify
    model "$never"
    simply 'simplified clauses of a thousand frames need none' 1000 ''
    simply 'of a latch that stays 0, with what is none' 2 'x'
    model 'aag 1 1 0 0 0 2\n2\n2\n3\n'
    unrefuted 'simplified clauses of bad states that are inputs' 1 '2 0\n' 'line 1: does not follow' --simplify
    model 'aag 1 0 1 0 0 0 0 1\n2 0\n1\n2\n'
    simply 'a refutation of simplified clauses of justice' 1 '' --justice 0
}

rows_simplified_invariants() {
    simple_clauses_for() { clauses_for "$1" "$2" "$3" --simplify; }
    model "$tokens"
    simple_clauses_for 'simplified clauses of an invariant' '11 1\n' 'p cnf 5 8\n-1 0\n-4 3 0\n-4 2 0\n4 -3 -2 0\n-5 -4 0\n-5 4 0\n5 4 -4 0\n5 5 0\n'
    simple_clauses_for 'simplified clauses of an empty invariant' '' 'p cnf 4 5\n-1 0\n-4 3 0\n-4 2 0\n4 -3 -2 0\n4 0\n'
    proves 'an invariant by simplified clauses, and no refutation' '11 1\n' '' --simplify
    proves 'an invariant by simplified clauses and a refutation' '11 1\n' '-5 0\n' --simplify
    proves 'an invariant by simplified clauses and LRAT' '11 1\n' '9 -5 0 0\n' --simplify --lrat
    unproved 'an invariant by all clauses and a refutation of simplified ones' '11 1\n' '-5 0\n' 'line 1: does not follow'
    unproved 'an empty invariant by simplified clauses' '' '' 'no refutation' --simplify
    model "$kept_out"
    # 2 is the latch, 3 the input; the constraint wants 3 to be 0, and the row 2 to be: 4 is both
    simple_clauses_for 'simplified clauses of an invariant beside a constraint' '1 1\n' \
        'p cnf 6 11\n-1 0\n-4 -3 0\n-4 -2 0\n4 3 2 0\n-5 4 0\n-5 2 0\n5 -4 -2 0\n-6 4 0\n-6 3 0\n6 -4 -3 0\n5 6 0\n'
    proves 'an invariant beside a constraint, simplified' '1 1\n' '-5 0\n' --simplify
    row 'a row of another length, simplified' '-- 1\n' '' 'aiger: -: line 1: not a character for each latch\n' 1 \
        aigunroll --invariant - --cnf --simplify "$model"
}

rows_simplified_miters() {
    simple_miter() { miters "$1" "$2" "$3" "$4" --simplify "${@:5}"; }
    local both='aag 3 2 0 1 1\n2\n4\n6\n6 4 2\n' swapped='aag 9 2 0 1 1\n18\n4\n10\n10 18 4\n'
    simple_miter 'two inverters, simplified' "$inverter" "$inverter" 'aag 2 1 0 0 1 1\n2\n4\n4 3 2\n'
    miters_to_binary 'two inverters, simplified to binary' "$inverter" "$inverter" 'aig 2 1 0 0 1 1\n4\n\x01\x01' --simplify
    simple_miter 'an inverter and a wire, simplified' "$inverter" 'aag 1 1 0 1 0\n2\n2\n' 'aag 2 1 0 0 1 1\n2\n5\n4 3 2\n'
    simple_miter 'two circuits of nothing, simplified' 'aag 0 0 0 0 0\n' 'aag 3 0 0 0 0\n' 'aag 0 0 0 0 0\n'
    simple_miter 'constants, simplified' 'aag 0 0 0 2 0\n0\n1\n' 'aag 0 0 0 2 0\n1\n1\n' 'aag 0 0 0 0 0 2\n1\n0\n'
    simple_miter 'what is built alike is there once' "$both" "$both" 'aag 4 2 0 0 2 1\n2\n4\n8\n6 4 2\n8 7 6\n'
    simple_miter 'operands the other way round' "$both" "$swapped" 'aag 4 2 0 0 2 1\n2\n4\n8\n6 4 2\n8 7 6\n'
    simple_miter 'two outputs that are alike' 'aag 3 2 0 2 1\n2\n4\n6\n7\n6 4 2\n' 'aag 3 2 0 2 1\n2\n4\n6\n7\n6 2 4\n' \
        'aag 4 2 0 0 2 2\n2\n4\n8\n8\n6 4 2\n8 7 6\n'
    simple_miter 'gates that nothing compares' 'aag 3 2 0 1 1\n2\n4\n0\n6 4 2\n' 'aag 4 2 0 1 2\n2\n4\n8\n6 4 2\n8 6 0\n' \
        'aag 2 2 0 0 0 1\n2\n4\n0\n'
    simple_miter 'latches with other resets, which stay' 'aag 1 0 1 1 0\n2 3\n2\n' 'aag 1 0 1 1 0\n2 3 1\n3\n' \
        'aag 5 0 2 0 3 1\n2 3\n4 5 1\n10\n6 5 2\n8 4 3\n10 9 7\n'
    simple_miter 'two toggles without initial values, simplified' "$started" "$started" \
        'aag 7 0 3 0 4 1 1\n2 3 2\n4 5 4\n6 1\n12\n15\n8 4 2\n10 5 3\n12 11 9\n14 12 7\n'
    simple_miter 'constraints of both, simplified' 'aag 1 1 0 0 0 0 1\n2\n2\n' 'aag 1 1 0 0 0 0 2\n2\n3\n1\n' 'aag 1 1 0 0 0 2 1\n2\n2\n0\n2\n'
    simple_miter 'by names, simplified' 'aag 2 2 0 1 0\n2\n4\n5\ni0 a\ni1 b\no0 f\n' 'aag 2 2 0 1 0\n2\n4\n2\ni0 b\ni1 a\no0 f\n' \
        'aag 3 2 0 0 1 1\n2\n4\n7\n6 5 4\n' --by-name
    no_miter 'not as many inputs, simplified' "$inverter" 'aag 0 0 0 1 0\n0\n' 'not as many inputs' --simplify
    no_first 'a first circuit with justice, simplified' 'aag 0 0 0 0 0 0 0 1\n0\n' 'justice or fairness cannot be compared' --simplify
}

rows_simplify_words() {
    local sim='\n\nUsage: aiger aigsim [OPTIONS] <model> [stimulus]' every='\n\nUsage: aiger aigtoaig [OPTIONS] [source] [destination]'
    local twice="the argument '--simplify' cannot be used multiple times" map='--keep-map excludes --simplify'
    unwanted 'a map kept of a simplified circuit' "$map" aigtoaig --keep-map --simplify
    unwanted 'a map kept of a simplified circuit, the other way round' "$map" aigtoaig --simplify - x.aig --keep-map
    unwanted 'a map kept in ASCII, of a simplified circuit' '--keep-map needs binary output' aigtoaig --keep-map --simplify --ascii
    unwanted 'a map kept in a stripped and simplified circuit' '--keep-map excludes --strip' aigtoaig --keep-map --simplify --strip
    unwanted 'a map kept and undone, and simplified' '--keep-map excludes --undo-map' aigtoaig --simplify --keep-map --undo-map
    unwanted 'a map kept of simplified outputs' "$map" aigtoaig --keep-map --simplify --outputs-as-bad
    unwanted 'a map kept of a simplified justice property' "$map" aigtoaig --justice-as-bad 0 --keep-map --simplify
    unwanted 'a simplified circuit, compressed' 'compressed output is not supported: use aiger COMMAND .. - | gzip > FILE.gz' aigtoaig --simplify - x.aag.gz
    unwanted 'a map kept of a compressed and simplified circuit' "$map" aigtoaig --simplify --keep-map - x.gz
    unwanted 'a simplified circuit on a disk' '--sync needs the name of a destination' aigtoaig --simplify --sync
    unwanted 'no frames to simplify' '--frames or --invariant is needed' aigunroll --simplify
    unwanted 'simplified clauses in ASCII' '--cnf excludes --ascii' aigunroll --simplify --frames 1 --cnf --ascii
    unwanted 'simplified frames of an invariant' '--invariant needs --cnf or --refutation' aigunroll --simplify --invariant x
    unwanted 'a simplified bad state without clauses' '--bad needs --cnf, --answer or --refutation' aigunroll --simplify --frames 1 --bad 0
    unwanted 'a simplified miter, both by standard input' 'both circuits are standard input' aigmiter --simplify - -
    misused 'simplified twice' "$twice$every" aigtoaig --simplify --simplify
    misused 'unrolled and simplified twice' "$twice$unrolling_usage" aigunroll --simplify --frames 1 --simplify
    misused 'simplified in part' "unexpected argument '--simplif' found\n\n  tip: a similar argument exists: '--simplify'$(
        )\n\nUsage: aiger aigtoaig --simplify [source] [destination]" aigtoaig --simplif
    misused 'a value of simplified' "unexpected value 'yes' for '--simplify' found; no more were expected$(
        )\n\nUsage: aiger aigtoaig --simplify [source] [destination]" aigtoaig --simplify=yes
    misused 'a simulation that is simplified' \
        "unexpected argument '--simplify' found\n\n  tip: to pass '--simplify' as a value, use '-- --simplify'$sim" aigsim --simplify x
    missing 'a file with the name of the option' --simplify aigtoaig -- --simplify
}
