# The rows of aigunroll, for the table of all.sh. What is wanted was worked out by hand from docs/FORMAT.md, "Unrolled circuit".

# unrolls NAME FRAMES SOURCE TEXT: as ASCII; unrolls_to_binary: as binary
unrolls() { row "$1" "$3" "$4" '' 0 aigunroll --frames "$2" --ascii; }
unrolls_to_binary() { row "$1" "$3" "$4" '' 0 aigunroll --frames "$2"; }
# no_unrolled NAME FRAMES SOURCE MESSAGE: refused, in either form
no_unrolled() {
    row "$1" "$3" '' "aiger: -: $4\n" 1 aigunroll --frames "$2" --ascii
    row "$1, to binary" "$3" '' "aiger: -: $4\n" 1 aigunroll --frames "$2"
}
# times COUNT LINE: the line so many times
times() { printf "$2%.0s" $(seq "$1"); }

rows_unrolled() {
    rows_frames
    rows_first_values
    rows_later_values
    rows_unrolled_gates
    rows_unrolled_properties
    rows_nothing_to_unroll
    rows_unrolled_traces
    rows_unsupported
    rows_too_large
    rows_unrolled_sources
    rows_unroll_words
}

# a toggle, whose outputs are constants in each frame; an input, a latch and a gate; a circuit without latches
rows_frames() {
    local toggle='aag 1 0 1 2 0\n2 3\n2\n3\n' held='aag 3 1 1 1 1\n2\n4 6\n6\n6 2 5\n'
    unrolls 'a toggle over one frame' 1 "$toggle" 'aag 0 0 0 2 0\n0\n1\n'
    unrolls 'a toggle over two frames' 2 "$toggle" 'aag 0 0 0 4 0\n0\n1\n1\n0\n'
    unrolls 'a toggle over three frames' 3 "$toggle" 'aag 0 0 0 6 0\n0\n1\n1\n0\n0\n1\n'
    unrolls_to_binary 'a toggle over two frames, to binary' 2 "$toggle" 'aig 0 0 0 4 0\n0\n1\n1\n0\n'
    unrolls 'an input, a latch and a gate' 2 "$held" 'aag 4 2 0 2 2\n2\n4\n6\n8\n6 2 1\n8 7 4\n'
    unrolls_to_binary 'an input, a latch and a gate, to binary' 2 "$held" 'aig 4 2 0 2 2\n6\n8\n\x04\x01\x01\x03'
    unrolls 'an input, a latch and a gate from binary' 2 'aig 3 1 1 1 1\n6\n6\n\x01\x03' 'aag 4 2 0 2 2\n2\n4\n6\n8\n6 2 1\n8 7 4\n'
    unrolls 'an input, a latch and a gate over one frame' 1 "$held" 'aag 2 1 0 1 1\n2\n4\n4 2 1\n'
    unrolls 'an input, a latch and a gate over three frames' 3 "$held" \
        'aag 6 3 0 3 3\n2\n4\n6\n8\n10\n12\n8 2 1\n10 9 4\n12 11 6\n'
    unrolls 'two inputs in each frame' 2 'aag 3 2 0 1 1\n2\n4\n6\n6 2 4\n' 'aag 6 4 0 2 2\n2\n4\n6\n8\n10\n12\n10 4 2\n12 8 6\n'
    unrolls_to_binary 'a half adder, whose names and comment are left out' 1 \
        'aag 7 2 0 2 3\n2\n4\n6\n12\n6 13 15\n12 2 4\n14 3 5\ni0 x\ni1 y\no0 s\no1 c\nc\nhalf adder\n' \
        'aig 5 2 0 2 3\n10\n6\n\x02\x02\x03\x02\x01\x02'
    unrolls 'an empty comment, which is left out' 1 'aag 1 1 0 1 0\n2\n3\ni0 a\nc\n' 'aag 1 1 0 1 0\n2\n3\n'
    unrolls 'outputs frame by frame' 3 'aag 2 2 0 3 0\n2\n4\n5\n2\n1\n' \
        'aag 6 6 0 9 0\n2\n4\n6\n8\n10\n12\n5\n2\n1\n9\n6\n1\n13\n10\n1\n'
}

# what latches are in frame 0: an uninitialised one has an input of its own, before those of the frames
rows_first_values() {
    local starts='aag 4 1 3 3 0\n2\n4 2\n6 2 1\n8 2 8\n4\n6\n8\n'
    unrolls 'each reset' 1 "$starts" 'aag 2 2 0 3 0\n2\n4\n0\n1\n2\n'
    unrolls 'each reset, over two frames' 2 "$starts" 'aag 3 3 0 6 0\n2\n4\n6\n0\n1\n2\n4\n4\n4\n'
    unrolls 'each reset, from binary' 1 'aig 4 1 3 3 0\n2\n2 1\n2 8\n4\n6\n8\n' 'aag 2 2 0 3 0\n2\n4\n0\n1\n2\n'
    unrolls 'negations of each reset' 1 'aag 3 0 3 3 0\n2 2\n4 4 1\n6 6 6\n3\n5\n7\n' 'aag 1 1 0 3 0\n2\n1\n0\n3\n'
    unrolls 'uninitialised latches in their order' 2 'aag 9 0 4 4 0\n18 18 18\n4 4\n2 2 2\n6 6 6\n2\n4\n6\n18\n' \
        'aag 3 3 0 8 0\n2\n4\n6\n4\n0\n6\n2\n4\n0\n6\n2\n'
    unrolls 'an uninitialised toggle' 3 'aag 1 0 1 1 0\n2 3 2\n2\n' 'aag 1 1 0 3 0\n2\n2\n3\n2\n'
    unrolls 'a toggle that starts at 1' 3 'aag 1 0 1 1 0\n2 3 1\n2\n' 'aag 0 0 0 3 0\n1\n0\n1\n'
}

# what latches are in later frames: their next literals in the frame before
rows_later_values() {
    unrolls 'latches that exchange their values' 3 'aag 2 0 2 2 0\n2 4 1\n4 2\n2\n5\n' 'aag 0 0 0 6 0\n1\n1\n0\n0\n1\n1\n'
    unrolls 'more latches in a row than frames' 2 'aag 4 1 3 3 0\n2\n4 2\n6 4\n8 6\n4\n6\n8\n' \
        'aag 2 2 0 6 0\n2\n4\n0\n0\n0\n2\n0\n0\n'
    unrolls 'more frames than latches in a row' 5 'aag 4 1 3 1 0\n2\n4 2\n6 4\n8 6\n8\n' \
        'aag 5 5 0 5 0\n2\n4\n6\n8\n10\n0\n0\n0\n2\n4\n'
    unrolls 'latches in a row, the last one first' 4 'aag 4 1 3 1 0\n8\n4 8\n2 4\n6 2\n6\n' 'aag 4 4 0 4 0\n2\n4\n6\n8\n0\n0\n0\n2\n'
    unrolls 'next states that are constants' 2 'aag 2 0 2 2 0\n2 0 1\n4 1\n2\n4\n' 'aag 0 0 0 4 0\n1\n0\n0\n1\n'
    unrolls 'a next state that is a negated input' 3 'aag 2 1 1 2 0\n2\n4 3\n4\n5\n' 'aag 3 3 0 6 0\n2\n4\n6\n0\n1\n3\n2\n5\n4\n'
    unrolls 'a latch that keeps itself' 3 'aag 1 0 1 1 0\n2 2 2\n3\n' 'aag 1 1 0 3 0\n2\n3\n3\n3\n'
    unrolls 'three latches in a ring, one negated' 4 'aag 3 0 3 3 0\n2 7\n4 2\n6 4\n2\n4\n6\n' \
        'aag 0 0 0 12 0\n0\n0\n0\n1\n0\n0\n1\n1\n0\n1\n1\n1\n'
    unrolls 'a next state that is a negated gate' 2 'aag 3 1 1 1 1\n2\n4 7\n4\n6 2 4\n' 'aag 4 2 0 2 2\n2\n4\n0\n7\n6 2 0\n8 7 4\n'
}

# gates: in the order of places, whatever their order and numbers in the file; larger operands first
rows_unrolled_gates() {
    local any='aag 5 2 0 3 3\n2\n4\n6\n8\n10\n6 10 2\n8 2 4\n10 4 2\n'
    unrolls 'gates before those that they are over' 1 "$any" 'aag 5 2 0 3 3\n2\n4\n10\n6\n8\n6 4 2\n8 4 2\n10 8 2\n'
    unrolls 'gates before those that they are over, two frames' 2 "$any" \
        'aag 10 4 0 6 6\n2\n4\n6\n8\n14\n10\n12\n20\n16\n18\n10 4 2\n12 4 2\n14 12 2\n16 8 6\n18 8 6\n20 18 6\n'
    unrolls 'the largest variables' 2 'aag 2147483647 1 1 1 1\n4294967294\n4 4294967292\n4294967293\n4294967292 4294967295 5\n' \
        'aag 4 2 0 2 2\n2\n4\n7\n9\n6 3 1\n8 7 5\n'
    unrolls 'operands that are constants' 2 'aag 5 1 0 1 4\n2\n4\n4 2 0\n6 1 2\n8 0 1\n10 1 1\n' \
        'aag 10 2 0 2 8\n2\n4\n6\n14\n6 2 0\n8 2 1\n10 1 0\n12 1 1\n14 4 0\n16 4 1\n18 1 0\n20 1 1\n'
    unrolls 'equal operands' 1 'aag 2 1 0 1 1\n2\n5\n4 2 2\n' 'aag 2 1 0 1 1\n2\n5\n4 2 2\n'
    unrolls 'operands that become equal, or negations of one another' 2 'aag 5 1 2 2 2\n2\n4 2\n6 3\n8\n10\n8 4 6\n10 4 2\n' \
        'aag 6 2 0 4 4\n2\n4\n6\n8\n10\n12\n6 0 0\n8 2 0\n10 3 2\n12 4 2\n'
    unrolls 'a gate that nothing uses, and equal gates' 1 'aag 3 1 0 0 2\n2\n4 2 2\n6 2 2\n' 'aag 3 1 0 0 2\n2\n4 2 2\n6 2 2\n'
}

# bad states, held by all constraints of their frame and of those before
rows_unrolled_properties() {
    unrolls 'a bad state' 1 'aag 1 0 1 0 0 1\n2 3 2\n2\n' 'aag 2 1 0 0 1 1\n2\n4\n4 2 1\n'
    unrolls 'a bad state over two frames' 2 'aag 1 0 1 0 0 1\n2 3 2\n2\n' 'aag 3 1 0 0 2 2\n2\n4\n6\n4 2 1\n6 3 1\n'
    unrolls 'a bad state and a constraint' 2 'aag 2 1 1 0 0 1 1\n2\n4 2\n4\n3\n' \
        'aag 6 2 0 0 4 2\n2\n4\n8\n12\n6 3 1\n8 6 0\n10 6 5\n12 10 2\n'
    unrolls_to_binary 'a bad state and a constraint, to binary' 2 'aag 2 1 1 0 0 1 1\n2\n4 2\n4\n3\n' \
        'aig 6 2 0 0 4 2\n8\n12\n\x03\x02\x02\x06\x04\x01\x02\x08'
    unrolls 'a constraint alone has its gates' 2 'aag 1 1 0 1 0 0 1\n2\n2\n3\n' 'aag 4 2 0 2 2\n2\n4\n2\n4\n6 3 1\n8 6 5\n'
    unrolls 'three constraints in their order' 2 'aag 2 2 0 0 0 0 3\n2\n4\n5\n2\n0\n' \
        'aag 10 4 0 0 6\n2\n4\n6\n8\n10 5 1\n12 10 2\n14 12 0\n16 14 9\n18 16 6\n20 18 0\n'
    unrolls 'bad states that are constants' 1 'aag 0 0 0 0 0 2\n0\n1\n' 'aag 2 0 0 0 2 2\n2\n4\n2 1 0\n4 1 1\n'
    local every='13 3 0 2 10 4\n2\n4\n6\n8\n18\n14\n16\n24\n26'
    unrolls 'each section' 2 'aag 4 1 2 1 1 2 2\n2\n4 3 1\n6 4 6\n8\n6\n7\n9\n2\n8 6 3\ni0 a\nb1 b\nc0 c\nc\nx\n' \
        "aag $every\n8 5 2\n10 9 1\n12 10 4\n14 12 2\n16 12 3\n18 7 1\n20 19 12\n22 20 6\n24 22 1\n26 22 0\n"
    unrolls_to_binary 'each section, in binary' 2 'aig 4 1 2 1 1 2 2\n3 1\n4 6\n8\n6\n7\n9\n2\n\x02\x03' \
        'aig 13 3 0 2 10 4\n8\n18\n14\n16\n24\n26\n\x03\x03\x01\x08\x02\x06\x02\x0a\x04\x09\x0b\x06\x01\x07\x02\x0e\x02\x15\x04\x16'
}

# circuits of which nothing is left, over as many frames as there may be
rows_nothing_to_unroll() {
    unrolls 'a circuit of nothing' 1 'aag 0 0 0 0 0\n' 'aag 0 0 0 0 0\n'
    unrolls 'a circuit of nothing over the most frames' 1000000 'aag 0 0 0 0 0\n' 'aag 0 0 0 0 0\n'
    unrolls_to_binary 'a circuit of nothing over the most frames, to binary' 1000000 'aig 0 0 0 0 0\n' 'aig 0 0 0 0 0\n'
    unrolls 'variables that nothing defines' 1000000 'aag 2147483647 0 0 0 0\n' 'aag 0 0 0 0 0\n'
    unrolls 'latches that nothing shows' 1000000 'aag 2 0 2 0 0\n2 5\n4 2 1\n' 'aag 0 0 0 0 0\n'
    unrolls 'an uninitialised latch that nothing shows' 1000000 'aag 1 0 1 0 0\n2 3 2\n' 'aag 1 1 0 0 0\n2\n'
    unrolls 'an input that nothing shows' 2 'aag 1 1 0 0 0\n2\n' 'aag 2 2 0 0 0\n2\n4\n'
}

# What is written does in one step what the source does in several.
rows_unrolled_traces() {
    model 'aag 4 2 0 2 2\n2\n4\n6\n8\n6 2 1\n8 7 4\n'
    traces 'two frames of an input, a latch and a gate' '11\n10\n01\n' ' 11 10 \n 10 10 \n 01 01 \n.\n'
    model 'aag 13 3 0 2 10 4\n2\n4\n6\n8\n18\n14\n16\n24\n26\n8 5 2\n10 9 1\n12 10 4\n14 12 2\n16 12 3\n18 7 1\n20 19 12\n22 20 6\n24 22 1\n26 22 0\n'
    with_properties 'two frames of each section' '111\n010\nx1x\n' ' 111 00  1010 \n 010 01  0100 \n x1x 0x  xxx0 \n.\n'
}

rows_unsupported() {
    local liveness='justice or fairness cannot be unrolled'
    no_unrolled 'a justice property' 1 'aag 1 1 0 0 0 0 0 1\n2\n2\n2\n3\n' "$liveness"
    no_unrolled 'a justice property without literals' 1 'aag 0 0 0 0 0 0 0 1\n0\n' "$liveness"
    no_unrolled 'a fairness constraint' 1 'aag 0 0 0 0 0 0 0 0 1\n1\n' "$liveness"
    no_unrolled 'justice and fairness, in binary' 3 'aig 1 1 0 0 0 1 1 1 1\n2\n3\n1\n2\n3\n' "$liveness"
    no_unrolled 'justice, and too large' 1000000 'aig 2148 2148 0 0 0 0 0 1\n0\n' "$liveness"
    no_unrolled 'fairness, and too large' 1000000 'aig 2148 2148 0 0 0 0 0 0 1\n0\n' "$liveness"
}

rows_too_large() {
    local large='too large to unroll'
    no_unrolled 'too many inputs' 1000000 'aig 2148 2148 0 0 0\n' "$large"
    no_unrolled 'one variable too many' 524288 'aig 4096 4096 0 0 0\n' "$large"
    no_unrolled 'one variable too many, of a first value' 524287 "aig 8192 4096 4096 0 0\n$(
        seq -f '0 %.0f\n' 8194 2 16384 | tr -d '\n')" "$large"
    no_unrolled 'too many outputs' 1000000 "aag 0 0 0 2148 0\n$(times 2148 '1\\n')" "$large"
    no_unrolled 'one output too many' 524288 "aag 0 0 0 4096 0\n$(times 4096 '0\\n')" "$large"
    no_unrolled 'too many bad states' 1000000 "aag 0 0 0 0 0 2148\n$(times 2148 '1\\n')" "$large"
    no_unrolled 'too many constraints' 1000000 "aag 0 0 0 0 0 0 2148\n$(times 2148 '1\\n')" "$large"
    no_unrolled 'too many gates' 1000000 "aig 2148 0 0 0 2148\n$(times 2148 '\\x01\\x01')" "$large"
    no_unrolled 'too many of all together' 1000000 \
        "aig 1000 500 0 0 500 500 648\n$(times 1148 '1\\n')$(printf '\\x%02x\\x01' $(seq 100))$(times 400 '\\x7f\\x01')" "$large"
}

# errors of the source come first, and a limit is one on the source alone
rows_unrolled_sources() {
    no_unrolled 'an empty file to unroll' 2 '' 'line 1: not an AIGER file'
    no_unrolled 'a file to unroll that ends too early' 2 'aag 2 1 0 1 1\n2\n4\n' 'line 4: file ends too early'
    no_unrolled 'a bad delta in a file to unroll' 2 'aig 1 0 0 0 1\n\x03\x00' 'gate 1: bad delta'
    no_unrolled 'a cycle to unroll' 2 'aag 3 1 0 0 2\n2\n4 6 2\n6 4 2\n' 'gate 4 depends on a cycle'
    no_unrolled 'a bad line behind justice' 2 'aag 0 0 0 0 0 0 0 1 1\n0\nx\n' 'line 3: bad line'
    no_unrolled 'an undefined literal, and too large' 1000000 'aag 9999 0 0 2148 0\n4\n'"$(times 2147 '1\\n')" 'literal 4 not defined'
    row 'a limit that the source keeps and the unrolled circuit does not' 'aag 3 1 1 1 1\n2\n4 6\n6\n6 2 5\n' \
        'aag 4 2 0 2 2\n2\n4\n6\n8\n6 2 1\n8 7 4\n' '' 0 aigunroll --frames 2 --ascii --max-var 3
    row 'a limit that the source does not keep' 'aag 1 0 1 2 0\n2 3\n2\n3\n' '' 'aiger: -: line 1: number above the limit\n' 1 \
        aigunroll --frames 2 --max-var 1
}

rows_unroll_words() {
    local toggle='aag 1 0 1 2 0\n2 3\n2\n3\n' two='aag 0 0 0 4 0\n0\n1\n1\n0\n' binary='aig 0 0 0 4 0\n0\n1\n1\n0\n'
    local all=$unrolling_usage needed='--frames or --invariant is needed' file
    row 'frames behind =' "$toggle" "$two" '' 0 aigunroll --ascii --frames=2
    row 'frames with leading zeros' "$toggle" "$two" '' 0 aigunroll --ascii --frames 002
    row 'both streams by -, to unroll' "$toggle" "$two" '' 0 aigunroll - - --ascii --frames 2
    row 'both streams behind --, to unroll' "$toggle" "$binary" '' 0 aigunroll --frames 2 -- - -
    row 'a file to unroll, by its name' "$toggle" "$binary" '' 0 aigunroll --frames 2 "$work/in"
    row 'unrolled to a file with a name' "$toggle" '' '' 0 aigunroll --frames 2 - "$work/named.aag"
    row 'a refused file to unroll, by its name' 'aag 0 0 0 0 0 0 0 0 1\n1\n' '' \
        "aiger: $work/in: justice or fairness cannot be unrolled\n" 1 aigunroll --frames 2 "$work/in" "$work/named.aig"
    missing 'a file to unroll that is not there' none/x aigunroll --frames 1 none/x
    unwanted 'no frames' "$needed" aigunroll
    unwanted 'no frames, and a name' "$needed" aigunroll "$work/none" x.gz
    misused 'frames without a number' "a value is required for '--frames <K>' but none was supplied" aigunroll --frames
    misused 'frames twice' "the argument '--frames <K>' cannot be used multiple times$all" aigunroll --frames 1 --frames 1
    for file in 0 1000001 4294967297; do
        misused "$file frames" "invalid value '$file' for '--frames <K>': $file is not in 1..=1000000" aigunroll --frames "$file"
    done
    misused 'frames that are no number' "invalid value '2x' for '--frames <K>': invalid digit found in string" aigunroll --frames 2x
    misused 'frames that are empty' "invalid value '' for '--frames <K>': cannot parse integer from empty string" aigunroll --frames ''
    misused 'an option of conversions, to unroll' \
        "unexpected argument '--strip' found\n\n  tip: to pass '--strip' as a value, use '-- --strip'$all" aigunroll --frames 1 --strip
    misused 'a name too many to unroll' "unexpected argument 'z' found$all" aigunroll --frames 1 x y z
    misused 'frames of a conversion' \
        "unexpected argument '--frames' found\n\n  tip: a similar argument exists: '--force'\n\nUsage: aiger aigtoaig --force [source] [destination]" \
        aigtoaig --frames 1
    unwanted 'a compressed file to unroll to' 'compressed output is not supported: use aiger COMMAND .. - | gzip > FILE.gz' aigunroll --frames 2 - none/x.aig.gz
}
