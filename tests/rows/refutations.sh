# The rows of aigunroll for refutations, for the table of all.sh. What is wanted was worked out by hand from docs/FORMAT.md,
# "Refutation".

# refutes NAME FRAMES REFUTATION WORD..: it refutes the clauses of the model that was made last
refutes() { row "$1" "$3" "none within $2\n" '' 0 aigunroll --frames "$2" --refutation - "$model" "${@:4}"; }
# unrefuted NAME FRAMES REFUTATION MESSAGE WORD..
unrefuted() { row "$1" "$3" '' "aiger: -: $4\n" 1 aigunroll --frames "$2" --refutation - "$model" "${@:5}"; }
# of the model that was made last, over one frame
refutes_it() { refutes "$1" 1 "$2"; }
open() { unrefuted "$1" 1 "$2" 'no refutation'; }
bad_at() { unrefuted "$1" 1 "$3" "line $2: bad line"; }
does_not_follow() { unrefuted "$1" 1 "$3" "line $2: does not follow"; }

rows_refutations() {
    rows_right_refutations
    rows_without_refutation
    rows_texts_of_refutations
    rows_binary_refutations
    rows_new_variables
    rows_numbered_refutations
    rows_forms_of_numbered_refutations
    rows_bad_numbered_lines
    rows_ends_of_numbered_refutations
    rows_bad_lines_of_texts
    rows_bad_lines_of_binaries
    rows_what_does_not_follow
    rows_deletions
    rows_ends_of_refutations
    rows_other_refutations
    rows_refutations_of_one
    rows_no_model_to_refute
    rows_refutation_names
    rows_refutation_words
}

# Of two inputs one of the four pairs of values would have to be there, and none is. Its clauses over one frame are
#     p cnf 11 26   -1   -4 -3   -4 -2   4 3 2   -5 -3   -5 2   5 3 -2   -6 3   -6 -2   6 -3 2   -7 3   -7 2   7 -3 -2
#     -8 -5   -8 -4   8 5 4   -9 -7   -9 -6   9 7 6   -10 9   -10 8   10 -9 -8   -11 10   -11 -1   11 -10 1   11
# By the last of them 10, 9 and 8 are 1, and 4 to 7 are 0. So 3 2, 3 -2, -3 2 and -3 -2 are left.
four='aag 9 2 0 0 7 1\n2\n4\n18\n6 5 3\n8 5 2\n10 4 3\n12 4 2\n14 9 7\n16 13 11\n18 16 14\n'
# the same behind another bad state, and beside an input that nothing uses
mixed='aag 9 2 0 0 7 2\n2\n4\n2\n18\n6 5 3\n8 5 2\n10 4 3\n12 4 2\n14 9 7\n16 13 11\n18 16 14\n'
spare='aag 10 3 0 0 7 1\n2\n4\n20\n18\n6 5 3\n8 5 2\n10 4 3\n12 4 2\n14 9 7\n16 13 11\n18 16 14\n'

rows_right_refutations() {
    model "$four"
    refutes_it 'a refutation' '3 0\n0\n'
    refutes_it 'a refutation by the other value' '-3 0\n0\n'
    refutes_it 'a refutation by the other input' '-2 0\n0\n'
    refutes_it 'a refutation without its last line' '2 0\n'
    refutes_it 'a refutation with lines that follow at once' '11 0\n-4 0\n-4 3 0\n3 0\n0\n'
    refutes_it 'a refutation with lines that it need not have' '2 3 0\n2 -3 0\n2 0\n0\n'
    refutes_it 'a tautology in a refutation' '7 -7 0\n3 0\n'
    refutes_it 'a literal twice in a lemma' '3 3 0\n0\n'
    refutes_it 'lines behind what refutes' '3 0\nx\n12 0\n\xff'
    # a bad state in one of two frames: in the first one 13, in the second one 21, over the inputs 4 and 5
    refutes 'a refutation of two frames' 2 '-13 3 0\n-13 0\n5 0\n'
    unrefuted 'a refutation of two frames without its first line' 2 '-13 0\n5 0\n' 'line 1: does not follow'
    unrefuted 'a refutation of two frames without its last line' 2 '-13 3 0\n-13 0\n' 'no refutation'
    model "${four}i0 x\nb0 bad\nc\nx"
    refutes_it 'a refutation for a model with names and a comment' '3 0\n0\n'
}

# what unit propagation alone refutes
rows_without_refutation() {
    model "$toggle"
    refutes 'a toggle needs no refutation' 1 ''
    refutes 'a toggle that needs none, and one' 1 '2 0\n-2 0\n0\n'
    refutes 'a toggle that needs none, and what is none' 1 'x'
    refutes 'a toggle that needs none, and what is none in binary' 1 'a\001'
    unrefuted 'a toggle over two frames' 2 '' 'no refutation'
    unrefuted 'a toggle over two frames, and a forged refutation' 2 '0\n' 'line 1: does not follow'
    model "$never"
    refutes 'a latch that stays 0 needs no refutation' 9 ''
    model 'aag 0 0 0 0 0 1\n0\n'
    refutes 'a bad state that is 0' 1000 ''
    model "$always"
    unrefuted 'a bad state that is 1' 1 '' 'no refutation'
    unrefuted 'a bad state that is 1, and a forged refutation' 3 'a\000' 'line 1: does not follow'
}

rows_texts_of_refutations() {
    model "$four"
    refutes_it 'a refutation with CR LF' '2 3 0\r\n3 0\r\n0\r\n'
    refutes_it 'a refutation without LF at its end' '2 3 0\n3 0'
    refutes_it 'comments and empty lines in a refutation' 'c\nc 12 0 x\0\xff\n\n \n\r\n3 0\nc\n'
    refutes_it 'a comment behind a line of a refutation' '2 3 0 c x\n3 0 c\n'
    refutes_it 'spaces around numbers of a refutation' '  2  3   0  \n3 0\n'
    refutes_it 'lines of a refutation in one line' '2 3 0 d 2 3 0 3 0'
    refutes_it 'a line of a refutation in many lines' '2\n3\n0\nd\n2\n3\n0\n3\n0'
    refutes_it 'leading zeros in a refutation' '02 003 0\n3 00\n'
    refutes_it 'd without a space behind it' '2 3 0\nd3 2 0\n3 0\n'
    refutes_it 'a refutation that begins with d and a space' 'd 2 3 0\n3 0\n'
    refutes_it 'the largest number of a refutation' '11 0\n-11 11 0\n3 0\n'
}

rows_binary_refutations() {
    model "$four"
    refutes_it 'a binary refutation' 'a\006\000a\000'
    refutes_it 'a binary refutation by the other value' 'a\007\000a\000'
    refutes_it 'a binary refutation with a deletion' 'a\004\006\000d\006\004\000a\006\000a\000'
    refutes_it 'a binary refutation that begins with d' 'd\006\004\000a\006\000a\000'
    refutes_it 'the largest number of a binary refutation' 'a\026\000a\027\026\000a\006\000'
    refutes_it 'a number in two bytes' 'a\0206\000\000'
    refutes_it 'a number in five bytes' 'a\0206\0200\0200\0200\000\000'
    refutes_it 'an end of a line in two bytes' 'a\006\0200\000'
    refutes_it 'bytes behind what refutes' 'a\006\000x'
    does_not_follow 'a binary line that does not follow' 1 'a\000'
    does_not_follow 'a binary line that does not follow, behind others' 4 'a\004\006\000d\004\006\000d\000a\000a\006\000'
}

# 12 and above are in no clause. Line N may have numbers up to 11 + N.
rows_new_variables() {
    model "$four"
    refutes_it 'a new variable' '12 -2 -3 0\n-12 2 0\n-12 3 0\n3 0\n0\n'
    refutes_it 'a new variable in binary' 'a\030\005\007\000a\031\004\000a\031\006\000a\006\000'
    refutes_it 'new variables in turn' '12 0\n13 0\n14 0\n3 0\n'
    refutes_it 'the negation of a new variable' '-12 2 3 0\n12 -2 0\n12 -3 0\n3 0\n'
    refutes_it 'what joins to a tautology' '12 2 0\n-12 -2 0\n3 0\n'
    refutes_it 'a clause with a new variable is deleted' '12 -2 0\n12 2 0\nd 12 2 0\nd 12 -2 0\n-12 0\n3 0\n'
    bad_at 'a new variable too soon' 1 '13 0\n'
    does_not_follow 'a new variable that is true and false' 2 '12 0\n-12 0\n'
    does_not_follow 'a new variable both ways' 3 '2 3 0\n12 13 0\n-12 0\n'
    does_not_follow 'a new variable behind another number' 1 '-11 12 0\n'
    does_not_follow 'a new variable does not make others true' 2 '12 0\n-11 -12 0\n'
    open 'a new variable, and no more' '12 0\n'
}

refutes_lrat() { refutes "$1" 1 "$2" --lrat; }
bad_lrat_at() { unrefuted "$1" 1 "$3" "line $2: bad line" --lrat; }

# the clauses above are 1 to 26: 4 is 4 3 2, 7 is 5 3 -2, 10 is 6 -3 2, and 13 is 7 -3 -2
rows_numbered_refutations() {
    model "$four"
    refutes_lrat 'a refutation in LRAT' '27 3 0 4 7 0\n28 0 27 10 13 0\n'
    refutes_lrat 'LRAT as a solver writes it' '27 3 2 0 26 23 21 15 4 0\n27 d 4 0\n28 2 0 26 23 21 14 27 7 0\n'
    refutes_lrat 'LRAT without hints' '27 3 0 0\n28 0 0\n'
    refutes_lrat 'hints in another order' '27 3 0 7 4 0\n'
    refutes_lrat 'hints that do not show it' '27 3 0 10 13 0\n'
    refutes_lrat 'a hint that is missing' '27 3 0 7 0\n'
    refutes_lrat 'a hint of a line' '27 2 3 0 4 0\n28 3 0 27 7 0\n'
    refutes_lrat 'a hint of the line itself' '27 3 0 27 0\n'
    refutes_lrat 'a hint of no clause' '27 3 0 99 4 7 0\n'
    refutes_lrat 'negative hints' '27 3 0 -4 7 -99 0\n'
    refutes_lrat 'hints of more than 32 bits' '27 3 0 4294967300 18446744073709551620 4 7 0\n'
    refutes_lrat 'numbers of more than 32 bits' '4294967300 2 3 0 4 0\n18446744073709551620 3 0 27 7 0\n'
    refutes_lrat 'the number of another clause' '4 3 0 4 7 0\n'
    refutes_lrat 'the same number twice' '27 2 3 0 4 0\n27 3 0 27 7 0\n'
    refutes_lrat 'numbers that go down' '99 2 3 0 4 0\n98 3 2 0 99 0\n1 3 0 98 7 0\n'
    refutes_lrat 'numbers that are left out' '30 2 3 0 4 0\n40 3 2 0 30 0\n50 3 0 40 7 0\n'
    refutes_lrat 'deletions in LRAT' '26 d 4 7 0\n27 2 3 0 4 0\n27 d 27 0\n28 3 0 27 7 0\n'
    refutes_lrat 'a deletion in LRAT of nothing, and of what is not there' '26 d 0\n26 d 99 0\n27 3 0 0\n'
    refutes_lrat 'a new variable in LRAT' '27 12 -2 -3 0 0\n28 -12 2 0 -27 0\n29 -12 3 0 -27 0\n30 3 0 4 7 0\n'
    refutes_lrat 'lines in LRAT behind what refutes' '27 3 0 4 7 0\nx'
    unrefuted 'a line of LRAT that does not follow' 1 '27 -9 0 4 7 0\n' 'line 1: does not follow' --lrat
    unrefuted 'the end in LRAT that does not follow' 1 'c\n27 2 3 0 4 0\n28 0 4 7 10 13 0\n' 'line 3: does not follow' --lrat
    unrefuted 'LRAT for two frames' 2 '27 3 0 4 7 0\n' 'line 1: does not follow' --lrat
    unrefuted 'DRAT as LRAT' 1 '3 0\n0\n' 'line 2: does not follow' --lrat
    unrefuted 'LRAT as DRAT' 1 '27 3 0 4 7 0\n' 'line 1: bad line'
    model "$mixed"
    refutes 'LRAT of one bad state' 1 '27 3 0 4 7 0\n' --bad 1 --lrat
}

rows_forms_of_numbered_refutations() {
    model "$four"
    refutes_lrat 'LRAT with CR LF' '27 2 3 0 4 0\r\n27 d 4 0\r\n28 3 0 4 7 0\r\n'
    refutes_lrat 'LRAT without LF at its end' '27 3 0 4 7 0'
    refutes_lrat 'comments and empty lines in LRAT' 'c\nc 27 0 x\0\xff\n\n \n\r\n27 3 0 4 7 0\nc\n'
    refutes_lrat 'a comment behind a line of LRAT' '27 2 3 0 4 0 c x\n28 3 0 4 7 0 c\n'
    refutes_lrat 'spaces around numbers of LRAT' '  27  3   0  4  7   0  \n'
    refutes_lrat 'lines of LRAT in one line' '27 2 3 0 4 0 27 d 4 0 28 3 0 4 7 0'
    refutes_lrat 'a line of LRAT in many lines' '27\n2\n3\n0\n4\n0\n27\nd\n4\n0\n28\n3\n0\n4\n7\n0\n'
    refutes_lrat 'leading zeros in LRAT' '0027 03 00 04 007 000\n'
    refutes_lrat 'd in LRAT without a space behind it' '27 d4 7 0\n27 3 0 4 7 0\n'
}

rows_bad_numbered_lines() {
    local text
    model "$four"
    for text in 'x' 'p cnf 11 26' '0 3 0 0' '00 3 0 0' '-27 3 0 0' '+27 3 0 0' '-0 3 0 0' '27 +3 0 0' '27 -0 0 0' '27 16 0 0' \
        '27 3 16 0 0' '27 2147483648 0 0' '27 4294967299 0 0' '27 3 d 4 0' '27 d d 0' '27 d -4 0' '27 d 4 x' '27 d 4 -0' \
        '27 3 0 x' '27 3 0 -0 0' '27 3 0 - 4 0' '27 3 0 +4 0' '27 3 0 4 c' '27 3 0 d 4 0' '27 3 0 4,7 0' '27 c' '27x' 'd 4 0' \
        '27 3 c 0 0' 'a' 'a\006\000' '27\t3 0 0' '27 3 0 4\0'; do
        bad_lrat_at "a bad line of LRAT: $text" 1 "$text\n27 3 0 4 7 0\n"
        bad_lrat_at "the same behind others: $text" 4 "c\n27 2 3 0 4 0\n27 d 4 0\n$text\n27 3 0 4 7 0\n"
    done
}

rows_ends_of_numbered_refutations() {
    local end
    model "$four"
    for end in '' 'c' 'c x\n' '\n' ' ' '-' '27' '27 ' '27 -' '27 d' '27 d 4' '27 d 4 0' '27 d -' '27 3' '27 3 0' '27 3 0 4 7' \
        '27 3 0 4 -' '27 2 3 0 4 0\n28' '27 2 3 0 4 0\n28 3 0 4 7\n'; do
        unrefuted "LRAT that ends behind '$end'" 1 "$end" 'no refutation' --lrat
    done
}

rows_bad_lines_of_texts() {
    local text
    model "$four"
    for text in 'x' 'p cnf 11 26' 's UNSATISFIABLE' '+3 0' '-0' '--3 0' '- 3 0' '-03 0' '3 x 0' '3,0' '3\t0' '3 0x' '3\0' '\0' \
        '\xff' '16 0' '-16 0' '16' '0016 0' '2147483648 0' '4294967299 0' '18446744073709551619 0' "$(digits 100 9) 0" \
        '2 d 3 0' '2 c\n3 0' 'd d 3 0' 'd c\n3 0' '27 3 0 1 2 0' 'd 16 0' 'd -16 0' 'd x' 'D 3 0'; do
        bad_at "a bad line of a refutation: $text" 1 "$text\n3 0\n"
        bad_at "the same behind others: $text" 4 "c\n2 3 0\n\n$text\n3 0\n"
    done
    bad_at 'a bad line behind CR LF' 2 '2 3 0\r\nx\r\n'
    bad_at 'a bad number in the last line of a lemma' 3 '2\n3\n15 0\n'
    bad_at 'a bad byte where a lemma ends' 2 '2 3\n0x\n'
    bad_at 'a bad number at the end of a file' 2 '2 3 0\n14'
    bad_at 'two bad lines' 1 'x\ny\n'
    bad_at 'a bad line before what does not follow' 1 'x\n0\n'
}

rows_bad_lines_of_binaries() {
    model "$four"
    bad_at 'a binary number that is 1' 1 'a\001\000'
    bad_at 'a binary number above the largest' 1 'a\032\000'
    bad_at 'a negated binary number above the largest' 1 'a\033\000'
    bad_at 'a binary number of 35 bits' 1 'a\0377\0377\0377\0377\0177\000'
    bad_at 'a binary number of 32 bits and more' 1 'a\0206\0200\0200\0200\0020\000'
    bad_at 'a binary number of six bytes' 1 'a\0206\0200\0200\0200\0200\000\000'
    bad_at 'a binary number above the largest in a deletion' 2 'a\004\006\000d\034\000'
    bad_at 'another letter of a binary line' 2 'a\004\006\000b\006\000'
    bad_at 'an LF between binary lines' 2 'a\004\006\000\na\006\000'
    bad_at 'a comment behind a binary line' 2 'a\004\006\000c\n'
    bad_at 'a text that begins with a' 1 'a 3 0\n'
}

rows_what_does_not_follow() {
    model "$four"
    does_not_follow 'the end without a lemma' 1 '0\n'
    does_not_follow 'the end behind a lemma that is not enough' 2 '2 3 0\n0\n'
    does_not_follow 'a lemma that does not follow' 4 'c\n2 3 0\n\n-9 0\n3 0\n'
    does_not_follow 'a lemma in many lines' 3 '2 3 0\n-9\n0\n'
    does_not_follow 'what does not follow before a bad line' 1 '-9 0\nx\n'
    does_not_follow 'the second of two in one line' 1 '2 3 0 -9 0\n'
    model "$spare"
    refutes_it 'a refutation beside an input that nothing uses' '3 0\n'
    # it could be added, since nothing has its negation; but it does not follow
    does_not_follow 'a line that another kind of checker takes' 1 '4 0\n3 0\n'
}

rows_deletions() {
    model "$four"
    refutes_it 'a deletion' '2 3 0\nd 3 2 0\n3 0\n'
    refutes_it 'a deletion of what is not there' 'd 2 -11 0\n3 0\n'
    refutes_it 'a deletion of a part of a clause' 'd 4 3 0\n3 0\n'
    refutes_it 'a deletion with a literal twice' 'd 4 3 2 2 0\n3 0\n'
    refutes_it 'a deletion of nothing' 'c\nd 0\n3 0\n'
    bad_at 'a deletion of nothing in front, where no number stands between spaces' 1 'd 0\n3 0\n'
    refutes_it 'a deletion of what has followed' 'd 11 0\nd -11 10 0\n3 0\n'
    refutes_it 'a deletion of one of two' '3 2 0\n2 3 0\nd 4 3 2 0\nd 3 2 0\n3 0\n'
    refutes_it 'a deletion of a clause whose lemma stays' '3 2 0\nd 4 3 2 0\n3 0\n'
    does_not_follow 'a deletion of a clause that is needed' 2 'd 4 3 2 0\n3 0\n'
    does_not_follow 'a deletion in another order' 2 'd 2 4 3 0\n3 0\n'
    does_not_follow 'a deletion of both of two' 6 '3 2 0\n2 3 0\nd 4 3 2 0\nd 3 2 0\nd 2 3 0\n3 0\n'
}

rows_ends_of_refutations() {
    local end
    model "$four"
    for end in '' 'c' 'c x\n' '\n' ' ' '2' '-' '2 3' '2 3 0' '2 3 0\n3' '2 3 0\n-' 'd' 'd ' '2 3 0\nd' '2 3 0\nd 3 2' '11 0\n' \
        'a' 'a\006' 'a\0206' 'a\0206\0200\0200\0200' 'a\004\006\000' 'a\004\006\000a' 'a\004\006\000d\004' 'd\004'; do
        open "a refutation that ends behind '$end'" "$end"
    done
}

rows_other_refutations() {
    model "$four"
    unrefuted 'a refutation of fewer frames' 2 '3 0\n0\n' 'line 1: does not follow'
    unrefuted 'a refutation of more frames' 1 '-13 3 0\n-13 0\n5 0\n' 'line 1: bad line'
    unrefuted 'a refutation of another model' 1 '-9 5 0\n-9 0\n0\n' 'line 1: does not follow'
    unrefuted 'the clauses as a refutation' 1 'p cnf 11 26\n-1 0\n' 'line 1: bad line'
    unrefuted 'an answer as a refutation' 1 's UNSATISFIABLE\n' 'line 1: bad line'
    model "$two"
    unrefuted 'a refutation of a model that has none' 1 '3 0\n0\n' 'line 1: does not follow'
    unrefuted 'a forged refutation' 3 'a\000' 'line 1: does not follow'
}

rows_refutations_of_one() {
    model "$mixed"
    refutes 'a refutation of one bad state' 1 '3 0\n0\n' --bad 1
    unrefuted 'a refutation of the other bad state' 1 '3 0\n0\n' 'line 1: does not follow' --bad 0
    unrefuted 'a refutation of one bad state, of all' 1 '3 0\n0\n' 'line 1: does not follow'
    model "aag 0 0 0 0 0 12\n$(times 11 '1\\n')0\n"
    refutes 'a bad state of two digits needs no refutation' 3 '' --bad 11
    unrefuted 'a bad state beside it' 3 '' 'no refutation' --bad 10
}

rows_no_model_to_refute() {
    # unfound NAME INPUT MESSAGE WORD..
    unfound() { row "$1" "$2" '' "aiger: $3\n" 1 aigunroll --frames 1 "${@:4}"; }
    unfound 'no bad states to refute' "$unbad" '-: no bad states' --refutation "$work/none"
    unfound 'no such bad state to refute' "$four" '-: no bad state 1' --refutation "$work/none" --bad 1
    unfound 'justice, and a refutation' 'aag 0 0 0 0 0 1 0 1\n0\n0\n' '-: justice or fairness cannot be unrolled' \
        --refutation "$work/none"
    unfound 'a refused model, and a refutation' 'aag 1 1 0 0 0 1\n2\n' '-: line 3: file ends too early' --refutation "$work/none"
    unfound 'a model above the limit, and a refutation' "$four" '-: line 1: number above the limit' \
        --refutation "$work/none" --max-var 8
    row 'too many inputs, and a refutation' 'aig 2148 2148 0 0 0 1\n0\n' '' 'aiger: -: too large to unroll\n' 1 \
        aigunroll --frames 1000000 --refutation "$work/none"
}

rows_refutation_names() {
    printf '3 0\n0\n' > "$work/refutation"
    printf '0\n' > "$work/forged"
    model "$four"
    row 'a refutation by its name' 'x' 'none within 1\n' '' 0 aigunroll --frames 1 --refutation "$work/refutation" "$model"
    row 'a refutation by its name, behind =' 'x' 'none within 1\n' '' 0 \
        aigunroll "$model" --frames=1 --refutation="$work/refutation"
    row 'the model of a refutation by standard input' "$four" 'none within 1\n' '' 0 \
        aigunroll --frames 1 --refutation "$work/refutation"
    row 'the model of a refutation by -' "$four" 'none within 1\n' '' 0 aigunroll --frames 1 --refutation "$work/refutation" - -
    row 'what a refutation shows, with a name' '3 0\n' '' '' 0 aigunroll --frames 1 --refutation - "$model" "$work/shown.aag"
    row 'a model of a refutation within the limit' '3 0\n' 'none within 1\n' '' 0 \
        aigunroll --frames 1 --refutation - "$model" --max-var 9
    row 'a hundred frames of a refutation' '' 'none within 100\n' '' 0 aigunroll --frames 100 --refutation - "$(
        printf 'aag 0 0 0 0 0 1\n0\n' > "$work/zero"; echo "$work/zero")"
    unfound 'a forged refutation by its name' '' "$work/forged: line 1: does not follow" --refutation "$work/forged" "$model"
    unfound 'the model as its own refutation' '' "$model: line 1: bad line" --refutation "$model" "$model"
    unfound 'a refutation that is not there' 'x' "$work/none: cannot read: No such file or directory" --refutation "$work/none" "$model"
    unfound 'an empty name of a refutation' 'x' ': cannot read: No such file or directory' --refutation '' "$model"
    unfound 'a folder as refutation' 'x' "$work: cannot read: Is a directory" --refutation "$work" "$model"
    unfound 'a model that is not there, and a refutation' '0\n' "$work/none: cannot read: No such file or directory" --refutation - "$work/none"
    unfound 'neither model nor refutation is there' '' "$work/none: cannot read: No such file or directory" --refutation "$work/nothing" "$work/none"
}

# the options with others, which are refused before any file is opened, in this order
rows_refutation_words() {
    local none=$work/none all=$unrolling_usage
    local ascii='--cnf excludes --ascii' answer='--answer excludes --cnf and --ascii'
    local alone='--refutation excludes --cnf, --ascii and --answer' both='model and refutation are both standard input'
    unwanted 'clauses in ASCII of a refutation' "$ascii" aigunroll --frames 2 --refutation - --cnf --ascii
    unwanted 'clauses of an answer and a refutation' "$answer" aigunroll --frames 2 --refutation - --answer - --cnf
    unwanted 'an answer and a refutation in ASCII' "$answer" aigunroll --frames 2 --refutation - --answer - --ascii
    unwanted 'clauses of a refutation' "$alone" aigunroll --frames 2 --refutation "$none" --cnf "$none"
    unwanted 'a refutation in ASCII' "$alone" aigunroll --frames 2 --ascii --refutation - - x.gz
    unwanted 'an answer and a refutation' "$alone" aigunroll --frames 2 --refutation - --answer - - x.gz
    unwanted 'model and refutation by standard input' "$both" aigunroll --frames 2 --refutation -
    unwanted 'model and refutation by -' "$both" aigunroll --frames 2 --bad 0 --refutation - - x.gz
    unwanted 'what a compressed file would take' 'compressed output is not supported: use aiger COMMAND .. - | gzip > FILE.gz' \
        aigunroll --frames 2 --refutation "$none" "$none" x.gz
    misused 'no refutation' "a value is required for '--refutation <FILE>' but none was supplied" \
        aigunroll --frames 2 --refutation
    misused 'two refutations' "the argument '--refutation <FILE>' cannot be used multiple times$all" \
        aigunroll --frames 2 --refutation a --refutation b
    unwanted 'a refutation without frames' '--frames or --invariant is needed' aigunroll --refutation a
    local lrat='--lrat needs --refutation'
    unwanted 'LRAT without a refutation' "$lrat" aigunroll --frames 2 --lrat - x.gz
    unwanted 'LRAT of an answer' "$lrat" aigunroll --frames 2 --lrat --answer - -
    unwanted 'clauses of an invariant in LRAT' "$lrat" aigunroll --invariant - --cnf --lrat
    misused 'LRAT twice' "the argument '--lrat' cannot be used multiple times$all" \
        aigunroll --frames 2 --refutation a --lrat --lrat
}
