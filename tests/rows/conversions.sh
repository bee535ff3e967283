# The rows of aigtoaig, for the table of all.sh.

# digits COUNT DIGIT
digits() { printf "%$1s" '' | tr ' ' "$2"; }

accepts() { row "$1" "$2" "$3" '' 0 aigtoaig --ascii; }
same() { accepts "$1" "$2" "$2"; }
images() { row "$1" "$2" "$3" '' 0 aigtoaig; }
maps() { row "$1" "$2" "$3" '' 0 aigtoaig --keep-map; }
undoes() { row "$1" "$2" "$3" '' 0 aigtoaig --undo-map --ascii; }
no_undone() { row "$1" "$2" '' "aiger: -: $3\n" 1 aigtoaig --undo-map --ascii; }
# a source with its mapped image, and back
there_and_back() {
    maps "$1, with the map" "$2" "$3"
    undoes "$1, undone" "$3" "$2"
}
# a block that is not right, of a circuit with an input and an output
bad_block() { no_undone "$1" "aig 1 1 0 1 0\n3\nc\n$2" "$3"; }
# a block that is not right, of a circuit with an input, an output and a gate with equal operands
bad_gate_block() { no_undone "$1" "aig 2 1 0 1 1\n4\n\x02\x00c\n$2" "$3"; }
refuses() { row "$1" "$2" '' "aiger: -: $3\n" 1 aigtoaig --ascii; }
# a gate that depends on a cycle: it is looked for depth first to ASCII, and by the order that is made to binary
cyclic() {
    refuses "$1" "$2" "gate $3 depends on a cycle"
    row "$1, to binary" "$2" '' "aiger: -: gate $3 depends on a cycle\n" 1 aigtoaig
}
# arguments that are refused, before anything is read: in clap's words, or in the program's own
misused() { local name=$1 text=$2; shift 2; row "$name" 'aag 0 0 0 0 0\n' '' "error: $text\n\nFor more information, try '--help'.\n" 2 "$@"; }
# the lines of usage of aigunroll
unrolling_usage='\n\nUsage: aiger aigunroll --frames <K> [OPTIONS] [source] [destination]
       aiger aigunroll --invariant <FILE> [OPTIONS] [source] [destination]'
unwanted() { local name=$1 text=$2; shift 2; row "$name" 'aag 0 0 0 0 0\n' '' "aiger: $text\n" 2 "$@"; }
# a source by its name that is not there
missing() { local name=$1 file=$2; shift 2; row "$name" 'aag 0 0 0 0 0\n' '' "aiger: $file: cannot read: No such file or directory\n" 1 "$@"; }

rows_accepted() {
    same 'one of each section' 'aag 3 1 1 2 0\n6\n2 7\n2\n0\n'
    same 'the empty circuit' 'aag 0 0 0 0 0\n'
    same 'unused variables up to the largest' 'aag 2147483647 0 0 0 0\n'
    same 'the largest variable' 'aag 2147483647 1 0 2 0\n4294967294\n4294967295\n4294967294\n'
    same 'constants as outputs' 'aag 0 0 0 3 0\n0\n1\n1\n'
    same 'a toggle' 'aag 1 0 1 2 0\n2 3\n2\n3\n'
    same 'a latch that keeps itself' 'aag 1 0 1 0 0\n2 2\n'
    same 'a latch with a constant next state' 'aag 2 0 2 0 0\n2 0\n4 1\n'
    same 'a latch that names a later latch' 'aag 2 0 2 0 0\n2 5\n4 3\n'
    same 'any order of variables' 'aag 9 2 1 2 0\n18\n4\n12 19\n5\n13\n'
    same 'large variables beside a small one' 'aag 2000000 2 1 1 0\n2000000\n2\n4000000 4000001\n3\n'
    same 'an output given twice' 'aag 1 1 0 2 0\n2\n2\n2\n'
}

rows_lenient() {
    accepts 'leading zero, spaces, CR LF, no LF at the end' 'aag 01  1 0 1 0 \r\n2\r\n3' 'aag 1 1 0 1 0\n2\n3\n'
    accepts 'more than one space' 'aag   1    1  0 0  0\n2\n' 'aag 1 1 0 0 0\n2\n'
    accepts 'more than one space in a latch' 'aag 1 0 1 0 0\n2    3\n' 'aag 1 0 1 0 0\n2 3\n'
    accepts 'spaces, then CR LF, in each section' 'aag 3 1 1 2 0  \r\n6 \r\n2 7   \r\n2 \r\n0  \r\n' 'aag 3 1 1 2 0\n6\n2 7\n2\n0\n'
    accepts 'spaces, then LF, in each section' 'aag 3 1 1 2 0  \n6 \n2 7   \n2 \n0  \n' 'aag 3 1 1 2 0\n6\n2 7\n2\n0\n'
    accepts 'CR LF alone' 'aag 3 1 1 2 0\r\n6\r\n2 7\r\n2\r\n0\r\n' 'aag 3 1 1 2 0\n6\n2 7\n2\n0\n'
    accepts 'a header without LF' 'aag 0 0 0 0 0' 'aag 0 0 0 0 0\n'
    accepts 'a header with spaces and without LF' 'aag 0 0 0 0 0  ' 'aag 0 0 0 0 0\n'
    accepts 'a last line with spaces and without LF' 'aag 1 0 1 0 0\n2 3  ' 'aag 1 0 1 0 0\n2 3\n'
    accepts 'leading zeros in each section' 'aag 003 01 0001 02 00\n06\n002 07\n0002\n000\n' 'aag 3 1 1 2 0\n6\n2 7\n2\n0\n'
    accepts 'leading zeros, spaces and CR LF in a latch' 'aag 1 0 1 0 0\n002    03  \r\n' 'aag 1 0 1 0 0\n2 3\n'
    accepts 'four hundred leading zeros' "aag 1 1 0 0 0\n$(digits 400 0)2\n" 'aag 1 1 0 0 0\n2\n'
    accepts 'four hundred leading zeros in the header' "aag $(digits 400 0)1 0 0 0 $(digits 400 0)\n" 'aag 1 0 0 0 0\n'
}

rows_header() {
    refuses 'an empty file' '' 'line 1: not an AIGER file'
    refuses 'an empty first line' '\naag 0 0 0 0 0\n' 'line 1: not an AIGER file'
    refuses 'a first line that is CR LF' '\r\naag 0 0 0 0 0\n' 'line 1: not an AIGER file'
    refuses 'a space first' ' aag 0 0 0 0 0\n' 'line 1: not an AIGER file'
    refuses 'a TAB after the first word' 'aag\t0 0 0 0 0\n' 'line 1: not an AIGER file'
    refuses 'a short first word' 'aa' 'line 1: not an AIGER file'
    refuses 'a long first word' 'aagg 0 0 0 0 0\n' 'line 1: not an AIGER file'
    refuses 'capital letters' 'AAG 0 0 0 0 0\n' 'line 1: not an AIGER file'
    refuses 'bytes of a compressed file' '\0037\0213\0010\0000' 'line 1: not an AIGER file'
    refuses 'the first word alone' 'aag' 'line 1: bad header'
    refuses 'the first word and LF' 'aag\n' 'line 1: bad header'
    refuses 'the first word and CR LF' 'aag\r\n' 'line 1: bad header'
    refuses 'the first word and CR' 'aag\r' 'line 1: bad header'
    refuses 'four numbers' 'aag 0 0 0 0\n' 'line 1: bad header'
    refuses 'ten numbers' 'aag 0 0 0 0 0 0 0 0 0 0\n' 'line 1: bad header'
    refuses 'a sign' 'aag 0 0 0 0 -0\n' 'line 1: bad header'
    refuses 'a plus' 'aag +0 0 0 0 0\n' 'line 1: bad header'
    refuses 'a TAB between numbers' 'aag 0 0\t0 0 0\n' 'line 1: bad header'
    refuses 'a word after the numbers' 'aag 0 0 0 0 0 x\n' 'line 1: bad header'
    refuses 'letters right after a number' 'aag 0 0 0 0 0x\n' 'line 1: bad header'
    refuses 'counts above the largest index' 'aag 1 1 1 0 0\n2\n4 2\n' 'line 1: bad header'
    refuses 'more inputs than variables' 'aag 0 1 0 0 0\n2\n' 'line 1: bad header'
    refuses 'more gates than variables' 'aag 0 0 0 0 1\n' 'line 1: bad header'
    refuses 'counts whose sum passes 32 bits' 'aag 2147483647 2147483647 2147483647 0 2\n' 'line 1: bad header'
    refuses 'a largest index above the limit' 'aag 2147483648 0 0 0 0\n' 'line 1: number above the limit'
    refuses 'inputs above the limit' 'aag 1 2147483648 0 0 0\n' 'line 1: number above the limit'
    refuses 'latches above the limit' 'aag 1 0 2147483648 0 0\n' 'line 1: number above the limit'
    refuses 'outputs above the limit' 'aag 1 0 0 2147483648 0\n' 'line 1: number above the limit'
    refuses 'gates above the limit' 'aag 1 0 0 0 2147483648\n' 'line 1: number above the limit'
    refuses 'an index of 2^32' 'aag 4294967296 0 0 0 0\n' 'line 1: number above the limit'
    refuses 'an index of 2^32 + 1' 'aag 4294967297 0 0 0 0\n' 'line 1: number above the limit'
    refuses 'an index of 2^64' 'aag 18446744073709551616 0 0 0 0\n' 'line 1: number above the limit'
    refuses 'a count of 2^64' 'aag 0 18446744073709551616 0 0 0\n' 'line 1: number above the limit'
    refuses 'an index of 400 digits' "aag $(digits 400 9) 0 0 0 0\n" 'line 1: number above the limit'
    refuses 'the form of the header before its limit' 'aag 99999999999 0 0 0 x\n' 'line 1: bad header'
    refuses 'the limit before the counts' 'aag 1 99999999999 0 0 0\n' 'line 1: number above the limit'
}

rows_lines() {
    refuses 'a missing latch' 'aag 2 1 1 0 0\n2\n' 'line 3: file ends too early'
    refuses 'a missing input' 'aag 1 1 0 0 0' 'line 2: file ends too early'
    refuses 'a missing output' 'aag 0 0 0 2 0\n0' 'line 3: file ends too early'
    refuses 'a header alone that asks for all inputs' 'aag 2147483647 2147483647 0 0 0\n' 'line 2: file ends too early'
    refuses 'a header alone that asks for all latches' 'aag 2147483647 0 2147483647 0 0\n' 'line 2: file ends too early'
    refuses 'a header alone that asks for all outputs' 'aag 0 0 0 2147483647 0\n' 'line 2: file ends too early'
    refuses 'an empty line' 'aag 1 1 0 0 0\n\n' 'line 2: bad line'
    refuses 'a line that is CR LF' 'aag 1 1 0 0 0\n\r\n' 'line 2: bad line'
    refuses 'a line of spaces' 'aag 1 1 0 0 0\n  \n' 'line 2: bad line'
    refuses 'an earlier bad line before a later missing one' 'aag 2 2 0 0 0\nx\n' 'line 2: bad line'
    refuses 'an earlier wrong literal before a later bad line' 'aag 2 2 0 0 0\n8\nx\n' 'line 2: literal out of range'
    refuses 'two numbers for an input' 'aag 1 1 0 0 0\n2 2\n' 'line 2: bad line'
    refuses 'one number for a latch' 'aag 1 0 1 0 0\n2\n' 'line 2: bad line'
    refuses 'four numbers for a latch' 'aag 1 0 1 0 0\n2 3 0 0\n' 'line 2: bad line'
    refuses 'two numbers for an output' 'aag 0 0 0 1 0\n0 0\n' 'line 2: bad line'
    refuses 'a space first in a line' 'aag 1 1 0 0 0\n 2\n' 'line 2: bad line'
    refuses 'a TAB in a latch' 'aag 1 0 1 0 0\n2\t3\n' 'line 2: bad line'
    refuses 'a letter in a number' 'aag 1 1 0 0 0\n2a\n' 'line 2: bad line'
    refuses 'a negative number' 'aag 1 1 0 0 0\n-2\n' 'line 2: bad line'
    refuses 'a byte NUL' 'aag 1 1 0 0 0\n2\0000\n' 'line 2: bad line'
    refuses 'a byte above 127' 'aag 1 1 0 0 0\n\0377\n' 'line 2: bad line'
    refuses 'a bad third section' 'aag 3 1 1 2 0\n6\n2 7\n2\n-\n' 'line 5: bad line'
}

rows_literals() {
    refuses 'an odd input' 'aag 1 1 0 0 0\n3\n' 'line 2: not a variable'
    refuses 'the input 0' 'aag 1 1 0 0 0\n0\n' 'line 2: not a variable'
    refuses 'the input 1' 'aag 1 1 0 0 0\n1\n' 'line 2: not a variable'
    refuses 'the latch 0' 'aag 1 0 1 0 0\n00 0\n' 'line 2: not a variable'
    refuses 'an output out of range' 'aag 1 0 0 1 0\n4\n' 'line 2: literal out of range'
    refuses 'an output out of range where there is no variable' 'aag 0 0 0 1 0\n2\n' 'line 2: literal out of range'
    refuses 'an input out of range' 'aag 1 1 0 0 0\n4\n' 'line 2: literal out of range'
    refuses 'a latch out of range' 'aag 1 0 1 0 0\n4 0\n' 'line 2: literal out of range'
    refuses 'a next literal out of range' 'aag 1 0 1 0 0\n2 4\n' 'line 2: literal out of range'
    refuses 'an odd latch before a next literal out of range' 'aag 1 0 1 0 0\n3 9\n' 'line 2: not a variable'
    refuses 'the form before an odd latch' 'aag 1 0 1 0 0\n3 x\n' 'line 2: bad line'
    refuses 'the form before the range' 'aag 1 0 1 0 0\n9999999999 x\n' 'line 2: bad line'
    refuses 'an output of 2^32' 'aag 2147483647 0 0 1 0\n4294967296\n' 'line 2: literal out of range'
    refuses 'a next literal of 2^32' 'aag 1 0 1 0 0\n2 4294967296\n' 'line 2: literal out of range'
    refuses 'an input of 2^64 + 2' 'aag 1 1 0 0 0\n18446744073709551618\n' 'line 2: literal out of range'
    refuses 'an input of 2^64 + 1' 'aag 1 1 0 0 0\n18446744073709551617\n' 'line 2: not a variable'
    refuses 'an output of 2^64' 'aag 0 0 0 1 0\n18446744073709551616\n' 'line 2: literal out of range'
    refuses 'an odd input of 400 digits' "aag 1 1 0 0 0\n$(digits 400 9)\n" 'line 2: not a variable'
    refuses 'an even input of 400 digits' "aag 1 1 0 0 0\n$(digits 400 8)\n" 'line 2: literal out of range'
    refuses 'an output of 400 digits' "aag 0 0 0 1 0\n$(digits 400 9)\n" 'line 2: literal out of range'
}

rows_ends() {
    refuses 'a CR that ends the file, in the header' 'aag 0 0 0 0 0\r' 'line 1: bad header'
    refuses 'a CR that ends the file, in a line' 'aag 1 1 0 0 0\n2\r' 'line 2: bad line'
    refuses 'CR, space, LF in the header' 'aag 0 0 0 0 0\r \n' 'line 1: bad header'
    refuses 'CR, space, LF in a line' 'aag 1 1 0 0 0\n2\r \n' 'line 2: bad line'
    refuses 'CR, CR, LF in the header' 'aag 0 0 0 0 0\r\r\n' 'line 1: bad header'
    refuses 'CR, CR, LF in a line' 'aag 1 1 0 0 0\n2\r\r\n' 'line 2: bad line'
    refuses 'a CR between numbers' 'aag 1 0 1 0 0\n2\r3\n' 'line 2: bad line'
    refuses 'a CR first in a line' 'aag 1 1 0 0 0\n\r2\n' 'line 2: bad line'
    refuses 'a TAB at the end of a line' 'aag 1 1 0 0 0\n2\t\n' 'line 2: bad line'

    # texts, cut after each of their bytes
    local text='aag 2 1 0 1 1\n2\n4\n4 2 2\n' cut answer plain
    plain=$(printf '%b.' "$text")
    for ((cut = 3; cut <= 24; cut++)); do
        case $cut in
            3 | 4 | 5 | 6 | 7 | 8 | 9 | 10 | 11 | 12) answer='line 1: bad header' ;;
            13 | 14) answer='line 2: file ends too early' ;;
            15 | 16) answer='line 3: file ends too early' ;;
            17 | 18) answer='line 4: file ends too early' ;;
            19 | 20 | 21 | 22) answer='line 4: bad line' ;;
            *) answer='' ;;
        esac
        if [ -n "$answer" ]; then
            refuses "a gate cut after $cut bytes" "${plain:0:cut}" "$answer"
        else
            accepts "a gate cut after $cut bytes" "${plain:0:cut}" "$text"
        fi
    done
    text='aag 3 1 1 2 0\n6\n2 7\n2\n0\n'
    plain=$(printf '%b.' "$text")
    for ((cut = 0; cut <= 24; cut++)); do
        case $cut in
            0 | 1 | 2) answer='line 1: not an AIGER file' ;;
            3 | 4 | 5 | 6 | 7 | 8 | 9 | 10 | 11 | 12) answer='line 1: bad header' ;;
            13 | 14) answer='line 2: file ends too early' ;;
            15 | 16) answer='line 3: file ends too early' ;;
            17 | 18) answer='line 3: bad line' ;;
            19 | 20) answer='line 4: file ends too early' ;;
            21 | 22) answer='line 5: file ends too early' ;;
            *) answer='' ;;
        esac
        if [ -n "$answer" ]; then
            refuses "cut after $cut bytes" "${plain:0:cut}" "$answer"
        else
            accepts "cut after $cut bytes" "${plain:0:cut}" "$text"
        fi
    done
}

rows_structure() {
    refuses 'an output that is not defined' 'aag 2 1 0 1 0\n2\n4\n' 'literal 4 not defined'
    refuses 'a negated output that is not defined' 'aag 2 1 0 1 0\n2\n5\n' 'literal 5 not defined'
    refuses 'next literals before outputs' 'aag 3 0 1 1 0\n2 5\n6\n' 'literal 5 not defined'
    refuses 'the first of two outputs' 'aag 3 0 0 2 0\n7\n4\n' 'literal 7 not defined'
    refuses 'the first output that is not defined' 'aag 2 1 0 3 0\n2\n2\n4\n5\n' 'literal 4 not defined'
    refuses 'a literal not defined after constants' 'aag 4 1 1 3 0\n2\n4 1\n0\n9\n7\n' 'literal 9 not defined'
    refuses 'a large literal that is not defined' 'aag 2000000 1 0 3 0\n2\n2\n4000001\n9\n' 'literal 4000001 not defined'
    refuses 'an input given twice, and a literal not defined' 'aag 2 2 0 1 0\n2\n2\n4\n' 'variable 1 defined twice'
    refuses 'an input given twice, and a next literal not defined' 'aag 4 2 1 1 0\n2\n2\n4 9\n6\n' 'variable 1 defined twice'
    refuses 'the first repeat, in the order of the file' 'aag 4 4 0 0 0\n2\n4\n4\n2\n' 'variable 2 defined twice'
    refuses 'an input that is a latch too' 'aag 2 1 1 0 0\n2\n2 0\n' 'variable 1 defined twice'
    refuses 'the first latch that is an input too' 'aag 4 2 2 0 0\n2\n4\n4 0\n2 0\n' 'variable 2 defined twice'
    refuses 'a latch given twice before one that is an input too' 'aag 4 1 3 0 0\n2\n6 0\n6 0\n2 0\n' 'variable 3 defined twice'
    refuses 'a large variable in two sections' 'aag 1000000 2 2 0 0\n2\n2000000\n4 0\n2000000 0\n' 'variable 1000000 defined twice'
    refuses 'a latch given twice' 'aag 7 0 2 0 0\n14 0\n14 1\n' 'variable 7 defined twice'
    refuses 'the largest variable twice' 'aag 2147483647 2 0 0 0\n4294967294\n4294967294\n' 'variable 2147483647 defined twice'
    refuses 'a bad line before a variable defined twice' 'aag 2 2 0 1 0\n2\n2\nx\n' 'line 4: bad line'
    refuses 'a missing line before a variable defined twice' 'aag 2 2 0 1 0\n2\n2\n' 'line 4: file ends too early'
}

rows_tail() {
    same 'symbols in their order, and a comment without LF' 'aag 1 1 0 1 0\n2\n2\no0 b\ni0 a\nc\nx'
    same 'a symbol of each kind' 'aag 3 1 1 2 0\n6\n2 7\n2\n0\ni0 in\nl0 latch\no1 second\no0 first\n'
    same 'symbols that share a name' 'aag 2 2 0 0 0\n2\n4\ni1 a\ni0 a\n'
    same 'an empty name' 'aag 1 1 0 0 0\n2\ni0 \n'
    same 'a name of spaces' 'aag 1 1 0 0 0\n2\ni0   \n'
    same 'a name that begins with a space' 'aag 1 1 0 0 0\n2\ni0  a\n'
    same 'a name whose last byte is CR' 'aag 1 1 0 0 0\n2\ni0 a\r\n'
    same 'a name of any bytes' 'aag 1 1 0 0 0\n2\ni0 \0000\0001\t\0200\0377c\n'
    accepts 'a symbol without LF' 'aag 1 1 0 0 0\n2\ni0 a' 'aag 1 1 0 0 0\n2\ni0 a\n'
    accepts 'an empty name without LF' 'aag 1 1 0 0 0\n2\ni0 ' 'aag 1 1 0 0 0\n2\ni0 \n'
    accepts 'a CR that ends the file, in a name' 'aag 1 1 0 0 0\n2\ni0 a\r' 'aag 1 1 0 0 0\n2\ni0 a\r\n'
    accepts 'leading zeros of a position' 'aag 1 1 0 0 0\n2\ni000 a\n' 'aag 1 1 0 0 0\n2\ni0 a\n'
    accepts 'four hundred leading zeros of a position' "aag 0 0 0 2 0\n0\n1\no$(digits 400 0)1 a\n" 'aag 0 0 0 2 0\n0\n1\no1 a\n'
    same 'an empty comment' 'aag 0 0 0 0 0\nc\n'
    same 'a comment' 'aag 0 0 0 0 0\nc\nhello\n'
    same 'a comment that looks like a tail' 'aag 1 1 0 0 0\n2\nc\ni0 a\ni0 a\nc\n\n'
    same 'a comment of any bytes' 'aag 0 0 0 0 0\nc\n\0000\r\n\r\n\n\0377\0000'
    accepts 'the line c without LF' 'aag 0 0 0 0 0\nc' 'aag 0 0 0 0 0\nc\n'
    accepts 'the line c with CR LF' 'aag 0 0 0 0 0\nc\r\nx\r\n' 'aag 0 0 0 0 0\nc\nx\r\n'
    accepts 'the line c with spaces' 'aag 0 0 0 0 0\nc  \r\nx' 'aag 0 0 0 0 0\nc\nx'
    accepts 'the line c with spaces and without LF' 'aag 0 0 0 0 0\nc  ' 'aag 0 0 0 0 0\nc\n'

    refuses 'an empty line at the end' 'aag 0 0 0 0 0\n\n' 'line 2: bad symbol line'
    refuses 'an empty line between symbols' 'aag 1 1 0 0 0\n2\n\ni0 a\n' 'line 3: bad symbol line'
    refuses 'a line CR LF at the end' 'aag 0 0 0 0 0\n\r\n' 'line 2: bad symbol line'
    refuses 'another letter' 'aag 1 1 0 0 0\n2\nx\n' 'line 3: bad symbol line'
    refuses 'a capital letter' 'aag 1 1 0 0 0\n2\nI0 a\n' 'line 3: bad symbol line'
    refuses 'a number too many' 'aag 1 1 0 0 0\n2\n2\n' 'line 3: bad symbol line'
    refuses 'a letter alone' 'aag 1 1 0 0 0\n2\ni\n' 'line 3: bad symbol line'
    refuses 'no position' 'aag 1 1 0 0 0\n2\ni a\n' 'line 3: bad symbol line'
    refuses 'no space after the position' 'aag 1 1 0 0 0\n2\ni0\n' 'line 3: bad symbol line'
    refuses 'no space after the position, nor LF' 'aag 1 1 0 0 0\n2\ni0' 'line 3: bad symbol line'
    refuses 'a CR after the position' 'aag 1 1 0 0 0\n2\ni0\r\n' 'line 3: bad symbol line'
    refuses 'a TAB after the position' 'aag 1 1 0 0 0\n2\ni0\ta\n' 'line 3: bad symbol line'
    refuses 'a letter after the position' 'aag 1 1 0 0 0\n2\ni0a b\n' 'line 3: bad symbol line'
    refuses 'a space before the letter' 'aag 1 1 0 0 0\n2\n i0 a\n' 'line 3: bad symbol line'
    refuses 'a space before the position' 'aag 1 1 0 0 0\n2\ni 0 a\n' 'line 3: bad symbol line'
    refuses 'a sign in a position' 'aag 1 1 0 0 0\n2\ni-0 a\n' 'line 3: bad symbol line'
    refuses 'c with a position, and no name' 'aag 1 1 0 0 0\n2\nc0\n' 'line 3: bad symbol line'
    refuses 'a word after c' 'aag 0 0 0 0 0\nc x\n' 'line 2: bad symbol line'
    refuses 'a TAB after c' 'aag 0 0 0 0 0\nc\t\n' 'line 2: bad symbol line'
    refuses 'c, CR and the end of the file' 'aag 0 0 0 0 0\nc\r' 'line 2: bad symbol line'
    refuses 'c, CR, space, LF' 'aag 0 0 0 0 0\nc\r \n' 'line 2: bad symbol line'
    refuses 'c, CR, CR, LF' 'aag 0 0 0 0 0\nc\r\r\n' 'line 2: bad symbol line'
    refuses 'a position that no input has' 'aag 1 1 0 0 0\n2\ni1 a\n' 'line 3: symbol position out of range'
    refuses 'a position that no latch has' 'aag 2 1 1 0 0\n2\n4 2\nl1 a\n' 'line 4: symbol position out of range'
    refuses 'a position that no output has' 'aag 2 2 0 1 0\n2\n4\n2\no1 a\n' 'line 5: symbol position out of range'
    refuses 'a symbol of an empty section' 'aag 1 1 0 0 0\n2\no0 a\n' 'line 3: symbol position out of range'
    refuses 'a position of 2^32' 'aag 1 1 0 0 0\n2\ni4294967296 a\n' 'line 3: symbol position out of range'
    refuses 'a position of 2^64' 'aag 1 1 0 0 0\n2\ni18446744073709551616 a\n' 'line 3: symbol position out of range'
    refuses 'a position of 400 digits' "aag 1 1 0 0 0\n2\ni$(digits 400 9) a\n" 'line 3: symbol position out of range'
    refuses 'an input named twice' 'aag 1 1 0 0 0\n2\ni0 a\ni0 a\n' 'line 4: symbol given twice'
    refuses 'an output named twice, with leading zeros' 'aag 0 0 0 2 0\n0\n1\no1 a\no0 b\no01 c\n' 'line 6: symbol given twice'
    refuses 'a latch named twice' 'aag 1 0 1 0 0\n2 3\nl0 a\nl0 b\n' 'line 4: symbol given twice'
    same 'one position in each kind' 'aag 2 1 1 1 0\n2\n4 2\n4\ni0 a\nl0 a\no0 a\n'
    refuses 'the form of a symbol before its position' 'aag 1 1 0 0 0\n2\ni9\n' 'line 3: bad symbol line'
    refuses 'the first of two bad lines' 'aag 1 1 0 0 0\n2\ni1 a\nx\n' 'line 3: symbol position out of range'
    refuses 'a bad symbol line before a literal not defined' 'aag 2 1 0 1 0\n2\n4\nx\n' 'line 4: bad symbol line'
    refuses 'a symbol given twice before a variable defined twice' 'aag 2 2 0 0 0\n2\n2\ni0 a\ni0 a\n' 'line 5: symbol given twice'
    refuses 'a literal not defined, with a comment' 'aag 2 1 0 1 0\n2\n4\nc\n' 'literal 4 not defined'
    refuses 'a variable defined twice, with a symbol' 'aag 2 2 0 0 0\n2\n2\ni0 a\n' 'variable 1 defined twice'
    refuses 'a bad line before the tail' 'aag 1 1 0 0 0\n3\nc\n' 'line 2: not a variable'
}

rows_gates() {
    same 'a gate' 'aag 3 2 0 1 1\n2\n4\n6\n6 2 4\n'
    same 'gates that name later gates' 'aag 5 2 0 2 3\n2\n4\n10\n6\n6 4 2\n8 5 3\n10 9 7\n'
    same 'gates in any order, operands in any order' 'aag 5 2 0 1 3\n2\n4\n10\n10 7 8\n8 3 5\n6 2 4\n'
    same 'a gate before the one that it names' 'aag 3 1 0 0 2\n2\n6 4 2\n4 2 3\n'
    same 'equal operands and constants' 'aag 4 1 0 0 3\n2\n4 2 2\n6 0 1\n8 4 5\n'
    same 'a cycle through a latch' 'aag 2 0 1 1 1\n2 4\n4\n4 2 3\n'
    same 'gates, symbols and a comment' 'aag 3 2 0 1 1\n2\n4\n7\n6 4 2\no0 nand\ni1 b\nc\nx'
    same 'gates of large variables' 'aag 2147483647 1 0 1 2\n2\n4294967294\n4294967294 4294967293 3\n4294967292 2 2\n'
    same 'a gate that nothing uses' 'aag 9 1 0 0 1\n2\n18 2 1\n'
    accepts 'lenient gates' 'aag 3 1 0 1 1\n2\n6\n06  2   3 \r\n' 'aag 3 1 0 1 1\n2\n6\n6 2 3\n'
    accepts 'a last gate without LF' 'aag 3 1 0 0 1\n2\n6 2 3' 'aag 3 1 0 0 1\n2\n6 2 3\n'
    refuses 'a missing gate' 'aag 2 1 0 0 1\n2\n' 'line 3: file ends too early'
    refuses 'the second of two gates missing' 'aag 3 1 0 0 2\n2\n4 2 2\n' 'line 4: file ends too early'
    refuses 'a header alone that asks for all gates' 'aag 2147483647 0 0 0 2147483647\n' 'line 2: file ends too early'
    refuses 'two numbers for a gate' 'aag 2 1 0 0 1\n2\n4 2\n' 'line 3: bad line'
    refuses 'four numbers for a gate' 'aag 2 1 0 0 1\n2\n4 2 2 2\n' 'line 3: bad line'
    refuses 'a letter in a gate' 'aag 2 1 0 0 1\n2\n4 2 x\n' 'line 3: bad line'
    refuses 'an odd gate' 'aag 2 1 0 0 1\n2\n5 2 2\n' 'line 3: not a variable'
    refuses 'the gate 0' 'aag 2 1 0 0 1\n2\n0 2 2\n' 'line 3: not a variable'
    refuses 'a gate out of range' 'aag 2 1 0 0 1\n2\n6 2 2\n' 'line 3: literal out of range'
    refuses 'a left operand out of range' 'aag 2 1 0 0 1\n2\n4 6 2\n' 'line 3: literal out of range'
    refuses 'a right operand out of range' 'aag 2 1 0 0 1\n2\n4 2 7\n' 'line 3: literal out of range'
    refuses 'an odd gate before operands out of range' 'aag 2 1 0 0 1\n2\n5 9 9\n' 'line 3: not a variable'
    refuses 'a gate given twice' 'aag 3 1 0 0 2\n2\n4 2 2\n4 2 3\n' 'variable 2 defined twice'
    refuses 'a gate that is an input too' 'aag 2 1 0 0 1\n2\n2 2 2\n' 'variable 1 defined twice'
    refuses 'a gate that is a latch too' 'aag 3 1 1 0 1\n2\n4 2\n4 2 2\n' 'variable 2 defined twice'
    refuses 'a left operand that is not defined' 'aag 4 1 0 0 1\n2\n4 6 8\n' 'literal 6 not defined'
    refuses 'a right operand that is not defined' 'aag 4 1 0 0 1\n2\n4 2 9\n' 'literal 9 not defined'
    refuses 'an output before an operand' 'aag 5 1 0 1 1\n2\n10\n4 6 8\n' 'literal 10 not defined'
    cyclic 'a gate of itself' 'aag 1 0 0 0 1\n2 2 2\n' 2
    cyclic 'a gate of its own negation' 'aag 2 1 0 0 1\n2\n4 2 5\n' 4
    cyclic 'two gates of one another' 'aag 3 1 0 0 2\n2\n4 6 2\n6 4 2\n' 4
    cyclic 'a gate that only depends on a cycle' 'aag 4 1 0 0 3\n2\n4 6 2\n6 8 2\n8 6 2\n' 4
    cyclic 'the first in the file, not the least' 'aag 4 1 0 0 3\n2\n8 6 2\n6 8 2\n4 2 2\n' 8
    cyclic 'a cycle behind a gate that is right' 'aag 4 1 0 0 3\n2\n4 2 2\n6 8 4\n8 6 4\n' 6
    cyclic 'a cycle of large variables' 'aag 2147483647 0 0 0 2\n4294967294 4294967292 1\n4294967292 4294967294 1\n' 4294967294
    cyclic 'a gate that is its own left operand' 'aag 2 1 0 0 1\n2\n4 4 2\n' 4
    cyclic 'a gate that is its own right operand' 'aag 2 1 0 0 1\n2\n4 2 4\n' 4
    cyclic 'a cycle of equal operands' 'aag 4 1 0 0 3\n2\n4 6 6\n6 8 8\n8 6 6\n' 4
    cyclic 'a cycle a long way from the first gate' 'aag 6 1 0 0 5\n2\n4 6 2\n6 8 2\n8 10 2\n10 12 2\n12 10 2\n' 4
    cyclic 'a cycle on the right, behind a left operand that is right' 'aag 5 1 0 0 4\n2\n4 6 8\n6 2 2\n8 10 2\n10 8 2\n' 4
    cyclic 'a gate of itself and of gates that are right' 'aag 4 1 0 0 3\n2\n6 4 2\n4 2 3\n8 6 8\n' 8
    cyclic 'a cycle through a gate that two others use' 'aag 5 1 0 0 4\n2\n4 2 2\n6 4 10\n8 4 10\n10 8 4\n' 6
    same 'gates of equal operands before those' 'aag 4 1 0 0 3\n2\n8 6 6\n6 4 4\n4 2 2\n'
    same 'a gate on two ways from the first one' 'aag 6 1 0 0 5\n2\n12 10 8\n10 6 4\n8 6 4\n6 4 2\n4 2 2\n'
    refuses 'a variable defined twice before a cycle' 'aag 3 1 0 0 2\n2\n4 4 2\n4 2 2\n' 'variable 2 defined twice'
    refuses 'a literal not defined before a cycle' 'aag 3 0 0 0 2\n4 4 4\n2 6 6\n' 'literal 6 not defined'
    refuses 'a bad symbol line before a cycle' 'aag 1 0 0 0 1\n2 2 2\nx\n' 'line 3: bad symbol line'
}

# Binary files. Each gate has two deltas: how much its first operand is below its own literal, and the second one below the
# first.
rows_binary() {
    accepts 'the empty circuit in binary' 'aig 0 0 0 0 0\n' 'aag 0 0 0 0 0\n'
    accepts 'a half adder in binary' \
        'aig 5 2 0 2 3\n10\n6\n\x02\x02\x03\x02\x01\x02i0 x\ni1 y\no0 s\no1 c\nc\nhalf adder\n' \
        'aag 5 2 0 2 3\n2\n4\n10\n6\n6 4 2\n8 5 3\n10 9 7\ni0 x\ni1 y\no0 s\no1 c\nc\nhalf adder\n'
    accepts 'inputs that are not listed' 'aig 3 3 0 0 0\n' 'aag 3 3 0 0 0\n2\n4\n6\n'
    accepts 'a toggle in binary' 'aig 1 0 1 2 0\n3\n2\n3\n' 'aag 1 0 1 2 0\n2 3\n2\n3\n'
    accepts 'latches after inputs' 'aig 3 1 2 0 0\n6\n4\n' 'aag 3 1 2 0 0\n2\n4 6\n6 4\n'
    accepts 'a gate of a constant' 'aig 1 0 0 0 1\n\x02\x00' 'aag 1 0 0 0 1\n2 0 0\n'
    accepts 'a gate of both constants' 'aig 1 0 0 0 1\n\x01\x01' 'aag 1 0 0 0 1\n2 1 0\n'
    accepts 'a gate with the byte of a line feed' 'aig 6 5 0 1 1\n12\n\x0a\x00' \
        'aag 6 5 0 1 1\n2\n4\n6\n8\n10\n12\n12 2 2\n'
    accepts 'a gate that looks like the line c' 'aig 60 59 0 1 1\n120\nc\nc\nx' \
        "aag 60 59 0 1 1\n$(printf '%s\\n' $(seq 2 2 118))120\n120 21 11\nc\nx"
    accepts 'lenient lines in binary' 'aig 01  1 0 1 0 \r\n03 \r\ni00 a\r\nc \r\nx' 'aag 1 1 0 1 0\n2\n3\ni0 a\r\nc\nx'
    accepts 'a last line without LF and no gates' 'aig 1 1 0 1 0\n3' 'aag 1 1 0 1 0\n2\n3\n'
    refuses 'the word alone' 'aig' 'line 1: bad header'
    refuses 'the word and LF' 'aig\n' 'line 1: bad header'
    refuses 'another word' 'aigs 0 0 0 0 0\n' 'line 1: not an AIGER file'
    refuses 'a space before the word' ' aig 0 0 0 0 0\n' 'line 1: not an AIGER file'
    refuses 'a variable that is not used' 'aig 1 0 0 0 0\n' 'line 1: bad header'
    refuses 'fewer variables than definitions' 'aig 1 1 1 0 0\n2\n' 'line 1: bad header'
    refuses 'a binary count above the limit' 'aig 2147483648 0 0 0 0\n' 'line 1: number above the limit'
    refuses 'a limit before the counts' 'aig 1 2147483648 0 0 0\n' 'line 1: number above the limit'
}

rows_deltas() {
    accepts 'padded deltas' 'aig 1 0 0 0 1\n\x81\x00\x01' 'aag 1 0 0 0 1\n2 1 0\n'
    accepts 'deltas of five bytes' 'aig 1 0 0 0 1\n\x81\x80\x80\x80\x00\x80\x80\x80\x80\x00' 'aag 1 0 0 0 1\n2 1 1\n'
    accepts 'a delta of two bytes' "aig 65 64 0 0 1\n\x80\x01\x02" \
        "aag 65 64 0 0 1\n$(printf '%s\\n' $(seq 2 2 128))130 2 0\n"
    refuses 'a first delta of 0' 'aig 1 0 0 0 1\n\x00\x00' 'gate 1: bad delta'
    refuses 'a first delta of 0 at the end' 'aig 1 0 0 0 1\n\x00' 'gate 1: bad delta'
    refuses 'a padded first delta of 0' 'aig 1 0 0 0 1\n\x80\x00\x00' 'gate 1: bad delta'
    refuses 'a first delta above its gate' 'aig 1 0 0 0 1\n\x03\x00' 'gate 1: bad delta'
    refuses 'a second delta above the first operand' 'aig 1 0 0 0 1\n\x02\x01' 'gate 1: bad delta'
    refuses 'a wrong delta of the second gate' 'aig 2 0 0 0 2\n\x01\x00\x04\x01' 'gate 2: bad delta'
    refuses 'a missing second delta' 'aig 1 0 0 0 1\n\x01' 'gate 1: file ends too early'
    refuses 'a missing second gate' 'aig 2 0 0 0 2\n\x01\x00' 'gate 2: file ends too early'
    refuses 'a first delta without its end' 'aig 1 0 0 0 1\n\x80' 'gate 1: file ends too early'
    refuses 'four bytes and no end' 'aig 1 0 0 0 1\n\x80\x80\x80\x80' 'gate 1: file ends too early'
    refuses 'five bytes and no end' 'aig 1 0 0 0 1\n\x80\x80\x80\x80\x80' 'gate 1: bad delta'
    refuses 'a delta of six bytes' 'aig 1 0 0 0 1\n\x81\x80\x80\x80\x80\x00\x00' 'gate 1: bad delta'
    refuses 'a second delta of six bytes' 'aig 1 0 0 0 1\n\x01\x80\x80\x80\x80\x80\x00' 'gate 1: bad delta'
    refuses 'a delta of 2^32' 'aig 1 0 0 0 1\n\x80\x80\x80\x80\x10\x00' 'gate 1: bad delta'
    refuses 'a header alone that asks for all binary gates' 'aig 2147483647 0 0 0 2147483647\n' 'gate 1: file ends too early'
}

# deltas of one to five bytes where the file ends, and cut before their last byte
rows_delta_lengths() {
    local bytes open='' first='\x01'
    for bytes in 1 2 3 4 5; do
        accepts "a first delta of $bytes bytes" "aig 1 0 0 0 1\n$first\x01" 'aag 1 0 0 0 1\n2 1 0\n'
        refuses "a first delta of $bytes bytes at the end" "aig 1 0 0 0 1\n$first" 'gate 1: file ends too early'
        accepts "a last delta of $bytes bytes" "aig 1 0 0 0 1\n\x01$open\x00" 'aag 1 0 0 0 1\n2 1 1\n'
        refuses "a last delta of $bytes bytes that is cut" "aig 1 0 0 0 1\n\x01$open" 'gate 1: file ends too early'
        first="\x81$open\x00"
        open="$open\x80"
    done
    images 'a delta of three bytes' 'aig 8193 8192 0 0 1\n\x81\x80\x01\x01' 'aig 8193 8192 0 0 1\n\x81\x80\x01\x01'
    images 'a last delta of three bytes' 'aig 8194 8193 0 0 1\n\x01\x83\x80\x01' 'aig 8194 8193 0 0 1\n\x01\x83\x80\x01'
    images 'a delta of four bytes' 'aig 1048577 1048576 0 0 1\n\x81\x80\x80\x01\x01' \
        'aig 1048577 1048576 0 0 1\n\x81\x80\x80\x01\x01'
}

rows_binary_lines() {
    refuses 'a next literal out of range' 'aig 1 0 1 0 0\n4\n' 'line 2: literal out of range'
    refuses 'three numbers for a latch in binary' 'aig 1 0 1 0 0\n2 0 0\n' 'line 2: bad line'
    refuses 'an output out of range in binary' 'aig 1 1 0 1 0\n4\n' 'line 2: literal out of range'
    refuses 'a missing latch line' 'aig 1 0 1 0 0' 'line 2: file ends too early'
    refuses 'a missing output line' 'aig 1 0 1 1 0\n2\n' 'line 3: file ends too early'
    refuses 'a last line without LF before the gates' 'aig 2 1 0 1 1\n4' 'gate 1: file ends too early'
    refuses 'a last line with CR alone before the gates' 'aig 2 1 0 1 1\n4\r' 'line 2: bad line'
    refuses 'a header alone that asks for all binary latches' 'aig 2147483647 0 2147483647 0 0\n' 'line 2: file ends too early'
    refuses 'many inputs and a line that is missing' 'aig 2147483647 2147483647 0 1 0\n' 'line 2: file ends too early'
    refuses 'many inputs and a gate that is missing' 'aig 2147483647 2147483646 0 0 1\n' 'gate 1: file ends too early'
    refuses 'a symbol out of range in binary' 'aig 1 1 0 0 0\ni1 a\n' 'line 2: symbol position out of range'
    refuses 'the second line behind gates' 'aig 2 1 0 1 1\n4\n\x02\x00i0 a\nx\n' 'line 4: bad symbol line'
    refuses 'a line behind gates with line feeds' 'aig 6 5 0 1 1\n12\n\x0a\x00x\n' 'line 3: bad symbol line'
    refuses 'a symbol given twice in binary' 'aig 1 1 0 0 0\ni0 a\ni0 b\n' 'line 3: symbol given twice'
    refuses 'a wrong gate before a wrong tail' 'aig 1 0 0 0 1\n\x03\x00x\n' 'gate 1: bad delta'
}

# the first of the characters, as many as wanted
first_of() { local IFS='' count=$1; shift; printf '%s' "${*:1:count}"; }

# two binary files, cut after each of their bytes
rows_cuts() {
    local -a gate=(a i g ' ' 2 ' ' 1 ' ' 0 ' ' 1 ' ' 1 '\n' 4 '\n' '\x02' '\x00')
    local -a tail=(a i g ' ' 1 ' ' 1 ' ' 0 ' ' 0 ' ' 0 '\n' i 0 ' ' a '\n' c '\n' x)
    local head='aag 1 1 0 0 0\n2\n' count
    for count in 0 1 2; do
        refuses "a file cut after $count" "$(first_of $count "${gate[@]}")" 'line 1: not an AIGER file'
    done
    for count in {3..12}; do
        refuses "a file cut after $count" "$(first_of "$count" "${gate[@]}")" 'line 1: bad header'
        refuses "a file with a tail cut after $count" "$(first_of "$count" "${tail[@]}")" 'line 1: bad header'
    done
    for count in 13 14; do
        refuses "a file cut after $count" "$(first_of $count "${gate[@]}")" 'line 2: file ends too early'
        accepts "a file with a tail cut after $count" "$(first_of $count "${tail[@]}")" "$head"
    done
    for count in 15 16 17; do
        refuses "a file cut after $count" "$(first_of $count "${gate[@]}")" 'gate 1: file ends too early'
    done
    accepts 'the whole file' "$(first_of 18 "${gate[@]}")" 'aag 2 1 0 1 1\n2\n4\n4 2 2\n'
    for count in 15 16; do
        refuses "a file with a tail cut after $count" "$(first_of $count "${tail[@]}")" 'line 2: bad symbol line'
    done
    accepts 'a file with a tail cut after 17' "$(first_of 17 "${tail[@]}")" "${head}i0 \n"
    for count in 18 19; do
        accepts "a file with a tail cut after $count" "$(first_of $count "${tail[@]}")" "${head}i0 a\n"
    done
    for count in 20 21; do
        accepts "a file with a tail cut after $count" "$(first_of $count "${tail[@]}")" "${head}i0 a\nc\n"
    done
    accepts 'the whole file with a tail' "$(first_of 22 "${tail[@]}")" "${head}i0 a\nc\nx"
}

# What version 1.9 added: up to four more counts in the header, resets of latches, and the lines of bad states, constraints,
# justice properties and fairness constraints.
rows_counts() {
    accepts 'nine numbers' 'aag 0 0 0 0 0 0 0 0 0\n' 'aag 0 0 0 0 0\n'
    accepts 'six numbers, the last one 0' 'aag 1 1 0 1 0 0\n2\n2\n' 'aag 1 1 0 1 0\n2\n2\n'
    accepts 'zeros after the last count that is not 0' 'aag 1 1 0 0 0 1 0 0 0\n2\n3\n' 'aag 1 1 0 0 0 1\n2\n3\n'
    accepts 'a zero after seven numbers' 'aag 1 1 0 0 0 0 1 0\n2\n3\n' 'aag 1 1 0 0 0 0 1\n2\n3\n'
    accepts 'leading zeros and spaces in nine numbers' 'aag  1 01 0 0 0  00 0 0  01 \r\n2\n3\n' 'aag 1 1 0 0 0 0 0 0 1\n2\n3\n'
    accepts 'nine numbers without LF' 'aag 0 0 0 0 0 0 0 0 0' 'aag 0 0 0 0 0\n'
    same 'six numbers' 'aag 1 0 1 0 0 1\n2 3\n2\n'
    same 'seven numbers' 'aag 1 0 1 0 0 0 1\n2 3\n2\n'
    same 'eight numbers' 'aag 1 0 1 0 0 0 0 1\n2 3\n0\n'
    same 'nine numbers, the last one not 0' 'aag 1 0 1 0 0 0 0 0 1\n2 3\n2\n'
    same 'more bad states than variables' 'aag 0 0 0 0 0 3\n0\n1\n0\n'
    refuses 'ten numbers, the last one not 0' 'aag 0 0 0 0 0 0 0 0 0 1\n0\n' 'line 1: bad header'
    refuses 'a sign in a ninth number' 'aag 0 0 0 0 0 0 0 0 -0\n' 'line 1: bad header'
    refuses 'a word after nine numbers' 'aag 0 0 0 0 0 0 0 0 0 x\n' 'line 1: bad header'
    refuses 'nine numbers and CR alone' 'aag 0 0 0 0 0 0 0 0 0\r' 'line 1: bad header'
    refuses 'the form of nine numbers before the limit' 'aag 0 0 0 0 0 99999999999 0 0 x\n' 'line 1: bad header'
    refuses 'the limit of a ninth number before the counts' 'aag 0 1 0 0 0 0 0 0 99999999999\n' 'line 1: number above the limit'
    refuses 'the counts, where there are bad states' 'aag 0 1 0 0 0 1\n2\n0\n' 'line 1: bad header'
    local counts
    for counts in '' '0 ' '0 0 ' '0 0 0 '; do
        refuses "a count above the limit after the counts '$counts'" "aag 0 0 0 0 0 ${counts}2147483648\n" 'line 1: number above the limit'
        refuses "a count of 2^64 after the counts '$counts'" "aag 0 0 0 0 0 ${counts}18446744073709551616\n" 'line 1: number above the limit'
        refuses "a count of 400 digits after the counts '$counts'" "aag 0 0 0 0 0 ${counts}$(digits 400 9)\n" 'line 1: number above the limit'
        refuses "a header alone that asks for all after the counts '$counts'" "aag 0 0 0 0 0 ${counts}2147483647\n" 'line 2: file ends too early'
    done
}

rows_resets() {
    accepts 'a reset of 0 is left out' 'aag 1 0 1 0 0\n2 3 0\n' 'aag 1 0 1 0 0\n2 3\n'
    same 'a latch that starts at 1' 'aag 1 0 1 0 0\n2 3 1\n'
    same 'an uninitialised latch' 'aag 1 0 1 0 0\n2 3 2\n'
    same 'latches of each reset' 'aag 3 0 3 0 0\n2 4 1\n4 6\n6 2 6\n'
    same 'the largest variable, uninitialised' 'aag 2147483647 0 1 0 0\n4294967294 1 4294967294\n'
    accepts 'a reset without LF' 'aag 1 0 1 0 0\n2 3 1' 'aag 1 0 1 0 0\n2 3 1\n'
    accepts 'a reset with spaces, leading zeros and CR LF' 'aag 1 0 1 0 0\n2 3   02 \r\n' 'aag 1 0 1 0 0\n2 3 2\n'
    accepts 'four hundred leading zeros of a reset' "aag 1 0 1 0 0\n2 3 $(digits 400 0)1\n" 'aag 1 0 1 0 0\n2 3 1\n'
    accepts 'a reset of four hundred zeros' "aag 1 0 1 0 0\n2 3 $(digits 400 0)\n" 'aag 1 0 1 0 0\n2 3\n'
    refuses 'the literal of an input as reset' 'aag 2 1 1 0 0\n2\n4 3 2\n' 'line 3: bad reset'
    refuses 'the literal of the latch before as reset' 'aag 2 0 2 0 0\n2 3\n4 5 2\n' 'line 3: bad reset'
    refuses 'the literal of the next latch as reset' 'aag 2 0 2 0 0\n2 3 4\n4 5\n' 'line 2: bad reset'
    refuses 'the next literal as reset' 'aag 2 1 1 0 0\n2\n4 2 2\n' 'line 3: bad reset'
    refuses 'the negation of the latch as reset' 'aag 1 0 1 0 0\n2 3 3\n' 'line 2: bad reset'
    refuses 'a reset that is out of range' 'aag 1 0 1 0 0\n2 3 9\n' 'line 2: bad reset'
    refuses 'a reset of 2^32' 'aag 1 0 1 0 0\n2 3 4294967296\n' 'line 2: bad reset'
    refuses 'a reset of 2^32 + 2' 'aag 1 0 1 0 0\n2 3 4294967298\n' 'line 2: bad reset'
    refuses 'a reset of 2^33' 'aag 1 0 1 0 0\n2 3 8589934592\n' 'line 2: bad reset'
    refuses 'a reset of 2^64' 'aag 1 0 1 0 0\n2 3 18446744073709551616\n' 'line 2: bad reset'
    refuses 'a reset of 2^64 + 1' 'aag 1 0 1 0 0\n2 3 18446744073709551617\n' 'line 2: bad reset'
    refuses 'a reset of 2^64 + 2' 'aag 1 0 1 0 0\n2 3 18446744073709551618\n' 'line 2: bad reset'
    refuses 'a reset of 400 digits' "aag 1 0 1 0 0\n2 3 $(digits 400 8)\n" 'line 2: bad reset'
    refuses 'a number after the reset' 'aag 1 0 1 0 0\n2 3 1 0\n' 'line 2: bad line'
    refuses 'a letter in a reset' 'aag 1 0 1 0 0\n2 3 x\n' 'line 2: bad line'
    refuses 'a sign in a reset' 'aag 1 0 1 0 0\n2 3 -1\n' 'line 2: bad line'
    refuses 'a TAB before a reset' 'aag 1 0 1 0 0\n2 3\t1\n' 'line 2: bad line'
    refuses 'the form before a bad reset' 'aag 1 0 1 0 0\n2 3 3 x\n' 'line 2: bad line'
    refuses 'an odd latch before a bad reset' 'aag 1 0 1 0 0\n3 0 9\n' 'line 2: not a variable'
    refuses 'an odd latch that is its own reset' 'aag 1 0 1 0 0\n3 0 3\n' 'line 2: not a variable'
    refuses 'a next literal out of range before a bad reset' 'aag 1 0 1 0 0\n2 9 9\n' 'line 2: literal out of range'
    refuses 'a latch out of range that is its own reset' 'aag 1 0 1 0 0\n4 3 4\n' 'line 2: literal out of range'
    refuses 'a latch of 2^32 that is its own reset' 'aag 1 0 1 0 0\n4294967296 3 4294967296\n' 'line 2: literal out of range'
    refuses 'a bad reset before a later bad line' 'aag 2 0 2 0 0\n2 3 3\nx\n' 'line 2: bad reset'
    refuses 'a bad line before a later bad reset' 'aag 2 0 2 0 0\n2\n4 5 5\n' 'line 2: bad line'
    refuses 'a bad reset before a later missing line' 'aag 2 0 2 0 0\n2 3 3\n' 'line 2: bad reset'
    refuses 'a bad reset before a variable defined twice' 'aag 2 0 2 0 0\n2 3\n2 3 4\n' 'line 3: bad reset'
    refuses 'a bad reset before a literal not defined' 'aag 2 0 1 0 0\n2 4 3\n' 'line 2: bad reset'
    refuses 'a bad reset before a bad symbol line' 'aag 1 0 1 0 0\n2 3 3\nx\n' 'line 2: bad reset'
    refuses 'an uninitialised latch given twice' 'aag 2 0 2 0 0\n2 3 2\n2 3 2\n' 'variable 1 defined twice'
    refuses 'an input with a reset' 'aag 1 1 0 0 0\n2 0\n' 'line 2: bad line'
}

# In a binary file the literal of the latch at place j, counted from 1, is 2(I + j).
rows_binary_resets() {
    accepts 'a reset of 0 in binary' 'aig 1 0 1 0 0\n3 0\n' 'aag 1 0 1 0 0\n2 3\n'
    accepts 'a latch that starts at 1 in binary' 'aig 1 0 1 0 0\n3 1\n' 'aag 1 0 1 0 0\n2 3 1\n'
    accepts 'an uninitialised latch in binary' 'aig 1 0 1 0 0\n3 2\n' 'aag 1 0 1 0 0\n2 3 2\n'
    accepts 'latches of each reset in binary' 'aig 5 2 3 0 0\n2 6\n3\n5 1\n' 'aag 5 2 3 0 0\n2\n4\n6 2 6\n8 3\n10 5 1\n'
    accepts 'two uninitialised latches in binary' 'aig 3 1 2 0 0\n6 4\n4 6\n' 'aag 3 1 2 0 0\n2\n4 6 4\n6 4 6\n'
    accepts 'a lenient reset in binary' 'aig 1 0 1 0 0\n3  02 \r\n' 'aag 1 0 1 0 0\n2 3 2\n'
    accepts 'a reset without LF in binary' 'aig 1 0 1 0 0\n3 1' 'aag 1 0 1 0 0\n2 3 1\n'
    refuses 'the literal of the next latch as reset in binary' 'aig 3 1 2 0 0\n6 6\n4\n' 'line 2: bad reset'
    refuses 'the literal of the latch before as reset in binary' 'aig 3 1 2 0 0\n6\n4 4\n' 'line 3: bad reset'
    refuses 'the literal of an input as reset in binary' 'aig 3 1 2 0 0\n6 2\n4\n' 'line 2: bad reset'
    refuses 'the place of the latch alone as reset in binary' 'aig 3 2 1 0 0\n6 2\n' 'line 2: bad reset'
    refuses 'the negation of the latch as reset in binary' 'aig 1 0 1 0 0\n2 3\n' 'line 2: bad reset'
    refuses 'a reset of 2^32 in binary' 'aig 1 0 1 0 0\n3 4294967296\n' 'line 2: bad reset'
    refuses 'a reset of 400 digits in binary' "aig 1 0 1 0 0\n3 $(digits 400 9)\n" 'line 2: bad reset'
    refuses 'a next literal out of range before a bad reset in binary' 'aig 1 0 1 0 0\n4 9\n' 'line 2: literal out of range'
    refuses 'a letter in a reset in binary' 'aig 1 0 1 0 0\n3 x\n' 'line 2: bad line'
}

# the sections whose lines are a literal each, with the counts of the header up to theirs
literal_sections=('a bad state:1' 'a constraint:0 1' 'a fairness constraint:0 0 0 1')

rows_properties() {
    local all='aag 4 1 2 1 1 2 1 2 1\n2\n4 3 1\n6 4 6\n8\n6\n7\n9\n2\n1\n3\n4\n8\n5\n8 6 3\n'
    local names='b1 second\nb0 \nc0 env\nj1 j\nj0 a justice property\nf0 fair\ni0 in\nl1 x\nl0 y\no0 z\n'
    local section name counts
    same 'each section' "$all"
    same 'each section, with symbols and a comment' "$all${names}c\neach section\n"
    accepts 'each section, CR LF' "${all//\\n/\\r\\n}" "$all"
    accepts 'each section, spaces before LF' "${all//\\n/  \\n}" "$all"
    row 'symbols of each section left out' "$all${names}c\n" "$all" '' 0 aigtoaig --ascii --strip
    for section in "${literal_sections[@]}"; do
        name=${section%%:*} counts=${section#*:}
        same "$name" "aag 1 1 0 0 0 $counts\n2\n3\n"
        same "$name that is a constant" "aag 0 0 0 0 0 $counts\n1\n"
        same "$name that is a later gate" "aag 2 1 0 0 1 $counts\n2\n5\n4 2 2\n"
        same "$name over the largest variable" "aag 2147483647 1 0 0 0 $counts\n4294967294\n4294967295\n"
        accepts "$name in a lenient spelling" "aag 1 1 0 0 0 $counts\n2\n003 \r\n" "aag 1 1 0 0 0 $counts\n2\n3\n"
        accepts "$name without LF" "aag 1 1 0 0 0 $counts\n2\n3" "aag 1 1 0 0 0 $counts\n2\n3\n"
        refuses "$name that is missing" "aag 1 1 0 0 0 $counts\n2\n" 'line 3: file ends too early'
        refuses "$name with two numbers" "aag 1 1 0 0 0 $counts\n2\n2 3\n" 'line 3: bad line'
        refuses "$name on an empty line" "aag 1 1 0 0 0 $counts\n2\n\n" 'line 3: bad line'
        refuses "$name with a letter" "aag 1 1 0 0 0 $counts\n2\n2x\n" 'line 3: bad line'
        refuses "$name out of range" "aag 1 1 0 0 0 $counts\n2\n4\n" 'line 3: literal out of range'
        refuses "$name of 2^32" "aag 2147483647 1 0 0 0 $counts\n2\n4294967296\n" 'line 3: literal out of range'
        refuses "$name of 400 digits" "aag 1 1 0 0 0 $counts\n2\n$(digits 400 9)\n" 'line 3: literal out of range'
        refuses "$name that is not defined" "aag 2 1 0 0 0 $counts\n2\n5\n" 'literal 5 not defined'
        refuses "$name too many" "aag 1 1 0 0 0 $counts\n2\n3\n3\n" 'line 4: bad symbol line'
    done
    same 'bad states in their order' 'aag 1 1 0 0 0 3\n2\n3\n2\n3\n'
    refuses 'the second of two bad states out of range' 'aag 1 1 0 0 0 2\n2\n3\n4\n' 'line 4: literal out of range'
    refuses 'a wrong bad state before a wrong constraint' 'aag 1 1 0 0 0 1 1\n2\n4\nx\n' 'line 3: literal out of range'
    refuses 'a missing constraint after a bad state' 'aag 1 1 0 0 0 1 1\n2\n3\n' 'line 4: file ends too early'
    refuses 'a gate where a bad state is due' 'aag 2 1 0 0 1 1\n2\n4 2 2\n4\n' 'line 3: bad line'
}

rows_sizes() {
    local many=2147483647
    same 'a justice property of two literals' 'aag 1 1 0 0 0 0 0 1\n2\n2\n2\n3\n'
    same 'a justice property of no literals' 'aag 1 1 0 0 0 0 0 1\n2\n0\n'
    same 'two justice properties of no literals' 'aag 0 0 0 0 0 0 0 2\n0\n0\n'
    same 'justice properties of several sizes' 'aag 1 1 0 0 0 0 0 4\n2\n1\n0\n2\n0\n3\n2\n1\n'
    same 'all sizes stand before the first literal' 'aag 2 2 0 0 0 0 0 2\n2\n4\n1\n2\n3\n4\n5\n'
    same 'a size is no literal' 'aag 2 1 0 0 0 0 0 1\n2\n5\n2\n2\n2\n2\n2\n'
    same 'justice literals out of their order' 'aag 2 2 0 0 0 0 0 2\n2\n4\n2\n2\n4\n3\n5\n2\n'
    accepts 'a size in a lenient spelling' 'aag 1 1 0 0 0 0 0 1\n2\n001  \r\n03\n' 'aag 1 1 0 0 0 0 0 1\n2\n1\n3\n'
    accepts 'a last size without LF' 'aag 0 0 0 0 0 0 0 1\n0' 'aag 0 0 0 0 0 0 0 1\n0\n'
    refuses 'a missing size' 'aag 1 1 0 0 0 0 0 2\n2\n0\n' 'line 4: file ends too early'
    refuses 'two numbers for a size' 'aag 1 1 0 0 0 0 0 1\n2\n0 0\n' 'line 3: bad line'
    refuses 'an empty line for a size' 'aag 1 1 0 0 0 0 0 1\n2\n\n' 'line 3: bad line'
    refuses 'a size with a sign' 'aag 1 1 0 0 0 0 0 1\n2\n-0\n' 'line 3: bad line'
    refuses 'a missing justice literal' 'aag 1 1 0 0 0 0 0 1\n2\n2\n3\n' 'line 5: file ends too early'
    refuses 'a missing literal of the second justice property' 'aag 1 1 0 0 0 0 0 2\n2\n1\n1\n3\n' 'line 6: file ends too early'
    refuses 'a justice literal too many' 'aag 1 1 0 0 0 0 0 1\n2\n1\n2\n3\n' 'line 5: bad symbol line'
    refuses 'a justice literal out of range' 'aag 1 1 0 0 0 0 0 1\n2\n1\n4\n' 'line 4: literal out of range'
    refuses 'a justice literal of 2^32' "aag $many 1 0 0 0 0 0 1\n2\n1\n4294967296\n" 'line 4: literal out of range'
    refuses 'two numbers for a justice literal' 'aag 1 1 0 0 0 0 0 1\n2\n1\n2 3\n' 'line 4: bad line'
    refuses 'a justice literal that is not defined' 'aag 2 1 0 0 0 0 0 2\n2\n1\n1\n2\n5\n' 'literal 5 not defined'
    refuses 'a size above the literals that are there' 'aag 1 1 0 0 0 0 0 1\n2\n9\n' 'line 4: file ends too early'
    refuses 'the largest size' "aag 1 1 0 0 0 0 0 1\n2\n$many\n" 'line 4: file ends too early'
    refuses 'a size above the limit' 'aag 1 1 0 0 0 0 0 1\n2\n2147483648\n' 'line 3: number above the limit'
    refuses 'a size of 2^32' 'aag 1 1 0 0 0 0 0 1\n2\n4294967296\n' 'line 3: number above the limit'
    refuses 'a size of 2^64 + 1' 'aag 1 1 0 0 0 0 0 1\n2\n18446744073709551617\n' 'line 3: number above the limit'
    refuses 'a size of 400 digits' "aag 1 1 0 0 0 0 0 1\n2\n$(digits 400 9)\n" 'line 3: number above the limit'
    refuses 'a size of 400 digits after another' "aag 1 1 0 0 0 0 0 2\n2\n1\n$(digits 400 9)\n" 'line 4: number above the limit'
    refuses 'sizes that add up to more than the limit' "aag 1 1 0 0 0 0 0 2\n2\n$many\n1\n" 'line 4: number above the limit'
    refuses 'sizes that add up to the limit' "aag 1 1 0 0 0 0 0 3\n2\n2147483646\n1\n0\n" 'line 6: file ends too early'
    refuses 'sizes that add up to 2^32' 'aag 1 1 0 0 0 0 0 2\n2\n2147483647\n2147483649\n' 'line 4: number above the limit'
    refuses 'the form of a size before its limit' 'aag 1 1 0 0 0 0 0 1\n2\n2147483648 x\n' 'line 3: bad line'
    refuses 'the form of a size before the limit of the sum' "aag 1 1 0 0 0 0 0 2\n2\n$many\n1 1\n" 'line 4: bad line'
    refuses 'a size above the limit before a later bad line' 'aag 1 1 0 0 0 0 0 2\n2\n2147483648\nx\n' 'line 3: number above the limit'
    refuses 'a wrong constraint before a size above the limit' 'aag 1 1 0 0 0 0 1 1\n2\n4\n2147483648\n' 'line 3: literal out of range'
    refuses 'a wrong justice literal before a wrong fairness constraint' 'aag 1 1 0 0 0 0 0 1 1\n2\n1\n4\nx\n' 'line 4: literal out of range'
}

# the first literal that is not defined: each section before the next one
rows_uses() {
    refuses 'a next literal before a bad state' 'aag 3 0 1 0 0 1\n2 5\n6\n' 'literal 5 not defined'
    refuses 'an output before a bad state' 'aag 4 1 0 1 0 1\n2\n9\n4\n' 'literal 9 not defined'
    refuses 'a bad state before a constraint' 'aag 4 1 0 0 0 1 1\n2\n8\n4\n' 'literal 8 not defined'
    refuses 'a constraint before a justice literal' 'aag 4 1 0 0 0 0 1 1\n2\n9\n1\n4\n' 'literal 9 not defined'
    refuses 'a justice literal before a fairness constraint' 'aag 4 1 0 0 0 0 0 1 1\n2\n1\n7\n4\n' 'literal 7 not defined'
    refuses 'a fairness constraint before an operand' 'aag 4 1 0 0 1 0 0 0 1\n2\n7\n4 9 8\n' 'literal 7 not defined'
    refuses 'a bad state before an operand' 'aag 4 1 0 0 1 1\n2\n7\n4 9 8\n' 'literal 7 not defined'
    refuses 'an operand after properties that are defined' 'aag 4 1 0 0 1 1 1 1 1\n2\n2\n3\n1\n2\n3\n4 2 8\n' 'literal 8 not defined'
    refuses 'the second bad state' 'aag 3 1 0 0 0 2\n2\n3\n6\n' 'literal 6 not defined'
    refuses 'a variable defined twice before a bad state' 'aag 3 2 0 0 0 1\n2\n2\n6\n' 'variable 1 defined twice'
    refuses 'a bad state before a cycle' 'aag 3 1 0 0 1 1\n2\n6\n4 4 2\n' 'literal 6 not defined'
    cyclic 'a cycle that a bad state uses' 'aag 2 1 0 0 1 1\n2\n4\n4 4 2\n' 4
}

rows_named_properties() {
    local letter counts text
    same 'a symbol of the constraint, and an empty comment' 'aag 1 1 0 0 0 0 1\n2\n2\nc0 env\nc\n'
    same 'a symbol of the constraint behind another' 'aag 1 1 0 0 0 0 1\n2\n2\ni0 a\nc0 env\nc\nc0 env\n'
    same 'one position in each section' \
        'aag 1 1 0 0 0 1 1 1 1\n2\n2\n2\n0\n2\nf0 a\nj0 a\nc0 a\nb0 a\ni0 a\n'
    for letter in b c j f; do
        case $letter in
            b) counts='2' ;;
            c) counts='0 2' ;;
            j) counts='0 0 2' ;;
            f) counts='0 0 0 2' ;;
        esac
        text="aag 0 0 0 0 0 $counts\n0\n0\n"
        same "symbols $letter" "$text${letter}1 a\n${letter}0 b\n"
        same "an empty name, a CR and any bytes, $letter" "$text${letter}0 \n${letter}1 \0000\0377 \r\n"
        accepts "leading zeros of a position, $letter" "$text${letter}001 a" "$text${letter}1 a\n"
        refuses "a position that is not there, $letter" "$text${letter}2 a\n" 'line 4: symbol position out of range'
        refuses "a position of 2^32, $letter" "$text${letter}4294967296 a\n" 'line 4: symbol position out of range'
        refuses "a position of 400 digits, $letter" "$text${letter}$(digits 400 9) a\n" 'line 4: symbol position out of range'
        refuses "a symbol of an empty section, $letter" "aag 1 1 0 1 0\n2\n2\n${letter}0 a\n" 'line 4: symbol position out of range'
        refuses "a symbol given twice, $letter" "$text${letter}1 a\n${letter}1 a\n" 'line 5: symbol given twice'
        refuses "a position and no name, $letter" "$text${letter}0\n" 'line 4: bad symbol line'
        refuses "a letter, a space and a position, $letter" "$text$letter 0 a\n" 'line 4: bad symbol line'
    done
    refuses 'a position below the literals of justice' 'aag 1 1 0 0 0 0 0 1\n2\n2\n2\n3\nj1 a\n' 'line 6: symbol position out of range'
    refuses 'a capital letter of a bad state' 'aag 0 0 0 0 0 1\n0\nB0 a\n' 'line 3: bad symbol line'
    refuses 'the line c twice is a comment, and a wrong line before it is not' 'aag 0 0 0 0 0 0 1\n0\ncc\nc\n' 'line 3: bad symbol line'
    refuses 'the position of a constraint before its second name' 'aag 0 0 0 0 0 0 1\n0\nc0 a\nc1 a\nc0 a\n' 'line 4: symbol position out of range'
    accepts 'a comment without constraints' 'aag 0 0 0 0 0\nc\nc0 a' 'aag 0 0 0 0 0\nc\nc0 a'
}

rows_binary_properties() {
    local lines='aig 4 1 2 1 1 2 1 2 1\n3 1\n4 6\n8\n6\n7\n9\n2\n1\n3\n4\n8\n5\n' section name counts
    accepts 'each section in binary' "$lines\x02\x03b1 a\nc\nx" \
        'aag 4 1 2 1 1 2 1 2 1\n2\n4 3 1\n6 4 6\n8\n6\n7\n9\n2\n1\n3\n4\n8\n5\n8 6 3\nb1 a\nc\nx'
    refuses 'the first line behind each section and the gates' "$lines\x02\x03x\n" 'line 14: bad symbol line'
    refuses 'the second line behind each section and the gates' "$lines\x02\x03c0 a\nc0 a\n" 'line 15: symbol given twice'
    refuses 'a gate that is missing behind each section' "${lines}" 'gate 1: file ends too early'
    refuses 'a wrong delta behind each section' "${lines}\x00\x00" 'gate 1: bad delta'
    refuses 'the last line without LF before the gates' "${lines%\\n}" 'gate 1: file ends too early'
    for section in "${literal_sections[@]}"; do
        name=${section%%:*} counts=${section#*:}
        accepts "$name in binary" "aig 1 1 0 0 0 $counts\n3\n" "aag 1 1 0 0 0 $counts\n2\n3\n"
        refuses "$name out of range in binary" "aig 1 1 0 0 0 $counts\n4\n" 'line 2: literal out of range'
        refuses "$name that is missing in binary" "aig 1 1 0 0 0 $counts\n" 'line 2: file ends too early'
        refuses "$name with two numbers in binary" "aig 1 1 0 0 0 $counts\n2 0\n" 'line 2: bad line'
        refuses "$name and many inputs" "aig 2147483647 2147483647 0 0 0 $counts\n" 'line 2: file ends too early'
        refuses "a line behind $name" "aig 1 1 0 0 0 $counts\n3\nx\n" 'line 3: bad symbol line'
    done
    accepts 'a latch and a bad state in binary' 'aig 1 0 1 0 0 1\n3\n2\n' 'aag 1 0 1 0 0 1\n2 3\n2\n'
    refuses 'a symbol behind a latch and a bad state in binary' 'aig 1 0 1 0 0 1\n3\n2\nb1 a\n' 'line 4: symbol position out of range'
    accepts 'a justice property in binary' 'aig 1 1 0 0 0 0 0 2\n2\n0\n2\n3\n' 'aag 1 1 0 0 0 0 0 2\n2\n2\n0\n2\n3\n'
    refuses 'a size above the limit in binary' 'aig 1 1 0 0 0 0 0 1\n2147483648\n' 'line 2: number above the limit'
    refuses 'sizes that add up to more than the limit in binary' 'aig 1 1 0 0 0 0 0 2\n2147483647\n1\n' 'line 3: number above the limit'
    refuses 'a missing justice literal in binary' 'aig 1 1 0 0 0 0 0 1\n2\n3\n' 'line 4: file ends too early'
    refuses 'ten numbers in binary' 'aig 0 0 0 0 0 0 0 0 0 0\n' 'line 1: bad header'
    refuses 'unused variables, where there are bad states' 'aig 1 0 0 0 0 1\n0\n' 'line 1: bad header'
    refuses 'a ninth number above the limit in binary' 'aig 0 0 0 0 0 0 0 0 2147483648\n' 'line 1: number above the limit'
}

# a text with a reset, a bad state and a justice property, cut after each of its bytes
rows_property_cuts() {
    local text='aag 1 0 1 0 0 1 0 1\n2 3 2\n2\n1\n3\n' cut answer plain
    plain=$(printf '%b.' "$text")
    for ((cut = 3; cut <= 32; cut++)); do
        case $cut in
            3 | 4 | 5 | 6 | 7 | 8 | 9 | 10 | 11 | 12) answer='line 1: bad header' ;;
            13 | 14 | 15 | 16 | 17 | 18 | 19 | 20) answer='line 2: file ends too early' ;;
            21 | 22) answer='line 2: bad line' ;;
            23 | 24 | 25 | 26) answer='line 3: file ends too early' ;;
            27 | 28) answer='line 4: file ends too early' ;;
            29 | 30) answer='line 5: file ends too early' ;;
            *) answer='' ;;
        esac
        if [ -n "$answer" ]; then
            refuses "a file with properties cut after $cut" "${plain:0:cut}" "$answer"
        else
            accepts "a file with properties cut after $cut" "${plain:0:cut}" "$text"
        fi
    done
}

# The limit of the option bounds each count, and the sum of the sizes.
rows_property_limits() {
    local above='aiger: -: line 1: number above the limit\n' counts text
    for counts in 3 '0 3' '0 0 3' '0 0 0 3'; do
        text="aag 0 0 0 0 0 $counts\n0\n0\n0\n"
        row "counts $counts within the limit" "$text" "$text" '' 0 aigtoaig --ascii --max-var 3
        row "counts $counts above the limit" "$text" '' "$above" 1 aigtoaig --ascii --max-var 2
    done
    text='aag 1 1 0 0 0 0 0 2\n2\n1\n2\n2\n3\n2\n'
    row 'sizes that add up to the limit of the option' "$text" "$text" '' 0 aigtoaig --ascii --max-var 3
    row 'sizes that add up to more than the option' "$text" '' 'aiger: -: line 4: number above the limit\n' 1 aigtoaig --ascii --max-var 2
    row 'a size above the option' 'aag 1 1 0 0 0 0 0 1\n2\n3\n2\n2\n2\n' '' 'aiger: -: line 3: number above the limit\n' 1 \
        aigtoaig --ascii --max-var 2
    row 'a size above the option in binary' 'aig 1 1 0 0 0 0 0 1\n3\n2\n2\n2\n' '' 'aiger: -: line 2: number above the limit\n' 1 \
        aigtoaig --ascii --max-var 2
    row 'a reset above the option' 'aag 2 0 2 0 0\n2 3\n4 3 4\n' 'aag 2 0 2 0 0\n2 3\n4 3 4\n' '' 0 aigtoaig --ascii --max-var 2
}

rows_property_images() {
    local source='aag 9 1 2 1 1 2 1 2 1\n18\n4 19 1\n14 4 14\n6\n14\n15\n7\n2\n1\n19\n4\n6\n5\n6 19 14\n' text
    local image='aig 4 1 2 1 1 2 1 2 1\n3 1\n4 6\n8\n6\n7\n9\n2\n1\n3\n4\n8\n5\n\x02\x03'
    local names='b1 a\nc0 b\nj0 c\nf0 d\n'
    images 'a bad state to binary' 'aag 1 0 1 0 0 1\n2 3\n2\n' 'aig 1 0 1 0 0 1\n3\n2\n'
    images 'a reset of 0 to binary' 'aag 1 0 1 0 0\n2 3 0\n' 'aig 1 0 1 0 0\n3\n'
    images 'the own literal becomes the new one' 'aag 3 1 2 0 0\n6\n4 2 4\n2 7 1\n' 'aig 3 1 2 0 0\n6 4\n3 1\n'
    images 'each section to binary' "$source" "$image"
    images 'zeros of the header to binary' 'aag 0 0 0 0 0 0 0 0 0\n' 'aig 0 0 0 0 0\n'
    images 'each section stays in binary' "$image${names}c\nx" "$image${names}c\nx"
    images 'constants in each section' 'aag 9 0 0 0 0 1 1 1 1\n1\n0\n1\n1\n0\n' 'aig 0 0 0 0 0 1 1 1 1\n1\n0\n1\n1\n0\n'
    images 'justice literals are not sorted' 'aag 9 3 0 0 0 0 0 2\n18\n4\n10\n2\n1\n11\n4\n18\n' \
        'aig 3 3 0 0 0 0 0 2\n2\n1\n7\n4\n2\n'
    images 'bad states that are the same' 'aag 9 1 0 0 0 2\n18\n19\n19\n' 'aig 1 1 0 0 0 2\n3\n3\n'
    there_and_back 'a bad state' 'aag 1 0 1 0 0 1\n2 3\n2\n' 'aig 1 0 1 0 0 1\n3\n2\nc\naigmap 1 1 0 1 0 0\n1\naigmap end\n'
    there_and_back 'a justice property' 'aag 1 1 0 0 0 0 0 1\n2\n2\n2\n3\n' \
        'aig 1 1 0 0 0 0 0 1\n2\n2\n3\nc\naigmap 1 1 1 0 0 0\n1\naigmap end\n'
    there_and_back 'a constraint with a name, and an empty comment' 'aag 1 1 0 0 0 0 1\n2\n2\nc0 env\nc\n' \
        'aig 1 1 0 0 0 0 1\n2\nc0 env\nc\naigmap 1 1 1 0 0 1\n1\naigmap end\n'
    there_and_back 'resets' 'aag 3 1 2 0 0\n6\n4 2 4\n2 7 1\n' \
        'aig 3 1 2 0 0\n6 4\n3 1\nc\naigmap 1 3 1 2 0 0\n3\n2\n1\naigmap end\n'
    there_and_back 'an uninitialised latch and a constraint' 'aag 4 0 1 0 0 0 1\n8 9 8\n8\n' \
        'aig 1 0 1 0 0 0 1\n3 2\n2\nc\naigmap 1 4 0 1 0 0\n4\naigmap end\n'
    there_and_back 'each section' "$source" "${image}c\naigmap 1 9 1 2 1 0\n9\n2\n7\n3 0 1\naigmap end\n"
    there_and_back 'each section, with symbols and a comment' "$source${names}c\nx" \
        "$image${names}c\naigmap 1 9 1 2 1 1\n9\n2\n7\n3 0 1\naigmap end\nx"
    maps 'a reset of 0 with the map' 'aag 1 0 1 0 0\n2 3 0\n' 'aig 1 0 1 0 0\n3\nc\naigmap 1 1 0 1 0 0\n1\naigmap end\n'
    no_undone 'bad states, and no map' 'aig 1 0 1 0 0 1\n3\n2\n' 'no map'
    text='aag 3 1 2 0 0\n2\n4 2 4\n6 3 1\nc\naigmap 1 9 1 2 0 0\n9\n5\n7\naigmap end\n'
    undoes 'resets of an ASCII file in binary order are undone' "$text" 'aag 9 1 2 0 0\n18\n10 18 10\n14 19 1\n'
    row 'a bad reset with the map' 'aag 1 0 1 0 0\n2 3 3\n' '' 'aiger: -: line 2: bad reset\n' 1 aigtoaig --keep-map
}

# Conversion to binary: inputs and latches are numbered in the order of the file, and then gates, the next one always the
# first in the file that is over nothing but what is numbered.
rows_images() {
    images 'the empty circuit to binary' 'aag 0 0 0 0 0\n' 'aig 0 0 0 0 0\n'
    images 'a constant is not renumbered' 'aag 0 0 0 1 0\n1\n' 'aig 0 0 0 1 0\n1\n'
    images 'a half adder to binary' \
        'aag 7 2 0 2 3\n2\n4\n6\n12\n6 13 15\n12 2 4\n14 3 5\ni0 x\ni1 y\no0 s\no1 c\nc\nhalf adder\n' \
        'aig 5 2 0 2 3\n10\n6\n\x02\x02\x03\x02\x01\x02i0 x\ni1 y\no0 s\no1 c\nc\nhalf adder\n'
    images 'a gate that waits for the last one' 'aag 5 2 0 1 3\n2\n4\n6\n6 10 2\n8 2 4\n10 4 2\n' \
        'aig 5 2 0 1 3\n10\n\x02\x02\x04\x02\x02\x06'
    images 'a gate that is taken before a later one' 'aag 5 2 0 0 3\n2\n4\n6 8 2\n8 4 2\n10 4 2\n' \
        'aig 5 2 0 0 3\n\x02\x02\x02\x04\x06\x02'
    images 'equal operands' 'aag 2 1 0 1 1\n2\n4\n4 2 2\n' 'aig 2 1 0 1 1\n4\n\x02\x00'
    images 'a gate of constants, the larger one first' 'aag 1 0 0 0 1\n2 0 1\n' 'aig 1 0 0 0 1\n\x01\x01'
    images 'an input, a latch and a gate' 'aag 3 1 1 1 1\n2\n4 6\n6\n6 2 5\n' 'aig 3 1 1 1 1\n6\n6\n\x01\x03'
    images 'unused variables go' 'aag 9 1 0 1 0\n18\n19\n' 'aig 1 1 0 1 0\n3\n'
    images 'variables far apart' 'aag 2147483647 1 0 1 1\n4294967294\n4\n4 4294967295 1\n' 'aig 2 1 0 1 1\n4\n\x01\x02'
    images 'gates that nothing uses, and equal ones' 'aag 3 1 0 0 2\n2\n4 2 2\n6 2 2\n' 'aig 3 1 0 0 2\n\x02\x00\x04\x00'
    images 'latches after inputs, in the order of the file' 'aag 3 1 2 0 0\n6\n4 2\n2 7\n' 'aig 3 1 2 0 0\n6\n3\n'
    images 'a binary file stays as it is' 'aig 2 1 0 1 1\n4\n\x02\x00i0 a\nc\nx' 'aig 2 1 0 1 1\n4\n\x02\x00i0 a\nc\nx'
    images 'padded deltas to binary' 'aig 1 0 0 0 1\n\x81\x00\x01' 'aig 1 0 0 0 1\n\x01\x01'
    row 'a cycle to binary' 'aag 3 1 0 0 2\n2\n4 6 2\n6 4 2\n' '' 'aiger: -: gate 4 depends on a cycle\n' 1 aigtoaig
    row 'a bad line to binary' 'aag 1 1 0 0 0\nx\n' '' 'aiger: -: line 2: bad line\n' 1 aigtoaig
}

rows_maps() {
    local half='aag 7 2 0 2 3\n2\n4\n6\n12\n6 13 15\n12 2 4\n14 3 5\ni0 x\ni1 y\no0 s\no1 c\nc\nhalf adder\n'
    local half_image='aig 5 2 0 2 3\n10\n6\n\x02\x02\x03\x02\x01\x02i0 x\ni1 y\no0 s\no1 c\nc\n'
    local half_block='aigmap 1 7 2 0 3 1\n1\n2\n3 2 1\n6 0 1\n7 1 1\naigmap end\n'
    there_and_back 'a half adder' "$half" "$half_image${half_block}half adder\n"
    there_and_back 'no comment section' 'aag 9 1 0 1 0\n18\n19\n' 'aig 1 1 0 1 0\n3\nc\naigmap 1 9 1 0 0 0\n9\naigmap end\n'
    there_and_back 'an empty comment' 'aag 9 1 0 1 0\n18\n19\nc\n' 'aig 1 1 0 1 0\n3\nc\naigmap 1 9 1 0 0 1\n9\naigmap end\n'
    there_and_back 'a comment that is a block' 'aag 9 1 0 1 0\n18\n19\nc\naigmap 1 9 1 0 0 0\n9\naigmap end\n' \
        'aig 1 1 0 1 0\n3\nc\naigmap 1 9 1 0 0 1\n9\naigmap end\naigmap 1 9 1 0 0 0\n9\naigmap end\n'
    there_and_back 'a comment without a line feed' 'aag 9 1 0 1 0\n18\n19\nc\nx' \
        'aig 1 1 0 1 0\n3\nc\naigmap 1 9 1 0 0 1\n9\naigmap end\nx'
    there_and_back 'equal operands' 'aag 2 1 0 1 1\n2\n4\n4 2 2\n' \
        'aig 2 1 0 1 1\n4\n\x02\x00c\naigmap 1 2 1 0 1 0\n1\n2 0 0\naigmap end\n'
    there_and_back 'a gate that waits for the last one' 'aag 5 2 0 1 3\n2\n4\n6\n6 10 2\n8 2 4\n10 4 2\n' \
        'aig 5 2 0 1 3\n10\n\x02\x02\x04\x02\x02\x06c\naigmap 1 5 2 0 3 0\n1\n2\n3 2 0\n4 0 1\n5 1 0\naigmap end\n'
    there_and_back 'a gate that is taken before a later one' 'aag 5 2 0 0 3\n2\n4\n6 8 2\n8 4 2\n10 4 2\n' \
        'aig 5 2 0 0 3\n\x02\x02\x02\x04\x06\x02c\naigmap 1 5 2 0 3 0\n1\n2\n3 1 0\n4 0 0\n5 2 0\naigmap end\n'
    there_and_back 'the empty circuit' 'aag 0 0 0 0 0\n' 'aig 0 0 0 0 0\nc\naigmap 1 0 0 0 0 0\naigmap end\n'
    there_and_back 'a latch, far variables and a negated constant' 'aag 2147483647 0 1 1 0\n4294967294 1\n4294967295\n' \
        'aig 1 0 1 1 0\n1\n3\nc\naigmap 1 2147483647 0 1 0 0\n2147483647\naigmap end\n'
    there_and_back 'latches out of order beside inputs' 'aag 9 1 2 0 0\n6\n18 7\n4 18\n' \
        'aig 3 1 2 0 0\n3\n4\nc\naigmap 1 9 1 2 0 0\n3\n9\n2\naigmap end\n'
    there_and_back 'constants as operands' 'aag 4 0 0 0 2\n4 0 1\n8 1 0\n' \
        'aig 2 0 0 0 2\n\x01\x01\x03\x01c\naigmap 1 4 0 0 2 0\n2 0 1\n4 1 0\naigmap end\n'
    local mapped="$half_image${half_block}half adder\n"
    accepts 'a map is comment text unless undo is asked for' "$mapped" \
        "aag 5 2 0 2 3\n2\n4\n10\n6\n6 4 2\n8 5 3\n10 9 7\ni0 x\ni1 y\no0 s\no1 c\nc\n${half_block}half adder\n"
    images 'a map is kept from binary to binary' "$mapped" "$mapped"
    maps 'a map of a mapped image' 'aig 1 1 0 1 0\n3\nc\naigmap 1 9 1 0 0 0\n9\naigmap end\n' \
        'aig 1 1 0 1 0\n3\nc\naigmap 1 1 1 0 0 1\n1\naigmap end\naigmap 1 9 1 0 0 0\n9\naigmap end\n'
    row 'a cycle with the map' 'aag 3 1 0 0 2\n2\n4 6 2\n6 4 2\n' '' 'aiger: -: gate 4 depends on a cycle\n' 1 aigtoaig --keep-map
    row 'a bad line with the map' 'aag 1 1 0 0 0\nx\n' '' 'aiger: -: line 2: bad line\n' 1 aigtoaig --keep-map
}

rows_undone() {
    local image='aig 1 1 0 1 0\n3\nc\naigmap 1 9 1 0 0 0\n9\naigmap end\n'
    row 'undone to binary, without a block' "$image" 'aig 1 1 0 1 0\n3\n' '' 0 aigtoaig --undo-map
    row 'gates undone to binary' 'aig 2 1 0 1 1\n4\n\x02\x00c\naigmap 1 2 1 0 1 0\n1\n2 0 0\naigmap end\n' \
        'aig 2 1 0 1 1\n4\n\x02\x00' '' 0 aigtoaig --undo-map
    undoes 'an ASCII file in binary order is undone' 'aag 1 1 0 1 0\n2\n3\nc\naigmap 1 9 1 0 0 0\n9\naigmap end\n' \
        'aag 9 1 0 1 0\n18\n19\n'
    undoes 'another largest index is another source' 'aig 2 1 0 1 1\n4\n\x02\x00c\naigmap 1 3 1 0 1 0\n1\n2 0 0\naigmap end\n' \
        'aag 3 1 0 1 1\n2\n4\n4 2 2\n'
    undoes 'padded deltas and leading zeros before the block' 'aig 02 1 0  1 1\n04\n\x82\x00\x00c\naigmap 1 2 1 0 1 0\n1\n2 0 0\naigmap end\n' \
        'aag 2 1 0 1 1\n2\n4\n4 2 2\n'
    undoes 'an exchange that is told is another source' \
        'aig 5 2 0 1 3\n10\n\x02\x02\x04\x02\x02\x06c\naigmap 1 5 2 0 3 0\n1\n2\n3 2 0\n4 0 1\n5 1 1\naigmap end\n' \
        'aag 5 2 0 1 3\n2\n4\n6\n6 10 2\n8 2 4\n10 2 4\n'
    undoes 'symbols stay' 'aig 1 1 0 1 0\n3\no0 b\ni0 a\nc\naigmap 1 9 1 0 0 0\n9\naigmap end\n' \
        'aag 9 1 0 1 0\n18\n19\no0 b\ni0 a\n'
    no_undone 'not in binary order' 'aag 9 1 0 1 0\n18\n19\n' 'not in binary order'
    no_undone 'not in binary order, and a block' 'aag 9 1 0 1 0\n18\n19\nc\naigmap 1 9 1 0 0 0\n9\naigmap end\n' 'not in binary order'
    no_undone 'no comment' 'aig 0 0 0 0 0\n' 'no map'
    no_undone 'another comment' 'aig 5 2 0 2 3\n10\n6\n\x02\x02\x03\x02\x01\x02c\nhalf adder\n' 'no map'
    no_undone 'a bad line where undo is asked' 'aig 1 1 0 1 0\nx\n' 'line 2: bad line'
    row 'no map, to binary' 'aig 0 0 0 0 0\n' '' 'aiger: -: no map\n' 1 aigtoaig --undo-map
}

rows_blocks() {
    bad_block 'the word without a space' 'aigmap\n' 'no map'
    bad_block 'the word alone' 'aigmap' 'no map'
    bad_block 'an empty comment' '' 'no map'
    bad_block 'the word in capital letters' 'AIGMAP 1 9 1 0 0 0\n9\naigmap end\n' 'no map'
    bad_block 'a byte before the word' ' aigmap 1 9 1 0 0 0\n9\naigmap end\n' 'no map'
    bad_block 'the word and a space' 'aigmap ' 'map line 1: bad line'
    bad_block 'another version' 'aigmap 2 9 1 0 0 0\n9\naigmap end\n' 'map line 1: bad line'
    bad_block 'a mark of the comment that is neither 0 nor 1' 'aigmap 1 9 1 0 0 2\n9\naigmap end\n' 'map line 1: bad line'
    bad_block 'a first line without its line feed' 'aigmap 1 9 1 0 0 0' 'map line 1: bad line'
    bad_block 'a first line with a CR' 'aigmap 1 9 1 0 0 0\r\n9\naigmap end\n' 'map line 1: bad line'
    bad_block 'a number too few in the first line' 'aigmap 1 9 1 0 0\n9\naigmap end\n' 'map line 1: bad line'
    bad_block 'a number too many in the first line' 'aigmap 1 9 1 0 0 0 0\n9\naigmap end\n' 'map line 1: bad line'
    bad_block 'two spaces in the first line' 'aigmap 1  9 1 0 0 0\n9\naigmap end\n' 'map line 1: bad line'
    bad_block 'a space at the end of the first line' 'aigmap 1 9 1 0 0 0 \n9\naigmap end\n' 'map line 1: bad line'
    bad_block 'a leading zero in the first line' 'aigmap 1 09 1 0 0 0\n9\naigmap end\n' 'map line 1: bad line'
    bad_block 'two zeros in the first line' 'aigmap 1 9 1 00 0 0\n9\naigmap end\n' 'map line 1: bad line'
    bad_block 'a largest index above the limit, told before the counts' 'aigmap 1 2147483648 2 0 0 0\n9\naigmap end\n' 'map line 1: bad line'
    bad_block 'a largest index of 2^64 + 9' 'aigmap 1 18446744073709551625 1 0 0 0\n9\naigmap end\n' 'map line 1: bad line'
    bad_block 'another count of inputs' 'aigmap 1 9 2 0 0 0\n9\naigmap end\n' 'map counts differ'
    bad_block 'another count of latches' 'aigmap 1 9 1 1 0 0\n9\naigmap end\n' 'map counts differ'
    bad_block 'another count of gates' 'aigmap 1 9 1 0 1 0\n9\naigmap end\n' 'map counts differ'
    bad_block 'a count of 2^32 + 1' 'aigmap 1 9 4294967297 0 0 0\n9\naigmap end\n' 'map counts differ'
    bad_block 'a count of 2^64 + 1' 'aigmap 1 9 18446744073709551617 0 0 0\n9\naigmap end\n' 'map counts differ'
    bad_block 'a count of four hundred digits' "aigmap 1 9 1 $(digits 400 9) 0 0\\n9\\naigmap end\\n" 'map counts differ'
    bad_block 'a largest index below the counts' 'aigmap 1 0 1 0 0 0\n9\naigmap end\n' 'map counts differ'
    bad_block 'other counts, told before a bad line' 'aigmap 1 9 2 0 0 0\nx\n' 'map counts differ'
    bad_block 'a variable above the largest index' 'aigmap 1 9 1 0 0 0\n10\naigmap end\n' 'map line 2: bad line'
    bad_block 'the variable 0' 'aigmap 1 9 1 0 0 0\n0\naigmap end\n' 'map line 2: bad line'
    bad_block 'a variable of 2^32 + 9' 'aigmap 1 9 1 0 0 0\n4294967305\naigmap end\n' 'map line 2: bad line'
    bad_block 'a variable with a leading zero' 'aigmap 1 9 1 0 0 0\n09\naigmap end\n' 'map line 2: bad line'
    bad_block 'a variable with a sign' 'aigmap 1 9 1 0 0 0\n+9\naigmap end\n' 'map line 2: bad line'
    bad_block 'two variables in a line' 'aigmap 1 9 1 0 0 0\n9 9\naigmap end\n' 'map line 2: bad line'
    bad_block 'an empty line' 'aigmap 1 9 1 0 0 0\n\naigmap end\n' 'map line 2: bad line'
    bad_block 'a variable without its line feed' 'aigmap 1 9 1 0 0 0\n9' 'map line 2: bad line'
    bad_block 'no variable' 'aigmap 1 9 1 0 0 0\n' 'map line 2: bad line'
    bad_block 'no last line' 'aigmap 1 9 1 0 0 0\n9\n' 'map line 3: bad line'
    bad_block 'a last line without its line feed' 'aigmap 1 9 1 0 0 0\n9\naigmap end' 'map line 3: bad line'
    bad_block 'a last line with a CR' 'aigmap 1 9 1 0 0 0\n9\naigmap end\r\n' 'map line 3: bad line'
    bad_block 'a line of a gate where none is' 'aigmap 1 9 1 0 0 0\n9\n2 0 0\naigmap end\n' 'map line 3: bad line'
    bad_gate_block 'a place that is not there' 'aigmap 1 2 1 0 1 0\n1\n2 1 0\naigmap end\n' 'map line 3: bad line'
    bad_gate_block 'a gate above the largest index' 'aigmap 1 2 1 0 1 0\n1\n3 0 0\naigmap end\n' 'map line 3: bad line'
    bad_gate_block 'a gate with a leading zero' 'aigmap 1 2 1 0 1 0\n1\n02 0 0\naigmap end\n' 'map line 3: bad line'
    bad_gate_block 'a gate with a CR' 'aigmap 1 2 1 0 1 0\n1\n2 0 0\r\naigmap end\n' 'map line 3: bad line'
    bad_gate_block 'a mark of an exchange that is neither 0 nor 1' 'aigmap 1 2 1 0 1 0\n1\n2 0 2\naigmap end\n' 'map line 3: bad line'
    bad_gate_block 'a gate of two numbers' 'aigmap 1 2 1 0 1 0\n1\n2 0\naigmap end\n' 'map line 3: bad line'
    bad_gate_block 'no last line behind a gate' 'aigmap 1 2 1 0 1 0\n1\n2 0 0\naigmap end' 'map line 4: bad line'
    bad_gate_block 'gates, and a largest index below the counts' 'aigmap 1 1 1 0 1 0\n1\n2 0 0\naigmap end\n' 'map counts differ'
}

rows_forged() {
    local forged='map does not belong to this circuit'
    bad_block 'bytes behind the block of a source without a comment' 'aigmap 1 9 1 0 0 0\n9\naigmap end\nz' "$forged"
    bad_gate_block 'bytes behind the block, and a gate' 'aigmap 1 2 1 0 1 0\n1\n2 0 0\naigmap end\nx' "$forged"
    bad_gate_block 'equal operands exchanged' 'aigmap 1 2 1 0 1 0\n1\n2 0 1\naigmap end\n' "$forged"
    bad_gate_block 'a variable twice' 'aigmap 1 2 1 0 1 0\n1\n1 0 0\naigmap end\n' "$forged"
    no_undone 'places that are not the order' \
        'aig 5 2 0 2 3\n10\n6\n\x02\x02\x03\x02\x01\x02i0 x\ni1 y\no0 s\no1 c\nc\naigmap 1 7 2 0 3 1\n1\n2\n3 2 1\n6 1 1\n7 0 1\naigmap end\nhalf adder\n' "$forged"
    no_undone 'a place twice' 'aig 3 1 0 0 2\n\x02\x00\x04\x00c\naigmap 1 3 1 0 2 0\n1\n2 0 0\n3 0 0\naigmap end\n' "$forged"
    no_undone 'gates that come before the least ready one' \
        'aig 5 2 0 0 3\n\x02\x02\x02\x04\x06\x02c\naigmap 1 5 2 0 3 0\n1\n2\n3 2 0\n4 0 0\n5 1 0\naigmap end\n' "$forged"
}

rows_outputs_as_bad() {
    turns() { row "$1" "$2" "$3" '' 0 aigtoaig --outputs-as-bad --ascii; }
    has_bad() { row "$1" "$2" '' 'aiger: -: bad states are there already\n' 1 aigtoaig --outputs-as-bad "${@:3}"; }
    turns 'the output of a toggle as a bad state' 'aag 1 0 1 1 0\n2 3\n2\n' 'aag 1 0 1 0 0 1\n2 3\n2\n'
    turns 'outputs as bad states, in their order' 'aag 3 2 0 4 1\n2\n4\n6\n1\n3\n6\n6 4 2\n' 'aag 3 2 0 0 1 4\n2\n4\n6\n1\n3\n6\n6 4 2\n'
    turns 'no outputs to be bad states' 'aag 1 1 0 0 0\n2\ni0 o0\n' 'aag 1 1 0 0 0\n2\ni0 o0\n'
    turns 'outputs as bad states, all else as it was' \
        'aag 3 1 1 2 1 0 1 1 1\n2\n4 6 4\n6\n7\n4\n2\n3\n5\n5\n6 4 2\n' 'aag 3 1 1 0 1 2 1 1 1\n2\n4 6 4\n6\n7\n4\n2\n3\n5\n5\n6 4 2\n'
    turns 'names of outputs as names of bad states, in any order' \
        'aag 2 1 1 2 0 0 1\n2\n4 2\n2\n4\n3\no1 o0\nc0 o0 x\ni0 o\no0 b0 y\nl0 z\nc\no0 stays\n' \
        'aag 2 1 1 0 0 2 1\n2\n4 2\n2\n4\n3\nb1 o0\nc0 o0 x\ni0 o\nb0 b0 y\nl0 z\nc\no0 stays\n'
    turns 'an output without bytes for a name' 'aag 0 0 0 1 0\n1\no0 \nc\n' 'aag 0 0 0 0 0 1\n1\nb0 \nc\n'
    turns 'outputs as bad states, from binary' 'aig 1 0 1 2 0\n3\n2\n3\no1 x\n' 'aag 1 0 1 0 0 2\n2 3\n2\n3\nb1 x\n'
    row 'outputs as bad states, to binary' 'aag 9 1 0 1 0\n18\n19\no0 p\n' 'aig 1 1 0 0 0 1\n3\nb0 p\n' '' 0 aigtoaig --outputs-as-bad
    row 'outputs as bad states of gates in any order' 'aag 5 2 0 1 3\n2\n4\n6\n6 10 2\n8 2 4\n10 4 2\nc\n' \
        'aig 5 2 0 0 3 1\n10\n\x02\x02\x04\x02\x02\x06c\n' '' 0 aigtoaig --outputs-as-bad
    row 'outputs as bad states, without names' 'aag 1 1 0 1 0\n2\n3\no0 p\nc\n' 'aag 1 1 0 0 0 1\n2\n3\n' '' 0 \
        aigtoaig --strip --ascii --outputs-as-bad
    row 'a block of a map as a comment where outputs are bad states' 'aig 1 1 0 1 0\n3\nc\naigmap 1 9 1 0 0 0\n9\naigmap end\n' \
        'aig 1 1 0 0 0 1\n3\nc\naigmap 1 9 1 0 0 0\n9\naigmap end\n' '' 0 aigtoaig --outputs-as-bad
    has_bad 'bad states beside outputs' 'aag 1 1 0 1 0 1\n2\n2\n3\n'
    has_bad 'bad states and no outputs' 'aag 1 1 0 0 0 1\n2\n2\nb0 x\n' --ascii
    has_bad 'bad states in binary, stripped' 'aig 1 1 0 1 0 2\n2\n2\n3\n' --strip
    row 'a fault comes before bad states' 'aag 1 1 0 1 0 1\n2\n2\n4\n' '' 'aiger: -: line 4: literal out of range\n' 1 \
        aigtoaig --outputs-as-bad
}

rows_justice_as_bad() {
    turns() { row "$2" "$3" "$4" '' 0 aigtoaig --ascii --justice-as-bad "$1"; }
    turns_none() { row "$2" "$3" '' "aiger: -: $4\n" 1 aigtoaig "${@:5}" --justice-as-bad "$1"; }
    turns 0 'a toggle that is to be 1 again and again' 'aag 1 0 1 0 0 0 0 1\n2 3\n1\n2\n' \
        'aag 19 1 4 0 14 1\n4\n2 3\n6 29\n8 19\n10 33\n38\n12 7 4\n14 12 2\n16 13 8\n18 17 15\n20 8 2\n22 9 3\n24 23 21\n26 25 1\n28 7 5\n30 29 2\n32 31 11\n34 6 1\n36 34 26\n38 36 10\n'
    turns 0 'no goals and no latches: any run without end' 'aag 0 0 0 0 0 0 0 1\n0\n' \
        'aag 6 1 1 0 4 1\n2\n4 9\n12\n6 5 2\n8 5 3\n10 4 1\n12 10 1\n'
    turns 1 'a latch without initial value, an input, fairness and a constraint' \
        'aag 3 1 1 1 1 1 1 2 1\n2\n4 6 4\n5\n4\n3\n1\n2\n1\n4\n6\n2\n6 4 2\ni0 a\nj0 b\nc\nsaid\n' \
        'aag 29 2 6 1 21 1 1\n2\n8\n4 6 4\n10 37\n12 27\n14 41\n16 45\n18 49\n5\n58\n3\n6 4 2\n20 11 8\n22 20 4\n24 21 12\n26 25 23\n28 12 4\n30 13 5\n32 31 29\n34 33 1\n36 11 9\n38 37 4\n40 39 15\n42 37 6\n44 43 17\n46 37 2\n48 47 19\n50 10 1\n52 50 34\n54 52 14\n56 54 16\n58 56 18\n'
    row 'a justice property as a bad state, to binary' 'aag 9 1 0 0 0 0 0 1\n18\n1\n18\n' \
        'aig 11 2 2 0 7 1\n13\n17\n22\n\x03\x03\x05\x02\x01\x0b\x01\x06\x0c\x05\x02\x11\x02\x0c' '' 0 aigtoaig --justice-as-bad 0
    turns 0 'the largest variable that a loop leaves room for' 'aag 2147483641 0 0 0 0 0 0 1\n0\n' \
        'aag 2147483647 1 1 0 4 1\n4294967284\n4294967286 4294967291\n4294967294\n4294967288 4294967287 4294967284\n4294967290 4294967287 4294967285\n4294967292 4294967286 1\n4294967294 4294967292 1\n'
    turns_none 0 'a variable more than a loop leaves room for' 'aag 2147483642 0 0 0 0 0 0 1\n0\n' 'too large'
    turns_none 0 'no justice properties' 'aag 1 1 0 0 0 0 0 0 1\n2\n2\n' 'no justice property 0'
    turns_none 1 'one justice property, and the next asked for' 'aag 1 1 0 0 0 0 0 1\n2\n1\n2\n' 'no justice property 1' --ascii
    turns_none 2147483647 'a justice property that no file has' 'aag 2147483647 1 0 0 0 0 0 1\n2\n1\n2\n' 'no justice property 2147483647' --strip
    turns_none 0 'a fault comes before a justice property' 'aag 1 1 0 0 0 0 0 1\n2\n1\n4\n' 'line 4: literal out of range'
    turns_none 0 'a limit that the source keeps, as a loop need not' 'aag 2 2 0 0 0 0 0 1\n2\n4\n0\n' 'line 1: number above the limit' --max-var 1
}

# options of other programs: what stands here for them
rows_hints() {
    local every='\n\nUsage: aiger aigtoaig [OPTIONS] [source] [destination]' all='\n\nUsage: aiger aigsim [OPTIONS] <model> [stimulus]'
    local ascii='to write ASCII, use --ascii' random='random steps are a stimulus, which examples/python/stimulus.py writes'
    local witness='to judge a witness, use --witness' frames='the number of time frames is given by --frames' option
    hint -a "$ascii$every" aigtoaig -a none/x
    hint -s "to leave out symbols and comment, use --strip$every" aigtoaig -s none/x
    for option in r s; do hint "-$option" "$random$all" aigsim "-$option" 5 none/x; done
    hint -r "$random$all" aigsim -r5 none/x
    for option in c w; do hint "-$option" "$witness$all" aigsim none/x "-$option"; done
    hint -v "to write a waveform, use --vcd$all" aigsim -v none/x
    for option in k F; do hint "-$option" "$frames$unrolling_usage" aigunroll "-$option" 20 none/x; done
    hint -k "$frames$unrolling_usage" aigunroll -k20 none/x
    hint -a "$ascii$unrolling_usage" aigunroll --frames 2 -a
    hint -x "to pass '-x' as a value, use '-- -x'$all" aigsim -x none/x
    hint -k "to pass '-k' as a value, use '-- -k'$every" aigtoaig -k
    hint --seed "to pass '--seed' as a value, use '-- --seed'$all" aigsim --seed -r none/x
    misused 'one of other programs and a file too many' "unexpected argument 'z' found$all" aigsim x y z -r
    missing 'a file with the name of one' -r aigsim -- -r
}
# hint OPTION TIP WORD..
hint() { local option=$1 tip=$2; shift 2; misused "for '$*'" "unexpected argument '$option' found\n\n  tip: $tip" "$@"; }

# what `aiger --help` prints
help='Tools for circuits in the AIGER format

Usage: aiger <COMMAND>

Commands:
  aigtoaig   Convert an AIGER file to binary or to ASCII
  aigsim     Simulate a circuit, step by step
  aigunroll  Unroll a circuit, write clauses, check refutations and invariants
  aigmiter   Make one circuit of two, to show that they are equal
  aiginfo    Count what a circuit has: sizes, levels, what is used
  aigselect  Select outputs, bad states or justice properties, with their cone
  aigtodot   Draw a circuit, or a cone of it, for Graphviz
  help       Print this message or the help of the given subcommand(s)

Options:
  -h, --help     Print help
  -V, --version  Print version

What each command does, and examples: aiger help COMMAND, and man aiger\n'

rows_words() {
    local usage='\n\nUsage: aiger <COMMAND>' one='\n\nUsage: aiger aigtoaig'
    local every="$one [OPTIONS] [source] [destination]" small='aag 3 1 1 2 0\n6\n2 7\n2\n0\n'
    local image='aig 1 1 0 1 0\n3\nc\naigmap 1 9 1 0 0 0\n9\naigmap end\n' undone='aag 9 1 0 1 0\n18\n19\n'
    row 'no words' 'aag 0 0 0 0 0\n' '' "$help" 2
    missing 'a word after the subcommand' none/x aigtoaig none/x
    missing 'a word behind ASCII' none/x aigtoaig --ascii none/x
    missing 'an empty word behind ASCII' '' aigtoaig --ascii ''
    misused 'a word too many' "unexpected argument 'z' found$every" aigtoaig --ascii x y z
    misused 'the option twice' "the argument '--ascii' cannot be used multiple times$every" aigtoaig --ascii --ascii
    misused 'the words the other way round' "unexpected argument '--ascii' found\n\n  tip: 'aigtoaig --ascii' exists$usage" \
        --ascii aigtoaig
    misused 'a part of the option' \
        "unexpected argument '--asci' found\n\n  tip: a similar argument exists: '--ascii'$one --ascii [source] [destination]" \
        aigtoaig --asci
    misused 'more than the option' \
        "unexpected argument '--asciix' found\n\n  tip: a similar argument exists: '--ascii'$one --ascii [source] [destination]" \
        aigtoaig --asciix
    misused 'capital letters in a word' "unexpected argument '--ASCII' found\n\n  tip: to pass '--ASCII' as a value, use '-- --ASCII'$every" aigtoaig --ASCII
    misused 'one word of two' \
        "unrecognized subcommand 'aigtoaig --ascii'\n\n  tip: a similar subcommand exists: 'aigtoaig'$usage" 'aigtoaig --ascii'
    row 'help' 'aag 0 0 0 0 0\n' "$help" '' 0 --help
    row 'help as a command' 'aag 0 0 0 0 0\n' "$help" '' 0 help
    row 'help as the name of a file' '' '' 'aiger: help: cannot read: No such file or directory\n' 1 aigtoaig help
    misused 'help on another command' "unrecognized subcommand 'convert'$usage" help convert
    misused 'help on two commands' \
        "unrecognized subcommand 'aigsim'\n\nUsage: aiger aigtoaig [OPTIONS] [source] [destination]" help aigtoaig aigsim
    for option in --version -V -Vx; do row "the version: $option" 'aag 0 0 0 0 0\n' 'aiger 1.7.0\n' '' 0 "$option"; done
    row 'the version behind a subcommand' 'aag 0 0 0 0 0\n' 'aiger 1.7.0\n' '' 0 aigtoaig --version
    row 'the version where a model is wanted' '' 'aiger 1.7.0\n' '' 0 aigsim -V
    row 'the version where frames are wanted' '' 'aiger 1.7.0\n' '' 0 aigunroll --version x
    misused 'no option for the version' "unexpected argument '-v' found$usage" -v
    misused 'another subcommand' "unrecognized subcommand 'convert'$usage" convert --ascii
    misused 'a subcommand that is close to all of them' \
        "unrecognized subcommand 'aigsom'\n\n  tip: some similar subcommands exist: 'aigunroll', 'aigselect', 'aigtoaig', 'aigmiter', 'aigtodot', 'aiginfo', 'aigsim'$usage" aigsom x
    local sim='\n\nUsage: aiger aigsim'
    local all="$sim [OPTIONS] <model> [stimulus]"
    misused 'no model' "the following required arguments were not provided:\n  <model>$sim <model> [stimulus]" aigsim
    misused 'an option of conversions' "unexpected argument '--ascii' found\n\n  tip: to pass '--ascii' as a value, use '-- --ascii'$all" \
        aigsim --ascii x
    misused 'a part of the option of simulations' \
        "unexpected argument '--propertie' found\n\n  tip: a similar argument exists: '--properties'$sim --properties <model> [stimulus]" \
        aigsim --propertie x
    misused 'the option of simulations twice' "the argument '--properties' cannot be used multiple times$all" \
        aigsim --properties x --properties
    misused 'a name too many for a simulation' "unexpected argument 'z' found$all" aigsim x y z
    misused 'the option of simulations for a conversion' \
        "unexpected argument '--properties' found\n\n  tip: to pass '--properties' as a value, use '-- --properties'$every" aigtoaig --properties
    misused 'a limit of simulations that is no number' "invalid value 'x' for '--max-var <N>': invalid digit found in string" \
        aigsim x --max-var x
    misused 'another option' "unexpected argument '--binary' found\n\n  tip: to pass '--binary' as a value, use '-- --binary'$every" aigtoaig --binary
    unwanted 'a map kept in ASCII' '--keep-map needs binary output' aigtoaig --keep-map --ascii
    unwanted 'a map kept in a stripped file' '--keep-map excludes --strip' aigtoaig --strip --keep-map
    unwanted 'a map kept and undone' '--keep-map excludes --undo-map' aigtoaig --keep-map --undo-map
    unwanted 'a map kept of outputs as bad states' '--outputs-as-bad excludes --keep-map' aigtoaig --outputs-as-bad --keep-map
    unwanted 'a map undone to outputs as bad states' '--outputs-as-bad excludes --undo-map' aigtoaig --undo-map --outputs-as-bad
    local alone='--justice-as-bad excludes --outputs-as-bad, --keep-map and --undo-map'
    unwanted 'outputs and justice as bad states' "$alone" aigtoaig --outputs-as-bad --justice-as-bad 0
    unwanted 'a map kept of justice as a bad state' "$alone" aigtoaig --justice-as-bad 0 --keep-map
    unwanted 'a map undone to justice as a bad state' "$alone" aigtoaig --undo-map --justice-as-bad 0
    unwanted 'standard output on a disk' '--sync needs the name of a destination' aigtoaig --sync none/x
    unwanted 'standard output on a disk, by -' '--sync needs the name of a destination' aigtoaig none/x --sync -
    misused 'a disk twice' "the argument '--sync' cannot be used multiple times$every" aigtoaig --sync none/x none/y --sync
    misused 'outputs as bad states twice' "the argument '--outputs-as-bad' cannot be used multiple times$every" \
        aigtoaig --outputs-as-bad --outputs-as-bad
    unwanted 'a compressed destination' 'compressed output is not supported: use aiger COMMAND .. - | gzip > FILE.gz' aigtoaig - none/x.aig.gz
    unwanted 'another compressed destination' \
        'compressed output is not supported: use aiger COMMAND .. - | zstd > FILE.zst' aigtoaig - none/x.aag.zst
    unwanted 'a compressed source that is not there' \
        'compressed input is not supported: use xz -dc FILE.xz | aiger COMMAND .. - ..' aigtoaig none/x.aig.xz
    row 'undone to ASCII, the words the other way round' "$image" "$undone" '' 0 aigtoaig --ascii --undo-map
    misused 'a map undone twice' "the argument '--undo-map' cannot be used multiple times$every" aigtoaig --undo-map --undo-map
    missing 'a word behind the map and ASCII' none/x aigtoaig --undo-map --ascii none/x
    unwanted 'a word that is no text' 'an argument is not UTF-8 text' aigtoaig $'\377'
    misused 'a limit without a number' "a value is required for '--max-var <N>' but none was supplied" aigtoaig --max-var
    misused 'a limit above the largest' "invalid value '2147483648' for '--max-var <N>': 2147483648 is not in 0..=2147483647" aigtoaig --max-var 2147483648
    row 'a limit that is reached' "$small" "$small" '' 0 aigtoaig --max-var 3 --ascii
    row 'a limit that is passed' "$small" '' 'aiger: -: line 1: number above the limit\n' 1 aigtoaig --ascii --max-var=2
    row 'inputs that are not listed, above the limit' 'aig 3 3 0 0 0\n' '' 'aiger: -: line 1: number above the limit\n' 1 \
        aigtoaig --ascii --max-var 2
    row 'a limit of nothing' 'aag 0 0 0 0 0\n' 'aig 0 0 0 0 0\n' '' 0 aigtoaig --max-var=0
    row 'symbols and comment left out' 'aag 1 1 0 0 0\n2\ni0 a\nc\nx\n' 'aag 1 1 0 0 0\n2\n' '' 0 aigtoaig --strip --ascii
    row 'symbols and comment left out of a binary file' 'aag 9 1 0 1 0\n18\n19\ni0 a\nc\n' 'aig 1 1 0 1 0\n3\n' '' 0 aigtoaig --strip
    row 'undone, and left out' "${image}x" '' 'aiger: -: map does not belong to this circuit\n' 1 aigtoaig --undo-map --strip
    row 'both streams by -' "$small" "$small" '' 0 aigtoaig --ascii - -
    row 'both streams behind --' "$small" "$small" '' 0 aigtoaig --ascii -- - -
    row 'a source by its name' "$small" "$small" '' 0 aigtoaig --ascii "$work/in"
    row 'a destination by its name' "$small" '' '' 0 aigtoaig - "$work/named.aag"
    row 'a source and a destination by their names' "$small" '' '' 0 aigtoaig "$work/in" "$work/named.aig" --keep-map
    row 'a refused source by its name' 'aag 1 1 0 0 0\n' '' "aiger: $work/in: line 2: file ends too early\n" 1 aigtoaig "$work/in"
}
