# The rows of aiginfo and aigselect, for the table of all.sh. What is wanted was worked out by hand from docs/FORMAT.md,
# "Counts" and "Selection".

counted='max_var inputs latches outputs gates bad constraints justice fairness latches_at_one uninitialised_latches symbols
    comment_bytes levels used_inputs used_latches used_gates unused_inputs unused_latches unused_gates'

# numbers NAME INPUT NUMBER..: what is counted, as lines and as an object; counts that are left out at the end are 0
numbers() {
    local name=$1 input=$2 lines= fields= field
    shift 2
    for field in $counted; do
        lines+="$field ${1:-0}\n"
        fields+=",\"$field\":${1:-0}"
        shift "$(($# > 0))"
    done
    row "$name" "$input" "$lines" '' 0 aiginfo
    row "$name, as JSON" "$input" "{${fields#,}}\n" '' 0 aiginfo --json
}

# selects NAME SOURCE TEXT WORD..: the selection, in ASCII; to_binary: in binary; nothing_there NAME SOURCE MESSAGE WORD..
selects() { row "$1" "$2" "$3" '' 0 aigselect --ascii "${@:4}"; }
selects_to_binary() { row "$1" "$2" "$3" '' 0 aigselect "${@:4}"; }
nothing_there() { row "$1" "$2" '' "aiger: -: $3\n" 1 aigselect "${@:4}"; }

rows_parts() {
    rows_numbers
    rows_selections
    rows_selected_latches
    rows_selected_properties
    rows_not_selected
}

rows_numbers() {
    numbers 'counts of nothing' 'aag 0 0 0 0 0\n'
    numbers 'counts of a toggle with enable and reset' \
        'aag 7 2 1 2 4\n2\n4\n6 8\n6\n7\n8 4 10\n10 13 15\n12 2 6\n14 3 7\n' 7 2 1 2 4 0 0 0 0 0 0 0 0 3 2 1 4
    numbers 'counts of what is used and what is not' \
        'aag 6 2 2 1 2\n2\n4\n6 2 1\n8 8 8\n6\n10 6 2\n12 10 4\ni0 a\nl1 b\nc\nhello\n' \
        6 2 2 1 2 0 0 0 0 1 1 2 6 2 1 1 0 1 1 2
    numbers 'counts of properties, on which inputs are used' 'aag 3 3 0 0 0 1 1 2 1\n2\n4\n6\n2\n3\n0\n1\n4\n6\n' \
        3 3 0 0 0 1 1 2 1 0 0 0 0 0 3
    numbers 'counts of variables that nothing defines' 'aag 9 1 0 0 0\n2\n' 9 1 0 0 0 0 0 0 0 0 0 0 0 0 0 0 0 1
    numbers 'counts of a binary file' 'aig 3 2 0 1 1\n6\n\x02\x02i0 x\n' 3 2 0 1 1 0 0 0 0 0 0 1 0 1 2 0 1
    numbers 'counts of an empty comment' 'aag 0 0 0 0 0\nc\n'
    numbers 'counts of gates in another order' 'aag 4 1 0 1 3\n2\n8\n8 7 6\n6 4 2\n4 2 3\n' 4 1 0 1 3 0 0 0 0 0 0 0 0 3 1 0 3
    row 'counts of no file' 'x\n' '' 'aiger: -: line 1: not an AIGER file\n' 1 aiginfo
    row 'counts above the limit' 'aag 1 1 0 0 0\n2\n' '' 'aiger: -: line 1: number above the limit\n' 1 aiginfo --max-var 0
    row 'counts on a disk of no name' 'aag 0 0 0 0 0\n' '' 'aiger: --sync needs the name of a destination\n' 2 aiginfo --sync
}

# outputs, bad states, inputs and gates; their names
two_of_each='aag 5 3 0 2 2 2\n2\n4\n6\n8\n10\n2\n7\n8 2 4\n10 4 6\ni0 a\ni1 b\ni2 c\no0 x\no1 y\nb0 p\nb1 q\nc\nsaid\n'
rows_selections() {
    local ordered='aig 3 2 0 1 1\n6\n\x02\x02i0 b\ni1 c\no0 y\n'
    selects 'the first output' "$two_of_each" 'aag 5 2 0 1 1\n2\n4\n8\n8 2 4\ni0 a\ni1 b\no0 x\n' --output 0
    selects 'the second output' "$two_of_each" 'aag 5 2 0 1 1\n4\n6\n10\n10 4 6\ni0 b\ni1 c\no0 y\n' --output 1
    selects_to_binary 'the second output, to binary' "$two_of_each" "$ordered" --output 1
    selects_to_binary 'an output of a binary file' "$ordered" "$ordered" --output 0
    selects 'a bad state' "$two_of_each" 'aag 5 1 0 0 0 1\n6\n7\ni0 c\nb0 q\n' --bad 1
    selects 'an output and a bad state' "$two_of_each" \
        'aag 5 3 0 1 1 1\n2\n4\n6\n8\n7\n8 2 4\ni0 a\ni1 b\ni2 c\no0 x\nb0 q\n' --bad 1 --output 0
    selects 'both bad states, in their order' "$two_of_each" 'aag 5 2 0 0 0 2\n2\n6\n2\n7\ni0 a\ni1 c\nb0 p\nb1 q\n' \
        --bad 1 --bad 0
    selects 'a bad state that is chosen twice' "$two_of_each" 'aag 5 1 0 0 0 1\n2\n2\ni0 a\nb0 p\n' --bad 0 --bad=0
    selects 'all outputs and bad states, without the comment' "$two_of_each" "${two_of_each%c\\nsaid\\n}" \
        --output 0 --output 1 --bad 0 --bad 1
    selects 'a constant' 'aag 0 0 0 2 0\n0\n1\n' 'aag 0 0 0 1 0\n1\n' --output 1
    selects 'gates in any order' 'aag 5 2 0 2 3\n2\n4\n11\n6\n10 8 2\n6 4 2\n8 3 5\n' \
        'aag 5 2 0 1 2\n2\n4\n11\n10 8 2\n8 3 5\n' --output 0
    selects 'a symbol of each name and of none' 'aag 2 2 0 2 0\n2\n4\n2\n4\no1 \ni1 same\ni0 same\n' \
        'aag 2 1 0 1 0\n4\n4\no0 \ni0 same\n' --output 1
}

# next states are followed
rows_selected_latches() {
    local chain='aag 4 1 3 1 0 1\n2\n4 2 1\n6 4\n8 8 8\n6\n4\nl0 first\nl1 second\nl2 third\n'
    selects 'what latches hold in later steps' "$chain" 'aag 4 1 2 1 0\n2\n4 2 1\n6 4\n6\nl0 first\nl1 second\n' --output 0
    selects 'the first latch of a chain' "$chain" 'aag 4 1 1 0 0 1\n2\n4 2 1\n4\nl0 first\n' --bad 0
    selects 'a latch behind others' 'aag 2 0 2 0 0 2\n2 3\n4 4 4\n2\n5\nl0 a\nl1 b\n' 'aag 2 0 1 0 0 1\n4 4 4\n5\nl0 b\n' --bad 1
    selects_to_binary 'a latch behind others, to binary' 'aag 2 0 2 0 0 2\n2 3\n4 4 4\n2\n5\nl0 a\nl1 b\n' \
        'aig 1 0 1 0 0 1\n2 2\n3\nl0 b\n' --bad 1
}

# constraints stay, and fairness beside justice
rows_selected_properties() {
    local assumed='aag 2 2 0 1 0 0 1\n2\n4\n2\n4\nc0 kept\n'
    local fair='aag 3 3 0 1 0 0 0 2 1\n2\n4\n6\n2\n1\n1\n4\n5\n6\nj0 one\nj1 two\nf0 all\n'
    selects 'a constraint stays' "$assumed" "$assumed" --output 0
    selects 'fairness goes without justice' "$fair" 'aag 3 1 0 1 0\n2\n2\n' --output 0
    selects 'a justice property with fairness' "$fair" 'aag 3 2 0 0 0 0 0 1 1\n4\n6\n1\n5\n6\nj0 two\nf0 all\n' --justice 1
    selects 'a justice property of no literals, behind one' 'aag 1 1 0 0 0 0 0 2\n2\n1\n0\n2\n' \
        'aag 1 0 0 0 0 0 0 1\n0\n' --justice 1
}

rows_not_selected() {
    nothing_there 'no such output' "$two_of_each" 'no output 2' --output 2
    nothing_there 'no such bad state' "$two_of_each" 'no bad state 7' --output 1 --bad 0 --bad 7
    nothing_there 'no justice property' "$two_of_each" 'no justice property 0' --justice 0 --bad 0
    nothing_there 'the first that is not there: an output' "$two_of_each" 'no output 9' --justice 0 --bad 7 --output 9
    nothing_there 'the first that is not there: as it is given' "$two_of_each" 'no bad state 9' --bad 9 --bad 7
    nothing_there 'a file that is wrong is told before a position' 'aag 0 0 0 1 0\n2\n' \
        'line 2: literal out of range' --output 9
    nothing_there 'a selection above the limit' "$two_of_each" 'line 1: number above the limit' --output 0 --max-var 4
    row 'nothing is selected' "$two_of_each" '' 'aiger: --output, --bad or --justice is needed\n' 2 aigselect --ascii
    row 'a selection that is compressed' "$two_of_each" '' 'aiger: compressed output is not supported: use aiger COMMAND .. - | gzip > FILE.gz\n' \
        2 aigselect --bad 0 - x.gz
}
