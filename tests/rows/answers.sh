# The rows of aigunroll for SAT solvers, for the table of all.sh: clauses, and what comes of answers. What is wanted was worked
# out by hand from docs/FORMAT.md, "Clauses" and "Answer of a solver".

# clauses NAME FRAMES SOURCE TEXT WORD..: what is written of a source
clauses() { row "$1" "$3" "$4" '' 0 aigunroll --frames "$2" --cnf "${@:5}"; }
# no_clauses NAME FRAMES SOURCE MESSAGE WORD..: a source that is refused; as the model of an answer too, which is not there
no_clauses() {
    row "$1" "$3" '' "aiger: -: $4\n" 1 aigunroll --frames "$2" --cnf "${@:5}"
    row "$1, and an answer" "$3" '' "aiger: -: $4\n" 1 aigunroll --frames "$2" --answer "$work/none" "${@:5}"
}
# answers NAME FRAMES ANSWER WITNESS WORD..: the witness that an answer gives, of the model that was made last
answers() { row "$1" "$3" "$4" '' 0 aigunroll --frames "$2" --answer - "$model" "${@:5}"; }
# unanswered NAME FRAMES ANSWER MESSAGE WORD..
unanswered() { row "$1" "$3" '' "aiger: -: $4\n" 1 aigunroll --frames "$2" --answer - "$model" "${@:5}"; }
# wrong NAME ANSWER LINE: this line is wrong or missing
wrong() { unanswered "$1" 2 "$2" "line $3: bad answer line"; }
unreached() { unanswered "$1" "$2" "$3" 'no bad state is reached' "${@:4}"; }

rows_answers() {
    rows_clauses
    rows_clauses_of_one
    rows_no_clauses
    rows_runs_of_answers
    rows_forms_of_answers
    rows_wrong_answers
    rows_other_answers
    rows_answers_of_one
    rows_answer_names
    rows_clause_words
}

toggle='aag 1 0 1 0 0 1\n2 3\n2\n'
never='aag 3 1 1 0 1 1\n2\n4 6\n4\n6 4 2\n'
free='aag 3 1 1 0 1 1\n2\n4 4 4\n6\n6 4 2\n'
# its latch starts at 1, and takes the first input; the second input is the constraint
held='aag 3 2 1 0 0 1 1\n2\n4\n6 2 1\n6\n4\n'
two='aag 3 2 0 0 1 2\n2\n4\n6\n7\n6 4 2\n'
always='aag 0 0 0 0 0 1\n1\n'
unbad='aag 1 1 0 1 0\n2\n2\n'

rows_clauses() {
    clauses 'clauses of a toggle' 1 "$toggle" 'p cnf 2 5\n-1 0\n-2 -1 0\n-2 1 0\n2 1 -1 0\n2 0\n'
    clauses 'clauses of a toggle, two frames' 2 "$toggle" \
        'p cnf 3 8\n-1 0\n-2 -1 0\n-2 1 0\n2 1 -1 0\n-3 -1 0\n-3 -1 0\n3 1 1 0\n2 3 0\n'
    clauses 'clauses of a toggle in binary' 2 'aig 1 0 1 0 0 1\n3\n2\nb0 bad\nc\nx' \
        'p cnf 3 8\n-1 0\n-2 -1 0\n-2 1 0\n2 1 -1 0\n-3 -1 0\n-3 -1 0\n3 1 1 0\n2 3 0\n'
    clauses 'clauses of a latch that stays 0' 1 "$never" \
        'p cnf 4 8\n-1 0\n-3 2 0\n-3 1 0\n3 -2 -1 0\n-4 -1 0\n-4 1 0\n4 1 -1 0\n4 0\n'
    clauses 'clauses of a latch that stays 0, two frames' 2 "$never" \
        "p cnf 7 14\n-1 0\n-4 2 0\n-4 1 0\n4 -2 -1 0\n-5 -1 0\n-5 1 0\n5 1 -1 0\n$(
        )-6 4 0\n-6 3 0\n6 -4 -3 0\n-7 4 0\n-7 -1 0\n7 -4 1 0\n5 7 0\n"
    clauses 'clauses of a latch without initial value' 1 "$free" \
        'p cnf 5 8\n-1 0\n-4 3 0\n-4 2 0\n4 -3 -2 0\n-5 4 0\n-5 -1 0\n5 -4 1 0\n5 0\n'
    clauses 'clauses of a latch without initial value, two frames' 2 "$free" \
        "p cnf 8 14\n-1 0\n-5 3 0\n-5 2 0\n5 -3 -2 0\n-6 5 0\n-6 -1 0\n6 -5 1 0\n$(
        )-7 4 0\n-7 2 0\n7 -4 -2 0\n-8 7 0\n-8 -1 0\n8 -7 1 0\n6 8 0\n"
    clauses 'clauses of a constraint' 1 "$held" \
        'p cnf 5 8\n-1 0\n-4 3 0\n-4 -1 0\n4 -3 1 0\n-5 4 0\n-5 -1 0\n5 -4 1 0\n5 0\n'
    clauses 'clauses of a constraint, two frames' 2 "$held" \
        "p cnf 9 14\n-1 0\n-6 3 0\n-6 -1 0\n6 -3 1 0\n-7 6 0\n-7 -1 0\n7 -6 1 0\n$(
        )-8 6 0\n-8 5 0\n8 -6 -5 0\n-9 8 0\n-9 2 0\n9 -8 -2 0\n7 9 0\n"
    clauses 'clauses of two bad states' 1 "$two" \
        'p cnf 6 11\n-1 0\n-4 3 0\n-4 2 0\n4 -3 -2 0\n-5 4 0\n-5 -1 0\n5 -4 1 0\n-6 -4 0\n-6 -1 0\n6 4 1 0\n5 6 0\n'
    clauses 'clauses of two bad states, two frames' 2 "$two" \
        "p cnf 11 20\n-1 0\n-6 3 0\n-6 2 0\n6 -3 -2 0\n-7 6 0\n-7 -1 0\n7 -6 1 0\n-8 -6 0\n-8 -1 0\n8 6 1 0\n$(
        )-9 5 0\n-9 4 0\n9 -5 -4 0\n-10 9 0\n-10 -1 0\n10 -9 1 0\n-11 -9 0\n-11 -1 0\n11 9 1 0\n7 8 10 11 0\n"
    clauses 'clauses of a bad state that is 1' 1 "$always" 'p cnf 2 5\n-1 0\n-2 -1 0\n-2 -1 0\n2 1 1 0\n2 0\n'
    clauses 'clauses of a bad state that is 1, two frames' 2 "$always" \
        'p cnf 3 8\n-1 0\n-2 -1 0\n-2 -1 0\n2 1 1 0\n-3 -1 0\n-3 -1 0\n3 1 1 0\n2 3 0\n'
    clauses 'clauses of a bad state that is 0' 1 'aag 0 0 0 0 0 1\n0\n' 'p cnf 2 5\n-1 0\n-2 -1 0\n-2 1 0\n2 1 -1 0\n2 0\n'
    clauses 'outputs are not in the clauses' 1 'aag 1 1 0 2 0 1\n2\n2\n3\n3\n' 'p cnf 3 5\n-1 0\n-3 -2 0\n-3 -1 0\n3 2 1 0\n3 0\n'
    clauses 'the limit is one on the source of clauses' 2 "$toggle" \
        'p cnf 3 8\n-1 0\n-2 -1 0\n-2 1 0\n2 1 -1 0\n-3 -1 0\n-3 -1 0\n3 1 1 0\n2 3 0\n' --max-var 1
}

rows_clauses_of_one() {
    clauses 'clauses of the first bad state' 1 "$two" \
        'p cnf 5 8\n-1 0\n-4 3 0\n-4 2 0\n4 -3 -2 0\n-5 4 0\n-5 -1 0\n5 -4 1 0\n5 0\n' --bad 0
    clauses 'clauses of the second bad state' 1 "$two" \
        'p cnf 5 8\n-1 0\n-4 3 0\n-4 2 0\n4 -3 -2 0\n-5 -4 0\n-5 -1 0\n5 4 1 0\n5 0\n' --bad=1
    clauses 'clauses of the second bad state, two frames' 2 "$two" \
        "p cnf 9 14\n-1 0\n-6 3 0\n-6 2 0\n6 -3 -2 0\n-7 -6 0\n-7 -1 0\n7 6 1 0\n$(
        )-8 5 0\n-8 4 0\n8 -5 -4 0\n-9 -8 0\n-9 -1 0\n9 8 1 0\n7 9 0\n" --bad 1
    clauses 'clauses of the one bad state' 1 "$toggle" 'p cnf 2 5\n-1 0\n-2 -1 0\n-2 1 0\n2 1 -1 0\n2 0\n' --bad 0
}

rows_no_clauses() {
    local liveness='justice or fairness cannot be unrolled' large='too large to unroll'
    no_clauses 'no bad states' 2 "$unbad" 'no bad states'
    no_clauses 'nothing at all' 1 'aag 0 0 0 0 0\n' 'no bad states'
    no_clauses 'a bad state that there is not' 2 "$toggle" 'no bad state 1' --bad 1
    no_clauses 'the largest number of a bad state' 2 "$two" 'no bad state 2147483647' --bad 2147483647
    no_clauses 'a bad state of none' 2 "$unbad" 'no bad state 0' --bad 0
    no_clauses 'justice, and no bad states' 1 'aag 0 0 0 0 0 0 0 1\n0\n' "$liveness"
    no_clauses 'fairness, and a bad state' 1 'aag 0 0 0 0 0 1 0 0 1\n1\n1\n' "$liveness"
    no_clauses 'a bad state that there is not, and justice' 1 'aag 0 0 0 0 0 1 0 1\n0\n0\n' 'no bad state 7' --bad 7
    no_clauses 'clauses of too many inputs, without bad states' 1000000 'aig 2148 2148 0 0 0\n' "$large"
    no_clauses 'clauses of too many bad states' 1000000 "aag 0 0 0 0 0 2148\n$(times 2148 '1\\n')" "$large"
    no_clauses 'a number that solvers do not take' 524287 \
        "aig 8190 4095 4095 0 0 1\n$(seq -f '0 %.0f\n' 8192 2 16380 | tr -d '\n')0\n" "$large"
    no_clauses 'an empty source of clauses' 2 '' 'line 1: not an AIGER file'
    no_clauses 'a source of clauses that ends too early' 2 'aag 1 1 0 0 0 1\n2\n' 'line 3: file ends too early' --bad 7
    no_clauses 'a source of clauses above the limit' 2 "$toggle" 'line 1: number above the limit' --max-var 0
}

# the largest number of a variable that solvers take, of an answer that is found at once
largest_answered() {
    model "aig 4094 0 4094 0 0 4096\n$(seq -f '0 %.0f\n' 2 2 8188 | tr -d '\n')$(times 4096 '1\\n')"
    answers 'the largest number that solvers take' 524287 's SATISFIABLE\nv 0\n' "1\nb0\n$(digits 4094 0)\n\n.\n"
}

# what solvers said of the clauses above, and what comes of it
rows_runs_of_answers() {
    local no='s UNSATISFIABLE\n' yes='s SATISFIABLE\nv'
    model "$toggle"
    unanswered 'no run of a toggle' 1 "$no" 'unsatisfiable'
    answers 'a run of a toggle' 2 "$yes -1 -2 3 0\n" '1\nb0\n0\n\n\n.\n'
    model "$never"
    unanswered 'no run of a latch that stays 0' 2 "$no" 'unsatisfiable'
    model "$free"
    answers 'a run of a latch without initial value' 1 "$yes -1 2 3 4 5 0\n" '1\nb0\n1\n1\n.\n'
    answers 'a run of a latch without initial value, of two frames' 2 "$yes -1 2 3 4 5 6 7 8 0\n" '1\nb0\n1\n1\n.\n'
    model "$held"
    answers 'a run with a constraint' 1 "$yes -1 -2 3 4 5 0\n" '1\nb0\n1\n01\n.\n'
    answers 'a run with a constraint, of two frames' 2 "$yes -1 2 3 4 5 6 7 8 9 0\n" '1\nb0\n1\n11\n.\n'
    model "$two"
    answers 'a run to one of two bad states' 1 "$yes -1 2 3 4 5 -6 0\n" '1\nb0\n\n11\n.\n'
    answers 'a run to one of two bad states, of two frames' 2 "$yes -1 2 3 4 5 6 7 -8 9 10 -11 0\n" '1\nb0\n\n11\n.\n'
    model "$always"
    answers 'a run to what is 1' 1 "$yes -1 2 0\n" '1\nb0\n\n\n.\n'
    answers 'a run to what is 1, of two frames' 2 "$yes -1 2 3 0\n" '1\nb0\n\n\n.\n'
    model 'aag 4 0 4 0 0 1\n2 2 2\n4 4\n6 6 1\n8 8 8\n8\n'
    answers 'first values of each reset' 1 "$yes 2 3 0\n" '1\nb0\n1011\n\n.\n'
    answers 'first values in their order' 1 "$yes -2 3 0\n" '1\nb0\n0011\n\n.\n'
    model 'aag 1 0 1 0 0 4\n2 3\n2\n3\n1\n0\n'
    answers 'the first bad state of the first step' 1 "$yes 0\n" '1\nb1\n0\n\n.\n'
    model 'aig 1 0 1 0 0 1\n3\n2\nl0 a\nc\n'
    answers 'a run of a binary model' 3 "$yes 0\n" '1\nb0\n0\n\n\n.\n'
    model 'aag 4 1 2 1 1 2 1\n2\n4 3 1\n6 4 6\n8\n6\n7\n9\n8 6 3\n'
    answers 'a run of a model with each section' 2 "$yes 2 3 4 0\n" '1\nb0\n11\n1\n.\n'
    answers 'another run of it' 2 "$yes -2 3 4 0\n" '1\nb1\n10\n1\n.\n'
    largest_answered
}

# one answer, in all forms that are accepted: inputs 1 in frame 1 alone
rows_forms_of_answers() {
    local run='1\nb0\n\n00\n11\n.\n' yes='s SATISFIABLE\n'
    model 'aag 3 2 0 0 1 1\n2\n4\n6\n6 4 2\n'
    answers 'values of inputs alone' 2 "${yes}v 4 5 0\n" "$run"
    answers 'values in lines' 2 "${yes}v\nv 4\nv 5\nv 0\n" "$run"
    answers 'values of all variables in one line' 2 "${yes}v -1 -2 -3 4 5 -6 -7 8 9 0\n" "$run"
    answers 'values in any order' 2 "${yes}v 9 5 -1 4 0\n" "$run"
    answers 'values that contradict the clauses' 2 "${yes}v 1 4 5 -9 0\n" "$run"
    answers 'a value given twice, of which the last one counts' 2 "${yes}v -4 2 4 5\nv -2 0\n" "$run"
    answers 'spaces between and behind values' 2 "${yes}v   4    5 0   \n" "$run"
    answers 'comments and empty lines' 2 "c\nc x\n\n${yes}\ncv 2 0\nc s UNKNOWN\nv 4 5\nc v 0\n\nv 0\nc\n\ncomment\n" "$run"
    answers 'an answer with CR LF' 2 'c x\r\n\r\ns SATISFIABLE\r\nv 4\r\nv 5 0\r\n\r\nc\r\n' "$run"
    answers 'a comment with any bytes' 2 "c\x00\x80\r\xff\r\r\n${yes}v 4 5 0\nc\r" "$run"
    answers 'an answer without LF at its end' 2 "${yes}v 4 5 0" "$run"
    answers 'an answer with spaces and without LF at its end' 2 "${yes}v 4 5 0  " "$run"
    answers 'the largest number of a value' 2 "${yes}v 4 5 2147483647 -2147483647 0\n" "$run"
    answers 'numbers of no input' 2 "${yes}v 6 7 8 9 10 11 100000 4 5 0\n" "$run"
    row 'an unsatisfiable answer between comments' 'c\ns UNSATISFIABLE\nc\n' '' 'aiger: -: unsatisfiable\n' 1 \
        aigunroll --frames 2 --answer - "$model"
    unanswered 'an unsatisfiable answer without LF' 2 's UNSATISFIABLE' 'unsatisfiable'
    unanswered 'an unsatisfiable answer with CR LF' 2 's UNSATISFIABLE\r\n' 'unsatisfiable'
    unanswered 'an answer that is not known' 2 's UNKNOWN\n' 'unknown'
    unanswered 'an answer that is not known, without LF' 2 'c out of time\n\ns UNKNOWN' 'unknown'
}

rows_wrong_answers() {
    local yes='s SATISFIABLE\n'
    model 'aag 3 2 0 0 1 1\n2\n4\n6\n6 4 2\n'
    wrong 'an empty answer' '' 1
    wrong 'a comment alone' 'c\n' 2
    wrong 'a comment alone, without LF' 'c x' 2
    wrong 'empty lines alone' '\n\n' 3
    wrong 'no values' "$yes" 2
    wrong 'no values, and no LF' 's SATISFIABLE' 2
    wrong 'no values, and comments' "${yes}c\nc\n" 4
    wrong 'values without 0' "${yes}v 4 5\n" 3
    wrong 'values without 0, and no LF' "${yes}v 4 5" 3
    wrong 'values before the status' "v 4 5 0\n${yes}" 1
    wrong 'values of an unsatisfiable answer' 's UNSATISFIABLE\nv 4 5 0\n' 2
    wrong 'values of an unknown answer' 's UNKNOWN\nv 0\n' 2
    wrong 'two statuses' "${yes}s SATISFIABLE\nv 4 5 0\n" 2
    wrong 'a status behind the values' "${yes}v 4 5 0\ns SATISFIABLE\n" 3
    wrong 'unsatisfiable twice' 's UNSATISFIABLE\ns UNSATISFIABLE\n' 2
    wrong 'values behind 0' "${yes}v 4 0 5\n" 2
    wrong 'values in a line behind 0' "${yes}v 4 5 0\nv 2 0\n" 3
    wrong 'no values in a line behind 0' "${yes}v 4 5 0\nv\n" 3
    wrong '0 twice' "${yes}v 4 5 0 0\n" 2
    wrong 'a status in other letters' 's satisfiable\n' 1
    wrong 'a status without s' 'SATISFIABLE\nv 4 5 0\n' 1
    wrong 'the answer of MiniSat' 'SAT\n4 5 0\n' 1
    wrong 'a part of a status' 's SATISFIABL\nv 4 5 0\n' 1
    wrong 'a part of a status, and no LF' 'c\ns UNSAT' 2
    wrong 'more than a status' 's SATISFIABLEX\nv 4 5 0\n' 1
    wrong 'a space behind a status' 's SATISFIABLE \nv 4 5 0\n' 1
    wrong 'two spaces before a status' 's  SATISFIABLE\nv 4 5 0\n' 1
    wrong 'a space before a line' " ${yes}v 4 5 0\n" 1
    wrong 'a tab between values' "${yes}v 4\t5 0\n" 2
    wrong 'no space behind v' "${yes}v4 5 0\n" 2
    wrong 'a plus' "${yes}v +4 5 0\n" 2
    wrong 'two minuses' "${yes}v --4 5 0\n" 2
    wrong 'a minus alone' "${yes}v 4 5 -\nv 0\n" 2
    wrong 'a minus within a number' "${yes}v 4-5 0\n" 2
    wrong 'a minus before 0' "${yes}v 4 5 -0\n" 2
    wrong 'a leading zero' "${yes}v 04 5 0\n" 2
    wrong '00 as the end' "${yes}v 4 5 00\n" 2
    wrong 'a number that is none' "${yes}v 4 x 0\n" 2
    wrong 'a number above the largest' "${yes}v 4 5 2147483648 0\n" 2
    wrong 'a negated number above the largest' "${yes}c\nv 4 5\nv -2147483648 0\n" 4
    wrong 'a number of 32 bits and more' "${yes}v 4 5 4294967298 0\n" 2
    wrong 'a number of 64 bits and more' "${yes}v 4 5 18446744073709551618 0\n" 2
    wrong 'a number of a hundred digits' "${yes}v 4 5 $(digits 100 9) 0\n" 2
    wrong 'another line' "${yes}o 3\nv 4 5 0\n" 2
    wrong 'a CR without LF at the end' "${yes}v 4 5 0\r" 2
    wrong 'a CR alone at the end' "${yes}v 4 5 0\n\r" 3
    wrong 'a CR within a line' "${yes}v 4\r5 0\n" 2
    wrong 'two CRs before an LF' "${yes}v 4 5 0\r\r\n" 2
    wrong 'a NUL' "${yes}v 4 5 0\x00\n" 2
    wrong 'the first of two wrong lines' 'c\nx\nc\ny\n' 2
    wrong 'the clauses as answer' 'p cnf 9 8\n-1 0\n' 1
}

# an answer on other clauses is a run of this model or none
rows_other_answers() {
    local yes='s SATISFIABLE\nv'
    model "$never"
    unreached 'an answer on another model' 2 "$yes -1 2 3 4 5 0\n"
    model "$toggle"
    answers 'an answer on another model that reaches it' 2 "$yes -1 2 3 4 5 6 7 8 0\n" '1\nb0\n0\n\n\n.\n'
    unreached 'an answer on more frames' 1 "$yes -1 -2 3 0\n"
    answers 'an answer on fewer frames' 5 "$yes -1 -2 3 0\n" '1\nb0\n0\n\n\n.\n'
    model "$held"
    answers 'an answer on more frames that reaches it' 1 "$yes -1 2 3 4 5 6 7 8 9 0\n" '1\nb0\n1\n11\n.\n'
    unreached 'a constraint that breaks at once' 2 "$yes 2 5 0\n"
    model 'aag 3 2 1 0 0 1 1\n2\n4\n6 2\n6\n4\n'
    answers 'a constraint that holds to the end' 2 "$yes 2 3 5 0\n" '1\nb0\n0\n11\n01\n.\n'
    unreached 'a constraint that breaks beside the bad state' 2 "$yes 2 3 0\n"
    unreached 'a constraint that breaks before the bad state' 3 "$yes 2 4 5 6 7 0\n"
    unreached 'no value that is 1' 3 "$yes 0\n"
}

rows_answers_of_one() {
    local yes='s SATISFIABLE\nv'
    model "$two"
    answers 'a run to the first bad state' 2 "$yes 2 4 5 0\n" '1\nb0\n\n10\n11\n.\n' --bad 0
    answers 'a run to the second bad state' 2 "$yes 2 3 5 0\n" '1\nb1\n\n11\n01\n.\n' --bad 1
    answers 'a run to either' 2 "$yes 2 4 5 0\n" '1\nb1\n\n10\n.\n'
    unreached 'a run to the other bad state' 2 "$yes 2 0\n" --bad 0
    unanswered 'no run to one bad state' 2 's UNSATISFIABLE\n' 'unsatisfiable' --bad 1
    model "aag 1 1 0 0 0 12\n2\n$(times 11 '0\\n')2\n"
    answers 'a run to a bad state of two digits' 1 "$yes 2 0\n" '1\nb11\n\n1\n.\n' --bad 11
    answers 'a run to a bad state of two digits, of all' 1 "$yes 2 0\n" '1\nb11\n\n1\n.\n'
}

rows_answer_names() {
    local yes='s SATISFIABLE\nv 0\n' run='1\nb0\n0\n\n\n.\n'
    printf '%b' "$yes" > "$work/answer"
    printf 's UNSATISFIABLE\n' > "$work/no_answer"
    printf 's SAT\n' > "$work/bad_answer"
    model "$toggle"
    row 'an answer by its name' 'bad\n' "$run" '' 0 aigunroll --frames 2 --answer "$work/answer" "$model"
    row 'an answer by its name, behind =' 'bad\n' "$run" '' 0 aigunroll "$model" --frames 2 --answer="$work/answer"
    row 'the model of an answer by standard input' "$toggle" "$run" '' 0 aigunroll --frames 2 --answer "$work/answer"
    row 'the model of an answer by -' "$toggle" "$run" '' 0 aigunroll --frames 2 --answer "$work/answer" - -
    row 'a binary model of an answer by standard input' 'aig 1 0 1 0 0 1\n3\n2\n' "$run" '' 0 \
        aigunroll --frames 2 --answer "$work/answer" -
    row 'a witness with a name' "$yes" '' '' 0 aigunroll --frames 2 --answer - "$model" "$work/named.aiw"
    row 'a witness with a name in .aag' "$yes" '' '' 0 aigunroll --frames 2 --answer - "$model" "$work/named.aag"
    row 'clauses with a name in .aag' "$toggle" '' '' 0 aigunroll --frames 2 --cnf - "$work/named.aag"
    row 'clauses by names' '' 'p cnf 2 5\n-1 0\n-2 -1 0\n-2 1 0\n2 1 -1 0\n2 0\n' '' 0 aigunroll --frames 1 --cnf "$model"
    row 'a model of an answer within the limit' "$yes" "$run" '' 0 aigunroll --frames 2 --answer - "$model" --max-var 1
    # unfound NAME INPUT MESSAGE WORD..
    unfound() { row "$1" "$2" '' "aiger: $3\n" 1 aigunroll --frames 1 "${@:4}"; }
    unfound 'an unsatisfiable answer by its name' '' "$work/no_answer: unsatisfiable" --answer "$work/no_answer" "$model"
    unfound 'a bad answer by its name' '' "$work/bad_answer: line 1: bad answer line" --answer "$work/bad_answer" "$model"
    unfound 'the model as its own answer' '' "$model: line 1: bad answer line" --answer "$model" "$model"
    unfound 'an answer that is not there' 'x' "$work/none: cannot read: No such file or directory" --answer "$work/none" "$model"
    unfound 'an empty name of an answer' 'x' ': cannot read: No such file or directory' --answer '' "$model"
    unfound 'a folder as answer' 'x' "$work: cannot read: Is a directory" --answer "$work" "$model"
    unfound 'a model that is not there, and an answer' "$yes" "$work/none: cannot read: No such file or directory" --answer - "$work/none"
    unfound 'neither model nor answer is there' '' "$work/none: cannot read: No such file or directory" --answer "$work/nothing" "$work/none"
    unfound 'a refused model by its name, and an answer' "$yes" "$work/answer: line 1: not an AIGER file" \
        --answer - "$work/answer"
    unfound 'a model without bad states by its name' "$unbad" "$work/in: no bad states" --cnf "$work/in"
    unfound 'an answer that reaches nothing, by its name' '' "$work/answer: no bad state is reached" \
        --answer "$work/answer" "$model"
}

# the options with others, which are refused before any file is opened, in this order
rows_clause_words() {
    local none=$work/none all=$unrolling_usage tip='\n\n  tip:' file
    local convert='\n\nUsage: aiger aigtoaig [OPTIONS] [source] [destination]'
    local ascii='--cnf excludes --ascii' alone='--answer excludes --cnf and --ascii' needs='--bad needs --cnf, --answer or --refutation'
    local both='model and answer are both standard input' gz='compressed output is not supported: use aiger COMMAND .. - | gzip > FILE.gz'
    unwanted 'clauses in ASCII' "$ascii" aigunroll --frames 2 --cnf --ascii
    unwanted 'clauses in ASCII of an answer' "$ascii" aigunroll --frames 2 --answer - --ascii --cnf - x.gz
    unwanted 'clauses of an answer' "$alone" aigunroll --frames 2 --answer "$none" --cnf "$none"
    unwanted 'an answer in ASCII' "$alone" aigunroll --frames 2 --ascii --answer "$none" "$none"
    unwanted 'an answer in ASCII, by standard input' "$alone" aigunroll --frames 2 --ascii --answer - - x.gz
    unwanted 'a bad state alone' "$needs" aigunroll --frames 2 --bad 0 "$none"
    unwanted 'a bad state in ASCII' "$needs" aigunroll --frames 2 --bad 0 --ascii - x.gz
    unwanted 'a witness to standard output on a disk' '--sync needs the name of a destination' aigunroll --frames 2 --sync --answer -
    unwanted 'model and answer by standard input' "$both" aigunroll --frames 2 --answer -
    unwanted 'model and answer by -' "$both" aigunroll --frames 2 --bad 0 --answer - - x.gz
    unwanted 'a compressed witness' "$gz" aigunroll --frames 2 --answer "$none" "$none" x.gz
    unwanted 'compressed clauses' "$gz" aigunroll --frames 2 --cnf "$none" x.cnf.gz
    unwanted 'clauses without frames' '--frames or --invariant is needed' aigunroll --cnf
    misused 'no answer' "a value is required for '--answer <FILE>' but none was supplied" aigunroll --frames 2 --answer
    misused 'two answers' "the argument '--answer <FILE>' cannot be used multiple times$all" \
        aigunroll --frames 2 --answer a --answer b
    misused 'no number of a bad state' "a value is required for '--bad <N>' but none was supplied" \
        aigunroll --frames 2 --cnf --bad
    misused 'two bad states' "the argument '--bad <N>' cannot be used multiple times$all" \
        aigunroll --frames 2 --bad 0 --bad 0
    for file in 2147483648 4294967296; do
        misused "the bad state $file" "invalid value '$file' for '--bad <N>': $file is not in 0..=2147483647" \
            aigunroll --frames 2 --bad "$file"
    done
    misused 'a bad state that is no number' "invalid value 'b0' for '--bad <N>': invalid digit found in string" \
        aigunroll --frames 2 --bad b0
    misused 'clauses twice' "the argument '--cnf' cannot be used multiple times$all" aigunroll --frames 2 --cnf --cnf
    misused 'the option of clauses for a conversion' \
        "unexpected argument '--cnf' found$tip to pass '--cnf' as a value, use '-- --cnf'$convert" aigtoaig --cnf
}
