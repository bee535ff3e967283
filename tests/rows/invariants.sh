# The rows of aigunroll for invariants, for the table of all.sh. What is wanted was worked out by hand from docs/FORMAT.md,
# "Invariant".

# clauses_for NAME INVARIANT TEXT WORD..: the clauses in which it is to be shown, of the model that was made last
clauses_for() { row "$1" "$2" "$3" '' 0 aigunroll --invariant - --cnf "$model" "${@:4}"; }
# untaken NAME INVARIANT MESSAGE: an invariant that is refused
untaken() { row "$1" "$2" '' "aiger: -: $3\n" 1 aigunroll --invariant - --cnf "$model"; }
bad_row() { untaken "$1" "$2" "line $3: bad line"; }
other_length() { untaken "$1" "$2" "line $3: not a character for each latch"; }
met() { untaken "$1" "$2" "line $3: met by a first state"; }
# held INVARIANT: makes $invariant, a file of its own, since rows may be run after all were made
held() {
    invariants=$((${invariants:-0} + 1))
    invariant=$work/invariant.$invariants
    printf '%b' "$1" > "$invariant"
}
# proves NAME INVARIANT REFUTATION WORD..: no bad state of the model that was made last is reached
proves() {
    held "$2"
    row "$1" "$3" 'never\n' '' 0 aigunroll --invariant "$invariant" --refutation - "$model" "${@:4}"
}
# unproved NAME INVARIANT REFUTATION MESSAGE WORD..
unproved() {
    held "$2"
    row "$1" "$3" '' "aiger: -: $4\n" 1 aigunroll --invariant "$invariant" --refutation - "$model" "${@:5}"
}

rows_invariants() {
    rows_clauses_of_invariants
    rows_forms_of_invariants
    rows_wrong_invariants
    rows_never
    rows_not_shown
    rows_invariants_of_one
    rows_no_model_of_an_invariant
    rows_invariant_names
    rows_invariant_words
}

# Two tokens go from latch to latch. There is one at first, and never are there two: no state meets 11.
tokens='aag 3 0 2 0 1 1\n2 4 1\n4 2\n6\n6 4 2\n'
tokens_binary='aig 3 0 2 0 1 1\n4 1\n2\n6\n\x02\x02'
never_two="p cnf 11 26\n-1 0\n-4 3 0\n-4 2 0\n4 -3 -2 0\n-5 2 0\n-5 -1 0\n5 -2 1 0\n-6 5 0\n-6 3 0\n6 -5 -3 0\n$(
    )-7 3 0\n-7 -1 0\n7 -3 1 0\n-8 7 0\n-8 2 0\n8 -7 -2 0\n-9 -6 0\n-9 -1 0\n9 6 1 0\n$(
    )-10 9 0\n-10 4 0\n10 -9 -4 0\n-11 9 0\n-11 8 0\n11 -9 -8 0\n10 11 0\n"
# the same with three latches in a ring, where there are never two beside one another
ring='aag 4 0 3 0 1 1\n2 6 1\n4 2\n6 4\n8\n8 4 2\n'
# an input, and latches that start at 0, at 1, and at either
three='aag 4 1 3 0 0 1\n2\n4 2\n6 5 1\n8 8 8\n8\n'
# a latch that takes an input, which the constraint wants to be 0
kept_out='aag 2 1 1 0 0 1 1\n2\n4 2\n4\n3\n'

rows_clauses_of_invariants() {
    model "$tokens"
    clauses_for 'clauses of an invariant' '11 1\n' "$never_two"
    clauses_for 'clauses of an empty invariant' '' 'p cnf 5 8\n-1 0\n-4 3 0\n-4 2 0\n4 -3 -2 0\n-5 4 0\n-5 -1 0\n5 -4 1 0\n5 0\n'
    model "$tokens_binary"
    clauses_for 'clauses of an invariant, of a binary model' '11 1\n' "$never_two"
    model "$three"
    clauses_for 'clauses of an invariant with each character' '10- 1\n' \
        "p cnf 12 23\n-1 0\n-6 2 0\n-6 -1 0\n6 -2 1 0\n-7 6 0\n-7 -3 0\n7 -6 3 0\n-8 5 0\n-8 -1 0\n8 -5 1 0\n$(
        )-9 8 0\n-9 2 0\n9 -8 -2 0\n-10 -7 0\n-10 -1 0\n10 7 1 0\n-11 10 0\n-11 4 0\n11 -10 -4 0\n$(
        )-12 10 0\n-12 9 0\n12 -10 -9 0\n11 12 0\n"
    model "$never"
    clauses_for 'clauses of an invariant of two rows' '1 1\n1 1\n' \
        "p cnf 13 32\n-1 0\n-4 3 0\n-4 2 0\n4 -3 -2 0\n-5 2 0\n-5 -1 0\n5 -2 1 0\n-6 4 0\n-6 -1 0\n6 -4 1 0\n$(
        )-7 2 0\n-7 -1 0\n7 -2 1 0\n-8 4 0\n-8 -1 0\n8 -4 1 0\n-9 -5 0\n-9 -1 0\n9 5 1 0\n-10 9 0\n-10 -7 0\n10 -9 7 0\n$(
        )-11 10 0\n-11 2 0\n11 -10 -2 0\n-12 10 0\n-12 6 0\n12 -10 -6 0\n-13 10 0\n-13 8 0\n13 -10 -8 0\n11 12 13 0\n"
    model "$kept_out"
    clauses_for 'clauses of an invariant beside a constraint' '1 1\n' \
        "p cnf 9 20\n-1 0\n-4 2 0\n-4 -1 0\n4 -2 1 0\n-5 3 0\n-5 -1 0\n5 -3 1 0\n-6 -3 0\n-6 -1 0\n6 3 1 0\n$(
        )-7 6 0\n-7 -4 0\n7 -6 4 0\n-8 7 0\n-8 2 0\n8 -7 -2 0\n-9 7 0\n-9 5 0\n9 -7 -5 0\n8 9 0\n"
    model "$free"
    clauses_for 'an empty invariant of a latch without initial value' '' \
        'p cnf 5 8\n-1 0\n-4 3 0\n-4 2 0\n4 -3 -2 0\n-5 4 0\n-5 -1 0\n5 -4 1 0\n5 0\n'
    model 'aag 1 1 0 2 0 1\n2\n2\n3\n3\n'
    clauses_for 'an empty invariant of a model without latches' '' 'p cnf 3 5\n-1 0\n-3 -2 0\n-3 -1 0\n3 2 1 0\n3 0\n'
}

rows_forms_of_invariants() {
    model "$tokens"
    clauses_for 'an invariant as ABC writes it' \
        '# Inductive invariant for "tokens"\n# 10 1\n.i 2\n.o 1\n.p 1\n.ilb lo0 lo1\n.ob inv\n11 1\n.e\n\n' "$never_two"
    clauses_for 'lines that say nothing of an invariant' '\n\n#\n# x\0\xff\r\n.\n..\n. 10 1\n.\r\n11 1\n\n#' "$never_two"
    clauses_for 'an invariant without LF at its end' '11 1' "$never_two"
    clauses_for 'an invariant behind a comment, without LF at its end' '#\n11 1' "$never_two"
}

rows_wrong_invariants() {
    local text
    model "$tokens"
    for text in 1 11 '11 ' '11 0' '11  1' '11 1 ' ' 11 1' '11 1\r' '\r' ' ' '1x 1' '2- 1' '1 1 1' '11 11' '11\t1' '11 1\0' '\0' \
        '\xff' '11 1 # x' c; do
        bad_row "a bad row of an invariant: $text" "$text\n11 1\n" 1
    done
    bad_row 'a bad row behind others, without LF at its end' '#\n\n11 1\n11 ' 4
    other_length 'a row that is too short' '11 1\n1 1\n' 2
    other_length 'a row that is too long' '111 1\n' 1
    other_length 'a row of no character' ' 1\n' 1
    other_length 'a row of another length that a first state would meet' '\n--- 1\n' 2
    met 'a row that a first state meets' '10 1\n' 1
    met 'a row that asks for nothing' '11 1\n-- 1\n' 2
    met 'a row that asks for the first value of a latch' '#\n1- 1\n11 1\n' 2
    met 'a row that asks for the first value of another latch' '-0 1\n' 1
    bad_row 'a bad row before another wrong one' 'x\n1 1\n' 1
    other_length 'another length before another wrong row' '1 1\nx\n' 1
    met 'a row that is met before another wrong row' '10 1\nx\n' 1
    model "$three"
    met 'a row that asks for one of two first values' '--1 1\n' 1
    met 'a row that asks for the other one' '--0 1\n' 1
    model 'aag 1 1 0 0 0 1\n2\n2\n'
    met 'a row of no character, of a model without latches' ' 1\n' 1
    other_length 'a character where there is no latch' '1 1\n' 1
    model 'aag 2147483647 0 1 0 0 1\n4294967294 4294967294\n0\n'
    untaken 'a model that no gate fits into' '1 1\n' 'too large'
    clauses_for 'an empty invariant of that model' '' 'p cnf 3 5\n-1 0\n-3 -1 0\n-3 1 0\n3 1 -1 0\n3 0\n'
}

rows_never() {
    model "$tokens"
    proves 'an invariant that is shown' '11 1\n' '-10 0\n'
    proves 'an invariant that is shown in binary' '11 1\n' 'a\025\000'
    proves 'an invariant that is shown in more lines' '#\n11 1' 'c\n5 -10 0\n-11 0\nd 5 -10 0\n0\nx'
    proves 'a row twice' '11 1\n11 1\n' '-15 0\n-16 0\n'
    model "$ring"
    proves 'an invariant of three rows' '11- 1\n-11 1\n1-1 1\n' '-21 0\n-22 0\n-23 0\n'
    model "$never"
    proves 'an invariant of one latch' '1 1\n' '-8 0\n'
    model "$kept_out"
    proves 'an invariant that a constraint keeps' '1 1\n' '-8 0\n'
    proves 'an invariant by LRAT' '1 1\n' '99 -8 0 0\n' --lrat
    unproved 'an invariant by DRAT as LRAT' '1 1\n' '-8 0\n' 'line 1: bad line' --lrat
    model "$four"
    proves 'a model without latches' '' '3 0\n'
    model 'aag 0 0 0 0 0 1\n0\n'
    proves 'a bad state that is 0, and no refutation' '' ''
    proves 'a bad state that is 0, and what is none' '\n' 'x'
    # the latch is never 1 beside the bad state, whatever it starts at
    model 'aag 2 0 1 0 1 1\n2 3 2\n4\n4 3 2\n'
    proves 'a latch without initial value' '' ''
}

rows_not_shown() {
    model "$tokens"
    unproved 'an empty invariant that is not enough' '' '' 'no refutation'
    unproved 'an empty invariant, and a forged refutation' '' '0\n' 'line 1: does not follow'
    unproved 'an empty invariant, and the refutation of another one' '' '-10 0\n' 'line 1: bad line'
    unproved 'an invariant, and a refutation that is cut' '11 1\n' '-11' 'no refutation'
    unproved 'an invariant, and a line that does not follow' '11 1\n' 'c\n-3 0\n' 'line 2: does not follow'
    unproved 'an invariant, and what is no refutation' '11 1\n' 's UNSATISFIABLE\n' 'line 1: bad line'
    # where there is no token, there is none later
    unproved 'an invariant that is kept, and leaves the bad state out' '00 1\n' '-10 0\n' 'line 1: does not follow'
    model "$ring"
    unproved 'too few rows' '11- 1\n' '' 'no refutation'
    unproved 'too few rows, and a forged refutation' '11- 1\n' 'a\000' 'line 1: does not follow'
    unproved 'too few rows, and the refutation of all' '11- 1\n-11 1\n' '-21 0\n-22 0\n-23 0\n' 'line 1: bad line'
    model "$toggle"
    unproved 'an invariant of a model whose bad state is reached' '1 1\n' '0\n' 'line 1: does not follow'
    model "$kept_out"
    unproved 'an invariant that is not kept without a constraint' '' '-4 0\n' 'line 1: does not follow'
    model "$always"
    unproved 'a bad state that is 1' '' '' 'no refutation'
}

# the first bad state is there at first, the second one never
rows_invariants_of_one() {
    model 'aag 3 0 2 0 1 2\n2 4 1\n4 2\n2\n6\n6 4 2\n'
    clauses_for 'clauses of an invariant for one bad state' '11 1\n' "$never_two" --bad 1
    proves 'one bad state that is never reached' '11 1\n' '-10 0\n' --bad 1
    unproved 'the other bad state' '11 1\n' '-10 0\n' 'line 1: does not follow' --bad 0
    unproved 'both bad states' '11 1\n' '-10 0\n' 'line 1: does not follow'
}

# the model's errors come first: of an invariant that is not there, too
rows_no_model_of_an_invariant() {
    # no_model NAME MODEL MESSAGE WORD..
    no_model() {
        row "$1" "$2" '' "aiger: -: $3\n" 1 aigunroll --invariant "$work/none" --cnf "${@:4}"
        row "$1, and a refutation" "$2" '' "aiger: -: $3\n" 1 \
            aigunroll --invariant "$work/none" --refutation "$work/none" "${@:4}"
    }
    no_model 'no bad states, and an invariant' "$unbad" 'no bad states'
    no_model 'no such bad state, and an invariant' "$tokens" 'no bad state 1' --bad 1
    no_model 'justice, and an invariant' 'aag 0 0 0 0 0 1 0 1\n0\n0\n' 'justice or fairness cannot be unrolled'
    no_model 'a refused model, and an invariant' 'aag 1 1 0 0 0 1\n2\n' 'line 3: file ends too early'
    no_model 'a model above the limit, and an invariant' "$tokens" 'line 1: number above the limit' --max-var 2
}

rows_invariant_names() {
    printf '11 1\n' > "$work/right"
    printf '10 1\n' > "$work/wrong"
    printf -- '-10 0\n' > "$work/proof"
    model "$tokens"
    # never NAME INPUT WORD..
    never() { row "$1" "$2" 'never\n' '' 0 aigunroll "${@:3}"; }
    unknown() { row "$1" "$2" '' "aiger: $3\n" 1 aigunroll "${@:4}"; }
    never 'three files by their names' x --invariant "$work/right" --refutation "$work/proof" "$model"
    never 'three files by their names, behind =' x "$model" --refutation="$work/proof" --invariant="$work/right"
    never 'the model by standard input' "$tokens" --invariant "$work/right" --refutation "$work/proof"
    never 'the model by -' "$tokens" --invariant "$work/right" --refutation "$work/proof" - -
    never 'the invariant by -' '11 1\n' --invariant - --refutation "$work/proof" "$model"
    never 'a model of an invariant within the limit' '-10 0\n' --invariant "$work/right" --refutation - "$model" --max-var 3
    row 'what an invariant shows, with a name' x '' '' 0 \
        aigunroll --invariant "$work/right" --refutation "$work/proof" "$model" "$work/shown.aag"
    row 'the clauses of an invariant by names' "$tokens" "$never_two" '' 0 aigunroll --cnf --invariant "$work/right"
    row 'the clauses of an invariant, with a name' '11 1\n' '' '' 0 aigunroll --cnf --invariant - "$model" "$work/shown.aag"
    unknown 'a wrong invariant by its name' '' "$work/wrong: line 1: met by a first state" \
        --invariant "$work/wrong" --cnf "$model"
    unknown 'a wrong invariant by its name, and a refutation' 'x' "$work/wrong: line 1: met by a first state" \
        --invariant "$work/wrong" --refutation - "$model"
    unknown 'a wrong refutation by its name' '' "$model: line 1: bad line" \
        --invariant "$work/right" --refutation "$model" "$model"
    unknown 'an invariant that is not there' 'x' "$work/none: cannot read: No such file or directory" --invariant "$work/none" --refutation - "$model"
    unknown 'an invariant that is not there, for clauses' '' "$work/none: cannot read: No such file or directory" --invariant "$work/none" --cnf "$model"
    unknown 'a refutation for an invariant that is not there' '11 1\n' "$work/none: cannot read: No such file or directory" \
        --invariant - --refutation "$work/none" "$model"
    unknown 'a folder as invariant' '' "$work: cannot read: Is a directory" --invariant "$work" --cnf "$model"
    unknown 'a model that is not there, and an invariant' '11 1\n' "$work/none: cannot read: No such file or directory" --invariant - --cnf "$work/none"
}

# the options with others, which are refused before any file is opened, in this order
rows_invariant_words() {
    local none=$work/none needs='--invariant needs --cnf or --refutation'
    local alone='--invariant excludes --frames, --ascii and --answer'
    unwanted 'neither frames nor an invariant' '--frames or --invariant is needed' aigunroll --cnf --ascii "$none"
    unwanted 'the clauses of an invariant in ASCII' '--cnf excludes --ascii' aigunroll --invariant - --cnf --ascii
    unwanted 'an invariant, an answer and clauses' '--answer excludes --cnf and --ascii' \
        aigunroll --invariant - --answer - --cnf
    unwanted 'an invariant, an answer and a refutation' '--refutation excludes --cnf, --ascii and --answer' \
        aigunroll --invariant - --refutation - --answer -
    unwanted 'an invariant and frames' "$alone" aigunroll --invariant "$none" --frames 1 --cnf "$none"
    unwanted 'an invariant in ASCII' "$alone" aigunroll --invariant - --ascii
    unwanted 'an invariant and an answer' "$alone" aigunroll --invariant - --answer - --bad 0
    unwanted 'an invariant, a refutation and frames' "$alone" aigunroll --invariant - --refutation - --frames 1 - x.gz
    unwanted 'an invariant alone' "$needs" aigunroll --invariant - --bad 0
    unwanted 'model and invariant by standard input' 'model and invariant are both standard input' \
        aigunroll --invariant - --refutation -
    unwanted 'model and invariant by -' 'model and invariant are both standard input' aigunroll --invariant - --cnf - x.gz
    unwanted 'model and refutation by -, and an invariant' 'model and refutation are both standard input' \
        aigunroll --invariant "$none" --refutation - - x.gz
    unwanted 'invariant and refutation by standard input' 'invariant and refutation are both standard input' \
        aigunroll --invariant - --refutation - "$none" x.gz
    unwanted 'the compressed clauses of an invariant' 'compressed output is not supported: use aiger COMMAND .. - | gzip > FILE.gz' \
        aigunroll --invariant "$none" --cnf "$none" x.cnf.gz
    misused 'no invariant' "a value is required for '--invariant <FILE>' but none was supplied" aigunroll --cnf --invariant
    misused 'two invariants' "the argument '--invariant <FILE>' cannot be used multiple times$unrolling_usage" \
        aigunroll --invariant a --invariant b
}
