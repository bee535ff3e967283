# The rows of aigunroll for justice properties, for the table of all.sh. What is wanted was worked out by hand from
# docs/FORMAT.md: the clauses are those of the circuit that is made of the property, and a witness is a lasso.

# live_clauses NAME FRAMES SOURCE TEXT WORD..: the clauses of justice property 0
live_clauses() { row "$1" "$3" "$4" '' 0 aigunroll --frames "$2" --cnf --justice 0 "${@:5}"; }
# not_live NAME FRAMES SOURCE MESSAGE WORD..: a source that is refused; as the model of an answer, which is not there
not_live() {
    row "$1" "$3" '' "aiger: -: $4\n" 1 aigunroll --frames "$2" --cnf "${@:5}"
    row "$1, and an answer" "$3" '' "aiger: -: $4\n" 1 aigunroll --frames "$2" --answer "$work/none" "${@:5}"
    row "$1, and a refutation" "$3" '' "aiger: -: $4\n" 1 aigunroll --frames "$2" --refutation "$work/none" "${@:5}"
    row "$1, and an invariant" "$3" '' "aiger: -: $4\n" 1 aigunroll --invariant "$work/none" --cnf "${@:5}"
}
# lasso NAME FRAMES ANSWER WITNESS STEP: the lasso that an answer gives, of the model that was made last, and where its
# loop begins
lasso() {
    row "$1" "$3" "$4" '' 0 aigunroll --frames "$2" --justice 0 --answer - "$model"
    row "$1, judged" "$4" "confirmed $5\n" '' 0 aigsim --witness "$model"
}
# no_lasso NAME FRAMES ANSWER MESSAGE: an answer, or a refutation, that is refused
no_lasso() { row "$1" "$3" '' "aiger: -: $4\n" 1 aigunroll --frames "$2" --justice 0 --answer - "$model"; }
no_lasso_within() { row "$1" "$3" "none within $2\n" '' 0 aigunroll --frames "$2" --justice 0 --refutation - "$model"; }

# no goals and no latches: any run; a toggle that is to be 1 again and again; a latch that takes the input; a goal that
# is never met
any_run='aag 0 0 0 0 0 0 0 1\n0\n'
toggles='aag 1 0 1 0 0 0 0 1\n2 3\n1\n2\n'
takes='aag 2 1 1 0 0 0 0 1\n2\n4 2\n1\n4\n'
unmet='aag 0 0 0 0 0 0 0 1\n1\n0\n'

rows_liveness() {
    rows_live_clauses
    rows_lassos
    rows_no_lassos
    rows_never_live
    rows_not_live
}

rows_live_clauses() {
    live_clauses 'clauses of a property without goals' 1 "$any_run" \
        "p cnf 7 17\n-1 0\n-3 2 0\n-3 -1 0\n3 -2 1 0\n-4 -2 0\n-4 -1 0\n4 2 1 0\n-5 -1 0\n-5 1 0\n5 1 -1 0\n$(
        )-6 5 0\n-6 -1 0\n6 -5 1 0\n-7 6 0\n-7 -1 0\n7 -6 1 0\n7 0\n"
    live_clauses 'clauses of a property beside a bad state, which is left out' 1 \
        'aag 0 0 0 0 0 1 0 1\n1\n0\nj0 a\nc\nb\n' \
        "p cnf 7 17\n-1 0\n-3 2 0\n-3 -1 0\n3 -2 1 0\n-4 -2 0\n-4 -1 0\n4 2 1 0\n-5 -1 0\n-5 1 0\n5 1 -1 0\n$(
        )-6 5 0\n-6 -1 0\n6 -5 1 0\n-7 6 0\n-7 -1 0\n7 -6 1 0\n7 0\n"
}

rows_lassos() {
    model "$any_run"
    lasso 'a lasso of nothing' 2 's SATISFIABLE\nv 2 -3 0\n' '1\nj0\n\n\n.\n' 0
    model "$toggles"
    lasso 'a lasso of a toggle' 3 's SATISFIABLE\nv 2 0\n' '1\nj0\n0\n\n\n.\n' 0
    lasso 'a lasso of a toggle, with a stem' 4 's SATISFIABLE\nv 3 0\n' '1\nj0\n0\n\n\n\n.\n' 1
    model "$takes"
    lasso 'a lasso of a latch that takes the input' 3 's SATISFIABLE\nv 2 4 5 0\n' '1\nj0\n0\n1\n1\n.\n' 1
    lasso 'what comes behind the loop is left out' 4 's SATISFIABLE\nv 2 4 5 6 8 0\n' '1\nj0\n0\n1\n1\n.\n' 1
    model 'aag 3 1 2 0 0 0 1 1 1\n2\n4 4 4\n6 2 1\n5\n1\n6\n4\n'
    no_lasso 'a constraint that does not hold' 2 's SATISFIABLE\nv 2 3 0\n' 'no bad state is reached'
}

rows_no_lassos() {
    model "$toggles"
    no_lasso 'too few frames for a lasso' 2 's SATISFIABLE\nv 2 0\n' 'no bad state is reached'
    no_lasso 'a loop that does not begin' 3 's SATISFIABLE\nv 0\n' 'no bad state is reached'
    no_lasso 'an answer that there is none' 3 's UNSATISFIABLE\n' 'unsatisfiable'
    no_lasso_within 'no lasso of a toggle of one step' 2 '0\n'
    model "$any_run"
    no_lasso_within 'no lasso without steps' 1 '0\n'
    row 'a lasso of one step' '0\n' '' 'aiger: -: line 1: does not follow\n' 1 \
        aigunroll --frames 2 --justice 0 --refutation - "$model"
}

# the columns are the latch that says that the loop has begun, and that of the goal
rows_never_live() {
    never_live() { row "$1" "$3" "$4" "$5" "$6" aigunroll --invariant "$2" --justice 0 --refutation - "$model"; }
    printf -- '-1 1\n' > "$work/never_met"
    printf -- '1- 1\n' > "$work/never_begun"
    printf '1 1\n' > "$work/of_one_latch"
    model "$unmet"
    never_live 'a goal that is never met' "$work/never_met" '-16 0\n0\n' 'never\n' '' 0
    never_live 'a loop that begins' "$work/never_begun" '0\n' '' 'aiger: -: line 1: does not follow\n' 1
    never_live 'a refutation that ends, of a goal' "$work/never_met" '' '' 'aiger: -: no refutation\n' 1
    never_live 'too few columns for the circuit of a goal' "$work/of_one_latch" '0\n' '' \
        "aiger: $work/of_one_latch: line 1: not a character for each latch\n" 1
    model 'aag 0 0 0 0 0 0 0 1\n1\n1\n'
    never_live 'a goal that is always met' "$work/never_met" '-16 0\n0\n' '' \
        'aiger: -: line 1: does not follow\n' 1
}

rows_not_live() {
    not_live 'a justice property that there is not' 1 "$any_run" 'no justice property 1' --justice 1
    not_live 'a justice property of none' 2 'aag 1 1 0 0 0 1\n2\n2\n' 'no justice property 0' --justice 0
    not_live 'a loop that has no room' 1 'aag 2147483647 0 0 0 0 0 0 1\n0\n' 'too large' --justice 0
}
