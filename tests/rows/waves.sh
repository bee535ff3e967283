# The rows of aigsim --vcd, for the table of all.sh. As in traces.sh, the stimulus comes by standard input and the
# model is the file that was made last; each row is run with --batch too.

# dumped NAME STIMULUS SCOPES FRAMES: a simulation that ends well, with what its dump says of signals, then of times
dumped() { traced "$1" "$2" "$(dump "$3" "$4")" --vcd "$model"; }
# run_of NAME WITNESS ANSWER SCOPES FRAMES: the answer to a witness, and the dump of its run
run_of() {
    row "$1" "$2" "\$comment $3 \$end\\n$(dump "$4" "$5")" '' "$([[ $3 = confirmed* ]]; echo $?)" \
        aigsim --witness --vcd "$model"
}
# no_run NAME WITNESS TEXT WORD..: a witness that has no dump
no_run() { row "$1" "$2" '' "aiger: $3\n" 1 aigsim --witness --vcd "${@:4}"; }
# cut_short NAME STIMULUS SCOPES FRAMES LINE: this line is bad, and the dump of those before it stands
cut_short() { untraced "$1" "$2" "$(dump "$3" "$4")" "-: line $5: bad stimulus line" --vcd "$model"; }
# not_dumped NAME STIMULUS TEXT WORD..: a simulation that fails before the first line, and writes nothing
not_dumped() { untraced "$1" "$2" '' "$3" --vcd "${@:4}"; }

dump() {
    printf %s '$version aiger $end\n$timescale 1 ns $end\n$scope module aiger $end\n$var integer 64 r run $end\n' \
        "$1" '$upscope $end\n$enddefinitions $end\n' "$2"
}
# scope NAME SIGNAL..: a scope and its signals, each by its sort, size, code and words
scope() {
    printf %s "\$scope module $1 \$end\\n"
    printf '$var %s $end\\n' "${@:2}"
    printf %s '$upscope $end\n'
}
# at TIME CHANGE..
at() { printf '#%s\\n' "$1"; [ $# = 1 ] || printf '%s\\n' "${@:2}"; }

rows_waves() {
    rows_frames
    rows_groups
    rows_wave_runs
    rows_buses
    rows_wave_names
    rows_cut_dumps
    rows_witness_runs
    rows_lasso_runs
    rows_wave_words
}

# steps, x, and a frame behind the last step of a run
rows_frames() {
    local latch outputs gate each
    model 'aag 1 0 1 2 0\n2 3\n2\n3\n'
    latch=$(scope latches 'reg 1 l0 l0')
    outputs=$(scope outputs 'wire 1 o0 o0' 'wire 1 o1 o1')
    dumped 'the dump of a toggle' '\n\n' "$latch$outputs" \
        "$(at 0 'b0 r' 0l0 0o0 1o1)$(at 1 1l0 1o0 0o1)$(at 2 0l0 zo0 zo1)$(at 3)"
    dumped 'the dump of a toggle, CR LF and . without LF' '\r\n\n.' "$latch$outputs" \
        "$(at 0 'b0 r' 0l0 0o0 1o1)$(at 1 1l0 1o0 0o1)$(at 2 0l0 zo0 zo1)$(at 3)"
    model 'aag 3 2 0 1 1\n2\n4\n6\n6 2 4\n'
    gate=$(scope inputs 'wire 1 i0 i0' 'wire 1 i1 i1')$(scope outputs 'wire 1 o0 o0')
    dumped 'the dump of a gate, with x' '0x\n1x\n11\n' "$gate" \
        "$(at 0 'b0 r' 0i0 xi1 0o0)$(at 1 1i0 xo0)$(at 2 1i1 1o0)$(at 3 zi0 zi1 zo0)$(at 4)"
    dumped 'the dump of no stimulus' '' "$gate" '#0\n'
    model 'aag 1 0 1 0 0 1\n2 3 2\n2\n'
    dumped 'frames in which nothing changes' '\n\n\n.\n' "$(scope latches 'reg 1 l0 l0')$(scope bad 'wire 1 b0 b0')" \
        "$(at 0 'b0 r' xl0 xb0)$(at 1)$(at 2)$(at 3 zb0)$(at 4)"
    model 'aag 0 0 0 0 0\n'
    dumped 'the dump of a circuit of nothing' '\n.\n' '' "$(at 0 'b0 r')$(at 1)$(at 2)"
    model 'aag 4 1 2 1 1 2 1 2 1\n2\n4 3 1\n6 4 6\n8\n6\n7\n9\n2\n1\n3\n4\n8\n5\n8 6 3\nb1 bad\nj0 live\nf0 f\nl1 [1]'
    each=$(scope inputs 'wire 1 i0 i0')$(scope latches 'reg 1 l0 l0' 'reg 1 l1 (1)')$(scope outputs 'wire 1 o0 o0')
    each+=$(scope bad 'wire 1 b0 b0' 'wire 1 b1 bad')$(scope constraints 'wire 1 c0 c0')
    dumped 'the dump of each section but justice and fairness' '0\n1\n' "$each" \
        "$(at 0 'b0 r' 0i0 1l0 xl1 xo0 xb0 xb1 xc0)$(at 1 1i0 1l1 0o0 1b0 0b1 1c0)$(
            at 2 zi0 0l0 zo0 zb0 zb1 zc0)$(at 3)"
}

# bits that change at the ends of groups of 32, between others that stay
rows_groups() {
    local bits
    mapfile -t bits < <(seq 0 69 | awk '{ print "wire 1 i" $1 " i" $1 }')
    model "aag 70 70 0 0 0\n$(seq -s '\n' 2 2 140)\n"
    dumped 'the dump of bits that change beside others that stay' \
        "$(digits 70 0)\n1$(digits 30 0)11$(digits 36 0)1\n$(digits 69 0)1\n" "$(scope inputs "${bits[@]}")" \
        "$(at 0 'b0 r' $(seq -f '0i%g' 0 69))$(at 1 1i0 1i31 1i32 1i69)$(at 2 0i0 0i31 0i32)$(
            at 3 $(seq -f 'zi%g' 0 69))$(at 4)"
}

rows_wave_runs() {
    local latch closed
    model 'aag 1 0 1 0 0\n2 3 1\n'
    latch=$(scope latches 'reg 1 l0 l0')
    closed="$(at 0 'b0 r' 1l0)$(at 1 0l0)$(at 2 'b1 r' 1l0)$(at 3 'b10 r')$(at 4 0l0)$(at 5)"
    dumped 'the dump of several runs, one of them without a step' '\n.\n.\n\n' "$latch" "$closed"
    dumped 'the dump of several runs, the last one ended' '\n.\n.\n\n.\n' "$latch" "$closed"
    dumped 'the dump of runs without a step' '.\n.\n' "$latch" "$(at 0 'b0 r' 1l0)$(at 1 'b1 r')$(at 2)"
    model 'aag 2 2 0 0 0 0 1\n2\n4\n3\n'
    dumped 'the dump of a constraint and no run' '' \
        "$(scope inputs 'wire 1 i0 i0' 'wire 1 i1 i1')$(scope constraints 'wire 1 c0 c0')" '#0\n'
    model 'aag 1 1 0 0 0\n2\n'
    closed=$(awk 'function binary(n) { return n < 2 ? n : binary(int(n / 2)) n % 2 }
        BEGIN { for (run = 0; run < 300; run++) printf "#%d\\nb%s r\\n%s", run, binary(run), run ? "" : "zi0\\n" }')
    dumped 'the dump of 300 runs without a step' "$(digits 300 . | sed 's/\./.\\n/g')" \
        "$(scope inputs 'wire 1 i0 i0')" "$closed$(at 300)"
}

# names whose indices go up by one are one signal
rows_buses() {
    model 'aag 6 3 3 0 0\n2\n4\n6\n8 2\n10 4\n12 6 1\ni0 d[0]\ni1 d[1]\ni2 d[2]\nl0 q[4]\nl1 q[5]\nl2 q[7]\n'
    dumped 'buses of three bits and of two, and a bit that does not follow' '100\nx01\n' \
        "$(scope inputs 'wire 3 i0 d [2:0]')$(scope latches 'reg 2 l0 q [5:4]' 'reg 1 l2 q [7]')" \
        "$(at 0 'b0 r' 'b001 i0' 'b00 l0' 1l2)$(at 1 'b10x i0' 'b01 l0' 0l2)$(at 2 'bzzz i0' 'b0x l0' 1l2)$(at 3)"
    model "aag 8 8 0 0 0\n$(seq -s '\n' 2 2 16)\ni0 a[999999998]\ni1 a[999999999]\ni2 a[1000000000]\ni3 b[1]\ni4 b[0]
i5 c[09]\ni6 d[0]\ni7 D[1]\n"
    dumped 'the largest index, indices that go down, zeros and other fronts' '10010110\n' \
        "$(scope inputs 'wire 2 i0 a [999999999:999999998]' 'wire 1 i2 a(1000000000)' 'wire 1 i3 b [1]' \
            'wire 1 i4 b [0]' 'wire 1 i5 c(09)' 'wire 1 i6 d [0]' 'wire 1 i7 D [1]')" \
        "$(at 0 'b0 r' 'b01 i0' 0i2 1i3 0i4 1i5 1i6 0i7)$(at 1 'bzz i0' zi2 zi3 zi4 zi5 zi6 zi7)$(at 2)"
    model 'aag 4 4 0 0 0\n2\n4\n6\n8\ni0 m(1)[0]\ni1 m[1][1]\ni2 m[1][2]\ni3 m[1][3]\n'
    dumped 'fronts that are shown alike and are not' '1011\n' \
        "$(scope inputs 'wire 1 i0 m(1) [0]' 'wire 3 i1 m(1) [3:1]')" \
        "$(at 0 'b0 r' 1i0 'b110 i1')$(at 1 zi0 'bzzz i1')$(at 2)"
    model "aag 300 300 0 0 0\n$(seq -s '\n' 2 2 600)\n$(seq 0 299 | awk '{ printf "i%d wide[%d]\\n", $1, $1 }')"
    dumped 'a bus of 300 bits' "1$(digits 299 0)\n" "$(scope inputs 'wire 300 i0 wide [299:0]')" \
        "$(at 0 'b0 r' "b$(digits 299 0)1 i0")$(at 1 "b$(digits 300 z) i0")$(at 2)"
}

# names that are no words of a dump, or are there twice
rows_wave_names() {
    model 'aag 5 5 0 0 0\n2\n4\n6\n8\n10\ni0 a b\ni1 $end\ni2 m[1][2]\ni3 w[7:0]\ni4 n[01]\n'
    dumped 'names that are no words' '10101\n' "$(scope inputs 'wire 1 i0 a_b' 'wire 1 i1 _end' 'wire 1 i2 m(1) [2]' \
        'wire 1 i3 w(7_0)' 'wire 1 i4 n(01)')" "$(at 0 'b0 r' 1i0 0i1 1i2 0i3 1i4)$(at 1 zi0 zi1 zi2 zi3 zi4)$(at 2)"
    model 'aag 6 5 1 1 0\n2\n4\n6\n8\n10\n12 2\n13\ni0 a[0]\ni1 a[0]\ni2 \ni3 i4\ni4 [3]\nl0 q\no0 q\n'
    dumped 'equal names, an empty one, and that of another code' '11010\n' "$(scope inputs 'wire 1 i0 a [0]' \
        'wire 1 i1 a [0]' 'wire 1 i2 i2' 'wire 1 i3 i4' 'wire 1 i4 (3)')$(scope latches 'reg 1 l0 q')$(scope outputs \
        'wire 1 o0 q')" "$(at 0 'b0 r' 1i0 1i1 0i2 1i3 0i4 0l0 1o0)$(at 1 zi0 zi1 zi2 zi3 zi4 1l0 zo0)$(at 2)"
    model 'aag 3 3 0 0 0\n2\n4\n6\ni0 \0000\0001\t\r \0177\0200\0377\ni1 !~\\\x27"#%&*+,-./;<=>?@^`{|}\ni2 $:[]()_\n'
    dumped 'bytes of names' '010\n' "$(scope inputs 'wire 1 i0 ________' 'wire 1 i1 !~\\\x27"#%&*+,-./;<=>?@^`{|}' \
        'wire 1 i2 __()()_')" "$(at 0 'b0 r' 0i0 1i1 0i2)$(at 1 zi0 zi1 zi2)$(at 2)"
}

# what is written where a line of the stimulus is bad, or the model is refused
rows_cut_dumps() {
    local gate
    model 'aag 3 2 0 1 1\n2\n4\n6\n6 2 4\n'
    gate=$(scope inputs 'wire 1 i0 i0' 'wire 1 i1 i1')$(scope outputs 'wire 1 o0 o0')
    cut_short 'no time behind the last frame before a bad line' '0x\n1\n11\n' "$gate" "$(at 0 'b0 r' 0i0 xi1 0o0)" 2
    cut_short 'a bad line behind a run' '0x\n.\n1' "$gate" "$(at 0 'b0 r' 0i0 xi1 0o0)$(at 1 zi0 zi1 zo0)" 3
    not_dumped 'no dump behind a bad line 1' '1\n' '-: line 1: bad stimulus line' "$model"
    not_dumped 'no dump of a model that is not there' '11\n' "$work/none: cannot read: No such file or directory" "$work/none"
    not_dumped 'no dump of a stimulus that is not there' '' "$work/none: cannot read: No such file or directory" "$model" "$work/none"
    not_dumped 'no dump of a model above the limit' '11\n' "$model: line 1: number above the limit" --max-var 2 "$model"
    model 'aag 1 1 0 0 0\nx\n'
    not_dumped 'no dump of a model with a bad line' '1\n' "$model: line 2: bad line" "$model"
}

# the run of a witness, which begins in its first state
rows_witness_runs() {
    local all closed='zi0 zb0 zb1 zc0' latch
    model 'aag 3 1 2 0 0 2 1\n2\n4 2\n6 4 6\n4\n6\n1\ni0 go\nl0 a\nl1 b\nb0 hit\n'
    all=$(scope inputs 'wire 1 i0 go')$(scope latches 'reg 1 l0 a' 'reg 1 l1 b')
    all+=$(scope bad 'wire 1 b0 hit' 'wire 1 b1 b1')$(scope constraints 'wire 1 c0 c0')
    run_of 'the run of a witness, with x' '1\nb0\n01\n1\n0\nx\n.\n' 'confirmed 1' "$all" \
        "$(at 0 'b0 r' 1i0 0l0 1l1 0b0 1b1 1c0)$(at 1 0i0 1l0 0l1 1b0 0b1)$(at 2 xi0 0l0 1l1 0b0 1b1)$(
            at 3 zi0 xl0 0l1 zb0 zb1 zc0)$(at 4)"
    run_of 'the run of a witness for the other bad state, CR LF and . without LF' '1\r\nb1\r\n01\r\n1\r\n.' \
        'confirmed 0' "$all" "$(at 0 'b0 r' 1i0 0l0 1l1 0b0 1b1 1c0)$(at 1 zi0 1l0 0l1 zb0 zb1 zc0)$(at 2)"
    run_of 'the run of a witness with comments' 'c\n1\nc x\nb1\ncc\n01\nc 0\n1\nc\n.\nc' \
        'confirmed 0' "$all" "$(at 0 'b0 r' 1i0 0l0 1l1 0b0 1b1 1c0)$(at 1 zi0 1l0 0l1 zb0 zb1 zc0)$(at 2)"
    run_of 'the run of a witness that is not confirmed' '1\nb1\n00\n0\n.\n' 'not confirmed' "$all" \
        "$(at 0 'b0 r' 0i0 0l0 0l1 0b0 0b1 1c0)$(at 1 $closed)$(at 2)"
    run_of 'a first state, and no step' '1\nb1\n01\n.\n' 'not confirmed' "$all" \
        "$(at 0 'b0 r' zi0 0l0 1l1 zb0 zb1 zc0)$(at 1)"
    run_of 'a first state with x, and no step' '1\nb1\n0x\n.\n' 'not confirmed' "$all" \
        "$(at 0 'b0 r' zi0 0l0 xl1 zb0 zb1 zc0)$(at 1)"
    no_run 'no run of a wrong first state' '1\nb0\n1x\n1\n.\n' '-: line 3: bad witness line' "$model"
    no_run 'no run with a wrong step' '1\nb0\n01\n1\n1\n2\n.\n' '-: line 6: bad witness line' "$model"
    no_run 'no run without its end' '1\nb0\n01\n1\n' '-: line 5: bad witness line' "$model"
    no_run 'no run with a line behind it' '1\nb0\n01\n1\n.\n\n' '-: line 6: bad witness line' "$model"
    no_run 'no run of an empty witness' '' '-: line 1: bad witness line' "$model"
    no_run 'no run of a witness that is not there' '' "$work/none: cannot read: No such file or directory" "$model" "$work/none"
    no_run 'no run for a model that is not there' '1\nb0\n01\n.\n' "$work/none: cannot read: No such file or directory" "$work/none"
    model 'aag 1 0 1 0 0 1\n2 3 1\n2\n'
    latch=$(scope latches 'reg 1 l0 l0')$(scope bad 'wire 1 b0 b0')
    run_of 'the run of a witness from a reset to 1' '1\nb0\n1\n\n\n.\n' 'confirmed 0' "$latch" \
        "$(at 0 'b0 r' 1l0 1b0)$(at 1 0l0 0b0)$(at 2 1l0 zb0)$(at 3)"
    model 'aag 0 0 0 0 0 1\n1\n'
    run_of 'the run of a witness without latches and inputs' '1\nb0\n\n\n.\n' 'confirmed 0' \
        "$(scope bad 'wire 1 b0 b0')" "$(at 0 'b0 r' 1b0)$(at 1 zb0)$(at 2)"
}

# the run of a lasso, in which one input more marks the loop
rows_lasso_runs() {
    local latch all marked
    model 'aag 2 1 1 0 0 0 0 1\n2\n4 2\n1\n4\ni0 go\nl0 a\nj0 live\n'
    latch=$(scope latches 'reg 1 l0 a')
    marked=$(scope inputs 'wire 1 i0 go' 'wire 1 i1 loop')$latch
    run_of 'the run of a lasso' '1\nj0\n0\n1\n1\n.\n' 'confirmed 1' "$marked" \
        "$(at 0 'b0 r' 1i0 0i1 0l0)$(at 1 1i1 1l0)$(at 2 zi0 zi1)$(at 3)"
    run_of 'the run of a lasso from the first step on, CR LF and . without LF' '1\r\nj0\r\n0\r\n1\r\n0\r\n.' \
        'confirmed 0' "$marked" "$(at 0 'b0 r' 1i0 1i1 0l0)$(at 1 0i0 1l0)$(at 2 zi0 zi1 0l0)$(at 3)"
    run_of 'the run of a lasso with x and a stem of two steps' '1\nj0\n0\nx\n1\n1\n.\n' 'confirmed 2' "$marked" \
        "$(at 0 'b0 r' xi0 0i1 0l0)$(at 1 1i0 xl0)$(at 2 1i1 1l0)$(at 3 zi0 zi1)$(at 4)"
    run_of 'the run of a lasso with comments' 'c\n1\nc 1\nj0\nc\n0\nc 0\n1\nc\n1\nc 1\n.\nc\n' 'confirmed 1' "$marked" \
        "$(at 0 'b0 r' 1i0 0i1 0l0)$(at 1 1i1 1l0)$(at 2 zi0 zi1)$(at 3)"
    run_of 'the run of no lasso has no mark' '1\nj0\n0\n0\n.\n' 'not confirmed' \
        "$(scope inputs 'wire 1 i0 go')$latch" "$(at 0 'b0 r' 0i0 0l0)$(at 1 zi0)$(at 2)"
    run_of 'a first state of a lasso, and no step' '1\nj0\n0\n.\n' 'not confirmed' \
        "$(scope inputs 'wire 1 i0 go')$latch" "$(at 0 'b0 r' zi0 0l0)$(at 1)"
    no_run 'no run of a lasso with a wrong step' '1\nj0\n0\n1\n2\n.\n' '-: line 5: bad witness line' "$model"
    no_run 'no run of a lasso of another property' '1\nj1\n0\n1\n1\n.\n' '-: line 2: bad witness line' "$model"
    model 'aag 4 3 1 1 0 2 1 1 1\n2\n4\n6\n8 2 1\n3\n8\n9\n1\n1\n2\n8\ni0 loop\ni1 loop[1]\ni2 loop[2]\nb1 loop\n'
    all=$(scope latches 'reg 1 l0 l0')$(scope outputs 'wire 1 o0 o0')
    all+=$(scope bad 'wire 1 b0 b0' 'wire 1 b1 loop')$(scope constraints 'wire 1 c0 c0')
    marked=$(scope inputs 'wire 1 i0 loop' 'wire 2 i1 loop [2:1]' 'wire 1 i3 loop')$all
    run_of 'the run of a lasso, and inputs of the same name' '1\nj0\n1\n110\n.\n' 'confirmed 0' "$marked" \
        "$(at 0 'b0 r' 1i0 'b01 i1' 1i3 1l0 0o0 1b0 0b1 1c0)$(at 1 zi0 'bzz i1' zi3 zo0 zb0 zb1 zc0)$(at 2)"
    run_of 'the run to a bad state beside a justice property' '1\nb0\n1\n110\n.\n' 'confirmed 0' \
        "$(scope inputs 'wire 1 i0 loop' 'wire 2 i1 loop [2:1]')$all" \
        "$(at 0 'b0 r' 1i0 'b01 i1' 1l0 0o0 1b0 0b1 1c0)$(at 1 zi0 'bzz i1' zo0 zb0 zb1 zc0)$(at 2)"
    model 'aag 1 0 1 0 0 0 0 1\n2 3\n1\n2\n'
    marked=$(scope inputs 'wire 1 i0 loop')$(scope latches 'reg 1 l0 l0')
    run_of 'the run of a lasso without inputs' '1\nj0\n0\n\n\n\n.\n' 'confirmed 1' "$marked" \
        "$(at 0 'b0 r' 0i0 0l0)$(at 1 1i0 1l0)$(at 2 0l0)$(at 3 zi0 1l0)$(at 4)"
    model 'aag 0 0 0 0 0 0 0 1\n0\n'
    run_of 'the run of a lasso of nothing' '1\nj0\n\n\n.\n' 'confirmed 0' "$(scope inputs 'wire 1 i0 loop')" \
        "$(at 0 'b0 r' 1i0)$(at 1 zi0)$(at 2)"
    model 'aag 2147483646 0 1 0 0 0 0 1\n4294967292 4294967293\n0\n'
    run_of 'the run of a lasso, and one variable left' '1\nj0\n0\n\n\n.\n' 'confirmed 0' "$marked" \
        "$(at 0 'b0 r' 1i0 0l0)$(at 1 1l0)$(at 2 zi0 0l0)$(at 3)"
    model 'aag 2147483647 0 1 0 0 1 0 1\n2 3\n2\n0\n'
    no_run 'no run of a lasso, and no variable left' '1\nj0\n0\n\n\n.\n' '-: too large' "$model"
    latch=$(scope latches 'reg 1 l0 l0')$(scope bad 'wire 1 b0 b0')
    run_of 'the run of no lasso, and no variable left' '1\nj0\n0\n\n.\n' 'not confirmed' "$latch" \
        "$(at 0 'b0 r' 0l0 0b0)$(at 1 1l0 zb0)$(at 2)"
    run_of 'the run to a bad state, and no variable left' '1\nb0\n0\n\n\n.\n' 'confirmed 1' "$latch" \
        "$(at 0 'b0 r' 0l0 0b0)$(at 1 1l0 1b0)$(at 2 0l0 zb0)$(at 3)"
    no_run 'a wrong line comes first, and no variable left' '1\nj0\n0\n\n\n' '-: line 6: bad witness line' "$model"
    row 'a lasso, and no variable left' '1\nj0\n0\n\n\n.\n' 'confirmed 0\n' '' 0 aigsim --witness "$model"
}

rows_wave_words() {
    local excludes='--vcd excludes --properties'
    model 'aag 1 1 0 0 0\n2\n'
    row 'the option --vcd behind the names' '1\n' \
        "$(dump "$(scope inputs 'wire 1 i0 i0')" "$(at 0 'b0 r' 1i0)$(at 1 zi0)$(at 2)")" '' 0 aigsim "$model" - --vcd
    unwanted 'a dump with properties' "$excludes" aigsim --vcd --properties "$model"
    unwanted 'a dump with properties, in a batch' "$excludes" aigsim --properties "$work/none" --batch --vcd
    unwanted 'a dump, and model and stimulus by standard input' 'model and stimulus are both standard input' \
        aigsim --vcd --properties -
    unwanted 'a dump with a witness that does not stand alone' '--witness stands alone' \
        aigsim --vcd --witness --batch "$model"
    unwanted 'a dump of a witness with properties' '--witness stands alone' \
        aigsim --vcd --witness --properties "$model"
    misused 'the option --vcd twice' \
        "the argument '--vcd' cannot be used multiple times\n\nUsage: aiger aigsim [OPTIONS] <model> [stimulus]" \
        aigsim --vcd x --vcd
}
