#!/usr/bin/env bash
# Other programs that read AIGER files: each that is installed reads the binary image of each example and writes it again, and
# what it writes must be read here and have as many inputs, latches, outputs, gates and constraints, and the same resets. A
# solver, cadical, must then show by the miter of both that they are equal for some steps. The examples of a program that is
# not installed count as skipped.
#
#     tests/run/other_tools.sh
#
# Tried with berkeley-abc 1.01 and yosys 0.23 of Debian 12. They may merge equal gates and leave out gates that nothing
# uses; no example has such gates. For yosys a latch has to be made a flip-flop of its gate library (simplemap). Both read a
# bad state as an output: abc writes outputs as bad states where there is a constraint. Yosys drops constraints, and gates
# that nothing else uses, so it is given constraints as outputs.
. "$(dirname "${BASH_SOURCE[0]}")/../lib/judge.sh"
. "$top/tests/lib/streams.sh"
need_program

# write_again TOOL: has the tool read in.aig and write out.aig, in the folder $work, where it may leave other files too
write_again() {
    (
        cd "$work" || exit
        case $1 in
            yosys) exec timeout 60 yosys -q -p 'read_aiger in.aig; simplemap; write_aiger out.aig' ;;
            *) exec timeout 60 "$1" -c 'read_aiger in.aig; write_aiger out.aig' ;;
        esac
    ) > "$work/out" 2>&1 < /dev/null
}

# bare_image FILE TOOL: the file in binary, without its names and comment, since tools differ in which names they take
bare_image() {
    convert --strip < "$1" | awk -v tool="$2" '
        NR == 1 && tool == "yosys" { print $1, $2, $3, $4, $5 + $7 + $8, $6; next }
        { print }
    ' | "$program" aigtoaig
}

# counts FILE: of inputs, latches, gates, outputs and bad states together, and constraints, as the header has them; then what
# each latch starts at
counts() {
    convert < "$1" 2> /dev/null | awk '
        NR == 1 { print "counts", $3, $4, $6, $5 + $7, $8 + 0; first = $3 + 2; last = $3 + $4 + 1 }
        NR >= first && NR <= last { print NF == 2 ? 0 : $3 == 1 ? 1 : "x" }
    ' | tr '\n' ' '
}

# tool_agrees TOOL FILE
tool_agrees() {
    local name="$1 reads the binary image of ${2##*/}" wanted came
    rm -f "$work/out.aig"
    bare_image "$2" "$1" > "$work/in.aig"
    wanted=$(counts "$work/in.aig")
    write_again "$1"
    came=
    [ -e "$work/out.aig" ] && came=$(counts "$work/out.aig")
    if [ -n "$came" ] && [ "$came" = "$wanted" ]; then
        pass
    else
        fail "$name" "wanted '$wanted'" "came   '$came'; it said '$(shown "$work/out")'"
    fi
}

# shown_equal TOOL FILE: for four steps there is no difference between what the tool read last and what it wrote
shown_equal() {
    local name="$1 writes what is equal to the binary image of ${2##*/}" miter=$work/miter
    "$program" aigmiter "$work/in.aig" "$work/out.aig" "$miter" > "$work/out" 2>&1 &&
        unroll 4 --cnf "$miter" "$miter.cnf" > "$work/out" 2>&1 &&
        timeout 60 cadical -q "$miter.cnf" "$miter.drat" > "$work/out" 2>&1
    if [ "$(unroll 4 --refutation "$miter.drat" "$miter" 2>&1)" = 'none within 4' ]; then pass; else
        fail "$name" "came   '$(shown "$work/out")'"
    fi
    rm -f "$miter" "$miter.cnf" "$miter.drat"
}

# A design with an assertion, an assumption, one of each that speaks of what comes eventually, and registers that start at 0, at
# 1 and at neither: yosys writes a bad state, a constraint, a justice property and a fairness constraint.
yosys_writes_properties() {
    local design='module top(input clk, input a, input b, output reg q);
        reg r = 1; reg s;
        initial q = 0;
        always @(posedge clk) begin q <= a & r; r <= ~b; s <= s ^ a; end
        always @* begin assert (!(q & s)); assume (a | b); assert (eventually q); assume (eventually b); end
    endmodule' steps='prep -top top; techmap; opt -fast; abc -g AND -fast; opt_clean' came
    printf '%s\n' "$design" > "$work/design.v"
    rm -f "$work/out.aig"
    (cd "$work" && timeout 60 yosys -q -p "read_verilog -formal design.v; $steps; write_aiger out.aig") \
        > "$work/out" 2>&1 < /dev/null
    came=$(convert < "$work/out.aig" 2>&1 | awk '
        NR == 1 { print $7, $8, $9, $10; first = $3 + 2; last = first + 2 }
        NR >= first && NR <= last { print NF == 2 ? 0 : $3 == 1 ? 1 : "x" }
    ' | tr '\n' ' ')
    if [ "$came" = '1 1 1 1 0 1 x ' ]; then
        pass
    else
        fail 'a design with assertions that yosys writes' "wanted '1 1 1 1 0 1 x '" \
            "came   '$came'; it said '$(shown "$work/out")'"
    fi
}

examples=("$top"/examples/*.aag "$top"/examples/*.aig)
# the tools of Debian's packages berkeley-abc and yosys
for tool in berkeley-abc yosys-abc yosys; do
    if ! command -v "$tool" > /dev/null; then
        skip $((2 * ${#examples[@]})) "$tool is not installed, to read the binary images of the examples"
        continue
    fi
    for file in "${examples[@]}"; do
        tool_agrees "$tool" "$file"
        ! command -v cadical > /dev/null || shown_equal "$tool" "$file"
    done
    command -v cadical > /dev/null || skip "${#examples[@]}" "cadical is not installed, to show that $tool writes what is equal"
done
if command -v yosys > /dev/null; then
    yosys_writes_properties
else
    skip 1 'yosys is not installed, to write a design with assertions'
fi
finish
