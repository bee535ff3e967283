"""The text of --help."""

HELP = """\
Check each assertion of a design: is it kept for ever, for some steps, or
broken? Or compare two designs: are their outputs equal?

Usage: aiger-check [OPTION].. --top NAME FILE.sv..    Verilog or SystemVerilog,
                                                      or FILE.vhd.. by ghdl
       aiger-check [OPTION].. MODEL                   an AIGER file
       aiger-check --equal [OPTION].. OLD NEW         two of either kind

Options:
      --equal              Compare two designs. Each is one file; several of
                           Verilog or VHDL have commas between
      --by-name            Pair two AIGER files by their symbols, and not by
                           their places
      --top <NAME>         The top module of the files; with --equal
                           twice if that of NEW has another name. Of one file
                           with --top twice the two modules are compared
  -D <NAME[=VALUE]>        Define a macro; may be given many times
  -P <NAME=VALUE>          Set a parameter or generic of the top module; many
                           times too
  -I <DIR>                 Look for included files there; many times too
  -f <LIST>, -F <LIST>     Take the files of a list, and its +incdir+DIR,
                           +define+NAME=VALUE, -I, -D, -f and -F; with -F from
                           beside the list
      --clock <NAME>       This input is a clock, and no other is but those that
                           are named so
      --mode <MODE>        Ask less: bmc (assertions within K steps), prove
                           (assertions), live (liveness), cover (covers)
      --cover-asserts      Say of each assertion under a condition too whether
                           a run meets that
      --reset <[!]NAME>    Begin each run with a reset by this input, which is at
                           1, or with ! at 0, and then never again
      --reset-steps <N>    For so many steps (default: 1)
      --second <NAME>      The second front end: icarus, verilator or none
                           (default: Icarus, else Verilator)
      --frames <K>         Search runs of at most K steps (default: 50)
      --time <SECONDS>     Limit of ABC's pdr for one assertion (default: 30)
      --limit <SECONDS>    Limit of the SAT solver for one assertion
                           (default: 300)
      --timeout <SECONDS>  Limit of the whole run: what is not answered then is
                           unknown
      --jobs <N>           How many assertions side by side (default: one for
                           each core)
  -s, --solver <SOLVER>    cadical (the default), kissat, cryptominisat5,
                           minisat or picosat, or the path of one
      --only <NAME>        Ask only what has this name, as it is printed, in
                           which * is anything; many times too
      --sort <BY>          Answers in the order of the file, which is the
                           default, by name, or by answer, the worst first
      --color <WHEN>       Colours of answers: auto (at terminals, the default),
                           always, never
      --vcd <FILE>         Write the run of the first that fails as a waveform
      --keep <DIR>         Keep witnesses, waveforms, the model, what proves the
                           answers, and commands that do all again there
      --json               Write one JSON object in the place of lines
      --competition        Write what the checkers of the hardware model
                           checking competition read, for an AIGER model
      --junit <FILE>       Write a report in the XML of JUnit too
      --expect <OUTCOMES>  End with 0 exactly if one of these comes: pass, fail,
                           unknown, timeout, error, vacuous; commas between
      --quiet              No progress, and of notes those alone that change
                           what an answer means
  -h, --help               Print help
  -V, --version            Print version

The answer for an assertion is one of these.
  never             no run, of any length, breaks it
  none within K     no run of at most K steps breaks it
  reached at N      a run breaks it at step N, the least, counted from 0; with
                    --keep its witness follows
  vacuous           no run keeps what is assumed; the reason follows
  unknown           neither was shown; the reason follows

For liveness, as of assert property (s_eventually e), it is one of these.
  holds               no run breaks it: e comes again and again
  no lasso within K   no lasso of fewer than K steps breaks it
  lasso at S          a run breaks it that goes round for ever from step S on,
                      counted from 0; with --keep its witness follows
  vacuous, unknown    as above
assume property (s_eventually e) is fairness, which liveness may build on.

With --mode cover each cover has one of these answers.
  covered at N      a run reaches it at step N, the least; with --keep it is
                    there
  never             no run, of any length, reaches it
  none within K     no run of at most K steps does
  unknown           as above
With --cover-asserts the left side of an assertion, as a in if (a) assert (b),
is met at N, never met, not met within K or unknown.

The assertions of an AIGER file are its bad states and its justice properties,
by symbol, or as b0, b1, .., j0, j1, .. It may be compressed: .gz, .xz, .bz2, or
.zst, which zstd unpacks.

With --equal a pair of outputs, or of bad states, has one of these answers.
  equal               in every step, while the assumptions of OLD are kept
  equal for K steps   in the first K steps of each run
  differs at N        not in step N of a run, the least, counted from 0; with
                      --keep its stimulus is there
  vacuous, unknown    as above
A line for each assumption of NEW follows: that OLD keeps it holds, holds for K
steps, fails at N or is unknown.

Verilog designs need the same inputs and outputs, which are paired by name; so
are assertions that both have. Registers without initial value start alike.

Of VHDL, PSL too, values are 0 and 1, a register without initial value starts at
any, and ranges are not checked: the manual page says what else is lost.

What is trusted: that Yosys, and ghdl, translate a design as it is meant is not
proved.
All behind it is: each answer is one that aiger, a proved program, gave of the
model that Yosys wrote. What ABC and the solver say is checked.

With --keep a script NAME.check.sh checks a never, a none within K or an answer
for liveness again, by aiger alone.

Of a design with one clock, which rises, a step is one of that clock. Else it is
one of a global clock, and a note says so. An assertion in a clocked block
counts in the step after.

minisat and picosat write no refutation that is read here, so with these there
is no never and no none within K.

The variable NO_COLOR drops colours where it is not empty, as TERM=dumb does.
The variables AIGER, YOSYS, ABC, SOLVER, GHDL, IVERILOG and VERILATOR name other
programs than aiger, yosys, berkeley-abc, cadical, ghdl, iverilog and verilator.

Exit status:
  0  each answer is never or none within K; holds, no lasso within K; equal,
     equal for K steps, holds; covered, met
  1  an assertion is broken, whatever the others are: reached at N, lasso at S;
     a pair differs; an assumption fails; a cover is not covered
  2  the command line was refused
  3  an answer is vacuous, or a left side is not met
  4  an answer is unknown
  8  the time of --timeout was over before all was answered
  16 there is no answer: no assertion or pair, a tool fails or is missing, or a
     file is missing or refused
  10, 20 with --competition: a property is reached; never or holds, each one
  128 + N  ended by signal N: 130 by an interrupt, 143 by one to end

Examples:
  aiger-check --top queue queue.sv arbiter.sv
  aiger-check --top queue -D DEPTH=8 -I include --keep out queue.sv
  aiger-check --frames 100 model.aig
  aiger-check --equal old.aig new.aig
  aiger-check --equal --top queue old.sv new.sv,fifo.sv
"""
