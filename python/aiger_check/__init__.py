"""aiger-check: from Verilog, or from an AIGER model, to an answer for each assertion; and of two of these whether they
are equal.

Yosys writes the design as an AIGER model. For each assertion ABC looks for an invariant, and a SAT solver for a run
that breaks it. What they say is not believed: each answer that is printed is one that the program ``aiger`` gave of
the model, by a witness, a refutation or an invariant. For two designs the model is their miter: its bad states say
where they differ.
"""

VERSION = "1.7.0"
PROGRAM = "aiger-check"
