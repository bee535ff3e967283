"""What Verilog leaves undefined: there a model may have any value, where Yosys chooses one."""

from pathlib import Path

QUOTIENTS = ("$div", "$mod", "$divfloor", "$modfloor")
WIDTHS = ("A_SIGNED", "B_SIGNED", "A_WIDTH", "B_WIDTH", "Y_WIDTH")
#: a quotient by what may be zero
MAP = """
(* techmap_celltype = "{kind}" *)
module aiger_check_{name} (A, B, Y);
  parameter A_SIGNED = 0, B_SIGNED = 0, A_WIDTH = 0, B_WIDTH = 0, Y_WIDTH = 0, _TECHMAP_CONSTVAL_B_ = 0;
  input [A_WIDTH-1:0] A;
  input [B_WIDTH-1:0] B;
  output [Y_WIDTH-1:0] Y;
  wire _TECHMAP_FAIL_ = (_TECHMAP_CONSTVAL_B_ != 0) === 1'b1;
  wire [Y_WIDTH-1:0] quotient, any;
  \\$anyseq #(.WIDTH(Y_WIDTH)) any_value (.Y(any));
  \\{kind} #({widths}) _TECHMAP_REPLACE_ (.A(A), .B(B), .Y(quotient));
  assign Y = |B ? quotient : any;
endmodule
"""


def command(folder: Path, alias: str) -> str:
    """The command that frees what is undefined, once the design is flat."""
    widths = ", ".join(f".{name}({name})" for name in WIDTHS)
    texts = [MAP.format(kind=kind, name=kind[1:], widths=widths) for kind in QUOTIENTS]
    (folder / "undefined.v").write_text("".join(texts), encoding="ascii")
    return f"techmap -max_iter 1 -map {alias}/undefined.v"
