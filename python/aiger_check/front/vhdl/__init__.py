"""Designs in VHDL, which ghdl makes a netlist of."""
