"""Concurrent assertions of one clock, rewritten to what Yosys takes."""
