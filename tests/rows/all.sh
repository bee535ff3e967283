# The table that scripts in tests/run share. Each sources this file, defines the function
#     row NAME INPUT OUTPUT ERRORS STATUS WORD..
# and calls `rows`. INPUT, OUTPUT and ERRORS are written with the escapes of printf's %b (\n is LF, \r is CR,
# \t is TAB, \0ooo is the byte ooo in octal). What is wanted was worked out by hand from docs/FORMAT.md. A row may have
# files in the folder $work.

for table in conversions traces waves witnesses lassos unrolled answers refutations invariants liveness miters simplified parts; do
    . "${BASH_SOURCE[0]%/*}/$table.sh"
done

rows() {
    rows_accepted
    rows_lenient
    rows_header
    rows_lines
    rows_literals
    rows_ends
    rows_structure
    rows_tail
    rows_gates
    rows_binary
    rows_deltas
    rows_delta_lengths
    rows_binary_lines
    rows_cuts
    rows_counts
    rows_resets
    rows_binary_resets
    rows_properties
    rows_sizes
    rows_uses
    rows_named_properties
    rows_binary_properties
    rows_property_cuts
    rows_property_limits
    rows_property_images
    rows_images
    rows_maps
    rows_undone
    rows_blocks
    rows_forged
    rows_outputs_as_bad
    rows_justice_as_bad
    rows_traces
    rows_waves
    rows_witnesses
    rows_judged_lassos
    rows_unrolled
    rows_answers
    rows_refutations
    rows_invariants
    rows_liveness
    rows_miters
    rows_simplified
    rows_parts
    rows_words
    rows_hints
}
