"""Dumps of real cards in the form of pySim-shell's export: tools/load and tools/export."""
