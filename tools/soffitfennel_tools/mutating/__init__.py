"""The parts of tools/dev/more-edits: mutants, the functions that they change, groups for one check, and checks."""
