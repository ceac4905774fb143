"""Traces of real sessions as tests: tools/replay."""
