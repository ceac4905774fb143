"""Tests of the tools for real sessions (docs/FIELD.md)."""
