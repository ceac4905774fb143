"""Runs scripts of the bench that are tests: ./bench --test FILE.. (docs/SCRIPT.md)."""
