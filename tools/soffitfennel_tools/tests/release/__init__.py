"""Tests of releases and of what they install."""
