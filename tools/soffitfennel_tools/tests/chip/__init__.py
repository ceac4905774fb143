"""Tests of the card on chips of 32 bits."""
