"""Writes an integrator's own repository: the card over a device of his."""
