"""The card on chips of 32 bits: the rewritten module of a port, its bounds, and what compares it."""
