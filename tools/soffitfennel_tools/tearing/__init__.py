"""A client's session with a power failure at each of its device writes: tools/tear."""
