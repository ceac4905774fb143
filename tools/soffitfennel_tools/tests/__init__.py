"""What the tests of the tools are made of."""
