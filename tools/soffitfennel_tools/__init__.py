"""What the tools are made of: a package for each theme."""
