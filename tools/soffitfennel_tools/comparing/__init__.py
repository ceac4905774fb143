"""The parts of tools/compare: the two cards, random commands, and the search for the shortest script."""
