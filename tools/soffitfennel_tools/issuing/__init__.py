"""A card from its description, and back: tools/issue."""
