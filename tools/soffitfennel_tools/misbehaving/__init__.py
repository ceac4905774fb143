"""A card whose end of T=1 misbehaves on purpose, and what readers make of it: tools/badcard."""
