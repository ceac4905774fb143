"""Programs that meet a card inside their own libpcsclite: tools/with-card and tools/tear."""
