"""What tools/tests/test-pflash tries: the port over a flash, its driver, and a card on a flash of qemu."""
