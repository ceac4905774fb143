"""The parts of tools/trace: citations of standards, what rests on them, and the page of conformance."""
