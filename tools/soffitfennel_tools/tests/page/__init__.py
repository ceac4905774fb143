"""The browsers that tools/tests/test-page drives, and what it compares."""
