"""The parts of tests/package."""
