"""The parts of bin/package."""
