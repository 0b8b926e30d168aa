"""The parts of bin/accept."""
