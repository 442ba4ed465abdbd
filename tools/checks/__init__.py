"""The parts of tools/check-examples."""
