"""The parts of tools/wire-check."""
