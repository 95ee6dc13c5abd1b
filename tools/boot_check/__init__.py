"""The parts of tools/boot-test-check."""
