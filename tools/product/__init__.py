"""The parts of take-product."""
