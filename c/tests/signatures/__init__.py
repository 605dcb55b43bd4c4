"""The header of the C library beside the proved module, the crates' sources and Python's types."""
