"""The pages of the reference, from the sources of the crates."""
