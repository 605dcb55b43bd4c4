"""Which programs are built from which sources, their proofs, and the mutants."""
