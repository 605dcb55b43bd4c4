"""Planted faults: what they change (planted), a changed copy of the repository with what is built of it
without proofs (copies), and the checks that have to see them (checks)."""
