"""The groups of cases. Each module states its verdicts from the sections that its cases name."""
