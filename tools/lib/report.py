"""What the tests of tools/ report: a line for each test that fails, and last how many passed."""


class Count:
    """How many tests passed, and how many failed."""

    def __init__(self, passed=0, failed=0):
        self.passed, self.failed = passed, failed

    def add(self, passed, failed):
        """Counts so many tests."""
        self.passed += passed
        self.failed += failed

    def right(self, passed, fault):
        """Counts a test, and prints the fault if it failed."""
        self.add(bool(passed), not passed)
        if not passed:
            print(fault, flush=True)

    def told(self, passed, text, more=()):
        """Counts a test and prints its line, and if it failed what more is known."""
        self.add(bool(passed), not passed)
        print(text if passed else f"FAILED {text}", flush=True)
        for line in () if passed else more:
            print(f"    {line}", flush=True)

    def check(self, name, *right):
        """Counts a test that passes if all of these hold. Its name is printed if one doesn't."""
        self.right(all(right), f"FAILED {name}: {[bool(it) for it in right]}")

    def end(self, more="", needs_one=False):
        """Prints the last line, 'N passed, M failed'. Returns the exit status: 1 if a test failed,
        or if one is needed and none passed."""
        print(f"{self.passed} passed, {self.failed} failed{more}", flush=True)
        return 1 if self.failed or needs_one and not self.passed else 0
