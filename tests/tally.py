"""Counting what passed and what failed."""

LONGEST = 600           # characters that are shown of a failure


class Tally:
    """How many checks passed and failed so far; each failure is told."""

    def __init__(self):
        self.passed = self.failed = 0

    def holds(self, what, condition, seen=""):
        if condition:
            self.passed += 1
        else:
            self.failed += 1
            self.tell(what, seen)

    def equal(self, what, seen, expected):
        self.holds(what, seen == expected, f"{seen} is not {expected}")

    def tell(self, what, seen):
        print(f"FAILED: {what}: {seen}"[:LONGEST])

    def end(self):
        """Says the counts; the script's exit status."""
        print(f"{self.passed} passed, {self.failed} failed")
        return 1 if self.failed else 0
