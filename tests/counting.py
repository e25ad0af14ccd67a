"""Counts checks for other scripts. Each test ends with the line `N passed, M failed`."""

MOST_SHOWN = 10


class Count:
    """How many checks passed and failed. The first ones of each part that fail are shown."""

    def __init__(self):
        self.passed = self.failed = self.shown = 0

    def part(self, what):
        """Says what the next checks are of."""
        self.shown = 0
        print(what)

    def check(self, holds, *said):
        """Counts a check, and shows the words that say what fails."""
        self.passed, self.failed = self.passed + bool(holds), self.failed + (not holds)
        self.shown += not holds
        if not holds and self.shown <= MOST_SHOWN:
            print("FAILED:", *said, sep="\n    ")
        elif not holds and self.shown == MOST_SHOWN + 1:
            print("further ones of these that fail are not shown")

    def status(self):
        """Prints the sums, and returns the status of the test."""
        print(f"{self.passed} passed, {self.failed} failed")
        return 1 if self.failed else 0


def status_of(counts):
    """Prints the sums of several counts, and returns the status."""
    whole, counts = Count(), list(counts)
    whole.passed, whole.failed = sum(count.passed for count in counts), sum(count.failed for count in counts)
    return whole.status()


def judge(checks):
    """Prints each check and what is wrong with it, from pairs of a name and a list of faults. Returns the status, which
    is 1 without a check, too."""
    count = Count()
    for what, faults in checks:
        count.passed, count.failed = count.passed + (not faults), count.failed + bool(faults)
        print("\n    ".join([f"{'FAILED' if faults else 'passed'}: {what}", *faults]), flush=True)
    return count.status() or int(not count.passed)


def tell(faults):
    """Prints what is wrong. Returns the status."""
    faults = list(faults)
    print("\n".join(faults), end="\n" if faults else "")
    return 1 if faults else 0
