"""Counts what a script tries."""


class Tally:
    """How many tries passed and how many failed. What is wrong with a try is printed when it is counted."""

    def __init__(self):
        self.passed = self.failed = 0

    def put(self, name, wrong):
        """Counts a try by the lines on what is wrong with it."""
        self.passed, self.failed = self.passed + (not wrong), self.failed + bool(wrong)
        for why in wrong:
            print('FAILED %s: %s' % (name, why), flush=True)

    def add(self, name, good, found):
        """Counts a try that is good, or isn't and found this."""
        self.put(name, [] if good else ['%.9999r' % (found,)])

    def end(self):
        """Prints the last line of the script; answers its exit status."""
        print('%d passed, %d failed' % (self.passed, self.failed))
        return 1 if self.failed else 0
