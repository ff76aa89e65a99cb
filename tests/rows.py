"""What the tests of the tools share: where things are, and a count of the rows that were compared.

JMOP_PROGRAM names another program than the one that the checkout built.
"""

import os

TOP = os.path.dirname(os.path.dirname(os.path.realpath(__file__)))
PROGRAM = os.environ.get("JMOP_PROGRAM") or os.path.join(TOP, "crates", "jmop", "out", "jmop")


def has_program():
    return os.access(PROGRAM, os.X_OK)


class Rows:
    """Counts what was compared, and prints what differs."""

    def __init__(self, name):
        self.name, self.count, self.wrong = name, 0, 0

    def check(self, what, found, wanted):
        self.count += 1
        if found != wanted:
            self.wrong += 1
            print("%s: %s\n--- found\n%s\n--- wanted\n%s" % (self.name, what, found, wanted))

    def status(self):
        """Prints the counts, and gives the exit status."""
        print("%s: %d rows, %d wrong" % (self.name, self.count, self.wrong))
        return 1 if self.wrong or not self.count else 0
