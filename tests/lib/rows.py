# SPDX-License-Identifier: MIT OR Apache-2.0
"""Values that a script compares with the wanted ones, a row each."""


class Rows:
    """How many rows were tried, and what isn't as it should be."""

    def __init__(self):
        self.tried = 0
        self.faults = []

    def compare(self, what, found, wanted):
        """Notes what isn't as it should be."""
        self.tried += 1
        if found != wanted:
            self.faults.append(f"{what}: {found}, and not {wanted}")

    def end(self, name):
        """Prints what was found; gives the script's status."""
        print(*self.faults, f"{name}: {self.tried} rows, {len(self.faults)} bad", sep="\n")
        return 1 if self.faults else 0
