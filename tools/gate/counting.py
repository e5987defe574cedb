"""Counts checks and prints those that fail, for the scripts that make checks."""
import re

FAILURE = re.compile(r'^failed: (.*)$', re.M)
COUNTS = re.compile(r'^(\d+) passed, (\d+) failed(?:, (\d+) skipped)?$', re.M)


class Count:
    def __init__(self):
        self.passed = self.failed = self.skipped = 0
        self.failures = {}  # what failed, each once

    def test(self, name, good, why=''):
        self.passed += bool(good)
        self.failed += not good
        if not good:
            self.failures[name] = None
            print(f'failed: {name}: {why}'.rstrip(': '), flush=True)

    def same(self, name, found, wanted):
        self.test(name, found == wanted, f'{found!r}, and not {wanted!r}')

    def skip(self, name):
        self.skipped += 1
        print(f'skipped: {name}', flush=True)

    def run(self, name, test):
        """A check that fails by an exception."""
        try:
            test()
        except Exception as fault:
            self.test(name, False, fault)
        else:
            self.test(name, True)

    def add(self, said):
        """Adds what a script's last line of counts says, and what it said to have failed; whether there are counts."""
        self.failures.update(dict.fromkeys(FAILURE.findall(said)))
        found = COUNTS.findall(said)
        if found:
            passed, failed, skipped = (int(it or 0) for it in found[-1])
            self.passed += passed
            self.failed += failed
            self.skipped += skipped
        return bool(found)

    def end(self):
        """Prints how many there were, and answers the status."""
        skipped = f', {self.skipped} skipped' if self.skipped else ''
        print(f'{self.passed} passed, {self.failed} failed{skipped}')
        return 1 if self.failed else 0
