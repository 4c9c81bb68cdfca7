"""Runs all tests of the front; those that fail are run once more, alone, since some wait for programs that other work can starve.

usage: python3 -m tests, in front/. A test that fails at first and passes then is named, and so is each that is passed over, with the
reason. The last line is `N passed, M failed`. The status is 0 if nothing failed twice.
"""

from __future__ import annotations

import sys
import unittest
from collections.abc import Iterator


def each(suite: unittest.TestSuite | unittest.TestCase) -> Iterator[unittest.TestCase]:
    """The tests of a suite."""
    if isinstance(suite, unittest.TestSuite):
        for part in suite:
            yield from each(part)
    else:
        yield suite


def failed(result: unittest.TestResult) -> set[str]:
    """The names of the tests that failed, or of the module or class that could not be set up."""
    return {test.id() for test, _ in [*result.failures, *result.errors]} | {test.id() for test in result.unexpectedSuccesses}


def tests() -> list[unittest.TestCase]:
    """All tests, each an own object that runs once."""
    return list(each(unittest.TestLoader().discover("tests", top_level_dir=".")))


def run(those: list[unittest.TestCase]) -> unittest.TestResult:
    return unittest.TextTestRunner().run(unittest.TestSuite(those))


def main() -> int:
    everything = tests()
    first = run(everything)
    wrong = failed(first)
    again = [test for test in tests() if test.id() in wrong]
    if wrong and len(again) == len(wrong):
        print(f"run once more: {', '.join(test.id() for test in again)}", file=sys.stderr)
        wrong = failed(run(again))
    sys.stderr.flush()
    passed_over = {test.id(): reason for test, reason in first.skipped}
    for name, reason in passed_over.items():
        print(f"passed over: {name}: {reason}")
    # A class that is passed over as a whole ran none of its tests.
    ran = first.testsRun - sum(1 for name in passed_over if not name.startswith("setUpClass"))
    print(f"{ran - len(wrong)} passed, {len(wrong)} failed")
    return 1 if wrong else 0


if __name__ == "__main__":
    sys.exit(main())
