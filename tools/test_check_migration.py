#!/usr/bin/env python3
"""Tests of check_migration.py over small dumps; mycoll is played by a stand-in.

Run as it lies: tools/test_check_migration.py. The last line counts: N passed, M failed.
"""

import sys
import unittest

from migration.tests import forms, limits, reports


def main() -> int:
    """Runs all tests, and counts them."""
    load = unittest.defaultTestLoader.loadTestsFromModule
    tests = unittest.TestSuite(load(each) for each in [forms, reports, limits])
    result = unittest.TextTestRunner().run(tests)
    broken = {str(test).partition(" ")[0] for test, _ in result.failures + result.errors}
    sys.stderr.flush()
    print(f"{result.testsRun - len(broken)} passed, {len(broken)} failed")
    return 0 if result.wasSuccessful() else 1


if __name__ == "__main__":
    sys.exit(main())
