"""Runs the tests, and ends in a line 'N passed, M failed'.

It ends in ', K skipped' where some are skipped. A word names another
folder of tests than that of this file."""

import sys
import unittest
from pathlib import Path

folder, = sys.argv[1:] or [str(Path(__file__).parent)]
tests = unittest.defaultTestLoader.discover(folder)
result = unittest.TextTestRunner(verbosity=1).run(tests)
faults = [test for test, _ in result.failures + result.errors]
failed = {getattr(test, "test_case", test).id() for test in faults}
failed |= {test.id() for test in result.unexpectedSuccesses}
skipped = {test.id() for test, _ in result.skipped} - failed
passed = max(result.testsRun - len(failed) - len(skipped), 0)
counts = f"{passed} passed, {len(failed)} failed"
print(counts + (f", {len(skipped)} skipped" if skipped else ""))
sys.exit(bool(failed))
