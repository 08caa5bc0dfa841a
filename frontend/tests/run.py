"""Runs the tests of the front end's parts, all or those of some modules. Exits 1 where one fails.

  python3 -I -B frontend/tests/run.py [MODULE ..]     MODULE as test_words

CARDGRADE and CARDHOST_LIB name the program and the archive; tests that need what is not there are left out, and counted.
"""

from __future__ import annotations

import io
import os
import signal
import sys
import unittest

HERE = os.path.dirname(os.path.abspath(__file__))
sys.path.insert(0, os.path.dirname(os.path.dirname(HERE)))


def hear_signals() -> None:
    """A shell lets what it starts in the background ignore some signals, and what that starts would ignore them too."""
    signal.signal(signal.SIGINT, signal.default_int_handler)
    for each in (signal.SIGHUP, signal.SIGQUIT, signal.SIGTERM):
        signal.signal(each, signal.SIG_DFL)


def main(chosen: list[str]) -> int:
    hear_signals()
    names = chosen or sorted(name[:-3] for name in os.listdir(HERE) if name.startswith("test_") and name.endswith(".py"))
    tests = unittest.TestSuite(unittest.defaultTestLoader.loadTestsFromName(f"frontend.tests.{name}") for name in names)
    said = io.StringIO()
    result = unittest.TextTestRunner(said, verbosity=2 if chosen else 1).run(tests)
    if chosen or not result.wasSuccessful():
        print(said.getvalue())
    left_out = f", {len(result.skipped)} left out" if result.skipped else ""
    print(f"front end: {result.testsRun} tests of {len(names)} modules{left_out}")
    return 0 if result.wasSuccessful() else 1


sys.exit(main(sys.argv[1:]))
