"""Run the groups `test_*.py` of this folder, and sum up."""

from __future__ import annotations

import sys
import time
import unittest
from pathlib import Path

FOLDER = Path(__file__).resolve().parent
sys.path.insert(0, str(FOLDER))
sys.path.insert(0, str(FOLDER.parent))


class Summing(unittest.TextTestResult):
    """Counts cases, with the subtests that failed."""

    passed = 0

    def addSuccess(self, test: unittest.TestCase) -> None:
        super().addSuccess(test)
        self.passed += 1


def main(words: list[str]) -> int:
    passed = failed = 0
    for file in sorted(FOLDER.glob("test_*.py")):
        group = file.stem.removeprefix("test_")
        if words and group not in words:
            continue
        begin = time.monotonic()
        suite = unittest.defaultTestLoader.loadTestsFromName(file.stem)
        runner = unittest.TextTestRunner(
            stream=sys.stderr, resultclass=Summing, verbosity=0, buffer=True
        )
        result = runner.run(suite)
        assert isinstance(result, Summing)
        bad = len(result.failures) + len(result.errors)
        passed += result.passed
        failed += bad
        print(f"{group}: {result.passed} passed, {bad} failed, {time.monotonic() - begin:.1f} s")
        for test, why in result.skipped:
            print(f"  skipped {test.id().removeprefix(file.stem + '.')}: {why}")
        sys.stdout.flush()
    print(f"{passed} passed, {failed} failed")
    return 1 if failed or not passed else 0


if __name__ == "__main__":
    sys.exit(main(sys.argv[1:]))
