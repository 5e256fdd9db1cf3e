"""What long work says on standard error while it runs."""

import sys
import time

PAUSE = 2.0
"""The seconds between two lines."""


class Progress:
    """Lines about how far the work is; short work says nothing."""

    def __init__(self) -> None:
        self._next = time.monotonic() + PAUSE

    def tell(self, what: str) -> None:
        """Says what is at work, where the last line is some time ago."""
        now = time.monotonic()
        if now >= self._next:
            self._next = now + PAUSE
            say(what)


def say(line: str) -> None:
    """A line beside the report."""
    print(f"check_migration.py: {line}", file=sys.stderr, flush=True)
