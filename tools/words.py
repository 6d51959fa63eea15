"""How a tool's words are read."""
from __future__ import annotations

import sys
from argparse import ArgumentParser
from typing import Any, NoReturn

from faults import Status


class Words(ArgumentParser):
    """A parser that ends as the program does where the words are others."""

    # Whether options may stand between values of which there may be several.
    is_mixed = False

    def parse_args(self, words: Any = None, namespace: Any = None) -> Any:
        if self.is_mixed:
            return self.parse_intermixed_args(words, namespace)
        return super().parse_args(words, namespace)

    def error(self, message: str) -> NoReturn:
        print(f"ficus: {message}", file=sys.stderr)
        self.print_usage(sys.stderr)
        self.exit(Status.USAGE)
