"""A bar that says how far the command is, on a terminal alone."""

from __future__ import annotations

import shutil
import time
from typing import Any, Optional, TextIO

# Of a bar: its cells, how often it is drawn in a second, and what takes the cursor to the line's begin and clears it.
_CELLS = 24
_OFTEN = 0.1
_CLEARED = "\r\x1b[K"


class Progress:
    """Stages of some work, each of so many steps. Where the stream is no terminal, nothing is written."""

    def __init__(self, stream: TextIO) -> None:
        self._stream: Optional[TextIO] = stream if stream.isatty() else None
        self._said, self._total, self._done, self._drawn = "", 0, 0, 0.0

    def __enter__(self) -> Progress:
        return self

    def __exit__(self, *_: Any) -> None:
        self._write(_CLEARED)

    def begin(self, said: str, total: int = 0) -> None:
        """Begins a stage of so many steps, or of nobody knows how many."""
        self._said, self._total, self._done = said, total, 0
        self._draw()

    def add(self, steps: int) -> None:
        """So many steps more are done."""
        self._done += steps
        if self._stream is not None and (time.monotonic() >= self._drawn + _OFTEN or self._done == self._total):
            self._draw()

    def _draw(self) -> None:
        if self._stream is None:
            return
        self._drawn = time.monotonic()
        text = f"itree: {self._said}"
        if self._total:
            share = min(1.0, self._done / self._total)
            cells = "#" * round(share * _CELLS)
            text = f"{text} [{cells:-<{_CELLS}}] {share:4.0%}"
        width = shutil.get_terminal_size().columns
        self._write(_CLEARED + (text if len(text) < width else text[: width - 4] + "..."))

    def _write(self, text: str) -> None:
        if self._stream is not None:
            self._stream.write(text)
            self._stream.flush()
