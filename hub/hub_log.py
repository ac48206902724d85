"""Standard error that never holds the hub up: a thread writes it, and what comes while its reader stalls is dropped and counted."""
from __future__ import annotations

import io
import os
import threading
import time
from typing import List

from hub_limits import MOST_LOG


class Log(io.TextIOBase):
    """What stands in place of `sys.stderr`."""

    def __init__(self, file: int) -> None:
        self.file = file
        self.waiting: List[bytes] = []
        self.size = 0  # bytes that wait
        self.dropped = 0  # lines
        self.is_writing = False
        self.changed = threading.Condition()
        threading.Thread(target=self._write_for_ever, daemon=True).start()

    def write(self, text: str) -> int:
        """Takes a text, or drops it where too much waits."""
        data = text.encode("utf-8", "backslashreplace")
        with self.changed:
            if self.size + len(data) > MOST_LOG:
                self.dropped += data.count(b"\n")
            else:
                self.waiting.append(data)
                self.size += len(data)
            self.changed.notify_all()
        return len(text)

    def finish(self, seconds: float) -> None:
        """Waits until all is written, or for so long."""
        until = time.monotonic() + seconds
        with self.changed:
            self.changed.wait_for(lambda: not self.waiting and not self.is_writing, max(0.0, until - time.monotonic()))

    def _write_for_ever(self) -> None:
        while True:
            with self.changed:
                self.is_writing = False
                self.changed.notify_all()
                self.changed.wait_for(lambda: self.waiting)
                data, dropped = b"".join(self.waiting), self.dropped
                self.waiting, self.size, self.dropped, self.is_writing = [], 0, 0, True
            if dropped:
                data += f"verifactu-hub: {dropped} lines of this log were dropped: nobody read it\n".encode()
            self._write(data)

    def _write(self, data: bytes) -> None:
        try:
            while data:
                data = data[os.write(self.file, data):]
        except OSError:
            pass  # its reader has gone
