"""What the command writes: its answer on standard output, all else on standard error."""
from __future__ import annotations

import codecs
import sys

ERRORS = "identify-output"
"""The name under which `replaced` is known to Python's encoders."""


class OutputError(OSError):
    """Standard output cannot be written."""


def write(text: str) -> None:
    """Writes to standard output, and at once: what cannot be written is known here, and nothing of it is left for later.

    Raises OutputError, or BrokenPipeError where its reader has gone.
    """
    if sys.stdout is None:
        raise OutputError("standard output: closed")
    encoding = sys.stdout.encoding or "utf8"
    data = text.encode(encoding, ERRORS)
    try:
        if hasattr(sys.stdout, "buffer"):
            sys.stdout.buffer.write(data)
        else:
            sys.stdout.write(data.decode(encoding, "replace"))
        sys.stdout.flush()
    except BrokenPipeError:
        raise
    except OSError as error:
        raise OutputError(f"standard output: {error.strerror or error}") from error


def complain(message: str, status: int) -> int:
    """Says in one line what is wrong, and answers the status."""
    say(" ".join(message.split()))
    return status


def say(message: str) -> None:
    """A line on standard error."""
    note(f"identify: {message}\n")


def note(text: str) -> None:
    """Writes to standard error at once; nowhere where it is closed."""
    if sys.stderr is not None:
        sys.stderr.write(text)
        sys.stderr.flush()


def replaced(error: UnicodeError) -> tuple[bytes, int]:
    """The bytes of characters that an encoding lacks: a file name's odd bytes as they are, and a question mark for a
    character such as the ² of rad/s²."""
    lacking = error.object[error.start : error.end]
    return b"".join(bytes([ord(c) - 0xDC00]) if "\udc80" <= c <= "\udcff" else b"?" for c in lacking), error.end


codecs.register_error(ERRORS, replaced)
