"""A file is written whole or not at all: what stood there before stays until all bytes of the new one are on the disk."""
from __future__ import annotations

import contextlib
import errno
import os
import shutil

__all__ = ["save"]


def save(path: str, data: bytes, source: str) -> None:
    """Writes the bytes into a new file beside `path` and then gives it that name. Raises OSError, with `path` in it, where that cannot be.

    `source` is the file that the bytes were made from: it is never overwritten. Nor is anything that is not a plain file, such as a device or a pipe,
    nor the file that standard output goes to, of which this would be only a part.
    """
    target = os.path.realpath(path)  # a link stays, and what it leads to is replaced
    there = os.path.exists(path)
    if there and os.path.samefile(path, source):
        raise OSError(errno.EEXIST, "this is the file that was read, and is not overwritten", path)
    if there and not (os.path.isfile(path) and os.access(path, os.W_OK)) or os.path.islink(target) or not os.path.basename(path):
        raise OSError(errno.EACCES, "this is not a plain file that may be written to", path)
    if there and _is_standard_output(path):
        raise OSError(errno.EEXIST, "standard output goes there", path)
    new = os.path.join(os.path.dirname(target), f".{os.urandom(8).hex()}.new")
    try:
        _write(new, data)
        if there:
            shutil.copymode(target, new)
        os.replace(new, target)
    except OSError as error:
        raise OSError(error.errno, error.strerror, path) from None
    finally:
        with contextlib.suppress(OSError):
            os.unlink(new)  # it is there only where something went wrong


def _is_standard_output(path: str) -> bool:
    try:
        return os.path.samestat(os.stat(path), os.fstat(1))
    except OSError:
        return False  # there is no standard output


def _write(path: str, data: bytes) -> None:
    with open(path, "xb") as file:
        file.write(data)
        file.flush()
        os.fsync(file.fileno())
