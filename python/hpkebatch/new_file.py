"""New files, which get their names when they are whole. Nothing is written over, and nothing half made is left.

Until then a file has no name at all (O_TMPFILE), or on file systems that have no such files a scratch name, and mode 0600.
"""

from __future__ import annotations

import contextlib
import ctypes
import errno
import os
import re
import secrets
from typing import Iterable, Iterator, Optional

from .errors import FileFault

IS_THERE = "it is there already, and isn't written over"
# What a file system or a kernel says of a call that it doesn't have.
NOT_HAD = (errno.EOPNOTSUPP, errno.ENOSYS, errno.EINVAL, errno.EPERM, errno.EISDIR, errno.EMLINK)
NOREPLACE = 1


class NewFile:
    """A file to be. The file system's faults are told as FileFault, with the file's name."""

    def __init__(self, path: str) -> None:
        self.path = path
        folder, self._name = os.path.split(path)
        self._scratch: Optional[str] = None
        self._descriptor = self._folder = -1
        self._is_named = False
        with self._told():
            self._folder = os.open(folder or ".", os.O_RDONLY | os.O_DIRECTORY | os.O_CLOEXEC)
        try:
            with self._told():
                if os.path.lexists(path):
                    raise FileExistsError
                self._descriptor = self._made()
        except BaseException:
            self.close()
            raise

    def _made(self) -> int:
        if hasattr(os, "O_TMPFILE") and os.path.isdir("/proc/self/fd"):
            try:
                return os.open(".", os.O_TMPFILE | os.O_WRONLY | os.O_CLOEXEC, 0o600, dir_fd=self._folder)
            except OSError as fault:
                if fault.errno not in NOT_HAD:
                    raise
        self._scratch = f".{self._name[:200]}.{secrets.token_hex(8)}.part"
        flags = os.O_WRONLY | os.O_CREAT | os.O_EXCL | os.O_CLOEXEC
        return os.open(self._scratch, flags, 0o600, dir_fd=self._folder)

    def write(self, pieces: Iterable[bytes]) -> None:
        with self._told():
            for piece in pieces:
                write_all(self._descriptor, piece)

    def finish(self, mode: int = 0o666) -> None:
        """Gives the file its name. Its mode is this one, less what the umask takes."""
        with self._told():
            os.fchmod(self._descriptor, mode & ~umask())
            os.fsync(self._descriptor)
            self._link()
            self._is_named = True
        self.close()

    def _link(self) -> None:
        if self._scratch is None:
            # With a folder's descriptor it is linkat, which follows the link in /proc.
            source = f"/proc/self/fd/{self._descriptor}"
            os.link(source, self._name, src_dir_fd=self._folder, dst_dir_fd=self._folder, follow_symlinks=True)
            return
        try:
            os.link(self._scratch, self._name, src_dir_fd=self._folder, dst_dir_fd=self._folder, follow_symlinks=False)
        except OSError as fault:
            if fault.errno not in NOT_HAD:
                raise
            self._rename(self._scratch)
            self._scratch = None

    def _rename(self, scratch: str) -> None:
        """Where there are no links: by renameat2, which replaces nothing, or behind a claim of the name."""
        call = getattr(ctypes.CDLL(None, use_errno=True), "renameat2", None)
        given = self._folder, os.fsencode(scratch), self._folder, os.fsencode(self._name), NOREPLACE
        if call is not None and call(*given) == 0:
            return
        number = ctypes.get_errno() if call is not None else errno.ENOSYS
        if number not in NOT_HAD:
            raise OSError(number, os.strerror(number))
        os.close(os.open(self._name, os.O_WRONLY | os.O_CREAT | os.O_EXCL, 0o600, dir_fd=self._folder))
        try:
            os.rename(scratch, self._name, src_dir_fd=self._folder, dst_dir_fd=self._folder)
        except BaseException:
            os.unlink(self._name, dir_fd=self._folder)
            raise

    def close(self) -> None:
        """Lets go of the file. If it has no name yet, nothing of it is left."""
        descriptor, folder, scratch = self._descriptor, self._folder, self._scratch
        self._descriptor, self._folder, self._scratch = -1, -1, None
        with contextlib.suppress(OSError):
            if descriptor >= 0:
                os.close(descriptor)
        with contextlib.suppress(OSError):
            if scratch is not None:
                os.unlink(scratch, dir_fd=folder)
        if folder >= 0:
            os.close(folder)

    def remove(self) -> None:
        """Takes back a file that was finished."""
        if self._is_named:
            with contextlib.suppress(OSError):
                os.unlink(self.path)
        self.close()

    @contextlib.contextmanager
    def _told(self) -> Iterator[None]:
        try:
            yield
        except FileExistsError:
            raise FileFault(self.path, IS_THERE) from None
        except OSError as fault:
            raise FileFault(self.path, fault.strerror or str(fault)) from fault


def write_all(descriptor: int, data: bytes) -> None:
    rest = memoryview(data)
    while rest:
        rest = rest[os.write(descriptor, rest) :]


def umask() -> int:
    """The process's umask, which Linux tells without changing it."""
    with contextlib.suppress(OSError), open("/proc/self/status", encoding="ascii", errors="replace") as file:
        found = re.search(r"^Umask:\s*([0-7]+)", file.read(), re.M)
        if found:
            return int(found[1], 8)
    mask = os.umask(0o077)
    os.umask(mask)
    return mask
