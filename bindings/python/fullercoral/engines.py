"""Engines, which keep the contents of objects that are away.

An engine is any object with ``put(number, content)`` and ``get(number)``. It need not be trusted:
the library checks each content that it returns. A table calls three more methods if an engine has
them: ``prepare()`` when it opens, which may refuse; ``discard(number)`` when it will not ask for a
content again; ``close()`` at its end.

>>> class Folder:
...     "An engine in five lines: a file for each content."
...     def __init__(self, path):
...         self.path = path
...     def put(self, number, content):
...         (self.path / f"{number}.far").write_bytes(content)
...     def get(self, number):
...         return (self.path / f"{number}.far").read_bytes()
"""

from __future__ import annotations

import fcntl
import os
import secrets
import stat
import time
from array import array
from pathlib import Path
from typing import Any, Callable, NoReturn, Protocol, SupportsIndex, Union, runtime_checkable

from .errors import BadArgument


@runtime_checkable
class Engine(Protocol):
    """The two methods of every engine."""

    def put(self, number: int, content: bytes) -> Any:
        """Keeps a content under a new number, or raises an exception."""

    def get(self, number: int) -> bytes:
        """Returns the content of a number, or raises an exception."""


_in_use: set[int] = set()


def take(engine: Engine) -> Engine:
    """Takes an engine for a table, which no other open table may use then.

    Refuses an object without ``put`` or ``get``, an engine in use, and one that cannot prepare.
    """
    if not callable(getattr(engine, "put", None)) or not callable(getattr(engine, "get", None)):
        said = f"{engine!r} is not an engine: it lacks put or get"
        if isinstance(engine, (str, os.PathLike)):
            said += f"; for a file, write fc.Files({os.fspath(engine)!r})"
        raise TypeError(said)
    if id(engine) in _in_use:
        raise BadArgument(f"another open table uses {engine!r}; give each table its own engine")
    _in_use.add(id(engine))
    prepare = getattr(engine, "prepare", None)
    if prepare is not None:
        try:
            prepare()
        except BaseException:
            release(engine)
            raise
    return engine


def release(engine: Engine) -> None:
    """Marks an engine as not in use."""
    _in_use.discard(id(engine))


def shown_engine(engine: Any) -> str:
    """Names an engine in a sentence: its repr, or its class if the repr is long."""
    shown = repr(engine)
    return type(engine).__name__ if len(shown) > 100 or " object at 0x" in shown else shown


def close_engine(engine: Any) -> None:
    """Closes an engine that has ``close``."""
    close = getattr(engine, "close", None)
    if close is not None:
        close()


class Memory:
    """Keeps contents in this process, in a dict: for tests and trials.

    >>> engine = Memory()
    >>> engine.put(0, b"content")
    >>> engine.get(0)
    b'content'
    """

    def __init__(self) -> None:
        self._contents: dict[int, bytes] = {}

    def put(self, number: int, content: bytes) -> None:
        """Keeps a content."""
        self._contents[number] = content

    def get(self, number: int) -> bytes:
        """Returns a content."""
        return self._contents[number]

    def discard(self, number: int) -> None:
        """Forgets a content."""
        self._contents.pop(number, None)

    def close(self) -> None:
        """Forgets all contents."""
        self._contents.clear()

    def __len__(self) -> int:
        return len(self._contents)

    def __repr__(self) -> str:
        return "Memory()"


class Files:
    """Keeps contents in a file, which a table creates when it opens and removes when it closes.

    Opening raises an ``OSError`` that names the path if the file cannot be there. The file is not
    a saved table: without the open table it is useless. A file of a killed process, or an empty
    one, is overwritten; any other file at this path is kept, with ``FileExistsError``. A new
    content reuses the space of a discarded one of the same length. Each content takes 12 bytes of
    memory.

    >>> import os, tempfile
    >>> with tempfile.TemporaryDirectory() as folder:
    ...     engine = Files(os.path.join(folder, "orders.far"))
    ...     engine.put(0, b"content")
    ...     engine.get(0)
    ...     engine.close()
    b'content'
    """

    MARK = b"fullercoral: contents of objects that are away; of no use without their process\n"

    def __init__(self, path: Union[str, os.PathLike[str]]) -> None:
        self.path = Path(path)
        self._whole_path = self.path.absolute()
        self._file = -1
        self._end = 0
        self._offsets = array("q")
        self._lengths = array("I")
        self._free: dict[int, list[int]] = {}

    def prepare(self) -> None:
        """Creates the file, unless it was created already; refuses a path where it cannot be."""
        if self._file >= 0:
            return
        try:
            file = os.open(self._whole_path, os.O_RDWR | os.O_CREAT | os.O_CLOEXEC, 0o600)
        except OSError as error:
            raise type(error)(_no_file(self.path, error)) from None
        try:
            self._begin(file)
        except BaseException:
            os.close(file)
            raise
        self._file, self._end = file, len(self.MARK)

    def _begin(self, file: int) -> None:
        """Empties a file of contents or an empty one; refuses any other file, and one in use."""
        other = "give Files another path"
        try:
            fcntl.flock(file, fcntl.LOCK_EX | fcntl.LOCK_NB)
        except BlockingIOError:
            said = f"{self.path} is in use by another table: close that one, or {other}"
            raise FileExistsError(said) from None
        is_plain = stat.S_ISREG(os.fstat(file).st_mode)
        if not is_plain or os.pread(file, len(self.MARK), 0) not in (b"", self.MARK):
            said = f"{self.path} exists and was not made by Files, so it was not changed"
            raise FileExistsError(f"{said}: {other}")
        os.ftruncate(file, 0)
        os.pwrite(file, self.MARK, 0)

    def put(self, number: int, content: bytes) -> None:
        """Writes a content to the file."""
        self.prepare()
        free = self._free.get(len(content))
        offset = free.pop() if free else self._end
        try:
            _write_all(self._file, content, offset)
        except BaseException:
            if offset < self._end:
                self._free[len(content)].append(offset)
            raise
        self._end = max(self._end, offset + len(content))
        if number >= len(self._offsets):
            more = number + 1 - len(self._offsets)
            self._offsets.extend([-1] * more)
            self._lengths.extend([0] * more)
        self._offsets[number], self._lengths[number] = offset, len(content)

    def get(self, number: int) -> bytes:
        """Reads a content from the file."""
        offset = self._offsets[number] if 0 <= number < len(self._offsets) else -1
        if offset < 0:
            raise KeyError(number)
        return os.pread(self._file, self._lengths[number], offset)

    def discard(self, number: int) -> None:
        """Frees the space of a content for later ones."""
        if 0 <= number < len(self._offsets) and self._offsets[number] >= 0:
            self._free.setdefault(self._lengths[number], []).append(self._offsets[number])
            self._offsets[number] = -1

    def close(self) -> None:
        """Removes the file."""
        if self._file >= 0:
            self._whole_path.unlink(missing_ok=True)
            os.close(self._file)
            self._file = -1
        self._offsets, self._lengths = array("q"), array("I")
        self._free.clear()

    @property
    def size(self) -> int:
        """The size of the file in bytes."""
        return self._end

    def __del__(self) -> None:
        self.close()

    def __reduce_ex__(self, protocol: SupportsIndex) -> NoReturn:
        """Refuses a copy, which would remove the file that it shares, and a pickle."""
        raise TypeError("Files cannot be copied or pickled; make one with another path")

    def __repr__(self) -> str:
        return f"Files({str(self.path)!r})"


def _no_file(path: Path, error: OSError) -> str:
    """Returns the sentence for a path where no file can be opened."""
    if isinstance(error, FileNotFoundError):
        return f"{path}: there is no folder {path.parent}; make it, or give Files another path"
    if isinstance(error, IsADirectoryError):
        return f"{path} is a folder: give Files the path of a file in it"
    return f"{path} cannot be written ({error.strerror}): give Files another path"


def _write_all(file: int, content: bytes, offset: int) -> None:
    rest = memoryview(content)
    while rest:
        written = os.pwrite(file, rest, offset)
        rest, offset = rest[written:], offset + written


class _Keyed:
    """An engine over a client with keys: a prefix of the engine's own, then the number."""

    _BATCH = 500

    def __init__(self, prefix: str | None) -> None:
        self.prefix = prefix if prefix is not None else f"fullercoral:{secrets.token_hex(8)}:"
        self._kept = bytearray()  # for each number, whether the server may have a content

    def _key(self, number: int) -> str:
        return f"{self.prefix}{number}"

    def _note(self, number: int) -> None:
        if number >= len(self._kept):
            self._kept.extend(bytes(number + 1 - len(self._kept)))
        self._kept[number] = 1

    def _forget(self, number: int) -> bool:
        if number >= len(self._kept) or not self._kept[number]:
            return False
        self._kept[number] = 0
        return True

    def _rest(self) -> list[list[str]]:
        """Returns the keys of all remaining contents, in batches, and forgets them."""
        keys = [self._key(number) for number, kept in enumerate(self._kept) if kept]
        self._kept.clear()
        return [keys[at : at + self._BATCH] for at in range(0, len(keys), self._BATCH)]


class Redis(_Keyed):
    """Keeps contents in a server that speaks the Redis protocol, or in a cluster of them.

    ``client`` is a ``redis.Redis`` or a ``redis.cluster.RedisCluster`` with ``decode_responses``
    off, or any object with its ``set``, ``get`` and ``delete``. A failed call is repeated
    ``retries`` times, ``pause`` seconds apart. Keys begin with ``prefix``, random if none is given,
    and are deleted at the close; the client stays open.

    Check the server's ``maxmemory-policy``: a server that evicts keys loses contents, and a later
    call that needs one fails.
    """

    def __init__(
        self, client: Any, prefix: str | None = None, *, retries: int = 2, pause: float = 0.05
    ) -> None:
        super().__init__(prefix)
        self.client = client
        self.retries = retries
        self.pause = pause

    def _patiently(self, call: Callable[..., Any], *arguments: Any) -> Any:
        for left in range(self.retries, -1, -1):
            try:
                return call(*arguments)
            except Exception:
                if not left:
                    raise
                time.sleep(self.pause)
        return None

    def put(self, number: int, content: bytes) -> None:
        """Sets the key of the number."""
        self._note(number)
        if not self._patiently(self.client.set, self._key(number), content):
            raise OSError(f"the server did not keep {self._key(number)}")

    def get(self, number: int) -> bytes:
        """Gets the key of the number."""
        content = self._patiently(self.client.get, self._key(number))
        if content is None:
            raise KeyError(self._key(number))
        return bytes(content)

    def discard(self, number: int) -> None:
        """Deletes the key of the number."""
        if self._forget(number):
            self.client.delete(self._key(number))

    def close(self) -> None:
        """Deletes the keys of this engine."""
        for keys in self._rest():
            for key in keys:
                self.client.delete(key)

    def __repr__(self) -> str:
        return f"Redis({self.client!r}, prefix={self.prefix!r})"


class S3(_Keyed):
    """Keeps contents as objects in a bucket of any server that speaks S3.

    ``client`` is the result of ``boto3.client("s3", ..)``, which repeats failed requests as its
    configuration says. Keys begin with ``prefix``, random if none is given, and are deleted at the
    close; the bucket must exist.
    """

    def __init__(self, client: Any, bucket: str, prefix: str | None = None) -> None:
        super().__init__(prefix)
        self.client = client
        self.bucket = bucket

    def put(self, number: int, content: bytes) -> None:
        """Puts the object of the number."""
        self._note(number)
        self.client.put_object(Bucket=self.bucket, Key=self._key(number), Body=content)

    def get(self, number: int) -> bytes:
        """Gets the object of the number."""
        reply = self.client.get_object(Bucket=self.bucket, Key=self._key(number))
        return bytes(reply["Body"].read())

    def discard(self, number: int) -> None:
        """Deletes the object of the number."""
        if self._forget(number):
            self.client.delete_object(Bucket=self.bucket, Key=self._key(number))

    def close(self) -> None:
        """Deletes the objects of this engine."""
        for keys in self._rest():
            objects = {"Objects": [{"Key": key} for key in keys], "Quiet": True}
            self.client.delete_objects(Bucket=self.bucket, Delete=objects)

    def __repr__(self) -> str:
        return f"S3({self.client!r}, {self.bucket!r}, prefix={self.prefix!r})"
