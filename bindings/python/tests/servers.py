"""Redis servers on loopback for tests, and a small client in case redis-py is missing."""

from __future__ import annotations

import contextlib
import ctypes
import shutil
import signal
import socket
import subprocess
import tempfile
import time
from pathlib import Path
from typing import Any, Iterator


def free_port() -> int:
    """Returns a free port such that port + 10,000, for a cluster's bus, is free too."""
    while True:
        with socket.socket() as one:
            one.bind(("127.0.0.1", 0))
            port = one.getsockname()[1]
        if port < 50_000:
            with socket.socket() as bus, contextlib.suppress(OSError):
                bus.bind(("127.0.0.1", port + 10_000))
                return int(port)


class ReplyError(Exception):
    """An error reply of a server."""


class TinyRedis:
    """A client of a server or a cluster, which follows redirections."""

    def __init__(self, ports: list[int]) -> None:
        self._ports = ports
        self._links: dict[int, tuple[socket.socket, Any]] = {}

    def __repr__(self) -> str:
        return f"TinyRedis({self._ports})"

    def set(self, key: str, value: bytes) -> bool:
        return self.call("SET", key, value) == b"OK"

    def get(self, key: str) -> bytes | None:
        found: bytes | None = self.call("GET", key)
        return found

    def delete(self, key: str) -> int:
        return int(self.call("DEL", key))

    def call(self, *words: str | bytes, port: int | None = None) -> Any:
        """Sends a command and returns its reply."""
        port = port or self._ports[0]
        for _ in range(5):
            try:
                return self._call(port, words)
            except ReplyError as error:
                said = str(error).split()
                if said[0] not in ("MOVED", "ASK"):
                    raise
                port = int(said[2].rpartition(":")[2])
        raise ReplyError("too many redirections")

    def _call(self, port: int, words: tuple[str | bytes, ...]) -> Any:
        if port not in self._links:
            link = socket.create_connection(("127.0.0.1", port), timeout=10)
            self._links[port] = link, link.makefile("rb")
        parts = [word.encode() if isinstance(word, str) else word for word in words]
        sent = b"".join(b"$%d\r\n%s\r\n" % (len(part), part) for part in parts)
        try:
            self._links[port][0].sendall(b"*%d\r\n%s" % (len(parts), sent))
            return self._reply(self._links[port][1])
        except OSError:
            self._links.pop(port)[0].close()
            raise

    def _reply(self, file: Any) -> Any:
        line = file.readline()
        if not line.endswith(b"\r\n"):
            raise ConnectionError("the server closed the connection")
        kind, rest = line[:1], line[1:-2]
        if kind == b"-":
            raise ReplyError(rest.decode())
        if kind == b"+":
            return rest
        if kind == b":":
            return int(rest)
        if kind == b"*":
            return [self._reply(file) for _ in range(int(rest))]
        return None if rest == b"-1" else file.read(int(rest) + 2)[:-2]

    def close(self) -> None:
        for link, file in self._links.values():
            file.close()
            link.close()
        self._links.clear()


_PR_SET_PDEATHSIG = 1
_LIBC = ctypes.CDLL(None)


def _end_with_parent() -> None:
    """Lets a server end with the process of the tests, however that ends."""
    _LIBC.prctl(_PR_SET_PDEATHSIG, signal.SIGTERM)


class Server:
    """A redis-server on loopback, which keeps its contents over a restart."""

    def __init__(self, folder: Path, cluster: bool = False) -> None:
        self.port = free_port()
        self.folder = folder / str(self.port)
        self.folder.mkdir()
        self._options = ["--port", str(self.port), "--bind", "127.0.0.1", "--dir", str(self.folder)]
        self._options += ["--appendonly", "yes", "--save", "", "--loglevel", "warning"]
        if cluster:
            # A busy machine may hold up a server that is well for a second.
            self._options += ["--cluster-enabled", "yes", "--cluster-node-timeout", "2000"]
            self._options += ["--cluster-require-full-coverage", "no"]
        self._process: subprocess.Popen[bytes] | None = None

    def start(self) -> None:
        command = ["redis-server", *self._options]
        self._process = subprocess.Popen(
            command,
            stdout=subprocess.DEVNULL,
            stderr=subprocess.DEVNULL,
            preexec_fn=_end_with_parent,
        )
        client = TinyRedis([self.port])
        patiently(lambda: client.call("PING") == b"PONG")
        client.close()

    def stop(self) -> None:
        if self._process is not None:
            self._process.terminate()
            self._process.wait(10)
            self._process = None


def patiently(is_done: Any, seconds: float = 30.0) -> None:
    """Waits until a condition holds."""
    end = time.monotonic() + seconds
    while True:
        with contextlib.suppress(OSError, ReplyError):
            if is_done():
                return
        if time.monotonic() > end:
            raise TimeoutError("a redis-server does not start")
        time.sleep(0.02)


def has_redis_server() -> bool:
    return shutil.which("redis-server") is not None


@contextlib.contextmanager
def one_server() -> Iterator[Server]:
    """Starts one server."""
    with tempfile.TemporaryDirectory() as folder:
        server = Server(Path(folder))
        try:
            server.start()
            yield server
        finally:
            server.stop()


@contextlib.contextmanager
def cluster_of_three() -> Iterator[list[Server]]:
    """Starts a cluster of three servers without replicas."""
    with tempfile.TemporaryDirectory() as folder:
        servers = [Server(Path(folder), cluster=True) for _ in range(3)]
        try:
            for server in servers:
                server.start()
            _join(servers)
            yield servers
        finally:
            for server in servers:
                server.stop()


def _join(servers: list[Server]) -> None:
    client = TinyRedis([servers[0].port])
    for index, server in enumerate(servers):
        first, last = 16384 * index // 3, 16384 * (index + 1) // 3 - 1
        client.call("CLUSTER", "ADDSLOTSRANGE", str(first), str(last), port=server.port)
        client.call("CLUSTER", "MEET", "127.0.0.1", str(server.port))
    for server in servers:
        wait_for_cluster(server)
    client.close()


def wait_for_cluster(server: Server) -> None:
    """Waits until a server reports its whole cluster as up."""
    client = TinyRedis([server.port])
    patiently(lambda: b"cluster_state:ok" in client.call("CLUSTER", "INFO"))
    client.close()
