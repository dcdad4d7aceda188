"""Engines that fail and return wrong bytes, for tests."""

from __future__ import annotations

import random


class Broken(Exception):
    """The exception of a failing engine."""


class Faulty:
    """Keeps contents in a dict; by chance it fails, forgets, or returns wrong bytes."""

    def __init__(self, seed: int, chance: float) -> None:
        self.random = random.Random(seed)
        self.chance = chance
        self.contents: dict[int, bytes] = {}
        self.lies = 0

    def _fails(self) -> bool:
        return self.random.random() < self.chance

    def put(self, number: int, content: bytes) -> None:
        if number in self.contents:
            raise AssertionError(f"number {number} is used twice")
        if self._fails():
            if self._fails():
                self.contents[number] = content[: len(content) // 2]
            raise Broken("put")
        self.contents[number] = content

    def get(self, number: int) -> bytes:
        content = self.contents[number]
        if not self._fails():
            return content
        self.lies += 1
        return self._lie(content)

    def _lie(self, content: bytes) -> bytes:
        kind = self.random.randrange(6)
        if kind == 0:
            raise Broken("get")
        if kind == 1:
            at = self.random.randrange(len(content))
            return (
                content[:at]
                + bytes([content[at] ^ 1 << self.random.randrange(8)])
                + content[at + 1 :]
            )
        if kind == 2:
            return content[: self.random.randrange(len(content))]
        if kind == 3:
            return content + b"\0"
        if kind == 4:
            return b""
        others = [other for other in self.contents.values() if other != content]
        return self.random.choice(others) if others else content[:-1]
