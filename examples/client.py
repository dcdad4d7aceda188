#!/usr/bin/env python3
"""Talks to farframe through a pipe: client.py [PROGRAM]."""
import subprocess
import sys

# A pipe usually takes 65,536 bytes, so a batch of fewer is written though the program waits for us to read.
BATCH = 60_000


class Client:
    def __init__(self, program):
        self.process = subprocess.Popen([program], stdin=subprocess.PIPE, stdout=subprocess.PIPE, text=True)
        self.commands = 0

    def replies(self, *commands):
        """Sends a batch of commands, and returns the lines of their replies."""
        # The line "end" is not a command. Its reply has its number, so it marks the end, however many lines come before it.
        text = "".join(f"{it}\n" for it in (*commands, "end"))
        assert len(text.encode()) < BATCH
        self.commands += len(commands) + 1
        self.process.stdin.write(text)
        self.process.stdin.flush()
        lines = []
        while (line := self.process.stdout.readline()) != f"syntax command {self.commands}\n":
            if not line:
                raise EOFError(f"the program ended with status {self.process.wait()}")
            lines.append(line.rstrip("\n"))
        return lines


if __name__ == "__main__":
    table = Client(sys.argv[1] if sys.argv[1:] else "./farframe")
    table.replies("schema 4 text,int", "watch totals 1 by 0")
    table.replies("insert bread,5", "insert rye,3", "insert bread,2")
    print(*table.replies("ask 0"), sep="\n")
