"""A relay as a child process that answers one message at a time."""
import os
import select
import subprocess
from typing import NamedTuple, Optional


class Answer(NamedTuple):
    """What became of a message: the log's line, and the frame where one was written."""

    line: bytes
    frame: Optional[bytes]


class RelayDied(Exception):
    """The process ended and told no fault, as where it is killed."""


class Relay:
    """The program with its three pipes. It is started anew behind a fault."""

    def __init__(self, words, folder):
        self.words, self.folder, self.child = words, folder, None

    def start(self):
        """Starts the process, and watches what it writes."""
        pipes = {name: subprocess.PIPE for name in ("stdin", "stdout", "stderr")}
        self.child = subprocess.Popen(self.words, cwd=self.folder, bufsize=0, **pipes)
        self.into, self.out, self.log = (
            pipe.fileno() for pipe in (self.child.stdin, self.child.stdout, self.child.stderr)
        )
        os.set_blocking(self.into, False)
        self.written = select.poll()
        self.written.register(self.out, select.POLLIN)
        self.written.register(self.log, select.POLLIN)

    def stop(self):
        """Ends the process, which no message waits for, and forgets it."""
        child, self.child = self.child, None
        child.kill()
        for pipe in (child.stdin, child.stdout, child.stderr):
            pipe.close()
        child.wait()

    def answer(self, message):
        """The answer to a message, which has to be one whole frame."""
        if self.child is None:
            self.start()
        try:
            answer = self.exchange(message)
        except (BrokenPipeError, EOFError):
            # The log's pipe still holds what the process said before it ended.
            answer = Answer(self.last_line(), None)
            if not answer.line.startswith(b"fault: "):
                self.stop()
                raise RelayDied from None
        if answer.line.startswith(b"fault: "):
            self.stop()
        return answer

    def exchange(self, message):
        """Writes the message while the answer is read, so that neither side waits for the other."""
        left, self.frame, self.said = memoryview(message), b"", b""
        left = left[os.write(self.into, left) :]
        if left:
            self.written.register(self.into, select.POLLOUT)
        while left or not self.is_answered():
            for file, _event in self.written.poll():
                if file == self.into:
                    left = left[os.write(self.into, left) :]
                    if not left:
                        self.written.unregister(self.into)
                else:
                    self.take(file)
        return Answer(self.said.rstrip(b"\n"), self.frame or None)

    def take(self, file):
        """Takes what the process wrote to one of its pipes."""
        piece = os.read(file, 1 << 16)
        if not piece:
            raise EOFError
        if file == self.out:
            self.frame += piece
        else:
            self.said += piece

    def is_answered(self):
        """Whether the line is whole, and the frame that it tells of: canonical, so one segment."""
        if not self.said.endswith(b"\n"):
            return False
        if b" written" not in self.said.split(b";", 1)[0]:
            return True
        return len(self.frame) >= 8 and len(self.frame) == 8 + 8 * int.from_bytes(
            self.frame[4:8], "little"
        )

    def last_line(self):
        """The last line of the log of a process that ended."""
        while piece := os.read(self.log, 1 << 16):
            self.said += piece
        return self.said.rstrip(b"\n").rsplit(b"\n", 1)[-1]
