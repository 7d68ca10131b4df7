"""Stored runs of the program, and how streams of messages are cut into messages, in both forms."""
import contextlib
import json
import os
import subprocess
import tempfile
from typing import NamedTuple

# Seconds that one run may take.
LIMIT = 100
CUT, PREMATURE = "FailedToFillTheWholeBuffer", "PrematureEndOfPackedInput"


class Failure(Exception):
    """The program did something else than it should."""


class Ran(NamedTuple):
    """What a run came to."""

    status: int
    out: bytes
    log: bytes


class Run(NamedTuple):
    """A run that is stored: its words, files and input, and what independent software makes of it."""

    words: list
    files: dict
    given: bytes
    wanted: Ran

    def forms(self):
        """The forms of input and output, without the word for plain output; none where the words name none."""
        names = (self.words[3] if len(self.words) > 3 else "").removesuffix("+plain").split("-")
        return (names[0], names[-1])

    def lines(self):
        """The log's lines, one for each message, without that of a fault."""
        return [it for it in self.wanted.log.splitlines(True) if it.startswith(b"message ")]


class Cut(Exception):
    """The input ends within a message, for the kind of framing that is named."""


def stored_runs(path):
    """The runs of a file that has one a line. Those with plain output have no bytes of it."""
    with open(path, encoding="ascii") as file:
        for line in file:
            it = json.loads(line)
            files = {name: bytes.fromhex(text) for name, text in it["files"].items()}
            wanted = Ran(it["status"], bytes.fromhex(it.get("stdout", "")), bytes.fromhex(it["stderr"]))
            yield Run(it["args"], files, bytes.fromhex(it["stdin"]), wanted)


@contextlib.contextmanager
def room(run):
    """A folder with the run's files."""
    with tempfile.TemporaryDirectory() as folder:
        for name, text in run.files.items():
            with open(os.path.join(folder, name), "wb") as file:
                file.write(text)
        yield folder


def ran(program, run, folder, given, **how):
    """The program's run in the folder, on the bytes that are given."""
    words = [program, *run.words]
    it = subprocess.run(words, cwd=folder, input=given, capture_output=True, timeout=LIMIT, check=False, **how)
    return Ran(it.returncode, it.stdout, it.stderr)


def plain_piece(data, start, words):
    """So many words of framed bytes, and where they end."""
    end = start + 8 * words
    if end > len(data):
        raise Cut(CUT)
    return data[start:end], end


def packed_piece(data, at, words):
    """So many words of packed bytes, and where they end."""
    got = b""
    while len(got) < 8 * words:
        if at >= len(data):
            raise Cut(PREMATURE if got else CUT)
        tag, count = data[at], bin(data[at]).count("1")
        run = tag in (0, 255)
        if at + 1 + count + run > len(data):
            raise Cut(PREMATURE)
        there = iter(data[at + 1 : at + 1 + count])
        got += bytes(next(there) if tag >> bit & 1 else 0 for bit in range(8))
        at += 1 + count + run
        more = 8 * data[at - 1] if run else 0
        if tag == 255 and at + more > len(data):
            raise Cut(CUT)
        got += data[at : at + more] if tag == 255 else bytes(more)
        at += more if tag == 255 else 0
    return got, at


def message_end(data, start, form):
    """Where the message ends that begins at a byte of a stream."""
    piece = packed_piece if form == "packed" else plain_piece
    word, at = piece(data, start, 1)
    segments = int.from_bytes(word[:4], "little") + 1
    rest, at = piece(data, at, segments // 2)
    table = word + rest
    places = range(4, 4 + 4 * segments, 4)
    words = sum(int.from_bytes(table[it : it + 4], "little") for it in places)
    return piece(data, at, words)[1]


def message_ends(data, form):
    """Where each message of a stream ends, and the kind of what is left, or nothing."""
    ends, at = [], 0
    while at < len(data):
        try:
            at = message_end(data, at, form)
        except Cut as cut:
            return ends, str(cut)
        ends.append(at)
    return ends, None


def answers(run):
    """The frames of the run's output, in its form."""
    ends, left = message_ends(run.wanted.out, run.forms()[1])
    assert left is None
    return [run.wanted.out[start:end] for start, end in zip([0, *ends], ends)]


def of_first(run, frames, count):
    """The output and the log of the first so many messages."""
    lines = run.lines()[:count]
    written = sum(b" written" in it.split(b";")[0] for it in lines)
    return b"".join(frames[:written]), b"".join(lines)
