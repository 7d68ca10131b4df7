"""Input that trickles, that is cut, that is as large as allowed, and of many messages."""
import contextlib
import json
import os
import struct
import subprocess
import tempfile
import threading
import time

from stored_runs import LIMIT, Failure, Ran, answers, message_ends, of_first, ran, room

MANY = 100_000
DEFAULT_WORDS = 8_388_608
MOST_WORDS = 2**29 - 2
# Kilobytes by which the peak may grow from a thousand messages to all, or by a higher limit: ten bytes a message,
# and twice what the kernel's own count may be off.
LEVEL = 1024
SCHEMA = [
    {
        "id": 1,
        "name": "P",
        "data": 1,
        "pointers": 1,
        "fields": [
            {"name": "a", "type": "UInt16", "offset": 0},
            {"name": "d", "type": "Data", "offset": 0},
        ],
    }
]
SET_A = {"path": ["a"], "verb": "set", "value": {"number": 7}}
WORDS = ["schema.json", "calls.json", "1", "framed"]
# Levels that a value is followed at most, whatever the limit, those of one that is far deeper, and kilobytes of stack.
STACK_LEVELS, DEEP, STACK = 1024, 100_000, 1024
# Structs, groups and lists that a `get` prints in one another at most, and groups in one another in each struct, so that 41 structs have as many.
PRINTED, GROUPS = 1024, 24
# A struct whose pointer leads to another such struct.
CHAIN = [
    {
        "id": 1,
        "name": "N",
        "data": 0,
        "pointers": 1,
        "fields": [{"name": "next", "type": {"struct": 1}, "offset": 0}],
    }
]


# A struct whose pointer leads to a list of such structs.
TREE = [{**CHAIN[0], "fields": [{"name": "kids", "type": {"list": {"struct": 1}}, "offset": 0}]}]


def trickle(program, run):
    """One run whose input comes byte by byte: each read gets one byte."""
    out, into = os.pipe2(os.O_DIRECT)
    with room(run) as folder:
        how = {"stdin": out, "stdout": subprocess.PIPE, "stderr": subprocess.PIPE}
        child = subprocess.Popen([program, *run.words], cwd=folder, **how)
        os.close(out)
        giver = threading.Thread(target=give, args=(into, run.given))
        giver.start()
        written, log = child.communicate(timeout=LIMIT)
        giver.join()
    if Ran(child.returncode, written, log) != run.wanted:
        raise Failure(f"{run.given.hex()} byte by byte: {written.hex()}, {log}")
    return {"runs byte by byte": 1, "bytes that came alone": len(run.given)}


def give(into, data):
    """Writes bytes one by one, as packets of their own, until the reader is gone."""
    with contextlib.suppress(BrokenPipeError):
        for byte in data:
            os.write(into, bytes([byte]))
    os.close(into)


def cuts(program, run):
    """One run's input, cut behind each of its bytes."""
    form, frames, inside = run.forms()[0], answers(run), 0
    with room(run) as folder:
        for end in range(len(run.given)):
            given = run.given[:end]
            ends, kind = message_ends(given, form)
            out, log = of_first(run, frames, len(ends))
            if kind:
                log += f"fault: framing {kind}\n".encode()
            inside += kind is not None
            got, wanted = ran(program, run, folder, given), Ran(int(kind is not None), out, log)
            if got != wanted:
                raise Failure(f"{run.words} on {given.hex()}: {got}, and not {wanted}")
    return {"inputs cut": len(run.given), "of these within a message": inside}


def write_files(folder, calls, schema=SCHEMA):
    """The schema, and a calls file."""
    for name, value in (("schema.json", schema), ("calls.json", calls)):
        with open(os.path.join(folder, name), "w", encoding="ascii") as file:
            json.dump(value, file)


def with_data(words):
    """A canonical frame of so many words, all but three of them data, all ones."""
    count = 8 * (words - 3)
    head = struct.pack("<II", 0, words) + struct.pack("<IHH", 0, 1, 1) + struct.pack("<Q", 1)
    return head + struct.pack("<II", 1, count << 3 | 2) + b"\xff" * count


def large(program, _run):
    """A message of as many words as the limit allows, and one of a word more."""
    for words, status, log in (
        (DEFAULT_WORDS, 0, b"message 1 written; done\n"),
        (DEFAULT_WORDS + 1, 1, b"fault: framing MessageTooLarge\n"),
    ):
        frame = with_data(words)
        wanted = frame[:16] + struct.pack("<Q", 7) + frame[24:] if status == 0 else b""
        with tempfile.TemporaryDirectory() as folder:
            write_files(folder, {"calls": [SET_A]})
            with open(os.path.join(folder, "given"), "wb") as file:
                file.write(frame)
            with open(os.path.join(folder, "given"), "rb") as file:
                how = {"stdin": file, "cwd": folder, "capture_output": True, "timeout": LIMIT}
                it = subprocess.run([program, *WORDS], check=False, **how)
        if (it.returncode, it.stdout, it.stderr) != (status, wanted, log):
            raise Failure(f"{words} words: status {it.returncode}, {len(it.stdout)} bytes, {it.stderr[-200:]}")
    return {"bytes of the largest message": 8 + 8 * DEFAULT_WORDS}


class Peak:
    """A run over pipes that is asked for its peak of memory once it answered."""

    def __init__(self, program, limits):
        self.folder = tempfile.TemporaryDirectory()
        write_files(self.folder.name, {"calls": [SET_A], **limits})
        pipes = {name: subprocess.PIPE for name in ("stdin", "stdout", "stderr")}
        self.begun = time.monotonic()
        self.child = subprocess.Popen([program, *WORDS], cwd=self.folder.name, **pipes)
        # A program that waits for ever is ended, so that what it was to answer is missed.
        self.watch = threading.Timer(LIMIT, self.child.kill)
        self.watch.start()

    def give(self, data):
        """Writes bytes to the program, until it is gone."""
        with contextlib.suppress(BrokenPipeError):
            self.child.stdin.write(data)
            self.child.stdin.flush()

    def answers(self, given, wanted, lines):
        """Gives bytes, and looks whether as many come as are wanted, and the lines."""
        giver = threading.Thread(target=self.give, args=(given,))
        log = []
        reader = threading.Thread(target=lambda: log.append(self.child.stderr.read(len(lines))))
        for it in (giver, reader):
            it.start()
        out = self.child.stdout.read(len(wanted))
        for it in (giver, reader):
            it.join()
        if (out, log) != (wanted, [lines]):
            self.watch.cancel()
            self.child.kill()
            raise Failure(f"{len(out)} bytes and {len(log[0])} of log aren't those that are wanted")

    def kilobytes(self):
        """The most memory that was resident."""
        with open(f"/proc/{self.child.pid}/status", encoding="ascii") as file:
            (line,) = (it for it in file if it.startswith("VmHWM:"))
        return int(line.split()[1])

    def end(self):
        """Ends the input; the program has to end as it should."""
        rest = self.child.communicate(timeout=LIMIT)
        self.watch.cancel()
        self.folder.cleanup()
        if self.child.returncode != 0 or rest != (b"", b""):
            raise Failure(f"the end of input: status {self.child.returncode}, {rest}")


def numbered(first, end):
    """The bytes of the messages from one number to before another, their answers, and the lines."""
    texts = [f"message {it}".encode().ljust(16, b"\0") for it in range(first, end)]
    head = bytes.fromhex("0000000005000000" + "0000000001000100")
    pointer = struct.pack("<II", 1, 16 << 3 | 2)
    given = b"".join(head + struct.pack("<Q", 9) + pointer + it for it in texts)
    wanted = b"".join(head + struct.pack("<Q", 7) + pointer + it for it in texts)
    lines = b"".join(b"message %d written; done\n" % it for it in range(first, end))
    return given, wanted, lines


def many(program, _run):
    """Many messages, with memory that stays level."""
    run = Peak(program, {})
    run.answers(*numbered(1, 1001))
    first = run.kilobytes()
    run.answers(*numbered(1001, MANY + 1))
    last = run.kilobytes()
    run.end()
    if last > first + LEVEL:
        raise Failure(f"{last} kB resident behind {MANY} messages, {first} behind a thousand")
    return {"messages in one run": MANY, "peak kB resident behind a thousand": first, "behind all": last}


def limits(program, _run):
    """The highest limit of words, with a small message, as quick and as small as a low limit."""
    peaks = {}
    for words in (1000, MOST_WORDS):
        run = Peak(program, {"words": words})
        run.answers(*numbered(1, 2))
        seconds, peaks[words] = time.monotonic() - run.begun, run.kilobytes()
        run.end()
        if seconds > 5:
            raise Failure(f"{seconds} seconds to the first answer, with a limit of {words} words")
    low, high = peaks.values()
    if high > low + LEVEL:
        raise Failure(f"{high} kB resident with a limit of {MOST_WORDS} words, {low} with one of 1000")
    return {"words of the highest limit": MOST_WORDS, "peak kB with it": high, "with a limit of 1000": low}


def frame(words):
    """A frame of one segment of these words, each as two halves."""
    return struct.pack("<II", 0, len(words)) + b"".join(struct.pack("<II", *it) for it in words)


def packed(data):
    """The packed form of bytes, word by word."""
    out = b""
    for at in range(0, len(data), 8):
        word = data[at : at + 8]
        tag = sum((byte != 0) << bit for bit, byte in enumerate(word))
        out += bytes([tag]) + bytes(filter(None, word)) + b"\0" * (tag in (0, 255))
    return out


# The pointer to a struct of one pointer behind it, that to the empty struct, and those to lists behind it.
TO_STRUCT, TO_EMPTY, TO_POINTERS, TO_VOIDS = (0, 1 << 16), (0xFFFF_FFFC, 0), (1, 1 << 3 | 6), (1, 0)
TO_STRUCTS, TAG, TO_EMPTIES, EMPTY_TAG = (1, 1 << 3 | 7), (4, 1 << 16), (1, 7), (4, 0)


def structs(levels):
    """A struct in a struct, so many levels, and the same."""
    words = [TO_STRUCT] * (levels - 1) + [TO_EMPTY]
    return frame(words), frame(words)


def lists(levels):
    """Lists of pointers below a struct, and the same."""
    words = [TO_STRUCT] + [TO_POINTERS] * (levels - 2) + [TO_VOIDS]
    return frame(words), frame(words)


def far_lists(levels):
    """Lists of structs below a struct, each behind a far pointer, and as they are written: without those, and without the null that ends them."""
    words, count = [TO_STRUCT], levels - 1
    for it in range(count):
        words += [((3 * it + 2) << 3 | 2, 0), TO_STRUCTS, TAG]
    return frame([*words, (0, 0)]), frame([TO_STRUCT] + [TO_STRUCTS, TAG] * (count - 1) + [TO_EMPTIES, EMPTY_TAG])


def lists_of_structs(levels, last=()):
    """A list of structs in a struct in a list, so many lists below a struct, and these words in the innermost struct."""
    inner = [TO_STRUCTS, TAG] if last else [TO_EMPTIES, EMPTY_TAG]
    return frame([TO_STRUCT] + [TO_STRUCTS, TAG] * (levels - 1) + inner + [*last])


def in_groups(groups):
    """A struct whose pointer to another stands in so many groups, one in the other."""
    sizes = {"data": 0, "pointers": 1}
    step = [{"name": "g", "group": it} for it in range(2, groups + 2)]
    nodes = [{"id": it["group"] - 1, "name": "G", **sizes, "group": True, "fields": [it]} for it in step]
    last = {"id": groups + 1, "name": "G", **sizes, "group": True, "fields": CHAIN[0]["fields"]}
    return [{"id": 1, "name": "N", **sizes, "fields": nodes[0]["fields"]}, *nodes[1:], last]


def on_little_stack(program, form, calls, given, schema=CHAIN):
    """A run of chains of structs under such calls, with a stack of 1 MiB."""
    shell = f'ulimit -s {STACK}; exec "$0" "$@"'
    words = ["sh", "-c", shell, program, "schema.json", "calls.json", "1", form]
    with tempfile.TemporaryDirectory() as folder:
        write_files(folder, calls, schema)
        how = {"cwd": folder, "capture_output": True, "timeout": LIMIT}
        it = subprocess.run(words, input=given, check=False, **how)
    return Ran(it.returncode, it.stdout, it.stderr)


def nested(program, _run):
    """Values that are nested deep, and a cycle, under no limit of levels: an answer or want of memory, and never a signal."""
    free, wanting, runs = {"calls": [], "nesting": 2**31 - 1}, Ran(1, b"", b"fault: memory\n"), []
    refused, written = Ran(0, b"", b"message 1 refused: value\n"), b"message 1 written\n"
    cycle = frame([TO_STRUCT, (0xFFFF_FFFC, 1 << 16)])
    runs.append((free, cycle, wanting))
    runs.append(({"calls": [], "words": 1000, "nesting": 2000}, cycle, refused))
    for shape in (structs, lists, far_lists):
        given, out = shape(STACK_LEVELS)
        runs.append((free, given, Ran(0, out, written)))
        runs.append(({"calls": []}, given, refused))
        runs.extend((free, shape(levels)[0], wanting) for levels in (STACK_LEVELS + 1, DEEP))
    given, _ = structs(STACK_LEVELS)
    clear = {**free, "calls": [{"path": ["next"], "verb": "clear"}]}
    runs.append((clear, given, Ran(0, frame([TO_EMPTY]), b"message 1 written; done\n")))
    for calls, given, wanted in runs:
        for form, it in (("framed", given), ("packed-framed", packed(given))):
            got = on_little_stack(program, form, calls, it)
            if got != wanted:
                raise Failure(f"{len(given)} bytes, {form}, {calls}: {str(got)[-300:]}, and not {str(wanted)[-300:]}")
    return {"runs of nested values on a stack of 1 MiB": 2 * len(runs), "levels of the deepest": DEEP}


def printed(program, _run):
    """Structs, groups and lists in one another that a `get` prints: a text, or want of memory where they are too many, and never a signal."""
    free, wanting, runs = {"nesting": 5000}, Ran(1, b"", b"fault: memory\n"), []

    def told(given, text):
        return Ran(0, given, b"message 1 written; " + text + b"\n")

    (given, _), count = structs(STACK_LEVELS), STACK_LEVELS - 2
    runs.append((CHAIN, "next", free, given, told(given, b"(next = " * count + b"()" + b")" * count)))
    most = PRINTED // 2
    given, count = lists_of_structs(most), most - 1
    runs.append((TREE, "kids", free, given, told(given, b"[(kids = " * count + b"[()]" + b")]" * count)))
    given = lists_of_structs(most, [TO_EMPTIES, (0, 0)])
    runs.append((TREE, "kids", free, given, told(given, b"[(kids = " * most + b"[]" + b")]" * most)))
    runs.extend((TREE, "kids", free, lists_of_structs(it), wanting) for it in (most + 1, 623, STACK_LEVELS - 1))
    most, grouped = (PRINTED + 1) // (GROUPS + 1), in_groups(GROUPS)
    groups, (given, _) = b"(g = " * (GROUPS - 1), structs(most)
    count = most - 1
    text = groups + (b"(next = (g = " + groups) * count + b"()" + b")" * (GROUPS - 1 + (GROUPS + 1) * count)
    runs.append((grouped, "g", {}, given, told(given, text)))
    runs.extend((grouped, "g", {}, structs(it)[0], wanting) for it in (most + 1, 64))
    for schema, name, limit, given, wanted in runs:
        calls = {**limit, "calls": [{"path": [name], "verb": "get"}]}
        for form, it in (("framed", given), ("packed-framed", packed(given))):
            got = on_little_stack(program, form, calls, it, schema)
            if got != wanted:
                raise Failure(f"{len(given)} bytes, {form}, {calls}: {str(got)[-300:]}, and not {str(wanted)[-300:]}")
    return {"values printed by a get on a stack of 1 MiB": 2 * len(runs), "in one another at most": PRINTED}


# A list of so many numbers of 64 bits takes a quarter of the words that a message may have in memory, with the word that they lack.
QUARTER = 2**27
LIST = [{"id": 1, "name": "P", "data": 1, "pointers": 1, "fields": [{"name": "l", "type": {"list": "UInt64"}, "offset": 0}]}]


def abandoned(program, _run):
    """Lists that calls make and abandon: three quarters of a message's words, which are answered, and four, which are too many."""
    given, clear = frame([(0, 1 << 16 | 1), (7, 0), (0, 0)]), {"path": ["l"], "verb": "clear"}
    made, out = {"path": ["l"], "verb": "initn", "size": QUARTER}, frame([(0, 1), (7, 0)])
    runs = {3: Ran(0, out, b"message 1 written" + b"; done" * 4 + b"\n"), 4: Ran(1, b"", b"fault: size\n")}
    for count, wanted in runs.items():
        got = on_little_stack(program, "framed", {"calls": [made] * count + [clear]}, given, LIST)
        if got != wanted:
            raise Failure(f"{count} lists of {QUARTER} numbers: {str(got)[-300:]}, and not {str(wanted)[-300:]}")
    return {"runs that abandon lists": len(runs), "words abandoned": 3 * QUARTER}
