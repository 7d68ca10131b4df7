"""Edits that were not made, members of unions, and logs under hostile names: what the built `hagzimot relay` does.

    python3 .ci/tool_user_edits.py [PROGRAM]

Each check runs the program in a folder of its own and compares its status, its output and what it says with what they must be by the rules of docs/manual. The messages of crates/hagzimot/data/user were written by the C++ tool; others are made here, word by
word. A check that fails is shown, and the status is 1. Nothing is written below the repository.
"""
import json
import pathlib
import struct
import subprocess
import sys
import tempfile

TOP = pathlib.Path(__file__).resolve().parent.parent
USER = TOP / "crates" / "hagzimot" / "data" / "user"
PROGRAM = TOP / "crates" / "hagzimot" / "out" / "hagzimot"
UNION = ("--schema", str(USER / "edits_union.request"), "--root", "O")
# The three messages of edits_union.bin, as `show` prints them.
OPEN, SHIPPED, CANCELLED = "(id = 1, state = (open = ()))", '(id = 2, state = (shipped = (carrier = "UPS")))', '(id = 3, state = (cancelled = "late"))'
# Names that would split a reply, or begin a line.
REPLY, LINE = "x; y", "b\nmessage 9 written; done"
HOSTILE = [
    {"id": 1, "name": "h:Outer", "data": 0, "pointers": 2, "fields": [{"name": "inner", "type": {"struct": 2}, "offset": 0}, {"name": "n", "type": "Text", "offset": 1}]},
    {"id": 2, "name": "h:Inner", "data": 1, "pointers": 1, "fields": [{"name": REPLY, "type": "Text", "offset": 0}, {"name": LINE, "type": "UInt32", "offset": 0}]},
]
# A struct with a list of untyped pointers, an untyped pointer and a Void field.
LOOSE = [
    {
        "id": 1,
        "name": "l:Loose",
        "data": 0,
        "pointers": 2,
        "fields": [{"name": "anys", "type": {"list": "AnyPointer"}, "offset": 0}, {"name": "any", "type": "AnyPointer", "offset": 1}, {"name": "nothing", "type": "Void", "offset": 0}],
    }
]


def struct_pointer(offset, data, pointers):
    """The word of a pointer to a struct, so many words behind it."""
    return struct.pack("<IHH", offset << 2, data, pointers)


def text_pointer(offset, text):
    """The word of a pointer to a text."""
    return struct.pack("<II", (offset << 2) | 1, ((len(text) + 1) << 3) | 2)


def text_words(text):
    """The words of a text."""
    return (text + bytes(8 - len(text) % 8))[: (len(text) // 8 + 1) * 8]


def framed(*words):
    """A message of one segment."""
    segment = b"".join(words)
    return struct.pack("<II", 0, len(segment) // 8) + segment


def hostile_message(text, number):
    """A message of HOSTILE's root, whose inner struct has this text and this number."""
    return framed(struct_pointer(0, 0, 2), struct_pointer(1, 1, 1), bytes(8), struct.pack("<Q", number), text_pointer(0, text), text_words(text))


class Checks:
    """Runs the program, and counts what differs."""

    def __init__(self, program, folder):
        self.program, self.folder, self.ran, self.failed = program, folder, 0, 0

    def run(self, *words, given=b""):
        """The status, the output and the lines of standard error of a run."""
        run = subprocess.run([self.program, *map(str, words)], input=given, capture_output=True, cwd=self.folder, timeout=120, check=False)
        return run.returncode, run.stdout, run.stderr.decode("utf-8", "backslashreplace").splitlines()

    def same(self, what, got, wanted):
        """Counts a comparison, and shows it if it fails."""
        self.ran += 1
        if got != wanted:
            self.failed += 1
            print(f"{what}\n--- wanted\n{wanted}\n--- got\n{got}\n")

    def shown(self, schema, given):
        """The lines that `show` prints of messages."""
        status, out, _ = self.run("show", *schema, given=given)
        return out.decode().splitlines() if status == 0 else [f"status {status}"]


def check_unions(checks, three):
    """What `--clear`, `--clear-active` and `--set` of members do."""
    cases = (
        (("--clear", "state.cancelled"), 0, ['(id = 1, state = (cancelled = ""))', '(id = 2, state = (cancelled = ""))', '(id = 3, state = (cancelled = ""))']),
        (("--clear-active", "state.cancelled"), 0, [OPEN, SHIPPED, '(id = 3, state = (cancelled = ""))']),
        (("--clear-active", "state.shipped.carrier"), 0, [OPEN, "(id = 2, state = (shipped = ()))", CANCELLED]),
        (("--clear-active", "state.shipped", "--clear-active", "id"), 0, ["(id = 0, state = (open = ()))", "(id = 0, state = (shipped = ()))", '(id = 0, state = (cancelled = "late"))']),
        (("--set", "state.cancelled=lost", "--clear-active", "state.shipped.carrier"), 3, ['(id = 1, state = (cancelled = "lost"))', '(id = 2, state = (cancelled = "lost"))', '(id = 3, state = (cancelled = "lost"))']),
        (("--set", "state.open="), 0, ["(id = 1, state = (open = ()))", "(id = 2, state = (open = ()))", "(id = 3, state = (open = ()))"]),
        (("--set", "state.open=void", "--set", "id=5"), 0, ["(id = 5, state = (open = ()))"] * 3),
    )
    for calls, wanted_status, wanted in cases:
        for form in ((), ("--plain",)):
            status, out, _ = checks.run("relay", *UNION, *calls, *form, "--log", "none", given=three)
            checks.same(f"relay {calls} {form}", (status, checks.shown(UNION, out)), (wanted_status, wanted))
    words = ("--clear-active", "state.cancelled", "--get", "id", "--clear-active", "state.shipped.carrier")
    status, _, said = checks.run("relay", *UNION, *words, given=three)
    checks.same("the log of --clear-active", (status, said), (0, ["message 1 written; skipped; 1; skipped", "message 2 written; skipped; 2; done", "message 3 written; done; 3; skipped"]))
    words = ("--clear-active", "state.cancelled", "--set", "state.shipped.carrier=DHL", "--strict")
    status, _, said = checks.run("relay", *UNION, *words, given=three)
    checks.same("--strict beside --clear-active", (status, said), (3, ["message 1 refused: call 2 InactiveMember", "message 2 written; skipped; done", "message 3 refused: call 2 InactiveMember"]))


def check_refused(checks, three):
    """How calls that are refused are reported."""
    call = ("--set", "state.shipped.carrier=DHL")
    lines = ["message 1 written; refused InactiveMember", "message 2 written; done", "message 3 written; refused InactiveMember"]
    edited = [OPEN, '(id = 2, state = (shipped = (carrier = "DHL")))', CANCELLED]
    counts = "calls refused (InactiveMember 2), 0 unedited, 0 messages refused, 184 bytes read"
    cases = (
        ((), 3, lines),
        (("--log", "refused"), 3, [lines[0], lines[2]]),
        (("--log", "none"), 3, []),
        (("--log", "none", "--stats"), 3, [f"3 written, 2 {counts}"]),
        (("--allow-refused-calls",), 0, lines),
        (("--allow-refused-calls", "--log", "refused"), 0, [lines[0], lines[2]]),
    )
    for words, wanted_status, wanted in cases:
        status, out, said = checks.run("relay", *UNION, *call, *words, given=three)
        checks.same(f"refused calls {words}", (status, said, checks.shown(UNION, out)), (wanted_status, wanted, edited))
    status, _, said = checks.run("relay", *UNION, "--get", "state.shipped.carrier", given=three)
    checks.same("a refused get", (status, said), (3, [lines[0], 'message 2 written; "UPS"', lines[2]]))
    status, out, said = checks.run("relay", *UNION, *call, "--strict", "--refused", "refused.bin", given=three)
    refused = (checks.folder / "refused.bin").read_bytes()
    wanted = (3, ["message 1 refused: call 1 InactiveMember", lines[1], "message 3 refused: call 1 InactiveMember"], edited[1:2], three[:56] + three[120:])
    checks.same("--strict", (status, said, checks.shown(UNION, out), refused), wanted)
    status, out, said = checks.run("relay", *UNION, *call, "--strict", "--on-refused", "pass", "--log", "none", "--stats", given=three)
    wanted = (3, [f"3 written, 2 {counts.replace('0 unedited', '2 unedited')}"], edited)
    checks.same("--strict --on-refused pass", (status, said, checks.shown(UNION, out)), wanted)
    status, out, said = checks.run("relay", *UNION, *call, "--strict", "--on-refused", "stop", given=three)
    checks.same("--strict --on-refused stop", (status, said, out), (3, ["message 1 refused: call 1 InactiveMember"], b""))
    status, _, said = checks.run("relay", *UNION, *call, "--log", "none", "--stats", given=three * 1000)
    checks.same("many refused calls", (status, said), (3, ["3000 written, 2000 calls refused (InactiveMember 2000), 0 unedited, 0 messages refused, 184000 bytes read"]))


def check_json(checks, three):
    """JSON lines, under common names and hostile ones."""
    status, _, said = checks.run("relay", *UNION, "--set", "state.shipped.carrier=DHL", "--get", "state.cancelled", "--log", "json", "--stats", given=three)
    told = [json.loads(line) for line in said]
    refused = "refused InactiveMember"
    wanted = [
        {"message": 1, "byte": 0, "result": "written", "replies": [refused, refused]},
        {"message": 2, "byte": 56, "result": "written", "replies": ["done", refused]},
        {"message": 3, "byte": 120, "result": "written", "replies": [refused, '"late"']},
        {"written": 3, "calls_refused": {"InactiveMember": 5 - 1}, "unedited": 0, "refused": 0, "bytes": 184},
    ]
    checks.same("--log json", (status, told), (3, wanted))
    (checks.folder / "hostile.json").write_text(json.dumps(HOSTILE))
    schema = ("--schema", "hostile.json", "--root", "h:Outer")
    messages = hostile_message(b"v; w", 7) + hostile_message(b'q"\n', 8)
    status, _, said = checks.run("relay", *schema, "--get", "inner", "--set", "n=1", "--log", "json", given=messages)
    told = [json.loads(line) for line in said]
    wanted = [
        {"message": 1, "byte": 0, "result": "written", "replies": [f'({REPLY} = "v; w", {LINE} = 7)', "done"]},
        {"message": 2, "byte": 56, "result": "written", "replies": [f'({REPLY} = "q\\"\\n", {LINE} = 8)', "done"]},
    ]
    checks.same("hostile names as JSON", (status, told), (0, wanted))
    for log in ("lines", "refused"):
        status, out, said = checks.run("relay", *schema, "--get", "inner", "--log", log, given=messages)
        told = len(said) == 1 and said[0].startswith('hagzimot: --log: the name "x; y" of "h:Inner" ')
        checks.same(f"hostile names, --log {log}", (status, out, told), (2, b"", True))
    status, _, said = checks.run("relay", *schema, "--set", "n=1", given=messages)
    checks.same("hostile names without a get", (status, said), (0, ["message 1 written; done", "message 2 written; done"]))


def check_faults(checks, three):
    """Calls that no record could take, and the statuses of faults."""
    (checks.folder / "loose.json").write_text(json.dumps(LOOSE))
    (checks.folder / "calls.json").write_text(json.dumps({"calls": [{"path": ["id"], "verb": "get"}, {"path": ["id"], "verb": "set", "value": {"number": 2**32}}]}))
    (checks.folder / "anys.json").write_text(json.dumps({"calls": [{"path": ["anys", 0], "verb": "set", "value": {"text": "t"}}]}))
    (checks.folder / "nothing.json").write_text(json.dumps({"calls": [{"path": ["nothing"], "verb": "set", "value": {"text": "t"}}, {"path": ["any"], "verb": "init"}]}))
    loose = ("--schema", "loose.json", "--root", "l:Loose")
    empty = framed(struct_pointer(0, 0, 0))
    cases = (
        ((*UNION, "--set", "id=4294967296"), three, 2, "--set id=4294967296: 4294967296 is out of the range of a UInt32 (0 to 4294967295)"),
        ((*UNION, "--set", "id=x"), three, 2, "--set id=x: this is not a value of a UInt32"),
        ((*UNION, "--set", "state.open=x"), three, 2, "--set state.open=x: this is not a value of Void"),
        ((*UNION, "--set", "id"), three, 2, "--set id: a value is missing (write path=value)"),
        ((*UNION, "--get", "id", "--set", "nosuch=1", "--lenient"), three, 2, '--set nosuch=1: no field "nosuch" in O'),
        ((*UNION, "--init", "id"), three, 2, "--init id: init needs a struct, a group or an untyped pointer, but the path leads to a UInt32"),
        ((*UNION, "--calls", "calls.json"), three, 2, "calls.json: call 2 (set id): 4294967296 is out of the range of a UInt32 (0 to 4294967295)"),
        ((*UNION, "--calls", "none.json"), three, 4, None),
        ((*UNION, "--set", "id=1", "--words", "2"), three, 4, None),
        ((*loose, "--calls", "anys.json"), empty, 2, "anys.json: call 1 (set anys[0]): an element of a list of untyped pointers can't be set"),
        ((*loose, "--initn", "anys=8388609"), empty, 2, "--initn anys=8388609: 8388609 elements take 8388609 words, and a message has at most 8388608 (allow more by --words)"),
        ((*loose, "--calls", "nothing.json"), empty, 0, None),
        ((*loose, "--init", "any"), empty, 0, None),
    )
    for words, given, wanted_status, wanted in cases:
        status, _, said = checks.run("relay", *words, "--log", "none", given=given)
        told = said if wanted is None else [f"hagzimot: {wanted}"]
        checks.same(f"relay {words}", (status, said), (wanted_status, told))
        checks.same(f"what relay {words} says", bool(said), status != 0)
    status, _, said = checks.run("relay", *UNION, "--strict", "--allow-refused-calls", "--set", "id=1", given=three)
    checks.same("--strict --allow-refused-calls", (status, bool(said)), (2, True))
    many = [word for _ in range(65) for word in ("--clear-active", "id")]
    status, _, said = checks.run("relay", *UNION, *many, given=three)
    checks.same("65 times --clear-active", (status, said), (2, ["hagzimot: --clear-active: at most 64 of these can be given"]))


def main():
    program = pathlib.Path(sys.argv[1]).resolve() if len(sys.argv) > 1 else PROGRAM
    if not program.exists():
        raise SystemExit(f"{program} is not built")
    three = (USER / "edits_union.bin").read_bytes()
    with tempfile.TemporaryDirectory() as folder:
        checks = Checks(program, pathlib.Path(folder))
        check_unions(checks, three)
        check_refused(checks, three)
        check_json(checks, three)
        check_faults(checks, three)
    print(f"edits and logs: {checks.ran} checks, {checks.failed} failed")
    return 1 if checks.failed else 0


if __name__ == "__main__":
    sys.exit(main())
