"""Builds the inspector and tries it in a browser without a window: example, files, faults, words, an edit, and what is saved.

usage: run.py [--module FILE] [--screenshot FILE] [--frames FILE]

--module names an earlier hagzimot.wasm, which is not built again. --frames names frames.wasm of prove.py, whose two functions
are called too.

The browser is Debian's chromium, or what HAGZIMOT_BROWSER names; without one the status is 77. Ends with status 1 if the page
shows or saves anything else than it must.
"""
import base64
import json
import os
import sys
import tempfile
import time

import browser
import build

CANT_RUN = 77
SCHEMA = """[{"id": 1, "name": "P", "data": 1, "pointers": 1, "fields": [
    {"name": "a", "type": "UInt16", "offset": 0}, {"name": "t", "type": "Text", "offset": 0}]}]"""
OTHER = SCHEMA.replace('"UInt16", "offset": 0', '"UInt16", "offset": 1')
# (a = 7) with two data words, (a = 7, t = "hi") in canonical form, and that with a text out of the message.
WIDE = "0000000003000000 0000000002000000 0700000000000000 0000000000000000"
PLAIN = "0000000004000000 0000000001000100 0700000000000000 010000001a000000 6869000000000000"
FAR = PLAIN.replace("010000001a", "650000001a")
EDITED = ["0000000002000000 0000000001000000 0900000000000000", PLAIN.replace("07", "09")]
LINES = ['message 1 written; done; ""', 'message 2 written; done; "hi"', "message 3 refused: value", ""]
FAULT = "message: it has no value within the limits"


# Calls both functions of the proved module on a message, whose canonical form goes to the page.
FRAMES = """<pre id="result"></pre><script>
const MODULE = Uint8Array.from(atob("@MODULE@"), (it) => it.charCodeAt(0)), MESSAGE = [@MESSAGE@];
WebAssembly.instantiate(MODULE, {}).then(({instance: {exports: it}}) => {
  const base = Number(it.__heap_base.value), bytes = (at, size) => new Uint8Array(it.memory.buffer, at, size);
  bytes(base, MESSAGE.length).set(MESSAGE);
  const [given, out, length] = [base, base + 4096, base + 8192], size = BigInt(MESSAGE.length);
  const is = [it.hagzimot_is_canonical(BigInt(given), size, 1000, 64)];
  const status = it.hagzimot_canonical(BigInt(given), size, 1000, 64, BigInt(out), 512n, BigInt(length));
  const words = Number(new DataView(it.memory.buffer).getBigUint64(length, true));
  is.push(it.hagzimot_is_canonical(BigInt(out), BigInt(8 * words), 1000, 64));
  document.getElementById("result").textContent = JSON.stringify({status, is, out: [...bytes(out, 8 * words)]});
}).catch((error) => document.getElementById("result").textContent = JSON.stringify({failed: String(error)}));
</script>"""


class Wrong(Exception):
    """What is wrong."""


def expect(found, wanted, what):
    if found != wanted:
        raise Wrong(f"{what}: {found}, and not {wanted}")


def hex_of(*messages):
    return "".join(messages).replace(" ", "")


def drive(chromium, page, room):
    """Runs the page with try.js in it, and returns what that saw."""
    given = json.dumps({"schema": SCHEMA, "other": OTHER, "stream": hex_of(WIDE, PLAIN, FAR)})
    script = f"<script>\nconst GIVEN = {given};\n{build.text_of(f'{build.HERE}/try.js')}</script>\n</html>"
    build.write(f"{room}/try.html", build.text_of(page).replace("</html>", script))
    return chromium.result(chromium.open(f"file://{room}/try.html"))


def judge(seen):
    """Compares what was seen with what the page must show."""
    expect(seen.get("failed"), None, "the page fails")
    rows = [it[3:] for it in seen["example"]["rows"]]
    expect(rows[0][0], "canonical", "the form of the example's message")
    expect(rows[0][1], '(number = 7, status = packed, customer = "Ada Lovelace", notes = ["fragile", ""])', "the example")
    expect(seen["refused"]["said"][:8], "schema: ", "what is said of a file that isn't a schema")
    rows = [it[1:] for it in seen["dropped"]["rows"]]
    wanted = [["32", "1", "not canonical", "(a = 7)"], ["40", "1", "canonical", '(a = 7, t = "hi")'], ["40", "1", "no value", FAULT]]
    expect(rows, wanted, "the messages")
    expect(seen["compatible"], "the newer schema is compatible", "what is said of the same schema")
    expect(seen["broken"], 'P: field "a" lies elsewhere in the newer schema', "what is said of another schema")
    pointers = [it[3] for it in seen["words"]]
    expect(pointers, ["struct at word 1: 1 data, 1 pointers", "", "list at word 3: 3 of 1 byte", ""], "the words")
    expect(seen["edited"]["log"].split("\n"), LINES, "the log")
    expect([it[4] for it in seen["edited"]["rows"]], ["(a = 9)", '(a = 9, t = "hi")'], "the edited messages")
    expect(seen["saved"], hex_of(*EDITED), "what is saved")
    expect(seen["cut"]["said"], "input: from byte 72 on it isn't a message; 2 messages are before", "what is said of a cut stream")


def try_frames(chromium, module, room):
    """Calls the functions of the proved module."""
    with open(module, "rb") as file:
        data = base64.b64encode(file.read()).decode()
    message = ", ".join(str(it) for it in bytes.fromhex(WIDE))
    build.write(f"{room}/frames.html", FRAMES.replace("@MODULE@", data).replace("@MESSAGE@", message))
    wanted = bytes.fromhex(EDITED[0].replace("09", "07"))
    seen = chromium.result(chromium.open(f"file://{room}/frames.html"))
    expect(seen, {"status": 0, "is": [9, 0], "out": [*wanted]}, "the proved module")


def shoot(chromium, page, to):
    """Takes a picture of the page with its example."""
    session = chromium.open(f"file://{os.path.abspath(page)}")
    end = time.monotonic() + 60
    while time.monotonic() < end and not chromium.value(session, "document.body?.dataset.ready"):
        time.sleep(0.1)
    chromium.value(session, "byId('example').click()")
    chromium.shoot(session, to)


def try_all(program, room, options):
    """Builds the page and tries it. Returns its size."""
    page = build.build(room, options.get("--module"), lambda text: print(text, file=sys.stderr, flush=True))
    with browser.Browser(program, f"{room}/profile") as chromium:
        judge(drive(chromium, page, room))
        if "--frames" in options:
            try_frames(chromium, options["--frames"], room)
        if "--screenshot" in options:
            shoot(chromium, page, options["--screenshot"])
    return os.path.getsize(page)


def main(words):
    options = dict(zip(words[::2], words[1::2]))
    if len(words) % 2 or not {*options} <= {"--module", "--screenshot", "--frames"}:
        print(__doc__)
        return 2
    program = browser.program()
    if program is None:
        print("no browser is there (install Debian's package chromium)")
        return CANT_RUN
    try:
        with tempfile.TemporaryDirectory() as room:
            size = try_all(program, room, options)
    except (Wrong, browser.Stopped, build.unproved.Failed) as wrong:
        print(wrong)
        return 1
    print(f"the inspector, of {size} bytes, shows, edits and saves messages as it must")
    return 0


if __name__ == "__main__":
    sys.exit(main(sys.argv[1:]))
