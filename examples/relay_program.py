"""Where the relay's program stands, and what its streams of framed messages are made of."""
import os
import struct
import sys

BUILT = "crates/capnp_relay_cli/out/capnp_relay_cli"


def relay_program():
    """The path of the built program: that of HAGZIMOT_RELAY, or where `rt run` leaves it."""
    top = os.path.dirname(os.path.dirname(os.path.abspath(__file__)))
    program = os.environ.get("HAGZIMOT_RELAY") or os.path.join(top, BUILT)
    if not os.access(program, os.X_OK):
        sys.exit(f"{program} isn't there: (cd crates/capnp_relay_cli && rt run) builds it")
    return os.path.abspath(program)


def frame_end(data, start):
    """Where the frame that begins at a byte ends; none where the bytes hold no whole one."""
    if len(data) - start < 8:
        return None
    segments = struct.unpack_from("<I", data, start)[0] + 1
    table = (segments // 2 + 1) * 8
    if len(data) - start < table:
        return None
    words = sum(struct.unpack_from(f"<{segments}I", data, start + 4))
    end = start + table + 8 * words
    return end if end <= len(data) else None


def frames(data):
    """The frames of a stream, one after the other."""
    start = 0
    while start < len(data):
        end = frame_end(data, start)
        if end is None:
            raise ValueError(f"no whole frame at byte {start}")
        yield data[start:end]
        start = end
