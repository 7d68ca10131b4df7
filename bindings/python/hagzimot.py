"""libhagzimot for Python: relays, shows and compares Cap'n Proto messages in this process.

The library is the one that the environment's HAGZIMOT_LIBRARY names. Otherwise it is the one beside this file or in the same
installation, or the one that the system's loader finds.

    relay = hagzimot.Relay(schema, "Order", [{"path": ["status"], "verb": "set", "value": {"enum": 2}}])
    out, log = relay.relay(message)
    print(relay.show(out))
"""
from __future__ import annotations

import ctypes
import json
import os
import threading
import warnings
from types import TracebackType
from typing import Any, Mapping, NamedTuple, Sequence, Type, Union

__all__ = ["Answers", "Error", "PACKED_IN", "PACKED_OUT", "PLAIN", "Relay", "canonical", "first_break", "is_canonical", "version"]

PACKED_IN, PACKED_OUT, PLAIN = 1, 2, 4
WORDS, LEVELS = 8_388_608, 64

Bytes = Union[bytes, bytearray, memoryview]

_OK, _MEMORY, _CLOSED, _OPEN, _ROOM, _REFUSED, _FRAMING, _VALUE, _SIZE, _NO, _FORM, _POINTER = range(12)
_TEXTS = {
    _MEMORY: "memory: an allocation was refused, or a value is too deep",
    _CLOSED: "handle: it is closed",
    _OPEN: "handle: it is open already",
    _ROOM: "output: it is too short",
    _FRAMING: "input: it doesn't begin with a message",
    _VALUE: "message: it has no value within the limits",
    _SIZE: "message: it is too large",
    _FORM: "arguments: a flag is unknown",
    _POINTER: "arguments: a pointer is NULL",
}
_TEXT_ROOM = 4096


class Error(Exception):
    """A call that failed. `status` is that of hagzimot.h. `answers` has what was answered before, if that is known."""

    def __init__(self, status: int, text: str, answers: Answers | None = None) -> None:
        super().__init__(text)
        self.status = status
        self.answers = answers


class Answers(NamedTuple):
    """The messages that were written, and the log: a line for each message."""

    out: bytes
    log: str


class _Handle(ctypes.Structure):
    _fields_ = [("at", ctypes.c_void_p)]


def _loaded() -> ctypes.CDLL:
    # In an installation this file is in lib/python3/dist-packages, and the library in lib.
    here = os.path.dirname(os.path.realpath(__file__))
    known = [os.path.join(here, *up, "libhagzimot.so.1") for up in ((), ("..", ".."))]
    named = os.environ.get("HAGZIMOT_LIBRARY") or next((it for it in known if os.path.exists(it)), "libhagzimot.so.1")
    return ctypes.CDLL(named)


_library = _loaded()


def _declare(name: str, *arguments: Any, result: Any = ctypes.c_uint32) -> Any:
    function = getattr(_library, name)
    function.argtypes, function.restype = list(arguments), result
    return function


_SIZE_T = ctypes.c_size_t
_IN = (ctypes.c_char_p, _SIZE_T)
_OUT = (ctypes.c_void_p, _SIZE_T, ctypes.POINTER(_SIZE_T))
_HANDLE = ctypes.POINTER(_Handle)
_U32 = ctypes.c_uint32

_version = _declare("hagzimot_version")
_open = _declare("hagzimot_open", _HANDLE, *_IN, *_IN, *_IN, _U32, *_OUT)
_close = _declare("hagzimot_close", _HANDLE, result=None)
_relay = _declare("hagzimot_relay", _HANDLE, *_IN, *_OUT, *_OUT)
_take = _declare("hagzimot_take", _HANDLE, *_OUT, *_OUT)
_show = _declare("hagzimot_show", _HANDLE, *_IN, *_OUT)
_canonical = _declare("hagzimot_canonical", *_IN, _U32, _U32, *_OUT)
_is_canonical = _declare("hagzimot_is_canonical", *_IN, _U32, _U32)
_compatible = _declare("hagzimot_compatible", *_IN, *_IN, *_IN, *_IN, *_OUT)


class _Room:
    """Memory that a call writes, and how much it wanted."""

    def __init__(self, size: int) -> None:
        self.cells: ctypes.Array[ctypes.c_char] = ctypes.create_string_buffer(size)
        self.size = size
        self.len = _SIZE_T(0)

    def arguments(self) -> tuple[Any, int, Any]:
        return self.cells, self.size, ctypes.byref(self.len)

    def written(self) -> bytes:
        return ctypes.string_at(self.cells, min(self.len.value, self.size))

    def text(self) -> str:
        return self.written().decode("utf-8", "surrogateescape")


def _slice(data: Bytes) -> tuple[bytes, int]:
    """The arguments of bytes that a call reads."""
    held = bytes(data)
    return held, len(held)


def _check(status: int, answers: Answers | None = None) -> None:
    if status != _OK:
        raise Error(status, _TEXTS.get(status, f"status {status}"), answers)


def version() -> int:
    """Returns the version of the library's interface."""
    return int(_version())


class Relay:
    """A relay: a schema, the struct at the root of messages, calls, and limits. Only the thread that made it may use it."""

    def __init__(
        self,
        schema: Bytes,
        root: str = "",
        calls: Bytes | Sequence[Mapping[str, Any]] = (),
        flags: int = 0,
        words: int = WORDS,
        nesting: int = LEVELS,
    ) -> None:
        """Opens a relay. `schema` is what `capnp compile -o-` writes, or a JSON schema file; `root` names a struct by its name or
        id; `calls` are the bytes of a calls file, which also has the limits, or its list of calls."""
        self._handle = _Handle(None)
        self._thread = threading.get_ident()
        if not isinstance(calls, (bytes, bytearray, memoryview)):
            calls = json.dumps({"calls": list(calls), "words": words, "nesting": nesting}).encode()
        text = _Room(_TEXT_ROOM)
        given = (*_slice(schema), *_slice(root.encode()), *_slice(calls))
        status = _open(ctypes.byref(self._handle), *given, flags, *text.arguments())
        if status == _REFUSED:
            raise Error(status, text.text())
        _check(status)

    def _check_thread(self) -> None:
        """Raises an error if the thread isn't the one that made the relay."""
        if threading.get_ident() != self._thread:
            raise RuntimeError("relay: it is used in another thread than the one that made it")

    def relay(self, messages: Bytes) -> Answers:
        """Answers messages that are one after the other, any number of them. If the rest of the input isn't a message, an
        `Error` has the answers to those before."""
        self._check_thread()
        out, log = _Room(len(messages) + 256), _Room(256)
        status = _relay(ctypes.byref(self._handle), *_slice(messages), *out.arguments(), *log.arguments())
        if out.len.value > out.size or log.len.value > log.size:
            out, log = _Room(out.len.value), _Room(log.len.value)
            taken = _take(ctypes.byref(self._handle), *out.arguments(), *log.arguments())
            status = taken if status == _ROOM else status
        answers = Answers(out.written(), log.text())
        _check(status, answers)
        return answers

    def show(self, message: Bytes) -> str:
        """Returns the record of the first message as text on one line."""
        self._check_thread()
        text = _Room(1024)
        status = _show(ctypes.byref(self._handle), *_slice(message), *text.arguments())
        if status == _ROOM:
            text = _Room(text.len.value)
            status = _take(ctypes.byref(self._handle), *text.arguments(), *_Room(0).arguments())
        _check(status)
        return text.text()

    def close(self) -> None:
        """Returns the memory of the relay. Later calls raise an `Error`."""
        self._check_thread()
        _close(ctypes.byref(self._handle))

    def __enter__(self) -> Relay:
        return self

    def __exit__(self, kind: Type[BaseException] | None, error: BaseException | None, where: TracebackType | None) -> None:
        self.close()

    def __del__(self) -> None:
        handle = getattr(self, "_handle", None)
        if handle is None or not handle.at:
            return
        if threading.get_ident() == self._thread:
            self.close()
        else:
            warnings.warn("relay: another thread drops it, so its memory is kept (close it)", ResourceWarning, source=self)


def canonical(message: Bytes, words: int = WORDS, levels: int = LEVELS) -> bytes:
    """Returns the canonical form of the first message, framed."""
    count = len(message) // 8 + 2
    while True:
        out = _Room(8 * count)
        status = _canonical(*_slice(message), words, levels, out.cells, count, ctypes.byref(out.len))
        if status != _ROOM or count == words + 2:
            break
        count = words + 2
    _check(status)
    return ctypes.string_at(out.cells, 8 * out.len.value)


def is_canonical(message: Bytes, words: int = WORDS, levels: int = LEVELS) -> bool:
    """Returns whether the first message is canonical."""
    status = _is_canonical(*_slice(message), words, levels)
    if status == _NO:
        return False
    _check(status)
    return True


def first_break(older: Bytes, newer: Bytes, root: str = "", renames: Bytes = b"") -> str | None:
    """Returns the sentence of the first break between two versions of a schema; `None` if they are compatible."""
    text = _Room(_TEXT_ROOM)
    status = _compatible(*_slice(older), *_slice(newer), *_slice(renames), *_slice(root.encode()), *text.arguments())
    if status in (_NO, _REFUSED):
        if status == _REFUSED:
            raise Error(status, text.text())
        return text.text()
    _check(status)
    return None
