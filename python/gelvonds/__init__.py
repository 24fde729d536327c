"""Mach 3 port IPC in a Python session: a kernel of one's own, over the C library, by ctypes.

    >>> from gelvonds import *
    >>> kernel = Kernel()
    >>> server, client = kernel.task_create(), kernel.task_create()
    >>> service = kernel.port_allocate(server)
    >>> kernel.port_insert_right(client, 1, server, make_send(service))
    >>> kernel.send(client, message(copy_send(1), id=7, body=b"ping"))
    >>> received(kernel.receive(server, service)).body
    b'ping'

`Kernel` has a method for each function of include/gelvonds.h that takes a kernel, of the same name without `gelvonds_`;
`profile` is a property. A call that is refused raises `MachError`, which has the code and its C name. docs/CALLS.md says what each call does and which refusal
comes first, docs/FORMATS.md has the bytes of messages, and docs/PYTHON.md is a session.

The library is looked for at GELVONDS_LIBRARY, then where pkg-config says, then by the loader.
"""

from __future__ import annotations

import ctypes
import os
import re
import shutil
import struct
import subprocess
import threading
import weakref
from pathlib import Path
from typing import Any, Dict, List, NamedTuple, Optional, Sequence, Tuple, Union


def _version() -> str:
    """The version: beside this file where it is installed, else at the top of the tree."""
    here = Path(__file__).resolve().parent
    beside = here / "VERSION"
    return (beside if beside.is_file() else here.parents[1] / "VERSION").read_text(encoding="ascii").strip()


__version__ = _version()

# ---- the numbers of include/gelvonds.h

GELVONDS_NO_KERNEL = 0x47000001
GELVONDS_IN_USE = 0x47000002
GELVONDS_TOO_SHORT = 0x47000003
GELVONDS_NO_WAITED = 0x47000004
GELVONDS_NO_ANSWER = 0x47000005
GELVONDS_NO_MSG = 0x47000006
GELVONDS_NO_ENTRY = 0x47000007

KERN_SUCCESS = 0
KERN_NO_SPACE = 3
KERN_INVALID_ARGUMENT = 4
KERN_RESOURCE_SHORTAGE = 6
KERN_ALREADY_IN_SET = 11
KERN_NOT_IN_SET = 12
KERN_NAME_EXISTS = 13
KERN_INVALID_NAME = 15
KERN_INVALID_TASK = 16
KERN_INVALID_RIGHT = 17
KERN_INVALID_VALUE = 18
KERN_UREFS_OVERFLOW = 19
KERN_INVALID_CAPABILITY = 20
KERN_RIGHT_EXISTS = 21

MACH_MSG_SUCCESS = 0
MACH_SEND_INVALID_DATA = 0x10000002
MACH_SEND_INVALID_DEST = 0x10000003
MACH_SEND_TIMED_OUT = 0x10000004
MACH_SEND_MSG_TOO_SMALL = 0x10000008
MACH_SEND_INVALID_REPLY = 0x10000009
MACH_SEND_INVALID_RIGHT = 0x1000000A
MACH_SEND_NO_BUFFER = 0x1000000D
MACH_SEND_INVALID_TYPE = 0x1000000F
MACH_SEND_INVALID_HEADER = 0x10000010
MACH_RCV_INVALID_NAME = 0x10004002
MACH_RCV_TIMED_OUT = 0x10004003
MACH_RCV_TOO_LARGE = 0x10004004
MACH_RCV_PORT_CHANGED = 0x10004006
MACH_RCV_PORT_DIED = 0x10004009
MACH_RCV_IN_SET = 0x1000400A
MACH_RCV_BODY_ERROR = 0x1000400C
MACH_MSG_IPC_SPACE = 0x00002000
MACH_MSG_IPC_KERNEL = 0x00000800

MACH_PORT_RIGHT_SEND = 0
MACH_PORT_RIGHT_RECEIVE = 1
MACH_PORT_RIGHT_SEND_ONCE = 2
MACH_PORT_RIGHT_PORT_SET = 3
MACH_PORT_RIGHT_DEAD_NAME = 4

MACH_PORT_TYPE_SEND = 0x00010000
MACH_PORT_TYPE_RECEIVE = 0x00020000
MACH_PORT_TYPE_SEND_ONCE = 0x00040000
MACH_PORT_TYPE_PORT_SET = 0x00080000
MACH_PORT_TYPE_DEAD_NAME = 0x00100000
MACH_PORT_TYPE_DNREQUEST = 0x80000000

MACH_NOTIFY_PORT_DELETED = 65
MACH_NOTIFY_PORT_DESTROYED = 69
MACH_NOTIFY_NO_SENDERS = 70
MACH_NOTIFY_SEND_ONCE = 71
MACH_NOTIFY_DEAD_NAME = 72

MACH_MSG_TYPE_MOVE_RECEIVE = 16
MACH_MSG_TYPE_MOVE_SEND = 17
MACH_MSG_TYPE_MOVE_SEND_ONCE = 18
MACH_MSG_TYPE_COPY_SEND = 19
MACH_MSG_TYPE_MAKE_SEND = 20
MACH_MSG_TYPE_MAKE_SEND_ONCE = 21

MACH_MSGH_BITS_COMPLEX = 0x80000000

MACH_PORT_NULL = 0
MACH_PORT_DEAD = 0xFFFFFFFF

_MOST_BYTES = 65536

_CODES: Dict[int, str] = {
    value: name
    for name, value in list(globals().items())
    if re.match(r"KERN_|MACH_SEND_|MACH_RCV_|GELVONDS_", name)
}

# (options, the states of a message call, the kinds of a Waited and of a verdict, the room for a text, and no codes)
MACH_SEND_MSG = 0x00000001
MACH_RCV_MSG = 0x00000002
MACH_SEND_TIMEOUT = 0x00000010
MACH_SEND_INTERRUPT = 0x00000040
MACH_RCV_TIMEOUT = 0x00000100
MACH_RCV_INTERRUPT = 0x00000400
MACH_RCV_LARGE = 0x00000800

GELVONDS_MSG_DONE = 0
GELVONDS_MSG_WAITS_FOR_ROOM = 1
GELVONDS_MSG_SENT = 2
GELVONDS_MSG_WAITS_FOR_MESSAGE = 3

GELVONDS_PORT = 1
GELVONDS_SET = 2
GELVONDS_DEAD = 3

GELVONDS_LEGAL = 1
GELVONDS_BAD_LINE = 2
GELVONDS_NOT_CONFIRMED = 3

GELVONDS_TEXT_ROOM = 40


def code_name(code: int) -> str:
    """The C name of a code, such as `MACH_SEND_INVALID_DEST`; its digits where it has none."""
    code &= 0xFFFFFFFF
    if code in _CODES:
        return _CODES[code]
    for name in ("MACH_MSG_IPC_SPACE", "MACH_MSG_IPC_KERNEL"):
        if code == MACH_RCV_BODY_ERROR | globals()[name]:
            return "MACH_RCV_BODY_ERROR|" + name
    return f"code {code:08x}"


def type_names(bits: int) -> List[str]:
    """The rights in a name's type (`Kernel.port_type`), such as `['SEND', 'RECEIVE']`."""
    start = "MACH_PORT_TYPE_"
    return [name[len(start) :] for name, bit in globals().items() if name.startswith(start) and bits & bit]


# ---- refusals


class Waited(NamedTuple):
    """A port or a set, by identity: what a receive that found no message waited for, or what `Kernel.port_identity` tells.

    `Kernel.receive_again` takes it. The kind is `GELVONDS_PORT`, `GELVONDS_SET`, or, of a dead name, `GELVONDS_DEAD`.
    """

    identity: int
    kind: int


class MachError(Exception):
    """A call was refused. `code` is the code, from 0 to 2^32 - 1, and `name` its C name."""

    def __init__(self, code: int) -> None:
        self.code = code & 0xFFFFFFFF
        self.name = code_name(code)
        super().__init__(self.name)


class NoMessage(MachError):
    """A receive found no message (`MACH_RCV_TIMED_OUT`). `waited` says what it waited for."""

    def __init__(self, waited: Waited) -> None:
        super().__init__(MACH_RCV_TIMED_OUT)
        self.waited = waited


class TooLarge(MachError):
    """A message is longer than the room (`MACH_RCV_TOO_LARGE`). `length` is its length in bytes."""

    def __init__(self, length: int) -> None:
        super().__init__(MACH_RCV_TOO_LARGE)
        self.length = length


# ---- messages


class PortRight(NamedTuple):
    """A right as a message or a call names it: a disposition (`MACH_MSG_TYPE_..`) and a name of the sender's.

    In a received message `disposition` is the kind of the right, and the name is the receiver's. A kind is also the
    disposition that moves such a right. So the reply right of a request is the destination of its reply.
    """

    disposition: int
    name: int

    def __repr__(self) -> str:
        makes = ["move_receive", "move_send", "move_send_once", "copy_send", "make_send", "make_send_once"]
        at = self.disposition - MACH_MSG_TYPE_MOVE_RECEIVE
        made = makes[at] + "(" if 0 <= at < len(makes) else f"PortRight({self.disposition}, "
        return f"{made}{'MACH_PORT_DEAD' if self.name == MACH_PORT_DEAD else self.name})"


def move_receive(name: int) -> PortRight:
    """The receive right is moved."""
    return PortRight(MACH_MSG_TYPE_MOVE_RECEIVE, name)


def move_send(name: int) -> PortRight:
    """One reference of a send right is moved."""
    return PortRight(MACH_MSG_TYPE_MOVE_SEND, name)


def move_send_once(name: int) -> PortRight:
    """The send-once right is moved, and its name goes."""
    return PortRight(MACH_MSG_TYPE_MOVE_SEND_ONCE, name)


def copy_send(name: int) -> PortRight:
    """A send right is copied: the sender keeps its own."""
    return PortRight(MACH_MSG_TYPE_COPY_SEND, name)


def make_send(name: int) -> PortRight:
    """A send right is made from the receive right."""
    return PortRight(MACH_MSG_TYPE_MAKE_SEND, name)


def make_send_once(name: int) -> PortRight:
    """A send-once right is made from the receive right."""
    return PortRight(MACH_MSG_TYPE_MAKE_SEND_ONCE, name)


class Data(NamedTuple):
    """An item of plain data: `number` pieces of `size` bits each, of a type (8 is MACH_MSG_TYPE_BYTE)."""

    type: int
    size: int
    number: int
    data: bytes


Item = Union[PortRight, Data]


def data(contents: bytes) -> Data:
    """An item of bytes."""
    return Data(8, 8, len(contents), bytes(contents))


def message(
    destination: PortRight,
    *,
    reply: Optional[PortRight] = None,
    id: int = 0,
    body: bytes = b"",
    items: Optional[Sequence[Item]] = None,
) -> bytes:
    """The bytes of a message: to a right, with a reply right or none, and raw bytes or a list of items.

    `body` is filled up with zeros to a multiple of 4 bytes. Each `PortRight` of `items` makes an item of one right, and
    each `Data` an item of data. Raises ValueError where both are given, and where a number doesn't fit its field. What
    else no message can have is refused by `Kernel.send`.
    """
    if items is not None and body:
        raise ValueError("a message has raw bytes or items, not both")
    back = reply or PortRight(0, MACH_PORT_NULL)
    bits = _field(destination.disposition, 8, "the destination's disposition")
    bits |= _field(back.disposition, 8, "the reply right's disposition") << 8
    if items is not None:
        bits |= MACH_MSGH_BITS_COMPLEX
        body = b"".join(_item(it) for it in items)
    body = _padded(_bytes(body))
    to, back_to = _u32(destination.name, "the destination's name"), _u32(back.name, "the reply right's name")
    return struct.pack("<6I", bits, 24 + len(body), to, back_to, 0, _word(id, "the id")) + body


def _item(item: Item) -> bytes:
    if isinstance(item, PortRight):
        item = Data(item.disposition, 32, 1, struct.pack("<I", _u32(item.name, "a name in the body")))
    if len(item.data) != (item.size * item.number + 7) // 8:
        raise ValueError(f"{item.number} pieces of {item.size} bits are not {len(item.data)} bytes")
    if 0 <= item.type < 256 and 0 <= item.size < 256 and 0 <= item.number < 4096:
        descriptor = struct.pack("<I", item.type | item.size << 8 | item.number << 16 | 1 << 28)
    else:
        kind, size = _field(item.type, 16, "an item's type"), _field(item.size, 16, "an item's size")
        descriptor = struct.pack("<IHHI", 3 << 28, kind, size, _u32(item.number, "an item's number"))
    return descriptor + _padded(item.data)


def _padded(contents: bytes) -> bytes:
    return contents + bytes(-len(contents) % 4)


class Received(NamedTuple):
    """A received message, read. The names are the receiver's."""

    id: int
    port: int
    """The port that it came to."""
    reply: Optional[PortRight]
    """The right to reply by, or None. Its name is `MACH_PORT_DEAD` where its port has died."""
    kind: int
    """The kind of the right that it was sent to: `MACH_MSG_TYPE_MOVE_SEND` or `.._MOVE_SEND_ONCE`."""
    seqno: int
    """Its number at the port."""
    size: int
    """Its length in bytes, with the header."""
    body: bytes
    """All behind the header."""
    items: Optional[List[Item]]
    """The items of the body, a `PortRight` for each right; None where the body is raw bytes."""


def received(contents: bytes) -> Received:
    """Reads a message that `Kernel.receive` returned."""
    contents = _bytes(contents)
    if len(contents) < 24:
        raise ValueError(f"a message has at least 24 bytes, and these are {len(contents)}")
    bits, size, remote, local, seqno, number = struct.unpack("<5Ii", contents[:24])
    reply = PortRight(bits & 0xFF, remote) if bits & 0xFF else None
    body = contents[24:]
    items = _items(body) if bits & MACH_MSGH_BITS_COMPLEX else None
    return Received(number, local, reply, bits >> 8 & 0xFF, seqno, size, body, items)


def _items(body: bytes) -> List[Item]:
    items: List[Item] = []
    at = 0
    while at < len(body):
        (word,) = struct.unpack_from("<I", body, at)
        at += 4
        kind, size, number = word & 0xFF, word >> 8 & 0xFF, word >> 16 & 0xFFF
        if word >> 29 & 1:
            kind, size, number = struct.unpack_from("<HHI", body, at)
            at += 8
        length = (size * number + 7) // 8
        contents = body[at : at + length]
        if len(contents) < length:
            raise ValueError("an item is longer than the message")
        if MACH_MSG_TYPE_MOVE_RECEIVE <= kind <= MACH_MSG_TYPE_MAKE_SEND_ONCE:
            items += [PortRight(kind, name) for (name,) in struct.iter_unpack("<I", contents)]
        else:
            items.append(Data(kind, size, number, contents))
        at += length + -length % 4
    return items


class Notice(NamedTuple):
    """A message from the kernel, read."""

    id: int
    """`MACH_NOTIFY_..`."""
    word: Optional[int]
    """The name that died or was deleted, that of the receive right, or the make-send count; None of `.._SEND_ONCE`."""


def notice(contents: bytes) -> Notice:
    """Reads a notice. Raises ValueError where the message hasn't the form of one."""
    it = received(contents)
    ids = [number for name, number in globals().items() if name.startswith("MACH_NOTIFY_")]
    length = 24 if it.id == MACH_NOTIFY_SEND_ONCE else 32
    if it.id not in ids or len(contents) != length or it.kind != MACH_MSG_TYPE_MOVE_SEND_ONCE:
        raise ValueError(f"a message of {len(contents)} bytes with the id {it.id} is no notice")
    return Notice(it.id, None if length == 24 else struct.unpack("<I", it.body[4:])[0])


# ---- arguments


def _bytes(contents: Any) -> bytes:
    if not isinstance(contents, (bytes, bytearray, memoryview)):
        raise TypeError(f"bytes are wanted, not {type(contents).__name__}")
    return bytes(contents)


def _field(number: int, bits: int, what: str) -> int:
    """The number, which has to fit: ctypes would cut it off, and another call would be made."""
    if not 0 <= number < 1 << bits:
        raise ValueError(f"{what} is {number}, and has to be from 0 to {(1 << bits) - 1}")
    return number


def _u32(number: int, what: str) -> int:
    return _field(number, 32, what)


def _right(right: PortRight) -> Tuple[int, int]:
    """A right's name and disposition, as two words."""
    if not isinstance(right, PortRight):
        raise TypeError(f"a right is wanted, such as make_send(1), not {type(right).__name__}")
    return _u32(right.name, "the right's name"), _u32(right.disposition, "its disposition")


def _word(number: int, what: str) -> int:
    """A word that is read with or without a sign."""
    if not -(1 << 31) <= number < 1 << 32:
        raise ValueError(f"{what} is {number}, which doesn't fit 32 bits")
    return number & 0xFFFFFFFF


# ---- the library


class _Handle(ctypes.Structure):
    _fields_ = [("kernel", ctypes.c_void_p)]


class _Waited(ctypes.Structure):
    _fields_ = [("identity", ctypes.c_uint64), ("kind", ctypes.c_uint32)]


class _Msg(ctypes.Structure):
    _fields_ = [("state", ctypes.c_uint32), ("task", ctypes.c_uint32), ("name", ctypes.c_uint32)]
    _fields_ += [("options", ctypes.c_uint32), ("length", ctypes.c_size_t), ("waited", _Waited)]


class MessageCall:
    """A message call between its tries: what `Kernel.msg_begin` returns, and `Kernel.msg_next` goes on with.

    `code` is that of the last try, from 0 to 2^32 - 1: while the call waits, the code of one who gives up.
    """

    def __init__(self, contents: bytes, room: int) -> None:
        self.code = 0
        self._contents = contents
        # (no pointer is to nothing)
        self._room, self._buffer, self._msg = room, ctypes.create_string_buffer(max(room, 1)), _Msg()

    @property
    def state(self) -> int:
        """`GELVONDS_MSG_..`: whether the call has ended, or what it waits for."""
        return self._msg.state

    @property
    def waited(self) -> Optional[Waited]:
        """The port or set on which the call waits, or None."""
        return Waited(self._msg.waited.identity, self._msg.waited.kind) if self._msg.waited.kind else None

    @property
    def length(self) -> int:
        """How many bytes were received, or are needed (`MACH_RCV_TOO_LARGE`); else 0."""
        return self._msg.length

    @property
    def contents(self) -> bytes:
        """The bytes of the message that was received, which `received` reads; else none."""
        return self._buffer.raw[: self.length] if self.state == GELVONDS_MSG_DONE and self.code == 0 else b""


class _Touched(ctypes.Structure):
    _fields_ = [("on", _Waited * 4), ("all", ctypes.c_uint32)]


class _Verdict(ctypes.Structure):
    _fields_ = [("number", ctypes.c_uint64), ("kind", ctypes.c_uint32)]


class Verdict(NamedTuple):
    """What `check` returns: a kind, `GELVONDS_LEGAL`, `GELVONDS_BAD_LINE` or `GELVONDS_NOT_CONFIRMED`, and its number."""

    kind: int
    number: int


class Status(NamedTuple):
    """What `Kernel.port_get_receive_status` returns: the fields of `mach_port_status_t`, in C with `mps_` before them."""

    pset: int
    seqno: int
    mscount: int
    qlimit: int
    msgcount: int
    sorights: int
    srights: int
    pdrequest: int
    nsrequest: int


class _Status(ctypes.Structure):
    _fields_ = [("mps_" + name, ctypes.c_uint32) for name in Status._fields]


_WORD, _WORDS, _SIZE = ctypes.c_uint32, ctypes.POINTER(ctypes.c_uint32), ctypes.c_size_t
_LENGTH = ctypes.POINTER(ctypes.c_size_t)

# What each function takes behind the handle.
_FUNCTIONS: Dict[str, Tuple[Any, ...]] = {
    "make": (),
    "make_with_profile": (_WORD,),
    "free": (),
    "profile": (_WORDS,),
    "port_identity": (_WORD, _WORD, ctypes.POINTER(_Waited)),
    "touched": (ctypes.POINTER(_Touched),),
    "keep_entries": (),
    "heading": (ctypes.c_char_p, _SIZE, _LENGTH),
    "entry": (ctypes.c_uint64, ctypes.c_char_p, _SIZE, _LENGTH),
    "task_create": (_WORDS,),
    "task_terminate": (_WORD,),
    "port_allocate": (_WORD, _WORD, _WORDS),
    "port_allocate_name": (_WORD, _WORD, _WORD),
    "port_deallocate": (_WORD, _WORD),
    "port_destroy": (_WORD, _WORD),
    "port_mod_refs": (_WORD, _WORD, _WORD, ctypes.c_int32),
    "port_get_refs": (_WORD, _WORD, _WORD, _WORDS),
    "port_type": (_WORD, _WORD, _WORDS),
    "port_rename": (_WORD, _WORD, _WORD),
    "port_names": (_WORD, _WORDS, _SIZE, _WORDS, _SIZE, _LENGTH),
    "port_get_receive_status": (_WORD, _WORD, ctypes.POINTER(_Status)),
    "port_set_qlimit": (_WORD, _WORD, _WORD),
    "port_set_mscount": (_WORD, _WORD, _WORD),
    "port_set_seqno": (_WORD, _WORD, _WORD),
    "port_move_member": (_WORD, _WORD, _WORD),
    "port_insert_member": (_WORD, _WORD, _WORD),
    "port_extract_member": (_WORD, _WORD, _WORD),
    "port_get_set_status": (_WORD, _WORD, _WORDS, _SIZE, _LENGTH),
    "port_insert_right": (_WORD, _WORD, _WORD, _WORD, _WORD),
    "port_extract_right": (_WORD, _WORD, _WORD, _WORD, _WORDS, _WORDS),
    "port_request_notification": (_WORD, _WORD, _WORD, _WORD, _WORD, _WORD, _WORDS),
    "send": (_WORD, ctypes.c_char_p, _SIZE),
    "receive": (_WORD, _WORD, ctypes.c_char_p, _SIZE, ctypes.c_bool, _LENGTH, ctypes.POINTER(_Waited)),
    "receive_again": (_WORD, ctypes.c_char_p, _SIZE, ctypes.c_bool, _LENGTH, ctypes.POINTER(_Waited)),
    "msg_begin": (
        ctypes.POINTER(_Msg), _WORD, _WORD, ctypes.c_char_p, _SIZE, ctypes.c_char_p, _SIZE, _WORD,
    ),
    "msg_next": (ctypes.POINTER(_Msg), ctypes.c_char_p, _SIZE, ctypes.c_char_p, _SIZE),
}

# What the functions take that have no handle. They return a length.
_TEXTS: Dict[str, Tuple[Any, ...]] = {
    "code_name": (ctypes.c_int32, ctypes.c_char_p, _SIZE),
    "version": (ctypes.c_char_p, _SIZE),
}

# What the functions take that have no handle, and return a code.
_JUDGES: Dict[str, Tuple[Any, ...]] = {
    "check": (ctypes.c_char_p, _SIZE, ctypes.POINTER(_Verdict)),
}

_loading = threading.Lock()
_loaded: Optional[ctypes.CDLL] = None


def library_path() -> str:
    """The library that is loaded: GELVONDS_LIBRARY, or where pkg-config says, or a name for the loader to find."""
    given = os.environ.get("GELVONDS_LIBRARY")
    if given:
        return given
    name = "libgelvonds.so." + __version__.split(".")[0]
    if shutil.which("pkg-config"):
        asked = ["pkg-config", "--variable=libdir", "gelvonds"]
        said = subprocess.run(asked, stdout=subprocess.PIPE, stderr=subprocess.DEVNULL, check=False)
        path = os.path.join(os.fsdecode(said.stdout).strip(), name)
        if said.returncode == 0 and os.path.isfile(path):
            return path
    return name


def _library() -> ctypes.CDLL:
    global _loaded
    with _loading:
        if _loaded is None:
            path = library_path()
            try:
                loaded = ctypes.CDLL(path)
            except OSError as error:
                raise OSError(
                    f"the C library of gelvonds can't be loaded ({error}). tools/install PREFIX installs it. Then set "
                    "PKG_CONFIG_PATH to PREFIX/lib/pkgconfig, or GELVONDS_LIBRARY to the path of the library"
                ) from error
            for name, arguments in _FUNCTIONS.items():
                function = getattr(loaded, "gelvonds_" + name)
                function.argtypes = (ctypes.POINTER(_Handle),) + arguments
                function.restype = None if name == "free" else ctypes.c_int32
            for name, arguments in _TEXTS.items():
                function = getattr(loaded, "gelvonds_" + name)
                function.argtypes = arguments
                function.restype = _SIZE
            for name, arguments in _JUDGES.items():
                function = getattr(loaded, "gelvonds_" + name)
                function.argtypes = arguments
                function.restype = ctypes.c_int32
            _loaded = loaded
        return _loaded


def _text(function: str, *arguments: Any) -> str:
    text = ctypes.create_string_buffer(GELVONDS_TEXT_ROOM)
    getattr(_library(), "gelvonds_" + function)(*arguments, text, GELVONDS_TEXT_ROOM)
    return text.value.decode("ascii")


def library_version() -> str:
    """The version of the C library that is loaded. That of the package is `__version__`."""
    return _text("version")


def check(text: bytes) -> Verdict:
    """Judges the whole text of a history: `Kernel.heading`, and the line of each call behind it (`Kernel.entry`).

    A legal history has the number of its calls. Else the number is that of the first bad line, or of the first call
    whose reply isn't confirmed. Refused with `KERN_RESOURCE_SHORTAGE` where memory was refused.
    """
    verdict = _Verdict()
    code = _library().gelvonds_check(text, len(text), ctypes.byref(verdict)) & 0xFFFFFFFF
    if code:
        raise MachError(code)
    return Verdict(verdict.kind, verdict.number)


def _free(library: ctypes.CDLL, handle: _Handle) -> None:
    library.gelvonds_free(ctypes.byref(handle))


class Kernel:
    """A kernel: its tasks, their names, ports and queued messages.

    Each method makes one call, and returns what the call gives or raises `MachError`. Tasks and names are numbers.
    `close` gives back all that the kernel holds. So do the end of a `with` block, and the end of the last reference.
    A lock in the kernel lets one call in at a time, so threads may share it. No call waits for a message.
    """

    def __init__(self, profile: int = 1) -> None:
        """Makes a kernel. Profile 1 makes the least fresh names, 2 gives them a generation, and 3 also lets a port be in
        several sets."""
        self._lock = threading.Lock()
        self._handle = _Handle(None)
        self._library = _library()
        if profile == 1:
            self._call("make")
        else:
            self._call("make_with_profile", _u32(profile, "the profile"))
        self._end = weakref.finalize(self, _free, self._library, self._handle)
        # (at the program's end a thread may still be in a call, and the memory goes anyway)
        self._end.atexit = False

    def close(self) -> None:
        """Gives back all that the kernel holds. Each later call is refused with `GELVONDS_NO_KERNEL`."""
        with self._lock:
            self._end()

    def __enter__(self) -> Kernel:
        return self

    def __exit__(self, *_: object) -> None:
        self.close()

    def _ask(self, function: str, *arguments: Any) -> int:
        with self._lock:
            code = getattr(self._library, "gelvonds_" + function)(ctypes.byref(self._handle), *arguments)
        return code & 0xFFFFFFFF

    def _call(self, function: str, *arguments: Any) -> None:
        code = self._ask(function, *arguments)
        if code:
            raise MachError(code)

    @property
    def profile(self) -> int:
        """The kernel's profile, 1, 2 or 3. Refused with `GELVONDS_NO_KERNEL` where the kernel was closed."""
        profile = _WORD()
        self._call("profile", ctypes.byref(profile))
        return profile.value

    def port_identity(self, task: int, name: int) -> Waited:
        """Which port or set is under the name, by identity: any right for a port tells that port.

        Two names are of one port where the results are equal. Of a dead name the kind is `GELVONDS_DEAD`. Makes no call,
        and changes nothing. Refused with `KERN_INVALID_TASK` and `KERN_INVALID_NAME`.
        """
        found = _Waited()
        self._call("port_identity", _u32(task, "the task"), _u32(name, "the name"), ctypes.byref(found))
        return Waited(found.identity, found.kind)

    def touched(self) -> Optional[List[Waited]]:
        """Which ports and sets the last call may have changed for one that waits, or None where it may be any.

        None are named before the first call and after the kernel's refusals. Makes no call, and changes nothing.
        """
        touched = _Touched()
        self._call("touched", ctypes.byref(touched))
        if touched.all:
            return None
        return [Waited(place.identity, place.kind) for place in touched.on if place.kind]

    # -- the history

    def keep_entries(self) -> None:
        """Keeps each call from now on with its reply, for `entry`. A call takes memory for that first."""
        self._call("keep_entries")

    def heading(self) -> bytes:
        """The line that a history of the kernel's calls begins with, with its line feed."""
        return self._line("heading")

    def entry(self, caller: int = 0) -> bytes:
        """The line of the last call in a history, with its line feed, of the caller with this number.

        Refused with `GELVONDS_NO_ENTRY` where calls aren't kept, or the last one wasn't made. Where threads share the
        kernel, another's call may be the last one: let them hold a lock of their own over a call and its line.
        """
        return self._line("entry", _field(caller, 64, "the caller"))

    def _line(self, function: str, *arguments: Any) -> bytes:
        room, length = 256, ctypes.c_size_t()
        while True:
            text = ctypes.create_string_buffer(room)
            code = self._ask(function, *arguments, text, room, ctypes.byref(length))
            if code == GELVONDS_TOO_SHORT:
                room = length.value
            elif code:
                raise MachError(code)
            else:
                return text.raw[: length.value]

    # -- tasks

    def task_create(self) -> int:
        """task_create: makes a task with no names, and returns its number."""
        task = _WORD()
        self._call("task_create", ctypes.byref(task))
        return task.value

    def task_terminate(self, task: int) -> None:
        """task_terminate: ends the task with all its names. Its ports die."""
        self._call("task_terminate", _u32(task, "the task"))

    # -- names

    def port_allocate(self, task: int, right: int = MACH_PORT_RIGHT_RECEIVE) -> int:
        """mach_port_allocate: makes a port, a set or a dead name under a fresh name, which it returns."""
        name = _WORD()
        self._call("port_allocate", _u32(task, "the task"), _u32(right, "the right"), ctypes.byref(name))
        return name.value

    def port_allocate_name(self, task: int, name: int, right: int = MACH_PORT_RIGHT_RECEIVE) -> None:
        """mach_port_allocate_name: the same, under this name."""
        self._call("port_allocate_name", _u32(task, "the task"), _u32(right, "the right"), _u32(name, "the name"))

    def port_deallocate(self, task: int, name: int) -> None:
        """mach_port_deallocate: drops one send reference, one of a dead name, or a send-once right."""
        self._call("port_deallocate", _u32(task, "the task"), _u32(name, "the name"))

    def port_destroy(self, task: int, name: int) -> None:
        """mach_port_destroy: drops all that is under the name."""
        self._call("port_destroy", _u32(task, "the task"), _u32(name, "the name"))

    def port_mod_refs(self, task: int, name: int, right: int, delta: int) -> None:
        """mach_port_mod_refs: changes the references of the right by `delta`."""
        if not -(1 << 31) <= delta < 1 << 31:
            raise ValueError(f"delta is {delta}, which doesn't fit 32 bits")
        self._call("port_mod_refs", _u32(task, "the task"), _u32(name, "the name"), _u32(right, "the right"), delta)

    def port_get_refs(self, task: int, name: int, right: int) -> int:
        """mach_port_get_refs: how many references of the right are under the name."""
        refs = _WORD()
        words = _u32(task, "the task"), _u32(name, "the name"), _u32(right, "the right")
        self._call("port_get_refs", *words, ctypes.byref(refs))
        return refs.value

    def port_type(self, task: int, name: int) -> int:
        """mach_port_type: which rights are under the name, as a sum of `MACH_PORT_TYPE_..` (`type_names`)."""
        bits = _WORD()
        self._call("port_type", _u32(task, "the task"), _u32(name, "the name"), ctypes.byref(bits))
        return bits.value

    def port_rename(self, task: int, old_name: int, new_name: int) -> None:
        """mach_port_rename: moves what is under the old name to the new one."""
        self._call("port_rename", _u32(task, "the task"), _u32(old_name, "the old name"), _u32(new_name, "the new name"))

    def port_names(self, task: int) -> Dict[int, int]:
        """mach_port_names: all names of the task, rising, with their types."""
        _u32(task, "the task")
        room = 64
        while True:
            names, types, count = (_WORD * room)(), (_WORD * room)(), _SIZE()
            code = self._ask("port_names", task, names, room, types, room, ctypes.byref(count))
            if code == 0:
                return dict(zip(names[: count.value], types[: count.value]))
            if code != GELVONDS_TOO_SHORT:
                raise MachError(code)
            room = count.value

    # -- the receive right

    def port_get_receive_status(self, task: int, name: int) -> Status:
        """mach_port_get_receive_status."""
        status = _Status()
        self._call("port_get_receive_status", _u32(task, "the task"), _u32(name, "the name"), ctypes.byref(status))
        return Status(*(getattr(status, name) for name, _ in _Status._fields_))

    def port_set_qlimit(self, task: int, name: int, limit: int) -> None:
        """mach_port_set_qlimit: how many messages by send rights the queue takes, at most 16."""
        self._call("port_set_qlimit", _u32(task, "the task"), _u32(name, "the name"), _u32(limit, "the limit"))

    def port_set_mscount(self, task: int, name: int, count: int) -> None:
        """mach_port_set_mscount: sets the make-send count."""
        self._call("port_set_mscount", _u32(task, "the task"), _u32(name, "the name"), _u32(count, "the count"))

    def port_set_seqno(self, task: int, name: int, number: int) -> None:
        """mach_port_set_seqno: gives the next message received this number."""
        self._call("port_set_seqno", _u32(task, "the task"), _u32(name, "the name"), _u32(number, "the number"))

    # -- sets

    def port_move_member(self, task: int, member: int, after: int) -> None:
        """mach_port_move_member: takes the port out of all its sets, and puts it into `after` unless that is 0."""
        self._call("port_move_member", _u32(task, "the task"), _u32(member, "the member"), _u32(after, "the set"))

    def port_insert_member(self, task: int, member: int, set: int) -> None:
        """mach_port_insert_member of later Machs: puts the port into the set, beside the sets that it is in. Profile 3."""
        self._call("port_insert_member", _u32(task, "the task"), _u32(member, "the member"), _u32(set, "the set"))

    def port_extract_member(self, task: int, member: int, set: int) -> None:
        """mach_port_extract_member of later Machs: takes the port out of the set alone. Profile 3."""
        self._call("port_extract_member", _u32(task, "the task"), _u32(member, "the member"), _u32(set, "the set"))

    def port_get_set_status(self, task: int, name: int) -> List[int]:
        """mach_port_get_set_status: the task's names of the members, rising."""
        _u32(task, "the task")
        _u32(name, "the name")
        room = 64
        while True:
            members, count = (_WORD * room)(), _SIZE()
            code = self._ask("port_get_set_status", task, name, members, room, ctypes.byref(count))
            if code == 0:
                return members[: count.value]
            if code != GELVONDS_TOO_SHORT:
                raise MachError(code)
            room = count.value

    # -- rights from task to task

    def port_insert_right(self, task: int, name: int, source: int, right: PortRight) -> None:
        """mach_port_insert_right: copies in a right of the task `source`, and puts it under the name in the task."""
        words = _u32(task, "the task"), _u32(name, "the name"), _u32(source, "the source")
        self._call("port_insert_right", *words, *_right(right))

    def port_extract_right(self, task: int, right: PortRight, to: int) -> PortRight:
        """mach_port_extract_right: gives a right of the task to the task `to`, and returns its kind and its name there."""
        name, kind = _WORD(), _WORD()
        words = _u32(task, "the task"), *_right(right)
        self._call("port_extract_right", *words, _u32(to, "the task to"), ctypes.byref(name), ctypes.byref(kind))
        return PortRight(kind.value, name.value)

    # -- notices

    def port_request_notification(
        self, task: int, name: int, variant: int, notify: Optional[PortRight], sync: int = 0
    ) -> int:
        """mach_port_request_notification: asks for a notice (`MACH_NOTIFY_..`) about the name.

        `notify` gives the send-once right to which the notice is sent; None takes the request away. Returns the name of
        the right that was kept before: 0 for none, `MACH_PORT_DEAD` where its port is dead.
        """
        previous = _WORD()
        to = notify or PortRight(0, MACH_PORT_NULL)
        words = _u32(task, "the task"), _u32(name, "the name"), _u32(variant, "the variant"), _u32(sync, "sync")
        self._call("port_request_notification", *words, *_right(to), ctypes.byref(previous))
        return previous.value

    # -- messages

    def send(self, task: int, contents: bytes) -> None:
        """mach_msg with MACH_SEND_MSG, without waiting: queues a message, whose bytes `message` makes."""
        contents = _bytes(contents)
        self._call("send", _u32(task, "the task"), contents, len(contents))

    def receive(self, task: int, name: int, room: int = _MOST_BYTES, large: bool = False) -> bytes:
        """mach_msg with MACH_RCV_MSG, without waiting: the bytes of the front message, which `received` reads.

        Raises `NoMessage` where there is none, and `TooLarge` where it is longer than the room. With `large` such a
        message stays; else it is destroyed.
        """
        return self._receive("receive", (_u32(task, "the task"), _u32(name, "the name")), room, large, _Waited())

    def receive_again(self, task: int, waited: Waited, room: int = _MOST_BYTES, large: bool = False) -> bytes:
        """A later try of a receive that raised `NoMessage`, from what that waited for."""
        identity = _field(waited.identity, 64, "the identity")
        before = _Waited(identity, _u32(waited.kind, "the kind"))
        return self._receive("receive_again", (_u32(task, "the task"),), room, large, before)

    def _receive(self, function: str, words: Tuple[int, ...], room: int, large: bool, waited: _Waited) -> bytes:
        if room < 0:
            raise ValueError(f"the room is {room} bytes")
        # (more room counts as this, and no pointer is to nothing)
        room = min(room, _MOST_BYTES)
        buffer, length = ctypes.create_string_buffer(max(room, 1)), _SIZE()
        code = self._ask(function, *words, buffer, room, bool(large), ctypes.byref(length), ctypes.byref(waited))
        if code == MACH_RCV_TIMED_OUT:
            raise NoMessage(Waited(waited.identity, waited.kind))
        if code == MACH_RCV_TOO_LARGE:
            raise TooLarge(length.value)
        if code:
            raise MachError(code)
        return buffer.raw[: length.value]

    # -- message calls, for a caller who waits

    def msg_begin(
        self, task: int, options: int, contents: bytes = b"", name: int = MACH_PORT_NULL, room: int = _MOST_BYTES
    ) -> MessageCall:
        """mach_msg: begins a call by its options (`MACH_SEND_MSG`, `MACH_RCV_MSG` and more), and makes its first try.

        Raises nothing for a code: the call has it. Unless its state is `GELVONDS_MSG_DONE`, `msg_next` goes on with it:
        at once if it is `GELVONDS_MSG_SENT`, else once calls of others may have ended the wait.
        """
        if room < 0:
            raise ValueError(f"the room is {room} bytes")
        # (more room counts as this)
        call = MessageCall(_bytes(contents), min(room, _MOST_BYTES))
        words = _u32(task, "the task"), _u32(options, "the options")
        self._try("msg_begin", call, words, (_u32(name, "the name"),))
        return call

    def msg_next(self, call: MessageCall) -> None:
        """Goes on with a call that hasn't ended: makes its next try. The code of one that has ended is `GELVONDS_NO_MSG`."""
        self._try("msg_next", call, (), ())

    def _try(self, function: str, call: MessageCall, words: Tuple[int, ...], name: Tuple[int, ...]) -> None:
        places = call._contents, len(call._contents), call._buffer, call._room
        call.code = self._ask(function, ctypes.byref(call._msg), *words, *places, *name)


__all__ = [
    "Data",
    "Item",
    "Kernel",
    "MachError",
    "MessageCall",
    "NoMessage",
    "Notice",
    "PortRight",
    "Received",
    "Status",
    "TooLarge",
    "Verdict",
    "Waited",
    "check",
    "code_name",
    "copy_send",
    "data",
    "library_path",
    "library_version",
    "make_send",
    "make_send_once",
    "message",
    "move_receive",
    "move_send",
    "move_send_once",
    "notice",
    "received",
    "type_names",
] + [name for name in globals() if re.match(r"KERN_|MACH_|GELVONDS_", name)]
