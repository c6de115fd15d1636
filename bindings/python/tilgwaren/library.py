"""The calls of the proved library, libtilgwaren.so, on plans."""
import ctypes
import ctypes.util
import os
from typing import NamedTuple

from .planes import Planes

ROOM_TOO_SMALL = 2
STATUSES = {1: "out of memory", 2: "the buffer is too short", 3: "too long", 4: "malformed", 5: "invalid", 9: "planes too short",
            30: "the plan of a part would be too long", 31: "a part is malformed", 32: "a leaf of a part is invalid",
            33: "a part shows the frame of an empty slot"}
KINDS = {1: "block size", 2: "transform", 3: "mode", 4: "vector", 5: "missing reference", 6: "coefficient"}
VERSION = 0x400


class Refusal(ctypes.Structure):
    _fields_ = [("at", ctypes.c_uint32), ("leaf", ctypes.c_uint32), ("kind", ctypes.c_uint32)]


class PartRefusal(ctypes.Structure):
    _fields_ = [("part", ctypes.c_uint32), *Refusal._fields_]


class Found(ctypes.Structure):
    _fields_ = [("leaf", ctypes.c_uint32), ("y", ctypes.c_uint16), ("x", ctypes.c_uint16), ("given", ctypes.c_uint16),
                ("defined", ctypes.c_uint16), ("plane", ctypes.c_uint8)]


class Difference(NamedTuple):
    """The first sample of a leaf in one plane (0 to 2) that differs: its row and column there, what was given, what the plan defines."""
    leaf: int
    plane: int
    y: int
    x: int
    given: int
    defined: int


class RefusedError(ValueError):
    """What the library rejects. `status` is the call's; `at`, `leaf`, `kind` and `part` say where and why."""

    def __init__(self, status, refusal):
        self.status, self.part = status, getattr(refusal, "part", 0)
        self.at, self.leaf, self.kind = refusal.at, refusal.leaf, KINDS.get(refusal.kind)
        where = f" at {self.at}" if status in (4, 31) else f" leaf {self.leaf}: {self.kind}" if status in (5, 32) else ""
        super().__init__(STATUSES.get(status, f"status {status}") + where)


def library():
    """The library, loaded once: the file that $TILGWAREN_LIBRARY names, or the installed one."""
    if not hasattr(library, "loaded"):
        path = os.environ.get("TILGWAREN_LIBRARY") or ctypes.util.find_library("tilgwaren")
        if not path:
            raise OSError("libtilgwaren.so is not installed: install a release, or set TILGWAREN_LIBRARY to its path")
        loaded = ctypes.CDLL(path)
        if not hasattr(loaded, f"tilg_version_0_{VERSION >> 8 & 255}"):
            raise OSError(f"{path} is of another version: this module needs 0.{VERSION >> 8 & 255}")
        library.loaded = loaded
    return library.loaded


def call(name, data, refusal, *written, planes=()):
    """A call with what it writes, its refusal, and what it reads."""
    data = bytes(data)
    status = getattr(library(), name)(*written, ctypes.byref(refusal), data, ctypes.c_size_t(len(data)), *planes)
    if status:
        raise RefusedError(status, refusal)


def planes_of(name, data, refusal, length):
    """The bytes of planes that a call writes. If they are longer than `length`, the call says how long they are, and is made again."""
    while True:
        room, written = ctypes.create_string_buffer(length), ctypes.c_size_t()
        try:
            call(name, data, refusal, room, ctypes.c_size_t(length), ctypes.byref(written))
            return room.raw[:written.value]
        except RefusedError as error:
            if error.status != ROOM_TOO_SMALL or written.value <= length:
                raise
            length = written.value


def planes_length(plan):
    """How many bytes the planes of a plan have. Only its header is read."""
    length = ctypes.c_size_t()
    call("tilg_planes_len", plan, Refusal(), ctypes.byref(length))
    return length.value


def header_of(plan):
    """A plan, or only the header of its bytes."""
    from .plan import Plan, read_header
    from .fields import Reader
    return plan if isinstance(plan, Plan) else read_header(Reader(bytes(plan)))


def reconstruct(plan):
    """The planes that a plan defines. Raises RefusedError for one that is malformed or invalid."""
    header = header_of(plan)
    name, refusal = ("tilg_reconstruct_tiles", PartRefusal()) if header.is_grid else ("tilg_reconstruct_plan", Refusal())
    return Planes.read(planes_of(name, plan, refusal, header.planes_length()), header.dimensions(), header.depth)


def reconstruct_sequence(data):
    """The planes of all frames that a sequence shows, as bytes, one frame after the other."""
    return planes_of("tilg_reconstruct_sequence", data, PartRefusal(), 0)


def differences(plan, planes, most=65536):
    """The leaves whose samples in these planes differ from those that the plan defines, in coding order, at most so many."""
    header, data, given, at = header_of(plan), bytes(planes), [], 0
    for width, height in header.dimensions():
        stride = width * (1 if header.depth == 8 else 2)
        plane = data[at:at + stride * height]
        given += [plane, ctypes.c_size_t(len(plane)), ctypes.c_size_t(stride)]
        at += stride * height
    room, found = (Found * most)(), ctypes.c_size_t()
    call("tilg_trace_differences", plan, Refusal(), room, ctypes.c_size_t(most), ctypes.byref(found), planes=given)
    return [Difference(it.leaf, it.plane, it.y, it.x, it.given, it.defined) for it in room[:min(most, found.value)]]
