"""A producer of Arrow arrays by the C data interface, over NumPy buffers, for the tests of its reader."""

import ctypes

import numpy as np
from bsi.arrow import _Array, _Schema, _Stream

_RELEASE = ctypes.CFUNCTYPE(None, ctypes.c_void_p)
_STEP = ctypes.CFUNCTYPE(ctypes.c_int, ctypes.c_void_p, ctypes.c_void_p)
_TELL, _WHY = ctypes.CFUNCTYPE(ctypes.c_void_p, ctypes.c_void_p), ctypes.create_string_buffer(b"no more rows")
# (a producer lives as long as what it gave)
_ALIVE = []
_new = ctypes.pythonapi.PyCapsule_New
_new.argtypes, _new.restype = [ctypes.c_void_p, ctypes.c_char_p, ctypes.c_void_p], ctypes.py_object


class Arrow:
    """An Arrow array of a format, with its buffers as NumPy arrays or None, and children by name or a dictionary."""

    def __init__(
        self, layout, length, buffers, offset=0, null_count=-1, children=None, dictionary=None, flags=0, released=False
    ):
        self._release = _RELEASE(lambda _: None)
        release = None if released else ctypes.cast(self._release, ctypes.c_void_p)
        kept = [buffer if buffer is None else np.ascontiguousarray(buffer) for buffer in buffers]
        pointers = (ctypes.c_void_p * max(1, len(kept)))(
            *[None if buffer is None else buffer.ctypes.data for buffer in kept]
        )
        children = dict(children or {})
        self.schema = _Schema(layout.encode(), b"", None, flags, len(children), None, None, release, None)
        self.array = _Array(length, null_count, offset, len(kept), len(children), None, None, None, release, None)
        self.array.buffers = ctypes.cast(pointers, ctypes.POINTER(ctypes.c_void_p))
        self._kept = [kept, pointers, children, dictionary]
        if children:
            for name, child in children.items():
                child.schema.name = name.encode()
            schemas = (ctypes.POINTER(_Schema) * len(children))(
                *[ctypes.pointer(child.schema) for child in children.values()]
            )
            arrays = (ctypes.POINTER(_Array) * len(children))(
                *[ctypes.pointer(child.array) for child in children.values()]
            )
            self._kept += [schemas, arrays]
            self.schema.children, self.array.children = schemas, arrays
        if dictionary:
            self.schema.dictionary, self.array.dictionary = ctypes.pointer(dictionary.schema), ctypes.pointer(
                dictionary.array
            )

    def __arrow_c_array__(self, requested_schema=None):
        schema = _new(ctypes.addressof(self.schema), b"arrow_schema", None)
        return schema, _new(ctypes.addressof(self.array), b"arrow_array", None)


def bits(*flags):
    return np.packbits(np.array(flags, bool), bitorder="little")


def texts(*values, large=False, validity=None):
    joined = "".join(values).encode()
    ends = np.cumsum([0, *[len(value.encode()) for value in values]]).astype("i8" if large else "i4")
    return Arrow("U" if large else "u", len(values), [validity, ends, np.frombuffer(joined or b"\0", np.uint8)])


def views(*values, validity=None):
    """Texts by views, the long ones in two buffers."""
    buffers, stored = [b"", b""], b""
    for place, value in enumerate(values):
        encoded = value.encode()
        if len(encoded) <= 12:
            stored += len(encoded).to_bytes(4, "little") + encoded.ljust(12, b"\0")
            continue
        which = place % 2
        offset, buffers[which] = len(buffers[which]), buffers[which] + encoded
        stored += len(encoded).to_bytes(4, "little") + encoded[:4]
        stored += which.to_bytes(4, "little") + offset.to_bytes(4, "little")
    sizes = np.array([len(buffer) for buffer in buffers], "i8")
    given = [np.frombuffer(buffer or b"\0", np.uint8) for buffer in (stored, *buffers)]
    return Arrow("vu", len(values), [validity, *given, sizes])


class Stream:
    """Arrow arrays as a stream, which may break off."""

    def __init__(self, schema, *arrays, breaks=False):
        self._left, self._schema, self._kept = list(arrays), schema, arrays
        _ALIVE.append(self)
        self.released = 0
        steps = [_STEP(self._give_schema), _STEP(self._give_next)]
        self._calls = [*steps, _TELL(lambda _: ctypes.addressof(_WHY)), _RELEASE(int)]
        self._freed = _RELEASE(self._free)
        self._breaks = breaks
        self.stream = _Stream(*[ctypes.cast(call, ctypes.c_void_p) for call in self._calls], None)

    def _free(self, address):
        self.released += 1
        _Array.from_address(address).release = None

    def _give_schema(self, _, out):
        ctypes.memmove(out, ctypes.addressof(self._schema.schema), ctypes.sizeof(_Schema))
        return 0

    def _give_next(self, _, out):
        if not self._left:
            _Array.from_address(out).release = None
            return 5 if self._breaks else 0
        ctypes.memmove(out, ctypes.addressof(self._left.pop(0).array), ctypes.sizeof(_Array))
        _Array.from_address(out).release = ctypes.cast(self._freed, ctypes.c_void_p)
        return 0

    def __arrow_c_stream__(self, requested_schema=None):
        return _new(ctypes.addressof(self.stream), b"arrow_array_stream", None)
