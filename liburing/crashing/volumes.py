"""The proved volume of the library for C (c/include/wulgach.h), by which all that a crash leaves is chosen."""

import ctypes
import os

HERE = os.path.dirname(os.path.dirname(os.path.realpath(__file__)))
LIBRARY = next(
    (it for it in (f"{HERE}/out/volumes.so", f"{HERE}/volumes.so") if os.path.exists(it)),
    f"{HERE}/out/volumes.so",
)


class Place(ctypes.Structure):
    _fields_ = [("at", ctypes.c_void_p), ("is_full", ctypes.c_bool)]


def load():
    library = ctypes.CDLL(LIBRARY)
    at, number = ctypes.POINTER(Place), ctypes.POINTER(ctypes.c_uint64)
    for name, words in {
        "new": [at, ctypes.c_uint64, ctypes.c_char_p, ctypes.c_size_t],
        "begin_write": [at, ctypes.c_uint64, ctypes.c_char_p, ctypes.c_size_t, number],
        "end_write": [at, ctypes.c_uint64],
        "begin_sync": [at, number],
        "begin_range_sync": [at, ctypes.c_uint64, ctypes.c_uint64, number],
        "end_sync": [at, ctypes.c_uint64],
        "fail_sync": [at, ctypes.c_uint64],
        "is_safe": [at, ctypes.c_uint64, ctypes.POINTER(ctypes.c_bool)],
        "crash": [at, ctypes.c_char_p, ctypes.c_size_t, ctypes.c_char_p, ctypes.c_size_t, number],
        "count_images": [at, number],
        "images": [at, ctypes.c_char_p, ctypes.c_size_t, number, ctypes.c_size_t, number, number],
        "fold": [at],
        "free": [at],
    }.items():
        call = getattr(library, f"wulgach_volume_{name}")
        call.argtypes, call.restype = words, ctypes.c_int32
    return library


library = None


def calls():
    global library
    library = library or load()
    return library


class VolumeError(Exception):
    pass


class Volume:
    """One volume. Its calls are those of the library; an error that isn't one of their answers is raised."""

    def __init__(self, unit, first):
        self.place, self.number, self.size = Place(), ctypes.c_uint64(), len(first)
        self.call("new", unit, bytes(first), len(first))

    def call(self, name, *words):
        result = getattr(calls(), f"wulgach_volume_{name}")(ctypes.byref(self.place), *words)
        if result != 0:
            raise VolumeError(f"wulgach_volume_{name}: {result}")

    def begin_write(self, offset, data):
        self.call("begin_write", offset, data, len(data), ctypes.byref(self.number))
        return self.number.value

    def end_write(self, number):
        self.call("end_write", number)

    def begin_sync(self):
        self.call("begin_sync", ctypes.byref(self.number))
        return self.number.value

    def begin_range_sync(self, offset, length):
        self.call("begin_range_sync", offset, length, ctypes.byref(self.number))
        return self.number.value

    def end_sync(self, number, is_done):
        self.call("end_sync" if is_done else "fail_sync", number)

    def is_safe(self, number):
        found = ctypes.c_bool()
        self.call("is_safe", number, ctypes.byref(found))
        return found.value

    def fold(self):
        self.call("fold")

    def crash(self, choice):
        """What a choice leaves: a volume whose writes all lie in its first bytes is as long as these."""
        room = ctypes.create_string_buffer(self.size)
        self.call(
            "crash",
            bytes(memoryview(choice)),
            len(choice),
            room,
            self.size,
            ctypes.byref(self.number),
        )
        return room.raw

    def images(self, most):
        """All that may be left, each once; None if that is more than so many."""
        self.call("count_images", ctypes.byref(self.number))
        count = self.number.value
        if count > most:
            return None
        room, lengths = ctypes.create_string_buffer(count * self.size), (ctypes.c_uint64 * count)()
        total = ctypes.c_uint64()
        self.call(
            "images",
            room,
            count * self.size,
            lengths,
            count,
            ctypes.byref(self.number),
            ctypes.byref(total),
        )
        return [room.raw[at * self.size : (at + 1) * self.size] for at in range(count)]

    def __del__(self):
        if self.place.is_full:
            calls().wulgach_volume_free(ctypes.byref(self.place))
