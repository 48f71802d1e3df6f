"""A ring by ctypes: a chain of a write, an fsync and a read, a hundred times. Run by uring-run; linked with nothing of ours."""

import ctypes
import os
import struct
import sys
import tempfile

SETUP, ENTER = 425, 426
READ, WRITE, FSYNC, LINK, GETEVENTS = 22, 23, 3, 4, 1
CELLS = 4096

libc = ctypes.CDLL(None, use_errno=True)
libc.syscall.restype = ctypes.c_long
libc.mmap.restype = ctypes.c_void_p
libc.mmap.argtypes = [
    ctypes.c_void_p,
    ctypes.c_size_t,
    ctypes.c_int,
    ctypes.c_int,
    ctypes.c_int,
    ctypes.c_long,
]


class Ring:
    def __init__(self, entries):
        params = (ctypes.c_uint32 * 30)()
        self.fd = libc.syscall(ctypes.c_long(SETUP), ctypes.c_uint(entries), params)
        assert self.fd >= 0, os.strerror(ctypes.get_errno())
        self.sq_entries, self.cq_entries = params[0], params[1]
        self.sq, self.cq = params[10:20], params[20:30]
        self.sq_at, self.cq_at, self.table = (
            self.map(offset) for offset in (0, 0x8000000, 0x10000000)
        )

    def map(self, offset):
        at = libc.mmap(None, CELLS, 3, 0x8001, self.fd, offset)
        assert at != ctypes.c_void_p(-1).value
        return at

    def word(self, at, offset):
        return ctypes.c_uint32.from_address(at + offset)

    def put(self, code, flags, fd, address, length, tag):
        tail = self.word(self.sq_at, self.sq[1])
        slot = tail.value % self.sq_entries
        entry = struct.pack("=BBHiQQIIQ24x", code, flags, 0, fd, 0, address, length, 0, tag)
        ctypes.memmove(self.table + 64 * slot, entry, 64)
        self.word(self.sq_at, self.sq[6] + 4 * slot).value = slot
        tail.value += 1

    def submit_and_wait(self, count):
        done = libc.syscall(
            ctypes.c_long(ENTER),
            ctypes.c_uint(self.fd),
            ctypes.c_uint(count),
            ctypes.c_uint(count),
            ctypes.c_uint(GETEVENTS),
            None,
            ctypes.c_long(0),
        )
        assert done == count, (done, ctypes.get_errno())

    def reap(self):
        head, tail, results = (
            self.word(self.cq_at, self.cq[0]),
            self.word(self.cq_at, self.cq[1]),
            {},
        )
        while head.value != tail.value:
            cell = self.cq_at + self.cq[5] + 16 * (head.value % self.cq_entries)
            tag, result, _ = struct.unpack("=QiI", ctypes.string_at(cell, 16))
            results[tag] = result
            head.value += 1
        return results


def main():
    ring, back = Ring(8), ctypes.create_string_buffer(16)
    with tempfile.TemporaryFile() as file:
        for turn in range(100):
            text = ctypes.create_string_buffer(b"by Python %05d" % turn, 16)
            ring.put(WRITE, LINK, file.fileno(), ctypes.addressof(text), 16, 1)
            ring.put(FSYNC, LINK, file.fileno(), 0, 0, 2)
            ring.put(READ, 0, file.fileno(), ctypes.addressof(back), 16, 3)
            ring.submit_and_wait(3)
            assert ring.reap() == {1: 16, 2: 0, 3: 16}
            assert back.raw == text.raw
    print("Python: 100 chains")


sys.exit(main())
