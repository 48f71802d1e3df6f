"""A disk whose writes are told: one file, served by FUSE, on which a loop device stands. Each write and each flush goes to a log, in the order in which the device was given them."""

import ctypes
import errno
import mmap
import os
import signal
import stat
import struct
import time

HEAD = struct.Struct("<IIQQIIII")
ATTRIBUTES = struct.Struct("<QQQQQQIIIIIIIIII")
RECORD = struct.Struct("<QQ")  # of the log: where, and how many bytes follow; none: a flush
WRITE_MOST = 1 << 20
(LOOKUP, FORGET, GETATTR, SETATTR, OPEN, READ, WRITE, STATFS, RELEASE, FSYNC, FLUSH, INIT) = (
    1,
    2,
    3,
    4,
    14,
    15,
    16,
    17,
    18,
    20,
    25,
    26,
)
BIG_WRITES, MAX_PAGES, DIRECT = 1 << 5, 1 << 22, 1
ROOT, DISK = 1, 2

libc = ctypes.CDLL(None, use_errno=True)
libc.mount.argtypes = [ctypes.c_char_p] * 3 + [ctypes.c_ulong, ctypes.c_char_p]


def mount(source, target, kind, flags=0, data=""):
    words = [it.encode() for it in (source, target, kind)]
    if libc.mount(*words, flags, data.encode()) != 0:
        error = ctypes.get_errno()
        raise OSError(error, f"mount of {kind}: {os.strerror(error)}", target)


def unmount(target, flags=0):
    if libc.umount2(target.encode(), flags) != 0:
        error = ctypes.get_errno()
        raise OSError(error, os.strerror(error), target)


NEW_MOUNTS, PRIVATE_BELOW = 0x20000, 0x44000  # CLONE_NEWNS; MS_PRIVATE | MS_REC


def stand_apart():
    """Mounts of this process are its own from now on: a program that copies those of the machine would keep a file system mounted once it isn't here."""
    if libc.unshare(NEW_MOUNTS) != 0 or libc.mount(b"none", b"/", None, PRIVATE_BELOW, None) != 0:
        error = ctypes.get_errno()
        raise OSError(error, f"mounts of its own: {os.strerror(error)}")


class Served:
    """The file, its log, and the process that serves it."""

    def __init__(self, folder, size):
        self.folder, self.size = f"{folder}/served", size
        os.mkdir(self.folder)
        self.store = os.open(f"{folder}/store", os.O_RDWR | os.O_CREAT, 0o600)
        os.ftruncate(self.store, size)
        self.log = os.open(f"{folder}/log", os.O_RDWR | os.O_CREAT | os.O_APPEND, 0o600)
        self.delay = mmap.mmap(-1, 1)  # how many milliseconds a write takes
        device = os.open("/dev/fuse", os.O_RDWR)
        mount("disk", self.folder, "fuse", 0, f"fd={device},rootmode=40000,user_id=0,group_id=0")
        self.process = os.fork()
        if self.process == 0:
            signal.signal(signal.SIGINT, signal.SIG_IGN)
            try:
                self.serve(device)
            finally:
                os._exit(0)
        os.close(device)
        self.path = f"{self.folder}/disk"

    def close(self):
        unmount(self.folder, 2)
        os.kill(self.process, signal.SIGTERM)
        os.waitpid(self.process, 0)
        for it in self.store, self.log:
            os.close(it)

    def position(self):
        return os.fstat(self.log).st_size

    def serve(self, device):
        while True:
            try:
                request = os.read(device, WRITE_MOST + 8192)
            except OSError as error:
                if error.errno in (errno.ENOENT, errno.EINTR, errno.EAGAIN):
                    continue
                return
            _, code, unique, node, *_ = HEAD.unpack_from(request)
            answer = self.answer(code, node, memoryview(request)[HEAD.size :])
            if answer is None:
                continue
            failed, data = (-answer, b"") if isinstance(answer, int) else (0, answer)
            try:
                os.write(device, struct.pack("<IiQ", 16 + len(data), failed, unique) + data)
            except OSError:
                pass

    def answer(self, code, node, data):
        """The bytes of an answer, an error, or None where none is wanted."""
        if code == INIT:
            own = (7, 31, 1 << 20, BIG_WRITES | MAX_PAGES, 16, 12, WRITE_MOST, 1, 256, 0)
            return struct.pack("<IIIIHHIIHH", *own) + bytes(32)
        if code == WRITE:
            offset, count = struct.unpack_from("<QI", data, 8)
            return self.write(offset, data[40 : 40 + count])
        if code == READ:
            offset, count = struct.unpack_from("<QI", data, 8)
            return os.pread(self.store, count, offset)
        if code == FSYNC:
            os.write(self.log, RECORD.pack(0, 0))
            return b""
        if code == LOOKUP:
            if bytes(data).rstrip(b"\0") != b"disk":
                return errno.ENOENT
            return struct.pack("<QQQQII", DISK, 0, 3600, 3600, 0, 0) + self.attributes(DISK)
        if code in (GETATTR, SETATTR):
            return struct.pack("<QII", 3600, 0, 0) + self.attributes(node)
        if code == OPEN:
            return struct.pack("<QII", 0, DIRECT, 0)
        if code == STATFS:
            return bytes(80)
        if code in (FLUSH, RELEASE):
            return b""
        return None if code == FORGET else errno.ENOSYS

    def attributes(self, node):
        is_disk = node == DISK
        mode = stat.S_IFREG | 0o600 if is_disk else stat.S_IFDIR | 0o700
        size = self.size if is_disk else 0
        return ATTRIBUTES.pack(node, size, size // 512, *[0] * 6, mode, 1, 0, 0, 0, 4096, 0)

    def write(self, offset, data):
        if self.delay[0]:
            time.sleep(self.delay[0] / 1000)
        os.write(self.log, RECORD.pack(offset, len(data)) + bytes(data))
        os.pwrite(self.store, data, offset)
        return struct.pack("<II", len(data), 0)

    def records(self):
        """What the log has: the position after each, where, and the bytes; None of a flush."""
        found, at, data = [], 0, os.pread(self.log, self.position(), 0)
        while at < len(data):
            offset, count = RECORD.unpack_from(data, at)
            at += RECORD.size
            found.append((at + count, offset, data[at : at + count] if count else None))
            at += count
        return found
