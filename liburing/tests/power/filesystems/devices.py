"""Loop devices, without a program for each."""

import fcntl
import os
import time

SET_FD, CLR_FD, ADD, REMOVE = 0x4C00, 0x4C01, 0x4C80, 0x4C81
FIRST = 1000  # of the numbers that are tried: no other program takes one of these by itself


class Loop:
    """A device on a file, which is detached and goes when it is closed. Its number is this process's own."""

    def __init__(self, path):
        backing = os.open(path, os.O_RDWR)
        try:
            self.attach(backing)
        finally:
            os.close(backing)

    def attach(self, backing):
        for at in range(200):
            self.number = FIRST + (os.getpid() * 7 + at) % 500000
            self.path = f"/dev/loop{self.number}"
            self.control(ADD)
            if not os.path.exists(self.path):
                os.mknod(self.path, 0o600 | 0o060000, os.makedev(7, self.number))
            self.device = os.open(self.path, os.O_RDWR)
            try:
                fcntl.ioctl(self.device, SET_FD, backing)
                return
            except OSError:
                os.close(self.device)
                time.sleep(0.005)
        raise OSError("there is no loop device")

    def control(self, what):
        with open("/dev/loop-control", "rb") as control:
            try:
                fcntl.ioctl(control, what, self.number)
            except OSError:
                # (it is there, or is still open)
                return

    def close(self):
        fcntl.ioctl(self.device, CLR_FD, 0)
        os.close(self.device)
        self.control(REMOVE)
