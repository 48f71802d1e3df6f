"""A guest of QEMU with a kernel of its own, whose ring records scenarios. Its first program is conform/recording/guest.c.

A kernel is a package of Debian by its name, with or without `linux-image-`, and with @RELEASE that of another release; it is fetched for this run. Or it is a folder with a kernel in boot/ and its modules in lib/modules/. The guest is emulated, unless KVM starts it in time. It lies in a folder for the run alone.
"""

import ctypes
import glob
import gzip
import lzma
import os
import re
import shutil
import signal
import socket
import stat
import subprocess
import tempfile
import time

from conforming.machines import TOP, NoMachine, compiled, outputs, recorder_sources

PROGRAM, RECORDER = f"{TOP}/conform/out/guest", f"{TOP}/conform/out/record-static"
MODULES_OF_A_DISK = ["virtio_pci", "virtio_blk"]
FILE_SYSTEMS = ["ext4", "xfs", "btrfs"]
DISK = 512 << 20  # bytes, of which few are written
READY_BY_KVM, READY = 20, 75  # seconds until a guest serves
TRIES = 4  # a guest that is emulated on a busy machine may stop amid its boot
LIMIT = 120  # seconds of an answer: the guest ends a run after 60
EMULATED, BY_KVM = ["-accel", "tcg,thread=multi", "-cpu", "qemu64"], [
    "-accel",
    "kvm",
    "-cpu",
    "host",
]
PR_SET_PDEATHSIG = 1


def need(*commands):
    """Says which of these commands isn't there."""
    packages = {
        "qemu-system-x86_64": "qemu-system-x86",
        "dpkg-deb": "dpkg",
        "apt-get": "apt",
        "mkfs.ext4": "e2fsprogs",
        "mkfs.xfs": "xfsprogs",
        "mkfs.btrfs": "btrfs-progs",
        "cc": "gcc",
    }
    for command in commands:
        if not shutil.which(command, path=os.environ.get("PATH", "") + ":/usr/sbin:/sbin"):
            raise NoMachine(f"a guest needs {command} (apt-get install {packages[command]})")


def run(words, why, **how):
    """Runs a command quietly; if it fails, its last line says why."""
    ran = subprocess.run(words, capture_output=True, text=True, **how)
    if ran.returncode:
        last = (ran.stderr.strip() or ran.stdout.strip() or "no word").splitlines()[-1]
        raise NoMachine(f"{why}: {last}")


def lists_of(release, room):
    """The options by which apt-get asks another release of Debian, and nothing of this machine's lists changes."""
    os.makedirs(f"{room}/lists/partial")
    with open(f"{room}/sources", "w") as it:
        it.write(f"deb http://deb.debian.org/debian {release} main\n")
    options = {
        "Dir::Etc::SourceList": f"{room}/sources",
        "Dir::Etc::SourceParts": "/dev/null",
        "Dir::State::Lists": f"{room}/lists",
        "Dir::Cache::pkgcache": "",
        "Dir::Cache::srcpkgcache": "",
    }
    words = [it for name, value in options.items() for it in ("-o", f"{name}={value}")]
    run(["apt-get", *words, "-q", "update"], f"the release {release} can't be asked")
    return words


def brought(package, folder, room, words):
    """Fetches a package and unpacks it; where it only names the one with the kernel, that one."""
    run(["apt-get", *words, "download", "-q", package], f"{package} can't be fetched", cwd=room)
    found = glob.glob(f"{room}/*.deb")
    if not found:
        raise NoMachine(f"apt-get has brought no package {package}")
    run(["dpkg-deb", "-x", found[0], folder], f"{package} can't be unpacked")
    needs = subprocess.run(
        ["dpkg-deb", "-f", found[0], "Depends"], capture_output=True, text=True
    ).stdout
    os.remove(found[0])
    other = re.match(r"linux-image-[^ ,]+", needs)
    if not glob.glob(f"{folder}/boot/vmlinuz-*") and other:
        brought(other.group(), folder, room, words)


def fetched(name, room):
    """The folder of a kernel: the one that is named, or that of a package of Debian, which is fetched."""
    if os.path.isdir(name):
        return name
    if "/" in name:
        raise NoMachine(f"there is no folder {name}")
    need("apt-get", "dpkg-deb")
    name, _, release = name.partition("@")
    package = name if name.startswith("linux-image-") else f"linux-image-{name}"
    folder = f"{room}/kernel"
    os.makedirs(folder)
    os.chmod(room, 0o755)
    brought(package, folder, room, lists_of(release, room) if release else [])
    return folder


def kernel_of(folder):
    found = sorted(glob.glob(f"{folder}/boot/vmlinuz-*"))
    if len(found) != 1:
        raise NoMachine(f"{folder} has {len(found)} files boot/vmlinuz-*, and one is wanted")
    return found[0]


# what the guest begins with


def module_bytes(path):
    with open(path, "rb") as it:
        data = it.read()
    if path.endswith(".xz"):
        return lzma.decompress(data)
    if path.endswith(".gz"):
        return gzip.decompress(data)
    return data


def with_needs(folder, names):
    """The modules of these names, each after those that it needs, as pairs of a name and its bytes. What is built in has no file."""
    files = {
        os.path.basename(it).split(".")[0].replace("-", "_"): it
        for it in glob.glob(f"{folder}/lib/modules/**/*.ko*", recursive=True)
    }
    made = {}

    def add(name):
        if name in made or name not in files:
            return
        data = module_bytes(files[name])
        needs = re.search(rb"\0depends=([^\0]*)\0", data)
        for it in (needs.group(1).decode() if needs else "").split(","):
            add(it.replace("-", "_"))
        made[name] = data

    for name in names:
        add(name)
    return list(made.items())


def archive_entry(name, mode, data=b"", device=(0, 0)):
    """A file of an archive in the form `newc`, as a kernel unpacks it."""
    path = name.encode() + b"\0"
    numbers = [0, mode, 0, 0, 1, 0, len(data), 0, 0, *device, len(path), 0]
    head = b"070701" + b"".join(b"%08x" % it for it in numbers) + path
    return padded(head) + padded(data)


def padded(data):
    return data + b"\0" * (-len(data) % 4)


def first_files(modules, file_system):
    """The archive that a guest begins with."""
    parts = [
        archive_entry("dev", stat.S_IFDIR | 0o755),
        archive_entry("dev/console", stat.S_IFCHR | 0o600, device=(5, 1)),
    ]
    for name, path in (("init", PROGRAM), ("record", RECORDER)):
        with open(path, "rb") as it:
            parts.append(archive_entry(name, stat.S_IFREG | 0o755, it.read()))
    for name, data in modules:
        parts.append(archive_entry(f"{name}.ko", stat.S_IFREG | 0o644, data))
    listed = "".join(f"/{name}.ko\n" for name, _ in modules)
    parts.append(archive_entry("modules", stat.S_IFREG | 0o644, listed.encode()))
    if file_system:
        parts.append(archive_entry("disk", stat.S_IFREG | 0o644, f"{file_system}\n".encode()))
    parts.append(archive_entry("TRAILER!!!", 0))
    return gzip.compress(b"".join(parts), 1)


def die_with_parent():
    """The guest ends with what started it, however that ends."""
    ctypes.CDLL(None).prctl(PR_SET_PDEATHSIG, signal.SIGKILL)


class Guest:
    """A guest that serves the recorder. `file_system` is that of its disk, or None: /tmp lies in memory then."""

    def __init__(self, name, file_system=None, is_emulated=False):
        need("qemu-system-x86_64")
        self.process = self.stream = None
        self.room = tempfile.mkdtemp(prefix="conform-guest-")
        try:
            self.begin(name, file_system, is_emulated)
        except BaseException:
            self.close()
            raise

    def begin(self, name, file_system, is_emulated):
        need(*(["cc"] if recorder_sources() else []))
        compiled(RECORDER, recorder_sources(), "-static")
        compiled(
            PROGRAM, [f"{TOP}/conform/recording/guest.c"] if recorder_sources() else [], "-static"
        )
        folder = fetched(name, self.room)
        modules = [*MODULES_OF_A_DISK, file_system] if file_system else []
        with open(f"{self.room}/first", "wb") as it:
            it.write(first_files(with_needs(folder, modules), file_system))
        disk = self.disk(file_system) if file_system else []
        ways = [] if is_emulated or not has_kvm() else [(BY_KVM, READY_BY_KVM)]
        for accelerator, seconds in ways + [(EMULATED, READY)] * TRIES:
            if self.is_started(kernel_of(folder), accelerator, disk, seconds):
                return
        raise NoMachine(f"the guest isn't ready in {TRIES} times {READY} s: {self.last_words()}")

    def disk(self, file_system):
        need(f"mkfs.{file_system}")
        path = f"{self.room}/disk"
        with open(path, "wb") as it:
            it.truncate(DISK)
        path_of = os.environ.get("PATH", "") + ":/usr/sbin:/sbin"
        words = [shutil.which(f"mkfs.{file_system}", path=path_of), "-q", path]
        run(words, f"no file system {file_system}")
        drive = f"file={path},if=none,id=disk,format=raw,cache=unsafe"
        return ["-drive", drive, "-device", "virtio-blk-pci,drive=disk"]

    def is_started(self, kernel, accelerator, disk, seconds):
        """Starts the guest so, and whether it serves within these seconds. If it doesn't, it is gone."""
        end, path = time.monotonic() + seconds, f"{self.room}/stream"
        self.process = subprocess.Popen(
            [
                *("qemu-system-x86_64", "-machine", "q35", *accelerator, "-smp", "2", "-m", "512"),
                *("-nodefaults", "-no-user-config", "-display", "none", "-no-reboot"),
                *("-kernel", kernel, "-initrd", f"{self.room}/first"),
                *("-append", "console=ttyS0 nokaslr panic=-1 mitigations=off"),
                *("-serial", f"file:{self.room}/console"),
                *("-serial", f"unix:{path},server=on,wait=off"),
                *disk,
            ],
            stdin=subprocess.DEVNULL,
            stdout=subprocess.DEVNULL,
            stderr=subprocess.DEVNULL,
            preexec_fn=die_with_parent,
        )
        try:
            self.connect(path, end)
            self.stream.settimeout(max(1, end - time.monotonic()))
            words = self.into.readline().decode().split()
            if words[:1] == ["ready"]:
                self.release = words[1]
                self.stream.settimeout(LIMIT)
                return True
        except OSError:
            pass
        self.kill()
        return False

    def connect(self, path, end):
        while True:
            self.stream = socket.socket(socket.AF_UNIX)
            try:
                self.stream.connect(path)
                break
            except OSError:
                self.stream.close()
                if self.process.poll() is not None or time.monotonic() > end:
                    raise
                time.sleep(0.05)
        self.out, self.into = self.stream.makefile("wb"), self.stream.makefile("rb")

    def last_words(self):
        path = f"{self.room}/console"
        if not os.path.exists(path):
            return "QEMU has ended"
        with open(path, errors="replace") as it:
            return (it.read().strip().splitlines() or ["it printed nothing"])[-1]

    def ask(self, word, text):
        data = text.encode()
        try:
            self.out.write(f"{word} {len(data)}\n".encode() + data)
            self.out.flush()
            status, seen, said = map(int, self.into.readline().split())
            told = self.into.read(seen), self.into.read(said)
        except (OSError, ValueError) as fault:
            raise NoMachine(f"the guest is gone: {self.last_words()}") from fault
        return outputs(status, *(it.decode() for it in told))

    def record(self, scenario):
        return self.ask("run", scenario)

    def features(self):
        return self.ask("features", "")

    def kill(self):
        if self.stream:
            self.stream.close()
        if self.process and self.process.poll() is None:
            self.process.kill()
        if self.process:
            self.process.wait()

    def close(self):
        """Nothing is left of it."""
        self.kill()
        shutil.rmtree(self.room, ignore_errors=True)


def has_kvm():
    return os.access("/dev/kvm", os.R_OK | os.W_OK)
