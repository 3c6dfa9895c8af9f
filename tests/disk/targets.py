"""What the model is held against: the disk's code without a mount, a mounted disk, and a file
system of the kernel."""
import ctypes
import errno
import fcntl
import mmap
import os
import resource
import signal
import stat
import struct
import subprocess
import time
from functools import partial

from model import PUNCH, SYNCED, paged, poke, tree_at

LIBC = ctypes.CDLL(None, use_errno=True)
KINDS = {stat.S_IFREG: "file", stat.S_IFDIR: "folder", stat.S_IFLNK: "link"}
MODES = {"file": stat.S_IFREG, "folder": stat.S_IFDIR, "link": stat.S_IFLNK}
FLAGS = {"": 0, "noreplace": 1, "exchange": 2}
OPENED = {"dsync": os.O_DSYNC, "sync": os.O_SYNC}
SHUTDOWN, NOLOGFLUSH = 0x8004587D, struct.pack("I", 2)  # FS_IOC_SHUTDOWN


def begin(seconds):
    """Before the program: it dies with its parent, and after so many seconds of processor time, if
    a number is given."""
    LIBC.prctl(1, signal.SIGKILL)
    if seconds is not None:
        resource.setrlimit(resource.RLIMIT_CPU, (seconds, seconds))


class Refused(Exception):
    """The call failed."""


class Bare:
    """The disk's code, driven by lines."""

    def __init__(self, program, folder, *words, errors=None, seconds=None):
        self.words, self.folder, self.errors = [program, folder, *words], folder, errors
        self.begin = partial(begin, seconds)
        folder.mkdir(exist_ok=True)
        self.start()

    def start(self):
        pipe = subprocess.PIPE
        files = {"stdin": pipe, "stdout": pipe, "stderr": self.errors}
        self.process = subprocess.Popen(self.words, **files, text=True, preexec_fn=self.begin)

    def ask(self, *words):
        print(*words, file=self.process.stdin, flush=True)
        return self.process.stdout.readline().rstrip("\n")

    def tell(self, *words):
        said = self.ask(*words)
        if said.startswith("errno "):
            raise Refused(errno.errorcode[int(said[6:])])
        assert said == "ok", (said, words)

    def do(self, call):
        getattr(self, call[0])(*call[1:])

    def create(self, path, kind, mode, *target):
        self.tell("make", path, MODES[kind] | mode, *target)

    def write(self, path, place, data, how=""):
        if how == "append":
            place = len(self.tree()[path][3])
        if how == "msync":
            contents = bytearray(self.tree()[path][3])
            poke(contents, place, data)
            place, data = paged(contents, place, len(data))
        if data:
            self.tell("write", path, place, data.hex())
        if how in SYNCED:
            self.tell("sync", path)

    def resize(self, path, size, how=""):
        self.tell("resize", path, size)

    def allocate(self, path, mode, place, length):
        self.tell("allocate", path, mode | (1 if mode == PUNCH else 0), place, length)

    def room(self, more):
        self.tell("room", 2**64 - 1 if more is None else more)

    def chmod(self, path, mode):
        self.tell("chmod", path, mode)

    def remove(self, path):
        self.tell("remove", path)

    def link(self, path, to_path):
        self.tell("link", path, to_path)

    def rename(self, path, to_path, how=""):
        self.tell("rename", path, to_path, FLAGS[how])

    def sync(self, path, how=""):
        self.tell("sync", path or ".")

    def tree(self):
        found, line = {}, self.ask("show")
        while line != "ok":
            path, mode, links, size, what = line.split(" ", 4)
            kind = KINDS[stat.S_IFMT(int(mode, 8))]
            data = what.encode() if kind == "link" else bytes.fromhex(what)
            assert kind != "file" or len(data) == int(size), (path, size)
            found[path] = (kind, int(mode, 8) & 0o7777, int(links) if kind == "file" else 0, data)
            line = self.process.stdout.readline().rstrip("\n")
        return found

    def cut(self, tear):
        said = self.ask("cut", tear)
        assert self.ended() == 0
        return said

    def end(self):
        """An orderly end, after which all is durable."""
        self.process.stdin.close()
        assert self.ended() == 0, "the disk's code failed at its end"

    def ended(self):
        status = self.process.wait()
        self.process.stdout.close()
        return status

    def kill(self):
        self.process.kill()
        self.ended()

    def takes(self, why):
        """Whether it is asked a call that is refused so: the kernel keeps from a disk what makes no
        sense."""
        return why != "kernel"

    def durable(self):
        return tree_at(self.folder)


class Calls:
    """The calls as a program makes them, below a folder."""

    def __init__(self, top):
        self.top = top

    def at(self, path):
        return self.top / path

    def do(self, call):
        try:
            getattr(self, call[0])(*call[1:])
        except OSError as fault:
            raise Refused(errno.errorcode[fault.errno]) from None

    def takes(self, why):
        return True

    def tree(self):
        return tree_at(self.top)

    def open(self, path, flags=os.O_RDWR):
        return os.fdopen(os.open(self.at(path), flags), "r+b", buffering=0)

    def create(self, path, kind, mode, *target):
        if kind == "file":
            os.close(os.open(self.at(path), os.O_CREAT | os.O_EXCL | os.O_WRONLY, mode))
        elif kind == "folder":
            os.mkdir(self.at(path), mode)
        else:
            os.symlink(*target, self.at(path))

    def write(self, path, place, data, how=""):
        if how == "msync":
            self.write_mapped(path, place, data)
        elif how == "direct":
            self.write_direct(path, place, data)
        elif how == "append":
            with self.open(path, os.O_WRONLY | os.O_APPEND) as file:
                assert file.write(data) == len(data)
        else:
            with self.open(path, os.O_RDWR | OPENED.get(how, 0)) as file:
                flags = os.RWF_DSYNC if how == "rwf_dsync" else 0
                assert os.pwritev(file.fileno(), [data], place, flags) == len(data)

    def write_direct(self, path, place, data):
        with self.open(path, os.O_RDWR | os.O_DIRECT) as file, mmap.mmap(-1, len(data)) as aligned:
            aligned.write(data)
            assert os.pwritev(file.fileno(), [aligned], place) == len(data)

    def write_mapped(self, path, place, data):
        with self.open(path) as file, mmap.mmap(file.fileno(), 0) as mapped:
            mapped[place : place + len(data)] = data
            mapped.flush()

    def resize(self, path, size, how=""):
        if how == "open" and size == 0:
            self.open(path, os.O_RDWR | os.O_TRUNC).close()
        else:
            os.truncate(self.at(path), size)

    def allocate(self, path, mode, place, length):
        mode |= 1 if mode == PUNCH else 0
        with self.open(path) as file:
            if LIBC.fallocate(file.fileno(), mode, ctypes.c_long(place), ctypes.c_long(length)):
                raise OSError(ctypes.get_errno(), "fallocate")

    def chmod(self, path, mode):
        os.chmod(self.at(path), mode)

    def remove(self, path):
        path = self.at(path)
        (os.rmdir if path.is_dir() and not path.is_symlink() else os.unlink)(path)

    def link(self, path, to_path):
        os.link(self.at(path), self.at(to_path), follow_symlinks=False)

    def rename(self, path, to_path, how=""):
        words = [-100, bytes(self.at(path)), -100, bytes(self.at(to_path)), FLAGS[how]]
        if LIBC.renameat2(*words):
            raise OSError(ctypes.get_errno(), "renameat2")

    def sync(self, path, how=""):
        with Opened(self.at(path)) as file:
            (os.fdatasync if how == "data" else os.fsync)(file.fileno())


class Opened:
    """A file or folder, opened to be synced."""

    def __init__(self, path):
        self.number = os.open(path, os.O_RDONLY)

    def fileno(self):
        return self.number

    def __enter__(self):
        return self

    def __exit__(self, *_):
        os.close(self.number)


class Mounted(Calls):
    """A mounted disk."""

    def __init__(self, program, folder, *words, errors=None, seconds=None):
        self.program, self.folder, self.words, self.errors = program, folder, words, errors
        self.begin = partial(begin, seconds)
        super().__init__(folder.with_name(f"{folder.name}.mount"))
        folder.mkdir(exist_ok=True)
        self.top.mkdir(exist_ok=True)
        self.start()

    def start(self):
        words = [self.program, "mount", "--foreground", *self.words, self.folder, self.top]
        unfreed = {"ASAN_OPTIONS": "detect_leaks=0"}  # what the kernel held at the end
        more = {"env": os.environ | unfreed, "stderr": self.errors, "preexec_fn": self.begin}
        self.process = subprocess.Popen(list(map(str, words)), **more)
        while not os.path.ismount(self.top):
            assert self.process.poll() is None, "mount ended"
            time.sleep(0.005)

    def order(self, *words):
        return subprocess.run(
            [self.program, *words], check=True, capture_output=True, text=True
        ).stdout.rstrip("\n")

    def cut(self, tear):
        said = self.order("cut", self.top, str(tear))
        assert self.process.wait() == 0
        return said

    def end(self):
        """Until it has called exec, a child of another thread holds what was open here: then it is
        busy."""
        ended = time.monotonic() + 60
        while (
            done := subprocess.run(
                [self.program, "unmount", self.top], capture_output=True, text=True
            )
        ).returncode:
            assert "busy" in done.stderr and time.monotonic() < ended, done.stderr
            time.sleep(0.02)
        assert self.process.wait() == 0, "the disk failed at its end"

    def kill(self):
        self.process.kill()
        self.process.wait()
        LIBC.umount2(bytes(self.top), 2)

    def durable(self):
        return tree_at(self.folder)


class Kernel(Calls):
    """A file system of the kernel on a loop device, whose power FS_IOC_SHUTDOWN cuts."""

    def __init__(self, kind, folder):
        image, self.mount = folder / f"{kind}.image", folder / kind
        self.mount.mkdir()
        with image.open("xb") as file:
            file.truncate(400 << 20)
        subprocess.run([f"mkfs.{kind}", "-q", image], check=True)
        self.device = loop_device(image)
        super().__init__(self.mount)
        self.folder = self.mount
        self.start()

    def start(self):
        subprocess.run(["mount", self.device.name, self.mount], check=True)

    def begin(self, name):
        """Calls go below a folder of its own from now on, which is durable."""
        self.top = self.mount / name
        self.top.mkdir()
        with Opened(self.mount) as folder:
            os.fsync(folder.fileno())

    def cut(self, tear):
        with Opened(self.mount) as folder:
            fcntl.ioctl(folder.fileno(), SHUTDOWN, NOLOGFLUSH)
        self.unmount()

    def unmount(self):
        subprocess.run(["umount", self.mount], check=True)

    def end(self):
        self.unmount()
        self.device.close()


def loop_device(image):
    """A loop device with this image, opened. It is let go of where it is no longer open or mounted,
    whatever ends this process, and not at each cut: an image isn't taken again while it is being
    let go of."""
    name = subprocess.run(
        ["losetup", "--find", "--show", image], check=True, capture_output=True, text=True
    ).stdout.strip()
    device = open(name, "rb", buffering=0)
    subprocess.run(["losetup", "--detach", name], check=True)
    return device
