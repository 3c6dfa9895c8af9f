"""What may go wrong with a mounted disk: a full or vanished folder, a kill, a reader that holds a
file, wrong words."""
import errno
import os
import shutil
import signal
import subprocess
import tempfile
import time
from contextlib import contextmanager
from pathlib import Path

from targets import LIBC, Mounted, Opened

BACKING = 16 << 20  # bytes of a small disk


@contextmanager
def mounted(program, *words, size=None):
    """A mounted disk, in a folder of a small tmpfs where a size is given; its top and its
    process."""
    with tempfile.TemporaryDirectory(prefix="disk-ends-") as room:
        if size:
            subprocess.run(
                ["mount", "-t", "tmpfs", "-o", f"size={size}", "small", room], check=True
            )
        disk = Mounted(program, Path(room) / "disk", *words, errors=subprocess.PIPE)
        try:
            yield disk
        finally:
            disk.kill()
            disk.process.stderr.close()
            if size:
                LIBC.umount2(os.fsencode(room), 2)


def write(path, data, sync=True):
    with open(path, "wb") as file:
        file.write(data)
        file.flush()
        if sync:
            os.fsync(file.fileno())


def refused(wanted, call, *words):
    try:
        call(*words)
    except OSError as fault:
        assert fault.errno == wanted, (errno.errorcode[fault.errno], errno.errorcode[wanted])
    else:
        raise AssertionError(f"{call.__name__} isn't refused")


def order(disk, *words):
    """The status and what is printed of an order to a disk."""
    done = subprocess.run(
        [disk.program, *map(str, words)], capture_output=True, text=True, timeout=60
    )
    return done.returncode, done.stdout, done.stderr


def full_folder(program):
    """A write that the folder has no room for is refused, and what was synced stays."""
    with mounted(program, size=BACKING) as disk:
        write(disk.top / "kept", b"k" * 5000)
        with open(disk.top / "large", "wb", buffering=0) as file:
            refused(errno.ENOSPC, lambda: [file.write(b"x" * (1 << 20)) for _ in range(40)])
        assert (disk.top / "kept").read_bytes() == b"k" * 5000
        os.unlink(disk.top / "large")
        with Opened(disk.top) as top:
            os.fsync(top.fileno())
        write(disk.top / "after", b"a" * 5000)
        disk.cut(0)
        assert (disk.folder / "after").read_bytes() == b"a" * 5000
        assert (disk.folder / "kept").read_bytes() == b"k" * 5000


def vanished_folder(program):
    """A sync fails where the folder is gone; the end has a message and a status of its own."""
    with mounted(program) as disk:
        write(disk.top / "kept", b"kept")
        shutil.rmtree(disk.folder)
        refused(errno.EIO, write, disk.top / "new", b"new")
        os.mkdir(disk.top / "folder")
        with Opened(disk.top) as top:
            refused(errno.EIO, os.fsync, top.fileno())
        assert (disk.top / "kept").read_bytes() == b"kept", "what is seen stays"
        disk.process.send_signal(signal.SIGTERM)
        _, told = disk.process.communicate(timeout=60)
        assert disk.process.returncode == 1, disk.process.returncode
        assert b"what was unsynced at the end is lost: No such file or directory" in told, told


def killed(program):
    """SIGKILL is a cut of which nothing survives; later calls fail until it is taken off."""
    with mounted(program) as disk:
        write(disk.top / "synced", b"s")
        write(disk.top / "unsynced", b"u", sync=False)
        disk.process.kill()
        disk.process.wait()
        refused(errno.ENOTCONN, os.listdir, disk.top)
        assert order(disk, "cut", disk.top)[::2] == (
            1,
            f"faultyard-lossy: {disk.top}: Transport endpoint is not connected\n",
        )
        assert order(disk, "unmount", disk.top) == (0, "", "")
        assert os.listdir(disk.folder) == ["synced"]
        assert order(disk, "unmount", disk.top)[0] == 1


def held_file(program):
    """A reader that holds a file bars an orderly unmount, and not a cut, after which its calls
    fail."""
    with mounted(program) as disk:
        write(disk.top / "file", b"1234")
        with open(disk.top / "file", "rb", buffering=0) as reader:
            assert order(disk, "unmount", disk.top)[::2] == (
                1,
                f"faultyard-lossy: {disk.top}: Device or resource busy\n",
            )
            assert reader.read(1) == b"1"
            assert order(disk, "cut", disk.top, "0") == (0, "0 of 0 unsynced items survive\n", "")
            refused(errno.ENOTCONN, os.fsync, reader.fileno())
        assert not os.path.ismount(disk.top)


def orderly_end(program):
    """unmount waits until all is written, and SIGTERM ends as orderly; times survive both."""
    for deed in ("unmount", "SIGTERM"):
        with mounted(program) as disk:
            write(disk.top / "large", b"l" * 30_000_000, sync=False)
            os.utime(disk.top / "large", (1000, 2000))
            if deed == "unmount":
                assert order(disk, deed, disk.top) == (0, "", "")
            else:
                disk.process.send_signal(signal.SIGTERM)
            assert disk.process.wait(60) == 0
            found = (disk.folder / "large").stat()
            assert (found.st_size, found.st_atime, found.st_mtime) == (
                30_000_000,
                1000,
                2000,
            ), found


def written_back(program):
    """What is older than --writeback is durable by itself at the next change, and so is what is too
    much for the memory."""
    # The new file has to be cut off before it is old too: a busy disk holds up a call for a second.
    with mounted(program, "--writeback", "3") as disk:
        write(disk.top / "old", b"old", sync=False)
        time.sleep(3.1)
        write(disk.top / "new", b"new", sync=False)
        disk.cut(0)
        assert os.listdir(disk.folder) == ["old"] and (disk.folder / "old").read_bytes() == b"old"
    with mounted(program, "--writeback", "0") as disk:
        with open(disk.top / "large", "wb", buffering=0) as file:
            for _ in range(300):
                file.write(b"x" * (1 << 20))
            disk.cut(0)
        assert 40 <= (disk.folder / "large").stat().st_size >> 20 <= 60


def slow(program):
    """A slow disk takes its time for each read, write and sync, and no more once that has ended."""

    def seconds(call, *words):
        began = time.monotonic()
        call(*words)
        return time.monotonic() - began

    with mounted(program) as disk:
        assert order(disk, "slow", disk.top, "0.3") == (0, "", "")
        assert seconds(write, disk.top / "one", b"1") >= 0.6, "a write and a sync"
        assert order(disk, "slow", disk.top, "0", "10000") == (0, "", "")
        assert seconds(write, disk.top / "bytes", b"b" * 4000) >= 0.4
        with open(disk.top / "bytes", "rb") as file:
            os.posix_fadvise(file.fileno(), 0, 0, os.POSIX_FADV_DONTNEED)
            assert seconds(file.read) >= 0.4
        assert order(disk, "slow", disk.top, "1000") == (0, "", "")
        assert (disk.top / "bytes").stat().st_size == 4000, "what is no data isn't slow"
        assert order(disk, "slow", disk.top, "0") == (0, "", "")
        write(disk.top / "after", b"a" * 100000)


def full(program):
    """What has no room is refused, and what is removed gives room back once it isn't open."""
    with mounted(program) as disk:
        write(disk.top / "old", b"o" * 6000)
        assert order(disk, "room", disk.top, "1000") == (0, "", "")
        found = os.statvfs(disk.top)
        assert found.f_bavail == 1000 // found.f_frsize, found
        write(disk.top / "a", b"a" * 900)
        refused(errno.ENOSPC, write, disk.top / "b", b"b" * 101)
        write(disk.top / "b", b"b" * 100)
        write(disk.top / "old", b"n" * 6000)
        refused(errno.ENOSPC, os.truncate, disk.top / "a", 901)
        with open(disk.top / "a", "rb") as held:
            os.unlink(disk.top / "a")
            refused(errno.ENOSPC, write, disk.top / "c", b"c")
            assert held.read() == b"a" * 900
        waited_for(lambda: write(disk.top / "c", b"c" * 900))
        refused(errno.ENOSPC, write, disk.top / "d", b"d")
        with open(disk.top / "c", "r+b") as file:
            file.truncate(0)
        write(disk.top / "d", b"d" * 900)
        assert order(disk, "room", disk.top, "all") == (0, "", "")
        write(disk.top / "e", b"e" * 100000)
        disk.end()
        sizes = {name: (disk.folder / name).stat().st_size for name in os.listdir(disk.folder)}
        assert sizes == {"old": 6000, "b": 100, "c": 0, "d": 900, "e": 100000}, sizes


def waited_for(call):
    """A kernel closes a file some time after its user has."""
    while True:
        try:
            return call()
        except OSError as fault:
            if fault.errno != errno.ENOSPC:
                raise
            time.sleep(0.01)


def bad_parts(program):
    """A bad sector can't be read, a lying byte is read wrong, until it is written or cut off; what
    is on the disk stays as it was."""
    data = bytes(range(256)) * 64

    def told(place, length):
        with open(disk.top / "file", "rb", buffering=0) as file:
            return os.pread(file.fileno(), length, place)

    with mounted(program) as disk:
        write(disk.top / "file", data)
        assert order(disk, "fail", disk.top / "file", 4097, 4096) == (0, "", "")
        assert told(0, 4096) == data[:4096]
        for place in (4096, 8191, 8192, 12287):
            refused(errno.EIO, told, place, 1)
        assert told(12288, 4096) == data[12288:]
        assert (disk.folder / "file").read_bytes() == data
        with open(disk.top / "file", "r+b", buffering=0) as file:
            os.pwrite(file.fileno(), b"new", 5000)
        assert told(4096, 904) + told(5000, 3) == data[4096:5000] + b"new"
        refused(errno.EIO, told, 8192, 1)
        assert order(disk, "lie", disk.top / "file", 10, 2) == (0, "", "")
        assert told(9, 4) == bytes([9, 10 ^ 1, 11 ^ 1, 12])
        os.truncate(disk.top / "file", 8192)
        os.truncate(disk.top / "file", 9000)
        assert told(8192, 808) == bytes(808)
        for words in (("0", "0"), ("8999", "2"), ("9000", "1"), ("0", "99999999999")):
            said = order(disk, "fail", disk.top / "file", *words)
            assert said == (1, "", f"faultyard-lossy: {disk.top}/file: Invalid argument\n"), said
        for path in (disk.folder / "file", disk.top):
            said = order(disk, "lie", path, "0", "1")
            told_why = f"{path} is no file of a mounted disk of faultyard-lossy"
            assert said == (1, "", f"faultyard-lossy: {told_why}\n"), said
        disk.end()
        assert (disk.folder / "file").read_bytes()[4990:5010] == data[4990:5000] + b"new" + (
            data[5003:5010]
        )


def only_one(program):
    """A folder is one disk at a time; a mount is found by its path, however it is written."""
    with mounted(program) as disk:
        said = order(disk, "mount", disk.folder, disk.top)
        assert said[::2] == (1, f"faultyard-lossy: {disk.folder} is mounted already\n"), said
        spelled = f"{disk.top}/../{disk.top.name}//"
        assert order(disk, "sync", spelled) == (0, "", "")
        assert order(disk, "sync", disk.folder)[0] == 1
        assert order(disk, "unmount", spelled) == (0, "", "")


def other_files(program):
    """Symbolic links have one name; pipes and sockets are in memory; device files there are
    none."""
    with mounted(program) as disk:
        os.symlink("to", disk.top / "link")
        refused(
            errno.EPERM,
            lambda: os.link(disk.top / "link", disk.top / "other", follow_symlinks=False),
        )
        os.mkfifo(disk.top / "pipe")
        refused(errno.EPERM, os.mknod, disk.top / "device", 0o020600, os.makedev(1, 3))
        refused(errno.ENOTSUP, os.setxattr, disk.top, "user.x", b"1")
        disk.end()
        assert os.listdir(disk.folder) == ["link"]


def told_of(words):
    """Which order wrong words are told the usage of: theirs, or all where there is none such."""
    return words[0] if words and words[0] != "what" else "mount|sync|"


def told_beside(words):
    """What else they are told: the word that there isn't."""
    if words == ["what"]:
        return "faultyard-lossy: there is no order 'what'\n"
    return "faultyard-lossy: mount has no option '--what'\n" if "--what" in words else ""


def wrong_words(program):
    """Each refusal has its status, and nothing is mounted."""
    with tempfile.TemporaryDirectory() as room:
        usages = [
            [],
            ["mount"],
            ["mount", room],
            ["mount", "--writeback", "-1", room, room],
            ["cut"],
            ["sync"],
            ["unmount", room, room],
            ["cut", room, "-1"],
            ["cut", room, "18446744073709551616"],
            ["cut", room, "1x"],
            ["mount", "--what", room, room],
            ["slow", room],
            ["slow", room, "-1"],
            ["slow", room, "1", "0"],
            ["room", room],
            ["room", room, "none"],
            ["fail", room, "1"],
            ["lie", room, "1", "9223372036854775808"],
            ["what"],
        ]
        for words in usages:
            done = subprocess.run([program, *words], capture_output=True, text=True)
            assert (
                done.returncode == 2
                and done.stderr.startswith(f"usage: faultyard-lossy {told_of(words)}")
                and done.stderr.partition("\n")[2] == told_beside(words)
                and not done.stdout
            ), (words, done)
        for words in (
            ["mount", f"{room}/none", room],
            ["cut", room],
            ["sync", "/none/none"],
            ["unmount", room],
            ["slow", room, "1"],
            ["room", room, "1"],
            ["fail", room, "0", "1"],
            ["mount", __file__, room],
        ):
            done = subprocess.run([program, *words], capture_output=True, text=True)
            assert (
                done.returncode == 1
                and done.stderr.startswith("faultyard-lossy: ")
                and not done.stdout
            ), (words, done)
        assert subprocess.run([program, "--help"], capture_output=True).stdout.startswith(
            b"usage: "
        )


ENDS = (
    full_folder,
    vanished_folder,
    killed,
    held_file,
    orderly_end,
    written_back,
    slow,
    full,
    bad_parts,
    only_one,
    other_files,
    wrong_words,
)


def all_of(program):
    for end in ENDS:
        try:
            end(program)
        except (AssertionError, OSError) as fault:
            raise AssertionError(f"{end.__name__}: {fault!r}") from fault
    return f"{len(ENDS)} ends are clear"
