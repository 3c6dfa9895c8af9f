"""What a run with disks or networks of its own needs from the machine, and where it runs."""
import os
import shutil
import subprocess
import sys
from argparse import Namespace

OWN = "own"  # the disks whose power the hook `power` cuts
MARK = "FAULTYARD_NEMESIS_ALONE"  # is in the environment of a run that is below `unshare`


def lossy_program() -> str:
    """The program that mounts disks that lose; FAULTYARD_LOSSY names another."""
    return os.environ.get("FAULTYARD_LOSSY") or shutil.which("faultyard-lossy") or ""


def unshare(words: Namespace) -> list[str]:
    """Namespaces of the run's own, with which its mounts and interfaces go."""
    net = ["--net"] if has_net(words) else []
    user = ["--user", "--map-current-user", "--keep-caps"] if os.geteuid() else []
    return ["unshare", *user, "--mount", *net]


def has_net(words: Namespace) -> bool:
    """Whether the run has a network of its own."""
    return words.net and not words.parts


def is_wanted(words: Namespace) -> bool:
    """Whether a run has disks or a network of its own."""
    return words.disks not in (None, OWN) or has_net(words)


def missing(words: Namespace) -> str | None:
    """What the machine lacks, if it does."""
    return (
        missing_for_disks(words.disks)
        or (missing_programs("--net", "ip", "nft", "nsenter") if has_net(words) else None)
        or missing_namespaces(words)
    )


def missing_for_disks(kind: str | None) -> str | None:
    if kind == "lossy":
        if not os.access(lossy_program(), os.X_OK):
            return "--disks lossy needs the program faultyard-lossy (make lossy)"
        return missing_device("--disks lossy", "/dev/fuse")
    if kind in (None, OWN):
        return None
    if os.geteuid():
        return f"--disks {kind} needs to be root; --disks lossy doesn't"
    programs = missing_programs(f"--disks {kind}", f"mkfs.{kind}", "mount", "umount")
    return programs or missing_device(f"--disks {kind}", "/dev/loop-control")


def missing_programs(what: str, *programs: str) -> str | None:
    lacks = [program for program in programs if not shutil.which(program)]
    return f"{what} needs {' '.join(lacks)}" if lacks else None


def missing_device(what: str, path: str) -> str | None:
    try:
        os.close(os.open(path, os.O_RDWR))
    except OSError as fault:
        return f"{what} needs {path}: {fault.strerror}"
    return None


def missing_namespaces(words: Namespace) -> str | None:
    if not shutil.which("unshare"):
        return "--disks and --net need unshare"
    tried = subprocess.run([*unshare(words), "true"], capture_output=True, text=True, check=False)
    if tried.returncode:
        return f"--disks and --net need namespaces: {tried.stderr.strip().splitlines()[-1]}"
    return None


def move(words: Namespace) -> None:
    """Begins the tool anew below `unshare`, in the same process."""
    os.environ[MARK] = "1"
    command = [*unshare(words), *sys.orig_argv]
    os.execvp(command[0], command)
