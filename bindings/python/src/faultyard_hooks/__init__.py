"""What the hooks of stores have in common. docs/HOOKS.md leads to the hooks of a store.

    import faultyard_hooks as fy

    servers, some, able = fy.clients(fy.Resp)

    def start(n):
        return "mystore", "--data", fy.folder(n), "--port", fy.port(n)

    def write(key, value):
        return some.ask("RPUSH", "r", f"{key} {value}")

    fy.main()

A hook is called ten times a second, so this stands beside the package `faultyard`, which takes
longer to import than a hook may take. Modules of its own are imported where they are used.
"""

from __future__ import annotations

import os
import socket
import stat
import sys
import time
from contextlib import contextmanager
from typing import Any, Callable, Dict, Iterator, List, Optional, Tuple, Type, TypeVar

Answer = TypeVar("Answer")
MORE = {"?": "?"}  # among what `salvage` returns: there may be more, which it couldn't read
_on: List[Any] = []  # the driver, where the processes are elsewhere
_user: Dict[str, Any] = {}  # as whom commands run, if not as who runs the hook
HOOKS = "setup start ready join leave elect pause resume whole write check get read salvage".split()
HOOKS += "kill empty fetch power cut mend name files stop rescue".split()
# What stands in a module of its own.
ELSEWHERE = {
    "Amqp": "amqp",
    "Client": "client",
    "clients": "client",
    "Containers": "containers",
    "electing": "one_primary",
    "Http": "http",
    "JsonRpc": "jsonrpc",
    "Nats": "nats",
    "Ovsdb": "ovsdb",
    "Piped": "piped",
    "Places": "places",
    "Pods": "pods",
    "Postgres": "postgres",
    "primary": "one_primary",
    "record_in": "files",
    "records_in": "files",
    "Resp": "resp",
    "Ssh": "ssh",
    "Units": "units",
    "ZooKeeper": "zookeeper",
}
# What `--on` begins with, and whose word it is.
DRIVERS = {"ssh": "Ssh", "units": "Units", "containers": "Containers", "pods": "Pods"}


def __getattr__(name: str) -> Any:
    if name not in ELSEWHERE:
        raise AttributeError(f"there is no {name} in {__name__}")
    return getattr(__import__(f"{__name__}.{ELSEWHERE[name]}", fromlist=[name]), name)


class Refused(OSError):
    """The store answered, and said no."""


_noes: Tuple[Type[Exception], ...] = (OSError,)


def says_no(*faults: Type[Exception]) -> None:
    """From now on these say no as an OSError does: the faults of a module that asks the store."""
    global _noes
    _noes += faults


def noes() -> Tuple[Type[Exception], ...]:
    """The faults that say no."""
    return _noes


# What the tool says.

_told = os.environ.get
DIR = _told("FY_DIR", "")
COUNT = int(_told("FY_COUNT", "0"))
NAMES = _told("FY_NAMES", "").split()
ZONES = _told("FY_ZONES", "").split()
HOSTS = ["127.0.0.1"] * COUNT
if sys.argv[1:2] not in (["setup"], ["salvage"]):  # which run processes beside the tool
    HOSTS = _told("FY_HOSTS", "").split() or HOSTS
ABLE = [int(number) for number in _told("FY_ABLE", "").split()]
DAMAGED = [int(number) for number in _told("FY_DAMAGED", "").split()]
RESUMED = _told("FY_RESUMED") == "1"  # the run had died, and is gone on with


def port(n: int, which: int = 0) -> int:
    """One of the four ports of a process."""
    firsts = _told("FY_PORTS", "").split()
    return int(firsts[n] if firsts else int(_told("FY_PORT", "0")) + 4 * n) + which


def at(n: int, which: int = 0) -> str:
    """`HOST:PORT` of a process, with one of its ports."""
    return f"{HOSTS[n]}:{port(n, which)}"


def folder(n: int, *below: str) -> str:
    """The folder of a process, or a path below it."""
    return os.path.join(DIR, str(n), *below)


def fetched(n: int, *below: str) -> str:
    """A path below the folder of a process, to be read while that runs: elsewhere, a copy."""
    return str(_on[0].fetched(n, *below)) if _on else folder(n, *below)


def copied(*below: str) -> str:
    """The copy of a folder that `salvage` may change, or a path below it."""
    return os.path.join(_told("FY_COPY", ""), *below)


def others(n: int) -> List[int]:
    """Those that aren't destroyed, without n."""
    return [m for m in ABLE if m != n]


def another(n: int) -> int:
    """One of them by chance; a fault where there is none."""
    import random

    if not others(n):
        raise ConnectionError("there is no other process to ask")
    return random.choice(others(n))


# Hooks.


def main(*promises: str, user: str = "", on: Any = None) -> None:
    """Calls the hook that the command line names: the function of this name in the hooks' file.

    `start` returns a command. `write` returns a mark, or nothing where the record's number is one.
    `check` and `get` return a value or None, and any other hook False for no, or what it prints. An
    OSError says no too. `promises` are printed beside the names. Without a function `ready` a
    process is ready once its first port takes a connection. Where hooks run as root, their commands
    run as `user`, who gets the folders of the processes: some stores refuse to run as root. `on`
    says where they run, as `Ssh("h0", "h1")` or the tool's `--on` does.
    """
    given = vars(sys.modules["__main__"])
    hooks = {name: given[name] for name in HOOKS if name in given}
    if RESUMED and "setup" in hooks:
        hooks["setup"] = lambda: None  # the store was prepared when the run began
    hooks.setdefault("ready", is_reachable)
    on = on or driver(_told("FY_ON", ""))
    if on:
        _on.append(on)
        on.user, hooks = user, on.hooks(hooks)
    name, *numbers = sys.argv[1:] or [""]
    if name == "hooks":
        print(*hooks, *promises)
    elif name not in hooks:
        sys.exit(64)
    elif name in LINES:
        _answer_lines(LINES[name], hooks[name])
    else:
        try:
            if user and os.geteuid() == 0:
                _run_as(user, name, *map(int, numbers))
            result = hooks[name](*map(int, numbers))
        except noes() as fault:
            sys.exit(_in_words(fault))
        if name == "start":
            if on:  # which has it run as the user there
                _user.clear()
            _become("." if on else folder(int(numbers[0])), result)
        _end(result)


def driver(text: str) -> Any:
    """What `--on` says: the driver by which processes are elsewhere; None where it says nothing."""
    if not text:
        return None
    kind = text.replace(":", " ").split()[0]
    if kind not in DRIVERS:
        raise ValueError(f"{kind} is none of {', '.join(DRIVERS)}")
    return __getattr__(DRIVERS[kind]).of(text)


def _end(result: Any) -> None:
    """Says what came of a hook."""
    if result is False:
        sys.exit(1)
    if isinstance(result, dict):
        result = "".join(f"{key} {value}\n" for key, value in result.items())
    if isinstance(result, str):
        sys.stdout.write(result)


def _run_as(name: str, hook: str, *numbers: int) -> None:
    """Has commands run as a user, to whom the folders are given before the store writes there."""
    import pwd

    user = pwd.getpwnam(name)
    _user.update(user=user.pw_uid, group=user.pw_gid, extra_groups=[])
    if hook not in ("setup", "join", "start"):
        return
    if not os.stat(DIR).st_mode & stat.S_IXOTH:
        os.chown(DIR, -1, user.pw_gid)
        os.chmod(DIR, os.stat(DIR).st_mode | stat.S_IXGRP)  # the user may enter it
    for n in numbers or range(COUNT):
        os.makedirs(folder(n), exist_ok=True)
        os.chown(folder(n), user.pw_uid, user.pw_gid)


def _become(place: str, words: Any) -> None:
    """Goes on as a command, in this process and in a folder."""
    command = [str(word) for word in words]
    if "/" in command[0]:
        command[0] = os.path.abspath(command[0])
    os.chdir(place)
    if _user:
        os.setgroups([])
        os.setgid(_user["group"])
        os.setuid(_user["user"])
    sys.stdout.flush()
    os.execvp(command[0], command)


def _answer_lines(answer: Callable[..., str], ask: Callable[..., Any]) -> None:
    for line in sys.stdin:
        print(answer(ask, *line.split()), flush=True)


def _written(put: Callable[[str, str], Any], key: str, value: str) -> str:
    try:
        mark = put(key, value)
    except noes() as fault:
        print(_in_words(fault), file=sys.stderr)
        return "no"
    if mark is False:
        return "no"
    return f"ok {int(key[2:]) if mark in (None, True) else mark}"


def _checked(check: Callable[[int, str], Optional[str]], number: str, key: str) -> str:
    return _got(lambda key: check(int(number), key), key)


def _got(get: Callable[[str], Optional[str]], key: str) -> str:
    try:
        return get(key) or "none"
    except noes() as fault:
        print(_in_words(fault), file=sys.stderr)
        return "?"


# The hooks that answer lines, and how.
LINES: Dict[str, Callable[..., str]] = {"write": _written, "check": _checked, "get": _got}


def _in_words(fault: Exception) -> str:
    return f"{type(fault).__name__}: {fault}"


def connection(address: str, seconds: float) -> socket.socket:
    """A connection to `HOST:PORT`, or to the path of a Unix socket."""
    if "/" not in address:
        host, _, number = address.rpartition(":")
        return socket.create_connection((host, int(number)), seconds)
    made = socket.socket(socket.AF_UNIX)
    try:
        made.settimeout(seconds)
        made.connect(address)
    except OSError:
        made.close()
        raise
    return made


def is_reachable(n: int) -> None:
    """Whether the first port of a process takes a connection; a fault where it doesn't."""
    connection(at(n), 2.0).close()


# What hooks do.


def run(*words: object, text: str = "", seconds: float = 60.0) -> str:
    """What a command prints that reads a text; `Refused` where it fails or takes too long."""
    import subprocess  # few hooks need it, and it is slow to import

    told: str
    command, pipe = [str(word) for word in words], subprocess.PIPE
    with subprocess.Popen(command, stdin=pipe, stdout=pipe, text=True, **_user) as process:
        try:
            told, _ = process.communicate(text, seconds)
        except subprocess.TimeoutExpired:
            process.kill()
            raise Refused(f"{command[0]} took over {seconds:g} seconds") from None
    if process.returncode:
        raise Refused(f"{command[0]} ended with status {process.returncode}")
    return told


def run_at(n: int, *words: object) -> str:
    """What a command prints that runs where process n does, as `run` has it here."""
    return str(_on[0].run(n, *words)) if _on else run(*words)


@contextmanager
def running(*words: object) -> Iterator[None]:
    """A command that runs until the block ends. What it prints goes to standard error."""
    import subprocess

    command = [str(word) for word in words]
    with subprocess.Popen(command, stdout=sys.stderr, **_user) as process:
        try:
            yield
        finally:
            process.terminate()
            try:
                process.wait(5)
            except subprocess.TimeoutExpired:
                process.kill()


def wait(ask: Callable[[], Any], seconds: float = 5.0, pause: float = 0.05) -> Any:
    """Asks again and again until the answer is true. False where it isn't in time."""
    until = time.monotonic() + seconds
    while True:
        try:
            if answer := ask():
                return answer
        except noes():
            pass
        if time.monotonic() > until:
            return False
        time.sleep(pause)


def works(ask: Callable[..., Any], *words: object) -> bool:
    """Whether a call isn't ended by a fault that says no, as `works(run, "mystore", "verify")`."""
    try:
        ask(*words)
    except noes():
        return False
    return True


def tried(ask: Callable[..., Answer], *words: object) -> Optional[Answer]:
    """What a call answers; None where a fault that says no ends it."""
    try:
        return ask(*words)
    except noes():
        return None


def answered(ask: Callable[[], Answer], seconds: float = 30.0) -> Answer:
    """The first answer that is no fault; the last fault where there is none in time."""
    until = time.monotonic() + seconds
    while True:
        try:
            return ask()
        except noes():
            if time.monotonic() > until:
                raise
        time.sleep(0.1)


def paged(ask: Callable[[str], Dict[str, str]]) -> Dict[str, str]:
    """All records of a store that tells some at once: `ask` answers those behind a key, at first
    behind an empty one."""
    found: Dict[str, str] = {}
    while page := ask(max(found, default="")):
        found.update(page)
    return found


def keep(path: str, text: str) -> str:
    """Writes a file so that a power cut leaves the old one or the new one, and answers its path.

    Its folder is made where it isn't there.
    """
    place = os.path.dirname(path)
    os.makedirs(place, exist_ok=True)
    with open(f"{path}.new", "w", encoding="utf-8") as file:
        file.write(text)
        file.flush()
        os.fsync(file.fileno())
    os.replace(f"{path}.new", path)
    sync(place)
    return path


def made(path: str, make: Callable[[str], Any]) -> str:
    """A path. What isn't there yet is made, so that a kill never leaves half of it.

    `make` makes it at another path and syncs it; then that is moved.
    """
    if not os.path.exists(path):
        new = f"{path}.new"
        run("rm", "-rf", new)
        make(new)
        os.replace(new, path)
        sync(os.path.dirname(path))
    return path


def sync(path: str) -> None:
    """Has a file, or the names in a folder, on the disk."""
    place = os.open(path, os.O_RDONLY)
    try:
        os.fsync(place)
    finally:
        os.close(place)


def text_of(path: str) -> str:
    """What a file has; nothing where it isn't there."""
    try:
        with open(path, encoding="utf-8") as file:
            return file.read()
    except FileNotFoundError:
        return ""
