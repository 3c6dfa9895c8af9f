"""Processes that run elsewhere, where a POSIX shell is reached: what all drivers have in common.

A driver says by `words` how that shell is reached, and by its scripts how a process runs there.
What runs is held by an input and ends with it, whether the hook, the tool or the way there is
killed: no agent has to be put there.
"""

from __future__ import annotations

import atexit
import json
import os
import shutil
import subprocess
import sys
import time
import zlib
from typing import Any, Callable, ClassVar, Dict, List, Mapping, Optional, Sequence, Set

from . import DIR, Refused, folder, keep, run, text_of

SECONDS = 50.0  # for which a place may work on one question

# What a place is asked. $1 is the folder of a process, which marks all that runs there for it: by
# FY_HELD the process with all that it has started, by FY_HOLDS also the shell that holds it.
COMMON = """
folder=$1
marked() {
    grep -lsxzF "$1=$folder" /proc/[0-9]*/environ | cut -d/ -f3
}
"""
# What comes too late, though it was asked for earlier, doesn't run.
UNLESS_DEAD = """
[ "$2" -gt "$(readlink "$1.dead" || echo 0)" ] || exit 96
enter || exit 97
"""
# The files of a process stand in its folder.
FILES = """
enter() { mkdir -p "$folder" && cd "$folder"; }
files() { "$@"; }
is_there() { [ -d "$folder" ]; }
wipe() { rm -rf "$folder"; }
"""
# The mark of a death is a link, which has room on a full disk. Whether it can be made or not, all
# is killed.
KILL = """
mkdir -p "${folder%/*}" && ln -sfn "$2" "$folder.dead"
is_marked=$?
rounds=0
while runs; do
    signal_all KILL
    rounds=$((rounds + 1))
    [ $rounds -lt 10 ] || kill -KILL $(marked FY_HOLDS) 2> /dev/null
    sleep 0.05
done
[ $is_marked = 0 ] || exit 1
"""
PAUSE = """
signal_all STOP
signal_all STOP  # what the first round saw begin
"""
RESUME = "signal_all CONT\n"
EMPTY = (
    KILL
    + """
wipe || exit 1
[ -z "$3" ] || { rm -f "$folder.dead"; rmdir "${folder%/*}" 2> /dev/null; }
true
"""
)
PUT = UNLESS_DEAD + 'files tar xpf - -C "$folder"\n'
GET = '! is_there || files tar cf - -C "$folder" .\n'
# $2 is what is below the folder. What runs writes on: tar says so by its status 1.
LOOK = """
sync -f "$folder" 2> /dev/null || sync
took='[ ! -e "$1/$2" ] || tar cf - -C "$1" "$2" || [ $? = 1 ]'
! is_there || files sh -c "$took" sh "$folder" "$2"
"""
# $3 is the user or nothing; then comes the command.
START = (
    UNLESS_DEAD
    + """
user=$3
shift 3
"""
)
# A command becomes the user's, to whom the folder goes.
AS_USER = """
[ "$(id -u)" = 0 ] || user=
[ -z "$user" ] || chown "$user:" . || exit 97
[ -z "$user" ] || set -- setpriv --reuid "$user" --regid "$(id -g "$user")" --init-groups "$@"
"""


class Places:
    """Where the processes run: by default in namespaces of their own, where a shell is reached.

    A place needs a POSIX shell, tar, grep, find and util-linux. Where it doesn't allow namespaces,
    what clears its environment and leaves its parents isn't found: neither killed nor paused.
    """

    user = ""  # as whom the processes run, if not as who is reached there
    is_shared = False  # whether the folders there are those that are here
    # What a driver can't do, and why, by the hook's name.
    cannot: ClassVar[Mapping[str, str]] = {}
    # What a driver is: `runs` tells whether anything of a process does, and `signal_all SIGNAL`
    # reaches all of it. `enter` makes its folder, `files COMMAND..` may read and change that,
    # `is_there` tells whether there is one, and `wipe` removes it.
    HEAD: ClassVar[str] = (
        FILES
        + """
held() {  # also what has cleared its environment, in the namespace of one that hasn't
    own=$(readlink /proc/self/ns/pid)
    marked FY_HELD
    for it in $(marked FY_HELD); do readlink "/proc/$it/ns/pid"; done | grep -vxF "$own" \\
        | sort -u | tr '[]' '??' | while read -r space; do
            find /proc/[0-9]*/ns/pid -maxdepth 0 -lname "$space" 2> /dev/null | cut -d/ -f3
        done
}
signal_all() {  # but for the parent of a namespace, which ends with the last process of that
    for it in $(held | sort -u); do
        read -r name 2> /dev/null < "/proc/$it/comm" || continue
        [ "$name" = unshare ] || kill "-$1" "$it" 2> /dev/null
    done
}
runs() { [ -n "$(marked FY_HOLDS)" ]; }
"""
    )
    # Runs a command as a user until it ends, or the input does.
    HOLD: ClassVar[str] = (
        AS_USER
        + """
exec 3<&0 < /dev/null
hold="env FY_HELD=$folder setpriv --pdeathsig KILL setsid"
for proc in --mount-proc ""; do  # by which it finds its own processes, where it may have that
    apart="unshare --pid --fork --kill-child $proc"
    if $apart true 2> /dev/null; then
        hold="$hold $apart"
        break
    fi
done
$hold sh -c '"$@" & wait $!' held "$@" 3<&- &
process=$!
{ read -r it; signal_all KILL; kill -KILL -$process; } <&3 > /dev/null 2>&1 &
exec 3<&-
wait $process
status=$?
kill -KILL $! 2> /dev/null
exit $status
"""
    )
    # Runs a command as a user to its end.
    ONCE: ClassVar[str] = START + AS_USER + '"$@"\n'
    # Prints in one line what a place lacks.
    ABLE: ClassVar[
        str
    ] = """
for it in cut find grep setpriv setsid tar unshare; do
    command -v $it > /dev/null || { echo "there is no $it"; exit; }
done
"""

    def __init__(self, *hosts: str) -> None:
        self.hosts: Sequence[str] = hosts
        self._copies: Set[str] = set()
        self._starting: Optional[int] = None  # the process that this hook is about to start

    def host(self, n: int) -> str:
        """The place of a process."""
        return self.hosts[n]

    def addresses(self) -> List[str]:
        """The address of each place, in their order; none where the tool is to choose."""
        raise NotImplementedError

    def reached(self, n: int, words: Sequence[str]) -> List[str]:
        """The local command that has the place of a process run a command."""
        raise NotImplementedError

    def head(self, n: int) -> str:
        """What each script of a process begins with."""
        return self.HEAD

    # Hooks.

    def hooks(self, given: Mapping[str, Callable[..., Any]]) -> Dict[str, Callable[..., Any]]:
        """The hooks of a store that runs there; those of its own stay."""
        made = {**self.own(), **given}

        def setup() -> None:
            self.begin()
            if "setup" in given:
                given["setup"]()

        def start(n: int) -> List[str]:
            self._starting = n
            return self.start(n, given["start"](n))

        made["setup"], made["start"] = setup, start
        return made

    def own(self) -> Dict[str, Callable[..., Any]]:
        """The hooks that this driver is."""
        return {name: getattr(self, name) for name in "kill empty pause resume fetch".split()}

    def begin(self) -> None:
        """Looks whether each place can do what it will be asked; a fault says what it can't."""
        from concurrent.futures import ThreadPoolExecutor  # which no other hook needs

        each = {self.host(n): n for n in range(len(self.hosts))}
        with ThreadPoolExecutor(len(each) or 1) as pool:
            for host, told in zip(each, pool.map(lambda n: self.ask(n, self.ABLE), each.values())):
                if lack := told.decode().strip():
                    raise Refused(f"{host}: {lack}")

    def words(self, n: int, script: str, *words: object) -> List[str]:
        """The local command that has a place run a script."""
        own = ["FY_HOLDS", "FY_HELD"]
        marks = {START: own[:1], PUT: own, self.ONCE: own}.get(script, [])
        env = [f"{mark}={folder(n)}" for mark in marks]
        text = COMMON + self.head(n) + script + (self.HOLD if script == START else "")
        return self.reached(n, ["env", *env, "sh", "-c", text, "sh", folder(n), *map(str, words)])

    def ask(self, n: int, script: str, *words: object, **more: Any) -> bytes:
        """What a script prints at a place; a fault where it fails, or can't be run."""
        more = more or {"stdin": subprocess.DEVNULL}
        command, pipe = self.words(n, script, *words), subprocess.PIPE
        try:
            ran = subprocess.run(
                command, stdout=pipe, stderr=pipe, timeout=SECONDS, check=False, **more
            )
        except subprocess.TimeoutExpired:
            raise Refused(f"{self.host(n)} took over {SECONDS:g} seconds") from None
        said = ran.stderr.decode(errors="replace")
        sys.stderr.write(said)
        if ran.returncode:
            last = "".join(said.splitlines()[-1:])
            why = last or f"{command[0]} ended with status {ran.returncode}"
            raise Refused(f"{self.host(n)}: {why}")
        return bytes(ran.stdout)

    def start(self, n: int, command: Sequence[object]) -> List[str]:
        """The local command that holds a process at its place."""
        began = time.monotonic_ns()
        self._put(n, began)
        self.hold_input()
        return self.words(n, START, began, self.user, *command)

    def run(self, n: int, *words: object) -> str:
        """What a command prints that runs at the place of a process.

        It ends with what is killed there. In `start` it finds what that has written here.
        """
        began = time.monotonic_ns()
        if n == self._starting:
            self._put(n, began)
        return self.ask(n, self.ONCE, began, self.user, *words).decode()

    def hold_input(self) -> None:
        """Gives this process an input that says nothing, and ends only with whoever has it."""
        path = f"{DIR}/.input{os.getpid()}"
        os.mkfifo(path)
        held = os.open(path, os.O_RDWR)
        os.unlink(path)
        os.dup2(held, 0)

    def kill(self, n: int) -> None:
        """Kills a process, with all that it has started; returns once nothing of it runs."""
        self.ask(n, KILL, time.monotonic_ns())

    def empty(self, n: int) -> None:
        """Kills it, and removes its files."""
        self.ask(n, EMPTY, time.monotonic_ns(), os.environ.get("FY_END", ""))
        keep(self._put_before(n), "{}")

    def pause(self, n: int) -> None:
        self.ask(n, PAUSE)

    def resume(self, n: int) -> None:
        self.ask(n, RESUME)

    def fetch(self, n: int) -> None:
        """Copies its files from there over those that are here."""
        if self.is_shared:
            return
        files = self.ask(n, GET)
        run("find", folder(n), "-mindepth", "1", "-delete")
        if files:
            subprocess.run(["tar", "xpf", "-", "-C", folder(n)], input=files, check=True)
        keep(self._put_before(n), json.dumps(stamps(folder(n))))

    def fetched(self, n: int, *below: str) -> str:
        """What stands below its folder there, as a copy beside its folder here.

        It is synced there first. A hook that runs on has one copy of each process.
        """
        if self.is_shared:
            return folder(n, *below)
        copy = f"{DIR}/.seen{n}-{os.getpid()}"
        files = self.ask(n, LOOK, os.path.join(".", *below))
        if copy not in self._copies:
            atexit.register(shutil.rmtree, copy, ignore_errors=True)
            self._copies.add(copy)
        shutil.rmtree(copy, ignore_errors=True)
        os.makedirs(copy)
        if files:
            subprocess.run(["tar", "xf", "-", "-C", copy], input=files, check=True)
        return os.path.join(copy, *below)

    # What hooks wrote here.

    def _put_before(self, n: int) -> str:
        return f"{DIR}/.put{n}"

    def _put(self, n: int, began: int) -> None:
        """Copies to the place what hooks have written here since it was copied last."""
        if self.is_shared:
            return
        before, now = json.loads(text_of(self._put_before(n)) or "{}"), stamps(folder(n))
        changed = [path for path, stamp in now.items() if before.get(path) != stamp]
        if not changed:
            return
        listed = "".join(f"{path}\0" for path in changed)
        words = ["tar", "cpf", "-", "-C", folder(n), "--no-recursion", "--null", "-T", "-"]
        files = subprocess.run(words, input=listed.encode(), stdout=subprocess.PIPE, check=True)
        self.ask(n, PUT, began, input=files.stdout)
        keep(self._put_before(n), json.dumps(now))


def name_of(n: int) -> str:
    """A name for a process at its place, which no other run has."""
    return f"faultyard-{zlib.crc32(DIR.encode()):08x}-{n}"


def stamps(place: str) -> Dict[str, List[int]]:
    """When each file and folder below a folder was changed last, and how long it is."""
    found = {}
    for above, folders, names in os.walk(place):
        for name in [*folders, *names]:
            path = os.path.join(above, name)
            told = os.lstat(path)
            size = told.st_size if name in names else 0
            when = told.st_mtime_ns if name in names else 0
            found[os.path.relpath(path, place)] = [when, size]
    return found
