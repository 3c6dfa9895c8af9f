"""Processes that are units of systemd, here or on hosts by ssh."""

from __future__ import annotations

import os
from typing import List

from .places import FILES, START, name_of
from .ssh import Ssh

# `scope` is of a user's own systemd where it isn't root who is reached.
HEAD = """
scope=
if [ "$(id -u)" != 0 ]; then
    scope=--user
    export XDG_RUNTIME_DIR="${XDG_RUNTIME_DIR:-/run/user/$(id -u)}"
fi
state() { systemctl $scope show --property ActiveState --value "$unit"; }
runs() {
    [ -n "$(marked FY_HOLDS)" ] || case $(state) in inactive | failed) false ;; esac
}
signal_all() { systemctl $scope kill --signal "$1" "$unit" 2> /dev/null || true; }
"""
WIPE_HERE = """
wipe() { find "$folder" -mindepth 1 -delete; }
"""
OWN = "--quiet --collect --pipe --wait --"
# The shell stands outside of the unit: no pause of that stops it, and it ends what the unit runs.
HOLD = """
[ -z "$scope" ] || user=
[ -z "$user" ] || chown "$user:" . || exit 97
exec 3<&0 < /dev/null
systemd-run $scope --unit "$unit" --description "$unit" --working-directory "$folder" \\
    --property KillSignal=SIGKILL ${user:+--uid "$user"} $own "$@" 3<&- &
process=$!
{ read -r it; while kill -0 $process; do signal_all KILL; sleep 0.05; done; } <&3 > /dev/null 2>&1 &
exec 3<&-
wait $process
status=$?
kill -KILL $! 2> /dev/null
exit $status
"""
ABLE = """
for it in systemd-run systemctl tar; do
    command -v $it > /dev/null || { echo "there is no $it"; exit; }
done
said=$(systemctl $scope show --property Version 2>&1) || echo "there is no systemd: $said"
"""


class Units(Ssh):
    """Transient units of systemd: `here`, or on hosts as ssh names them.

    Where it isn't root who is reached, the units are that user's, who needs a systemd that runs.
    """

    cannot = {
        "power": "a unit has no power that could be cut",
        "cut": "a unit has the network of its host, which isn't cut",
    }
    HEAD, HOLD, ABLE = FILES + HEAD, HOLD, ABLE

    def __init__(self, *hosts: str, command: str = "ssh") -> None:
        super().__init__(*hosts, command=command)
        self.is_shared = self.is_here

    @classmethod
    def of(cls, text: str) -> Units:
        """`units:here`, `units:h0,h1,..`, or with words of ssh's `units -F FILE:h0,h1,..`."""
        words, _, hosts = text.rpartition(":")
        return cls(*hosts.split(","), command=words.replace("units", "ssh", 1))

    def head(self, n: int) -> str:
        here = WIPE_HERE if self.is_shared else ""
        return f"unit={name_of(n)}.service own='{OWN}'\n{self.HEAD}{here}"

    def words(self, n: int, script: str, *words: object) -> List[str]:
        """Here the shell that holds a unit is one too, as it would else end before the unit."""
        if script != START:
            return super().words(n, script, *words)
        began, user, *command = words
        told = super().words(n, script, began, user, *map(escaped, command))
        if not self.is_here:
            return told
        scope = [] if os.geteuid() == 0 else ["--user"]
        own = ["--description", f"holds {name_of(n)}", *OWN.split()]
        return ["systemd-run", *scope, *own, *map(escaped, told)]

    def hold_input(self) -> None:
        """What systemd-run gets as its input goes to the unit: so it holds the other end too."""
        if not self.is_here:
            return super().hold_input()
        read, write = os.pipe()
        os.dup2(read, 0)
        os.set_inheritable(write, True)


def escaped(word: object) -> str:
    """A word of a unit's command, in which systemd would look for variables."""
    return str(word).replace("$", "$$")
