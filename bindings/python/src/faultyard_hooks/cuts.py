"""Networks that are cut on hosts by nftables, each for as long as that is renewed.

A cut is an element of a set, which times out, in a table of the run's own. A process that `setup`
leaves renews it, and ends with the tool. Then the elements go, and with the last of them the table.
"""

from __future__ import annotations

import fcntl
import os
import sys
import threading
import time
import zlib
from contextlib import contextmanager
from typing import Any, Iterator, Set

from . import DIR

LEASE = 10  # seconds after which a cut is over that isn't renewed
BEAT = 2.5  # seconds between two renewals
# Where each process is reached, in `setup` too, which leaves the process that renews.
HOSTS = os.environ.get("FY_HOSTS", "").split()

# $2 is the table, $3 the lease, $4 the port of sshd, which stays reachable; then come the hosts
# of which nothing is heard any more.
CUT = """
table=$2 lease=$3 port=$4
shift 4
four= six=
for name in "$@"; do
    for at in $(getent ahosts "$name" | cut -d' ' -f1 | sort -u); do
        case $at in
            *:*) six="$six $at timeout ${lease}s," ;;
            *) four="$four $at timeout ${lease}s," ;;
        esac
    done
done
[ -n "$four$six" ] || exit 1
new=
nft list table inet "$table" > /dev/null 2>&1 || new=yes
nft -f - << END || exit 1
add table inet $table
delete table inet $table
table inet $table {
    set four { type ipv4_addr; flags timeout; ${four:+elements = { $four \\}} }
    set six { type ipv6_addr; flags timeout; ${six:+elements = { $six \\}} }
    chain input {
        type filter hook input priority -150; policy accept;
        tcp dport $port accept
        tcp sport $port accept
        ip saddr @four drop
        ip6 saddr @six drop
    }
}
END
[ -z "$new" ] || setsid sh -c '
    while nft list table inet "$1" | grep -q expires; do sleep 1; done
    nft delete table inet "$1"' reaper "$table" < /dev/null > /dev/null 2>&1 &
"""
MEND = 'nft "add table inet $2; delete table inet $2"'


class Cuts:
    """What some hosts don't hear of others, by a driver that asks them."""

    def __init__(self, driver: Any, ports: Any) -> None:
        """`ports` tells the port of a host's sshd."""
        self._driver, self._port = driver, ports
        self._table = f"faultyard_{zlib.crc32(DIR.encode()):08x}"

    def cut(self, a: int, b: int) -> None:
        """What a sends is lost at b."""
        with self._senders(b) as senders:
            senders.add(a)
            self._lose(b, senders)

    def mend(self) -> None:
        """All hear each other again. One that hangs keeps none of the others waiting."""
        from concurrent.futures import ThreadPoolExecutor  # which no other hook of these needs

        with ThreadPoolExecutor(len(HOSTS)) as pool:
            list(pool.map(self._mend_one, range(len(HOSTS))))

    def _mend_one(self, n: int) -> None:
        with self._senders(n) as senders:
            senders.clear()
            self._driver.ask(n, MEND, self._table)

    def begin(self) -> None:
        """Leaves a process that renews the cuts for as long as its keeper lives."""
        caller = os.getpid()
        if os.fork():
            return
        while os.getppid() == caller:
            time.sleep(0.02)
        keeper = os.getppid()
        for n in range(len(HOSTS)):  # one that hangs keeps none of the others waiting
            threading.Thread(target=self._renew, args=(n,), daemon=True).start()
        while os.getppid() == keeper:
            time.sleep(0.2)
        os._exit(0)

    def _renew(self, n: int) -> None:
        while True:
            try:
                with self._senders(n) as senders:
                    if senders:
                        self._lose(n, senders)
            except OSError as fault:
                print(f"a cut is not renewed: {fault}", file=sys.stderr)
            time.sleep(BEAT)

    def _lose(self, n: int, senders: Set[int]) -> None:
        hosts = [HOSTS[sender] for sender in sorted(senders)]
        self._driver.ask(n, CUT, self._table, LEASE, self._port(n), *hosts)

    @contextmanager
    def _senders(self, n: int) -> Iterator[Set[int]]:
        """Whom host n doesn't hear, held against other hooks, and kept unless the block fails."""
        with open(f"{DIR}/.cut{n}", "a+", encoding="utf-8") as file:
            fcntl.flock(file, fcntl.LOCK_EX)
            file.seek(0)
            senders = {int(word) for word in file.read().split()}
            yield senders
            file.truncate(0)
            file.write(" ".join(map(str, sorted(senders))))
