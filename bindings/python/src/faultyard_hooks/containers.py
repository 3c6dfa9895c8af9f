"""Processes that are containers of podman or docker, here or on hosts by ssh."""

from __future__ import annotations

import shlex

from .places import START, name_of
from .ssh import HERE, Ssh

# The files of a container are a volume of the engine, at the folder's path.
HEAD = """
cd /  # the engine may run as one who may not be where the hook is
exists() { [ -n "$(engine ps --all --quiet --filter "name=^$name\\$")" ]; }
runs() { [ -n "$(marked FY_HOLDS)" ] || exists; }
signal_all() {
    exists || return 0
    if [ "$1" = KILL ]; then
        engine kill "$name" > /dev/null 2>&1
        engine rm --force "$name" > /dev/null 2>&1
    else
        engine exec "$name" sh -c "$signal" sh "$1"
    fi
}
enter() { true; }
run() { engine run --rm --label faultyard-nemesis "$@"; }
files() {
    run --interactive --network none --user 0 --volume "$name:$folder" \\
        --entrypoint sh "$image" -c '"$@"' sh "$@"
}
is_there() { engine volume inspect "$name" > /dev/null 2>&1; }
wipe() { ! is_there || engine volume rm "$name" > /dev/null; }
"""
# What a container runs: process 1 runs the command, and process 2 ends all with the input.
WITHIN = """
exec 3<&0 < /dev/null
{ read -r it; kill -KILL -1; } <&3 > /dev/null 2>&1 &
exec 3<&-
"$@" &
wait $!
"""
# In a container all but these two and the one that asks gets a signal.
SIGNAL = """
for it in /proc/[0-9]*; do
    it=${it#/proc/}
    [ "$it" -le 2 ] || [ "$it" = $$ ] || kill "-$1" "$it" 2> /dev/null
done
true
"""
HOLD = """
engine rm --force "$name" > /dev/null 2>&1
[ -z "$user" ] || files chown "$user:" "$folder" || exit 97
run --interactive --name "$name" --network host --user "${user:-0}" \\
    --volume "$name:$folder" --workdir "$folder" --entrypoint sh $options "$image" \\
    -c "$within" sh "$@"
"""
# A command runs within the container, or where that doesn't run in one of its own.
ONCE = (
    START
    + """
if [ -n "$(engine ps --quiet --filter "name=^$name\\$")" ]; then
    engine exec --interactive --workdir "$folder" "$name" "$@"
else
    [ -z "$user" ] || files chown "$user:" "$folder" || exit 97
    run --interactive --network host --user "${user:-0}" --volume "$name:$folder" \\
        --workdir "$folder" --entrypoint sh $options "$image" -c '"$@"' sh "$@"
fi
"""
)
# Where podman was killed with a tool, its containers end, and stay in its list as if they ran. A
# run removes those of runs before it; their volumes stay, by which such a run may be resumed.
ABLE = """
run --network none --user 0 --entrypoint sh "$image" -c 'command -v tar > /dev/null' \\
    > /dev/null || echo "no container of $image runs sh, or it has no tar"
for it in $(engine ps --all --quiet --filter label=faultyard-nemesis); do
    [ -d "/proc/$(engine inspect --format '{{.State.Pid}}' "$it")" ] \\
        || engine exec "$it" sh -c : || engine rm --force "$it"
done > /dev/null 2>&1
"""


class Containers(Ssh):
    """Containers of an image: `here`, or on hosts as ssh names them.

    `engine` is podman or docker, with words of yours, and `options` are more words for its `run`.
    The image needs sh and tar. A container has the network of its host.
    """

    cannot = {
        "power": "a container has no power that could be cut",
        "cut": "a container has the network of its host, which isn't cut",
    }
    HEAD, HOLD, ONCE, ABLE = HEAD, HOLD, ONCE, ABLE

    def __init__(
        self,
        image: str,
        *hosts: str,
        engine: str = "podman",
        options: str = "",
        command: str = "ssh",
    ) -> None:
        super().__init__(*(hosts or [HERE]), command=command)
        self.image, self.engine, self.options = image, engine, options

    @classmethod
    def of(cls, text: str) -> Containers:
        """`containers:IMAGE`, `containers docker:IMAGE`, and behind a blank hosts `h0,h1,..`."""
        words, _, rest = text.partition(":")
        image, _, hosts = rest.partition(" ")
        engine = words.partition(" ")[2] or "podman"
        return cls(image, *filter(None, hosts.split(",")), engine=engine)

    def head(self, n: int) -> str:
        said = {"name": name_of(n), "image": self.image, "options": self.options}
        said |= {"within": WITHIN, "signal": SIGNAL}
        lines = [f"{name}={shlex.quote(text)}\n" for name, text in said.items()]
        return f"engine() {{ {self.engine} \"$@\"; }}\n{''.join(lines)}{self.HEAD}"
