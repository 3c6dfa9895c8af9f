"""What a guard tells of its cluster: the places of its processes, and its actors."""

from __future__ import annotations

import tempfile
from dataclasses import dataclass
from typing import Any, FrozenSet, Mapping, Tuple

from .enums import Key, Kind, Role
from .errors import ConfigRefused, NotFound
from .programs import StrPath


@dataclass(frozen=True)
class Actor:
    """One that makes acts. Its number is its place in the cluster file."""

    role: Role
    kinds: FrozenSet[Kind]
    """The kinds that its grants name, of whatever scope."""


@dataclass(frozen=True)
class ClusterFile:
    """The processes and the actors of a cluster file, both numbered from 0."""

    places: Tuple[Mapping[Key, str], ...]
    """Where each process stands: its name by `Key.PROCESS`, its zone by `Key.ZONE`."""
    actors: Tuple[Actor, ...]

    @classmethod
    def read(cls, config: StrPath) -> ClusterFile:
        """Has a guard read a cluster file: the program, or where there is none the library."""
        from .guard import Guard  # which answers this class

        try:
            guard = Guard(config)
        except NotFound as no_program:
            try:
                guard = Guard(config, transport="library")
            except NotFound:
                raise no_program from None
        with guard:
            return guard.cluster()

    @classmethod
    def parse(cls, text: bytes) -> ClusterFile:
        """Reads the text of a cluster file, as `read` reads its file."""
        with tempfile.NamedTemporaryFile(prefix="faultyard-") as file:
            file.write(text)
            file.flush()
            return cls.read(file.name)

    @classmethod
    def of(cls, told: Mapping[str, Any]) -> ClusterFile:
        """What a guard tells to the question `cluster`."""
        places = [{key: name for key in Key if (name := it[key.value])} for it in told["process"]]
        actors = [Actor(Role(it["role"]), _kinds(it["grants"])) for it in told["actor"]]
        return cls(tuple(places), tuple(actors))

    def actor(self, role: Role) -> int:
        """The number of the first actor with a role; `ConfigRefused` if there is none."""
        for number, actor in enumerate(self.actors):
            if actor.role is role:
                return number
        raise ConfigRefused(f"the cluster file has no actor with the role {role.value}")

    def having(self, key: Key, value: str) -> FrozenSet[int]:
        """The processes whose key has the value, whatever became of them."""
        numbered = enumerate(self.places)
        return frozenset(process for process, place in numbered if place.get(key) == value)


def _kinds(grants: Any) -> FrozenSet[Kind]:
    return frozenset(Kind(kind) for grant in grants for kind in grant["kinds"])
