"""How long each part of a run took, so that one says why it lasted longer than its writes."""
from . import clock

READY, WRITING = "until all were ready", "of writing"
LEAST = 10.0  # seconds by which a run may last longer than --seconds, or a fifth of these
TOLD = 1.0  # seconds of a part that is told


class Stages:
    """The parts of a run, one behind the other."""

    def __init__(self) -> None:
        self._last = clock()
        self.took: dict[str, float] = {}

    def end(self, name: str) -> None:
        """A part ends here; one that there was before goes on."""
        now = clock()
        self.took[name] = self.took.get(name, 0.0) + now - self._last
        self._last = now

    def is_long(self, seconds: float) -> bool:
        """Whether a run lasted longer than it may, from when all were ready."""
        ready = self.took.get(READY, 0.0)
        return sum(self.took.values()) - ready > allowed(seconds)

    def told(self, seconds: float) -> list[str]:
        """Where the time went, if a run lasted longer than it may."""
        if (whole := sum(self.took.values())) <= allowed(seconds):
            return []
        parts = [f"{it:.1f} s {name}" for name, it in self.took.items() if it >= TOLD]
        return [f"it took {whole:.1f} s, and --seconds is {seconds:g}: {', '.join(parts)}"]


def allowed(seconds: float) -> float:
    """How long a run may last that writes for so many seconds."""
    return seconds + max(LEAST, seconds / 5)
