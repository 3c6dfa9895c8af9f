"""Processes in pods of a Kubernetes cluster that kubectl reaches."""

from __future__ import annotations

import shlex
import subprocess
from typing import List, Sequence

from .places import Places


class Pods(Places):
    """Pods of yours, which run while the test does, each with a process that `kubectl exec` runs.

    It is this process that is killed, not the pod. `command` is kubectl, with words of yours.
    """

    cannot = {
        "power": "kubectl can't cut the power of a node",
        "cut": "kubectl can't cut the network of a pod",
    }

    def __init__(self, *pods: str, command: str = "kubectl") -> None:
        super().__init__(*pods)
        self.command = shlex.split(command)

    @classmethod
    def of(cls, text: str) -> Pods:
        """`pods:p0,p1,..`, or with words of kubectl's `pods -n STORES:p0,p1,..`."""
        words, _, pods = text.rpartition(":")
        return cls(*pods.split(","), command=words.replace("pods", "kubectl", 1))

    def addresses(self) -> List[str]:
        """The address of each pod."""
        return [self._address(pod) for pod in self.hosts]

    def _address(self, pod: str) -> str:
        words = [*self.command, "get", "pod", pod, "-o", "jsonpath={.status.podIP}"]
        told = subprocess.run(words, stdout=subprocess.PIPE, text=True, check=True).stdout
        if not told.strip():
            raise OSError(f"pod {pod} has no address: does it run?")
        return told.strip()

    def reached(self, n: int, words: Sequence[str]) -> List[str]:
        return [*self.command, "exec", "-i", self.hosts[n], "--", *words]
