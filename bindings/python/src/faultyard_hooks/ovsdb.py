"""The protocol of OVSDB: JSON-RPC, and transactions whose operations may fail one by one."""

from __future__ import annotations

import json
from typing import Any

from . import Refused
from .jsonrpc import JsonRpc


class Ovsdb(JsonRpc):
    """`ask("db", {"op": ..}, ..)` is a transaction, and answers for each operation."""

    def _asked(self, *words: Any) -> Any:
        told = super()._asked("transact", *words)
        for it in told:
            if it and "error" in it:
                raise Refused(json.dumps(it)[:200])
        return told
