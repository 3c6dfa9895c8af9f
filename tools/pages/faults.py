"""What each fault of faultyard-nemesis may take, as docs/GUARD.md has it."""

from __future__ import annotations

import sys

import tables
from source import ROOT


def made() -> str:
    for place in ("tools", "bindings/python/src"):
        if str(ROOT / place) not in sys.path:
            sys.path.append(str(ROOT / place))
    from nemesis import risks

    heads = "Fault", "How it is ordered", "It may take", "The guard"
    return tables.table(heads, risks.table())
