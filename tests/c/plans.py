#!/usr/bin/env python3
"""Compares the words, the plans and the orders of the library with those of tests/swarm/run and
tests/simulate/run, which draw them by a ChaCha of their own.

    plans.py LIBRARY CONFIG..

Of each cluster file, for 40 seeds and each of its actors: the words, and the plan that a swarm
gives to a fault actor. tests/swarm compares the same plans with the audits of swarms, and
tests/simulate the same orders, of each plan of `simulate`, with those of simulations.
"""
import ctypes as c
import importlib.util
import sys
import tomllib
from importlib.machinery import SourceFileLoader
from itertools import islice
from pathlib import Path

SEEDS = [*range(38), 2**63, 2**64 - 1]
VALUE_BYTES, MOST_ORDERS, TURNS = 33, 2048, 100
NONE, KILL, CLOG, UNCLOG = range(4)
KEYS = ["", "processid", "machineid", "zoneid", "data_hall", "dcid"]
KINDS = ["", "RebootProcess", "Reboot", "RebootAndDelete", "KillInstantly"]


def suite(name):
    """A suite as a module."""
    path = Path(__file__).resolve().parents[1] / name / "run"
    module = importlib.util.module_from_spec(
        importlib.util.spec_from_loader(name, SourceFileLoader(name, str(path)))
    )
    sys.modules[name] = module
    module.__spec__.loader.exec_module(module)
    return module


swarm, simulate = suite("swarm"), suite("simulate")


class Guard(c.Structure):
    _fields_ = [("at", c.c_void_p)]


class Order(c.Structure):
    _fields_ = [
        ("ticks", c.c_uint64),
        ("tear", c.c_uint64),
        ("act", c.c_uint32),
        ("key", c.c_uint32),
        ("kind", c.c_uint32),
        ("floor", c.c_uint32),
        ("value", c.c_char * VALUE_BYTES),
    ]


library = c.CDLL(sys.argv[1])
at, orders, size = c.POINTER(Guard), c.POINTER(Order), c.c_size_t
SHAPES = {
    "fy_open": [c.c_char_p, size, at],
    "fy_words": [c.c_uint64, c.c_uint64, c.POINTER(c.c_uint32), size],
    "fy_swizzle_plan": [at, c.c_uint64, c.c_uint64, c.c_uint64, orders, size, c.POINTER(size)],
    "fy_attrition_plan": [
        at,
        c.c_uint64,
        c.c_uint64,
        c.c_uint32,
        c.c_uint32,
        c.c_uint32,
        c.c_uint32,
        c.c_uint64,
        orders,
        size,
        c.POINTER(size),
    ],
    "fy_plan_orders": [at, c.c_uint32, c.c_uint64, c.c_uint32, orders, size],
}
for name, arguments in SHAPES.items():
    getattr(library, name).restype = c.c_uint32
    getattr(library, name).argtypes = arguments
library.fy_close.restype, library.fy_close.argtypes = None, [Guard]


def act_of(order):
    """The act of an order, as a line of a script has it."""
    if order.act == NONE:
        assert not any((order.ticks, order.tear, order.key, order.kind, order.floor, order.value))
        return simulate.TICK
    target = {"key": KEYS[order.key], "value": order.value.decode()}
    if order.act == KILL:
        return {
            "kill": {
                **target,
                "kind": KINDS[order.kind],
                "floor": KINDS[order.floor],
                "tear": order.tear,
            }
        }
    assert (order.kind, order.floor, order.tear) == (0, 0, 0)
    if order.act == CLOG:
        return {"clog": {**target, "ticks": order.ticks}}
    assert (order.act, order.ticks) == (UNCLOG, 0)
    return {"unclog": target}


room, told, compared = (Order * MOST_ORDERS)(), size(), 0
for path in sys.argv[2:]:
    text = Path(path).read_bytes()
    config = tomllib.loads(text.decode())
    guard = Guard()
    assert library.fy_open(text, len(text), c.byref(guard)) == 0
    processes, roles = config["process"], [actor["role"] for actor in config["actor"]]
    count = 2 * len(processes)
    for seed in SEEDS:
        for actor, role in enumerate(roles):
            drawn = (c.c_uint32 * count)()
            assert library.fy_words(seed, actor, drawn, count) == 0
            wanted = swarm.words(seed, actor, count)
            assert list(drawn) == wanted, (path, seed, actor)
            if role != "fault":
                continue
            if roles[:actor].count("fault") % 2 == 0:
                assert library.fy_swizzle_plan(guard, seed, actor, 10, room, MOST_ORDERS, told) == 0
                acts = swarm.swizzle(wanted, processes)
            else:
                assert (
                    library.fy_attrition_plan(
                        guard, seed, actor, 2, 1, 4, 2, 0, room, MOST_ORDERS, told
                    )
                    == 0
                )
                acts = swarm.attrition(wanted, processes)
            assert [act_of(order) for order in room[: told.value]] == acts, (path, seed, actor)
            compared += 1
            for number, plan in enumerate(simulate.PLANS, 1):
                assert library.fy_plan_orders(guard, number, seed, actor, room, TURNS) == 0
                wanted = [*islice(simulate.strikes(config, plan, seed, actor), TURNS)]
                assert [act_of(order) for order in room[:TURNS]] == wanted, (
                    path,
                    seed,
                    actor,
                    plan,
                )
                compared += 1
    library.fy_close(guard)
assert compared > 100
print(f"plans.py: {compared} plans")
