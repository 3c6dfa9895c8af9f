"""Asks the machine of a test, which is no child of the tool, for a deed: `rsh.py SOCKET WORD..`."""
import json
import os
import socket
import sys

with socket.socket(socket.AF_UNIX) as link:
    link.connect(sys.argv[1])
    env = {name: it for name, it in os.environ.items() if name.startswith(("FY_", "STORE_"))}
    link.sendall(json.dumps([sys.argv[2:], env]).encode() + b"\n")
    sys.exit(int(link.makefile().readline() or 255))
