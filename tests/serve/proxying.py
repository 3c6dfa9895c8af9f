"""An nginx before a server, as Debian has it."""

from __future__ import annotations

import subprocess
import time
from pathlib import Path
from unittest import SkipTest

from common_serve import ROOT, Case, free_port, run

# What operators write, and what nginx does if they write nothing more: Host is that of proxy_pass.
PLAIN = ""
KEPT = "proxy_http_version 1.1; proxy_set_header Host $http_host;"
TOLD = "proxy_http_version 1.1; proxy_set_header X-Forwarded-For $proxy_add_x_forwarded_for;"
CONFIG = """daemon off; master_process off; pid {folder}/pid; error_log {folder}/log;
events {{}}
http {{
  access_log off;
  client_body_temp_path {folder}/body; proxy_temp_path {folder}/proxy;
  fastcgi_temp_path {folder}/a; uwsgi_temp_path {folder}/b; scgi_temp_path {folder}/c;
  server {{
    listen 127.0.0.1:{port};
    location {path} {{ proxy_pass http://{address}/; {more} }}
  }}
}}
"""


def nginx(case: Case, address: str, more: str = PLAIN, path: str = "/") -> str:
    """An nginx before an address; its own. It ends with the test."""
    lacks = run(ROOT / "tests/tools/needs", "the server behind nginx", "nginx")
    if lacks.returncode == 1:
        raise SkipTest(lacks.stdout.strip())
    lacks.check_returncode()
    port = free_port()
    folder = case.folder / f"nginx-{port}"
    folder.mkdir()
    words = dict(folder=folder, port=port, address=address, more=more, path=path)
    Path(folder, "conf").write_text(CONFIG.format(**words))
    process = subprocess.Popen(["nginx", "-c", str(folder / "conf"), "-e", str(folder / "log")])
    case.addCleanup(process.wait)
    case.addCleanup(process.kill)
    while not Path(folder, "pid").exists():
        if process.poll() is not None:
            raise AssertionError(Path(folder, "log").read_text())
        time.sleep(0.01)
    return f"127.0.0.1:{port}"
