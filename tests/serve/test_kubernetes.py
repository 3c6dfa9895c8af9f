"""docs/KUBERNETES.md: its commands run with a kubectl of the test, and its manifest is read. There
is no cluster."""

from __future__ import annotations

import http.client
import json
import os
import re
import ssl
import subprocess

from common_serve import PATIENCE, PROGRAM, ROOT, Case, certificate, run

PAGE = (ROOT / "docs/KUBERNETES.md").read_text()
MANIFEST = ROOT / "examples/kubernetes/serve.yaml"
# Three pods on three nodes of two zones. What is deleted or waited for is written down.
KUBECTL = """#!/bin/sh
case "$1 $2" in
"get node") case $3 in n2) printf east ;; *) printf west ;; esac ;;
"get pods") printf 'store-0 n0\\nstore-1 n1\\nstore-2 n2\\n' ;;
*) echo "$*" >> "$KUBECTL_LOG" ;;
esac
"""
# What has the store forget a pod, before it is deleted.
RENEW = """#!/bin/sh
echo "renew $*" >> "$KUBECTL_LOG"
"""


class Kubernetes(Case):
    def test_its_commands_make_a_cluster_file_and_ask_before_a_pod_is_deleted(self) -> None:
        make, ask = re.findall(r"^```sh\n(.*?)^```$", PAGE, re.M | re.S)
        bin = self.folder / "bin"
        bin.mkdir()
        for name, text in (("kubectl", KUBECTL), ("renew", RENEW)):
            (bin / name).write_text(text)
            (bin / name).chmod(0o755)
        log = self.folder / "log"
        env = {**os.environ, "PATH": f"{bin}:{os.environ['PATH']}", "KUBECTL_LOG": str(log)}
        made = run("sh", "-eu", input=make, env=env)
        self.assertEqual((made.returncode, made.stderr), (0, ""))
        tokens = self.folder / "tokens"
        tokens.touch(0o600)
        tokens.write_text("zero-zero-zero-zero 0\none-one-one-one-one-one 1\n")
        server = self.server("--tokens", str(tokens), config=made.stdout).start()
        env |= {"GUARD": f"http://{server.address}", "FAULT_TOKEN": "one-one-one-one-one-one"}
        env |= {"STORAGE_TOKEN": "zero-zero-zero-zero"}
        for number, job in enumerate(("a", "b")):
            more = {"POD": f"store-{2 * number}", "JOB": job}
            ran = run("sh", "-eu", input=ask, env=env | more)
            self.assertEqual((ran.returncode, ran.stderr), (0, ""), ran.stdout)
        # The second may not lose its data: it would be the last copy.
        gone = "--grace-period=0 --force"
        ready = "wait --for=condition=Ready pod/store-{} --timeout=10m"
        self.assertEqual(
            log.read_text().splitlines(),
            ["renew store-0", "delete pvc data-store-0 --wait=false", f"delete pod store-0 {gone}"]
            + [ready.format(0), f"delete pod store-2 {gone}", ready.format(2)],
        )
        self.assertEqual(server.check(), "legal 4")

    def test_the_server_starts_as_its_manifest_says(self) -> None:
        program = (
            "import json, sys, yaml; json.dump(list(yaml.safe_load_all(sys.stdin)), sys.stdout)"
        )
        words = [ROOT / "tests/tools/needs", "the manifest for Kubernetes", "python3-yaml"]
        if subprocess.run(words).returncode:
            self.skipTest("SKIPPED the manifest for Kubernetes: there is no python3-yaml")
        parsed = run("/usr/bin/python3", "-c", program, input=MANIFEST.read_text())
        self.assertEqual(parsed.returncode, 0, parsed.stderr)
        claim, deployment, service = json.loads(parsed.stdout)
        pod = deployment["spec"]["template"]
        labels = pod["metadata"]["labels"]
        self.assertEqual(deployment["spec"]["selector"]["matchLabels"], labels)
        self.assertEqual(service["spec"]["selector"], labels)
        (container,) = pod["spec"]["containers"]
        mounts = {it["name"]: it["mountPath"] for it in container["volumeMounts"]}
        volumes = {it["name"]: it for it in pod["spec"]["volumes"]}
        self.assertEqual(set(mounts), set(volumes))
        self.assertEqual(
            volumes["audit"]["persistentVolumeClaim"]["claimName"], claim["metadata"]["name"]
        )
        for name in ("tokens", "tls"):
            self.assertEqual(volumes[name]["secret"]["defaultMode"], 0o400)
        # Each path of its words lies below a mount: so it does here.
        places = {path: self.folder / name for name, path in mounts.items()}
        for place in places.values():
            place.mkdir()
        cert, key = certificate(self.folder)
        os.rename(cert, places["/etc/faultyard-tls"] / "tls.crt")
        os.rename(key, places["/etc/faultyard-tls"] / "tls.key")
        tokens = places["/etc/faultyard-tokens"] / "tokens"
        tokens.write_text("zero-zero-zero-zero 0\n")
        tokens.chmod(0o400)
        server = self.server(http=False)
        os.rename(server.config, places["/etc/faultyard"] / "cluster.toml")
        words = [re.sub(r"(/[a-z/-]+)(?=/[a-z.]+$)", lambda it: str(places[it[1]]), word)
                 for word in container["args"]]  # fmt: skip
        self.assertEqual(words[3], "--listen=0.0.0.0:7077")
        words[3] = "--listen=127.0.0.1:0"
        server.words[1:] = words
        server.start()
        probe = container["readinessProbe"]["httpGet"]
        self.assertEqual(probe["port"], container["ports"][0]["containerPort"])
        context = ssl.create_default_context(cafile=str(places["/etc/faultyard-tls"] / "tls.crt"))
        self.assertEqual(probe["scheme"], "HTTPS")
        link = http.client.HTTPSConnection(server.address, timeout=PATIENCE, context=context)
        link.request("GET", probe["path"])
        self.assertEqual(link.getresponse().status, 200)
        link.close()
        with open(places["/var/lib/faultyard"] / "audit", "rb") as audit:
            config = places["/etc/faultyard"] / "cluster.toml"
            told = run(PROGRAM, "check", config, stdin=audit)
        self.assertEqual(told.stdout, "legal 0\n")
