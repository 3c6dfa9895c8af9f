"""The page of the server in a browser: several tabs, a server that stops, and another audit."""

import json
import os
import signal
import unittest.mock

import browser
import common
from browser import Browser
from common_serve import PATIENCE, ROOT, Case, cluster, kill, run
from proxying import nginx

LIVE = "document.getElementById('live').textContent"
ROWS = "document.getElementById('orders-body').rows.length"
BEAT = 500  # milliseconds, in place of 3 seconds


class Page(Case):
    def setUp(self):
        super().setUp()
        lacks = run(ROOT / "tests/tools/needs", "the page of the server", "chromium")
        if lacks.returncode == 1:
            self.skipTest(lacks.stdout.strip())
        lacks.check_returncode()
        browser.PATIENCE = PATIENCE
        self.browser = Browser(self.folder / "profile")
        self.addCleanup(self.browser.close)
        beat = unittest.mock.patch.dict(os.environ, FAULTYARD_SERVE_BEAT=str(BEAT))
        beat.start()
        self.addCleanup(beat.stop)

    def show(self, tab, address, **words):
        """Opens the page, and again where its scripts didn't come: on a busy machine a request of
        the browser may take longer than the server waits for it."""
        script = None
        while script != "function":
            tab.open(f"http://{address}/", **words)
            tab.wait("location.href !== 'about:blank' && document.readyState === 'complete'")
            script = tab.value("typeof enterBy")

    def test_seven_tabs_show_the_same(self):
        server = self.server().start()
        tabs = [self.browser.tab() for _ in range(7)]
        for tab in tabs:
            self.show(tab, server.address)
        for tab in tabs:
            tab.waits_for("live, 0 entries")
        self.assertEqual(server.ask("POST", "/v1/acts", kill(0, "RebootAndDelete"))[0], 200)
        for tab in tabs:
            tab.waits_for("live, 1 entry")
            tab.waits_for("1 destroyed")
            tab.wait(f"{ROWS} === 1")

    def test_a_server_that_says_nothing_is_told_since_when(self):
        server = self.server().start()
        tab = self.browser.tab()
        self.show(tab, server.address)
        tab.waits_for("live, 0 entries")
        server.process.send_signal(signal.SIGSTOP)
        try:
            tab.wait(f"/^nothing was heard since .*[0-9]:[0-9]{{2}}/.test({LIVE})")
        finally:
            server.process.send_signal(signal.SIGCONT)
        tab.waits_for("live, 0 entries")
        server.kill()
        tab.wait(f"/^the connection is lost since .*[0-9]:[0-9]{{2}}/.test({LIVE})")
        server.start()
        tab.waits_for("live, 0 entries")

    def test_another_audit_is_shown_alone(self):
        server = self.server().start()
        for process in range(3):
            server.ask("POST", "/v1/acts", kill(process, "RebootProcess"))
        tab = self.browser.tab()
        self.show(tab, server.address)
        tab.wait(f"{LIVE} === 'live, 3 entries' && {ROWS} === 3")
        self.assertEqual(server.end(), 0)
        for path in self.folder.glob("audit*"):
            path.unlink()
        server.start()
        for process in range(4):
            server.ask("POST", "/v1/acts", kill(process))
        tab.wait(f"{LIVE} === 'live, 4 entries' && {ROWS} === 4")
        tab.wait("!document.getElementById('orders').innerText.includes('RebootProcess')")

    def test_behind_a_proxy_entries_are_shown_as_they_come(self):
        path = common.written(self.folder, "tokens", "")
        path.chmod(0o600)
        path.write_text("zero-zero-zero-zero 0\none-one-one-one-one 1\n")
        server = self.server("--tokens", str(path)).start()
        tab = self.browser.tab()
        self.show(tab, nginx(self, server.address))
        tab.wait("document.activeElement.id === 'token'")
        tab.value("document.getElementById('token').value = 'one-one-one-one-one'")
        tab.press("Enter")
        tab.wait(f"{LIVE} === 'live, 0 entries'")
        order = {"Authorization": "Bearer one-one-one-one-one"}
        for count in (1, 2):
            server.ask("POST", "/v1/acts", kill(count, "RebootAndDelete"), **order)
            words = "live, 1 entry" if count == 1 else "live, 2 entries"
            tab.wait(f"{LIVE} === '{words}' && {ROWS} === {count}")

    def test_a_shared_worker_whose_script_does_not_come_is_done_without(self):
        server = self.server().start()
        tab = self.browser.tab()
        tab.ask("Page.enable")
        lost = "setTimeout(() => this.onerror?.(new Event('error')), 100)"
        port = "this.port = new MessageChannel().port1"
        fails = f"window.SharedWorker = class {{ constructor() {{ {lost}; {port}; }} }}"
        tab.ask("Page.addScriptToEvaluateOnNewDocument", source=fails)
        self.show(tab, server.address)
        tab.waits_for("live, 0 entries")
        server.ask("POST", "/v1/acts", kill(0))
        tab.wait(f"{LIVE} === 'live, 1 entry' && {ROWS} === 1")

    def test_a_token_may_have_any_letters(self):
        right, path = "sechzehn-und-ein-\u20ac", common.written(self.folder, "tokens", "")
        path.chmod(0o600)
        path.write_text(f"{right} 1\n", encoding="utf-8")
        server = self.server("--tokens", str(path)).start()
        tab = self.browser.tab()
        self.show(tab, server.address)
        for token, shown in ((f"{right}\u20ac", "doesn't know this token"), (right, "live, 0 ")):
            tab.wait("document.activeElement.id === 'token'")
            tab.value(f"document.getElementById('token').value = {json.dumps(token)}")
            tab.press("Enter")
            tab.waits_for(shown)

    def test_a_narrow_page_shows_the_state_of_each_process(self):
        """Also where names are long, and in a browser without shared workers."""
        config = cluster()
        for key in ("processid", "machineid", "zoneid"):
            config = config.replace(f'{key}="', f'{key}="a_name_with_many_letters_')
        server = self.server(config=config).start()
        tab = self.browser.tab()
        tab.ask("Page.enable")
        without = "delete window.SharedWorker"
        tab.ask("Page.addScriptToEvaluateOnNewDocument", source=without)
        self.show(tab, server.address, width=390)
        tab.waits_for("live, 0 entries")
        tab.waits_for("6 up")
        cells = "[...document.querySelectorAll('#processes .state')]"
        ends = tab.value(f"Math.max(...{cells}.map((it) => it.getBoundingClientRect().right))")
        self.assertLessEqual(ends, 390 - 12)
