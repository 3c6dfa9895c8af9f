"""The replies of the page of formats, and what a kind asks for. tests/words has the rest."""

import re
import unittest

import common
from faultyard import Kind
from faultyard.replies import Reply, read_entry

PAGE = (common.ROOT / "docs/FORMATS.md").read_text()


class Words(unittest.TestCase):
    def test_each_reply_of_the_page_is_read_as_one_of_its_own(self):
        rows = re.search(r"^\| Reply \|.*?\n\n", PAGE, re.M | re.S)[0]
        texts = re.findall(r"^\| `([^`]+)` \|", rows, re.M)
        line = '{{"act":{{"tick":{{"ticks":1}}}},"at":0,"by":0,"reply":{}}}'
        read = [type(read_entry(line.format(it).encode()).reply) for it in texts]
        self.assertEqual(
            sorted(it.__name__ for it in read), sorted(it.__name__ for it in Reply.__args__)
        )


class KindsTest(unittest.TestCase):
    def test_what_a_kind_asks_for(self):
        told = {kind: (kind.empties_disk, kind.is_final) for kind in Kind}
        self.assertEqual(
            told,
            {
                Kind.REBOOT_PROCESS: (False, False),
                Kind.REBOOT: (False, False),
                Kind.REBOOT_AND_DELETE: (True, False),
                Kind.KILL_INSTANTLY: (True, True),
                Kind.CLOG: (False, False),
            },
        )
