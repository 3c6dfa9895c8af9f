"""Tests of what reads the source, on a small repository that is written out here."""

from __future__ import annotations

import subprocess
import tempfile
import unittest
from pathlib import Path

import contracts
import definitions
import hook_lines
import layers
import limits
import made
import names
import questions
import recipes
import source

REAL = source.ROOT
FILES = {
    "crates.txt": """\
# two crates, the C library and the program
low: memchr
high: low
fy_c staticlib: low
faultyard: high low
""",
    "include/faultyard.h": "",
    "crates/low/specs/Lib.antt": "pub mod Sets\n",
    "crates/low/specs/Sets.antt": """\
-- sets
use Rattle.std.specs.Prelude.{ℕ}

-- what is seen
pub record Seen : Type 0 where
  pub count : ℕ

-- ---- a part of the file

-- the first,
-- and more of it | apart
abbrev pub First : Seen → Type 0
First s = Below s

-- cited by First alone
unfoldable pub Below : Seen → Type 0
Below s = Unit {0}

-- cited by a private function
abbrev pub Kept : Seen → Type 0
Kept s = Below s

-- a block
abbrev mutual
  pub one : Seen → ℕ
  one s = 1

  pub other : Seen → ℕ
  other s = 2
""",
    "crates/low/src/lib.rt": """\
//! The lower crate: what
//! it has.
//!
//! More of it.
mod hidden;
pub mod laws;

pub use hidden::{Shown, MOST_SEEN};
""",
    "crates/low/src/hidden.rt": """\
ghost use Rattle.low.specs.Sets.{Seen, First, Kept, one as single};

/// Half of the most.
pub const HALF: usize = 8;

/// How many may be seen.
pub const MOST_SEEN: usize = 2 * HALF as usize;

/// A type that is handed out.
pub struct Shown {
    count: u32,
}

impl Model for Shown {
    ghost Value = { Seen };
}

impl Shown {
    /// Looks at it. Then it looks again.
    ///
    /// # Errors
    pub fn look(&self) -> u32
        requires room { 0 < self.now.count }
        ensures first { First self.now }
        ensures { result ≡ self.now.count }
    {
        self.helper()
    }

    /// No caller sees it.
    fn helper(&self) -> u32
        ensures { Kept self.now }
    {
        self.count
    }
}

/// A type that stays in.
pub struct Hidden;

impl Hidden {
    pub fn look(&self) -> u32
        ensures { single self.now }
    {
        0
    }
}
""",
    "crates/low/src/laws.rt": "/// A law.\npub fn fact()\n    ensures said { 1 ≡ 1 }\n{\n}\n",
    "crates/high/src/lib.rt": "//! The upper one.\n",
    "crates/fy_c/src/lib.rt": "//! For C.\n",
    "crates/faultyard/src/main.rt": "//! The program.\n",
}


class Reading(unittest.TestCase):
    def setUp(self) -> None:
        folder = tempfile.TemporaryDirectory()
        self.addCleanup(folder.cleanup)
        for name, text in FILES.items():
            path = Path(folder.name) / name
            path.parent.mkdir(parents=True, exist_ok=True)
            path.write_text(text)
        for module in (source, contracts, names):
            self.addCleanup(setattr, module, "ROOT", REAL)
            setattr(module, "ROOT", Path(folder.name))
        source.files_of.cache_clear()
        self.addCleanup(source.files_of.cache_clear)

    def test_a_comment_is_that_above_without_what_parts_a_file(self) -> None:
        said = {it.name: it.comment for it in source.Specs.read().found.values()}
        self.assertEqual(said["Seen"], "what is seen")
        self.assertEqual(said["First"], "the first, and more of it | apart")

    def test_a_block_has_one_comment_and_each_other_needs_its_own(self) -> None:
        said = {it.name: it.comment for it in source.Specs.read().found.values()}
        self.assertEqual((said["one"], said["other"]), ("a block", ""))
        told = ["crates/low/specs/Sets.antt:28: other has no comment"]
        self.assertEqual([*definitions.without_comment()], told)

    def test_private_is_what_no_public_contract_reaches(self) -> None:
        public = {name for _, _, name in definitions.cited_in_public(source.Specs.read())}
        self.assertEqual(public, {"Seen", "First", "Below"})

    def test_definitions_stand_in_the_order_of_their_file(self) -> None:
        page = definitions.made()
        self.assertIn("## `low`\n\nThe lower crate: what it has.\n\n### `low/specs/Sets`", page)
        self.assertIn("| `First` | the first, and more of it \\| apart |\n| `Below` |", page)
        self.assertIn("| `Kept` | *private*: cited by a private function |", page)

    def test_a_public_function_has_its_clauses_and_what_they_cite(self) -> None:
        page = contracts.made()
        row = "| `Shown::look` | Looks at it. | requires `room`; ensures `first` | `First` |"
        self.assertIn(row, page)
        self.assertIn("| `laws::fact` | A law. | ensures `said` | |", page)
        self.assertIn("| `Shown` | `Seen` |", page)
        self.assertNotIn("Hidden", page)
        self.assertNotIn("helper", page)

    def test_a_limit_is_a_number(self) -> None:
        self.assertIn("| 16 | How many may be seen | `MOST_SEEN` | `low` |", limits.made())
        self.assertNotIn("HALF", limits.made())

    def test_a_crate_ships_where_it_is_below(self) -> None:
        table = layers.crate_table()
        self.assertIn("| `low` | P, L | memchr | The lower crate: what it has. |", table)
        self.assertIn("| `high` | P | | The upper one. |", table)

    def test_the_diagram_leaves_out_what_follows(self) -> None:
        drawn = layers.diagram()
        self.assertIn('data-from="faultyard" data-to="high"', drawn)
        self.assertNotIn('data-from="faultyard" data-to="low"', drawn)

    def test_a_name_on_a_page_is_one_of_the_source(self) -> None:
        subprocess.run(["git", "init", "--quiet", source.ROOT], check=True)
        page = source.ROOT / "page.md"
        page.write_text("`Shown::look`, `Shown::listen`, `low/specs/Sets`, `{gone: 1}`\n")
        told = "page.md: the source has no listen, which it names as `Shown::listen`"
        self.assertEqual([*names.unknown([page])], [told])

    def test_a_path_on_a_page_ends_one_of_the_repository(self) -> None:
        subprocess.run(["git", "init", "--quiet", source.ROOT], check=True)
        page = source.ROOT / "page.md"
        right = "`src/hidden.rt`, `crates/NAME/src/lib.rt`, `specs/*.antt`, `bin/libfaultyard.so`"
        page.write_text(f"{right}, `high/src/hidden.rt`, `rc/hidden.rt`, `../low/hidden.rt`\n")
        told = [it.rpartition(" ")[2] for it in names.unknown([page])]
        self.assertEqual(told, ["`high/src/hidden.rt`", "`rc/hidden.rt`", "`../low/hidden.rt`"])


HOOKS = '''#!/usr/bin/env python3
"""What documents
is no code."""
import faultyard_hooks as fy
from faultyard_hooks.http import plain

# a comment
WORDS = """one

two"""


def find(key):
    """It documents too."""
    return plain(key)


def start(n):
    return "store", WORDS


check = find


def salvage(n):
    return {}


fy.main()
'''


class HookLines(unittest.TestCase):
    def test_a_line_counts_that_has_code(self) -> None:
        self.assertEqual(hook_lines.counted(HOOKS)[1], 12)

    def test_check_and_salvage_and_what_they_alone_use_are_not_needed(self) -> None:
        self.assertEqual(hook_lines.counted(HOOKS)[0], 6)
        self.assertEqual(hook_lines.counted(HOOKS.replace("check = find", "read = find"))[0], 10)

    def test_a_decorator_is_a_line_of_its_function(self) -> None:
        decorated = HOOKS.replace("def start", "@fy.late\ndef start")
        self.assertEqual(hook_lines.counted(decorated), (7, 13))


class Questions(unittest.TestCase):
    def test_each_question_has_an_example_with_its_members(self) -> None:
        _, lines = questions.examples()
        for name in questions.of_questions():
            rest = [(asked, text) for asked, text in lines if name not in asked]
            self.assertRaises(made.PagesError, questions.check, rest)
        other = [*lines, ({"killable": {"process": 1}}, "")]
        self.assertRaises(made.PagesError, questions.check, other)

    def test_each_member_that_is_written_has_an_example(self) -> None:
        _, lines = questions.examples()
        for name in ("clogged", "keeper", "deliverable", "entries", "data_hall", "scope"):
            rest = [(asked, text.replace(f'"{name}":', '"x":')) for asked, text in lines]
            self.assertRaises(made.PagesError, questions.check, rest)


class Recipes(unittest.TestCase):
    def setUp(self) -> None:
        self.addCleanup(setattr, recipes, "recipes", recipes.recipes)

    def wrong(self, **recipe: object) -> list[str]:
        plain = {"what": "a rule", "like": "NoTarget", "step": []}
        setattr(recipes, "recipes", lambda: [plain | recipe])
        return [*recipes.wrong()]

    def test_braces_part_names(self) -> None:
        self.assertEqual(
            recipes.spread("a/{b,c/d}.{h,rt}"), "a/b.h a/b.rt a/c/d.h a/c/d.rt".split()
        )

    def test_a_file_of_a_recipe_is_there(self) -> None:
        step = {"files": ["Makefile", "crates/{fy_kinds,fy_king}/src/lib.rt"]}
        told = ["the recipe for a rule names crates/fy_king/src/lib.rt, which isn't there"]
        self.assertEqual(self.wrong(step=[step]), told)

    def test_an_example_is_a_word_of_the_enum(self) -> None:
        told = "the recipe for a rule is as NoTargets, which is none"
        self.assertIn(told, self.wrong(words="rules", like="NoTargets"))
        self.assertFalse([it for it in self.wrong(words="rules") if it.endswith("none")])

    def test_a_file_with_all_words_is_in_the_recipe(self) -> None:
        name = "crates/fy_kinds/src/verdict.rt"
        told = f"{name} has all rules, and isn't in the recipe for a rule"
        self.assertIn(told, self.wrong(words="rules"))
        self.assertNotIn(told, self.wrong(words="rules", step=[{"files": [name]}]))
        self.assertNotIn(told, self.wrong(words="rules", others=[name]))

    def test_a_word_may_be_a_constant_or_a_variant(self) -> None:
        words = ["copy", "TooFewLeft"]
        for text in "copy TooFewLeft", "fy_copy( FY_TOO_FEW_LEFT", "Act::CopyTo RULE_TOO_FEW_LEFT":
            self.assertTrue(recipes.has_all(text, words), text)
        for text in "copy", "recopy TooFewLeft", "copied TooFewLeft", "use a.{copy, TooFewLeft}":
            self.assertFalse(recipes.has_all(text, words), text)


class Marks(unittest.TestCase):
    def test_a_part_is_made_between_its_marks(self) -> None:
        page = f"a\n{made.BEGIN.format('x')}\nold\n{made.END}\nb\n"
        self.assertIn("-->\n\nnew\n\n<!-- end", made.with_part(page, "x", "new"))
        self.assertEqual(made.by_hand(page), "a\n\nb\n")
        self.assertRaises(made.PagesError, made.with_part, page, "y", "new")
