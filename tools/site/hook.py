"""What mkdocs lacks for pages that stand all over a repository and are written for GitHub.

Files keep their place in the repository, so that each link leads where it leads there. Anchors are
those of GitHub, a list in a list may be indented by two to four spaces, behind the language of a
block of code may stand words for its tests, and a link that is named by its file gets its title.
The search ranks pages that explain a word before tables that repeat it.
"""

# Debian's mkdocs and markdown have no types.
# mypy: disable-error-code="import,misc"

from __future__ import annotations

import json
import re
import subprocess
from collections.abc import Iterator
from pathlib import Path
from typing import Any

from markdown import Markdown
from markdown.blockprocessors import ListIndentProcessor, OListProcessor, UListProcessor
from markdown.extensions import Extension
from markdown.preprocessors import Preprocessor
from mkdocs.structure.files import File, Files

ROOT = Path(__file__).resolve().parents[2]
# Code holds no links.
CODE = re.compile(r"(?ms)^ *```.*?^ *```$|`[^`\n]*`")
LINK = re.compile(r"\]\((?![a-z]+:)([^)#\s]+)")
# A link whose text is the file that it leads to.
NAMED = re.compile(r"\[([A-Z]+)(?:\.md)?\](\((?![a-z]+:)([^)#\s]*?\1\.md)(?:#[^)\s]*)?\))")
# The first line of a block of code, as "rust,no_run" has it for rustdoc.
FENCE = re.compile(r"(?m)^( *```\w+)[, ][^`\n]*$")

# How much it counts for the search that a word stands on a page: by the page, else by its tab.
BOOSTS = {
    "docs/GLOSSARY.md": 3.0,  # says what the word means
    "CHANGELOG.md": 0.3,  # names all that there is
    # References.
    "docs/FORMATS.md": 0.7,
    "docs/LIBRARY.md": 0.7,
    # Tables made from the source. A title counts a thousandfold, so their names are found.
    "docs/CONTRACTS.md": 0.01,
    "docs/DEFINITIONS.md": 0.01,
}
BOOSTS_OF_TABS = {"Use": 1.0, "Inside": 0.3, "Stores and security": 0.5}
BESIDE_NAVIGATION = 0.1


class LongNumbers(Preprocessor):
    """What belongs to item 10 or a later one is indented by four spaces. Here they become three, as
    in the items before."""

    def run(self, lines: list[str]) -> list[str]:
        is_long = False
        for place, line in enumerate(lines):
            if line[:1].strip():
                is_long = bool(re.match(r"\d\d+\. ", line))
            if is_long and line.startswith("    "):
                lines[place] = line[1:]
        return lines


class GitHubLists(Extension):
    """A list in a list is indented by two spaces or more; Python-Markdown asks for four."""

    def extendMarkdown(self, md: Markdown) -> None:
        # Blocks of code, which come at 25, are left as they are.
        md.preprocessors.register(LongNumbers(md), "long_numbers", 20)
        tab_length, md.tab_length = md.tab_length, 2
        processors = md.parser.blockprocessors
        # The names and the order of the processors that they stand for.
        processors.register(ListIndentProcessor(md.parser), "indent", 90)
        processors.register(OListProcessor(md.parser), "olist", 40)
        processors.register(UListProcessor(md.parser), "ulist", 30)
        md.tab_length = tab_length


def anchor(heading: str, separator: str) -> str:
    """The anchor of a heading, as GitHub makes it."""
    return re.sub(r"[^\w\- ]", "", heading).strip().lower().replace(" ", separator)


def linked(page: str) -> Iterator[str]:
    """The files of the repository to which a page links."""
    folder = (ROOT / page).parent
    for link in LINK.findall(CODE.sub("", (ROOT / page).read_text())):
        target = (folder / link).resolve()
        if target.is_file() and target.is_relative_to(ROOT):
            yield target.relative_to(ROOT).as_posix()


def on_config(config: Any) -> Any:
    # the repository doesn't keep all pages
    subprocess.run([ROOT / "tools/pages/make", "--unkept"], check=True)
    config["mdx_configs"].setdefault("toc", {})["slugify"] = anchor
    config["markdown_extensions"].append(GitHubLists())
    return config


def titles_of(nav: Any, title: str = "") -> Iterator[tuple[str, str]]:
    """The pages of a navigation, each with its title there."""
    if isinstance(nav, str):
        yield nav, title
    elif isinstance(nav, dict):
        for title, below in nav.items():
            yield from titles_of(below, title)
    else:
        for it in nav:
            yield from titles_of(it, title)


def on_page_markdown(markdown: str, page: Any, config: Any, **_: Any) -> str:
    """The page, in which a link to a file of the navigation has the title that it has there."""
    titles, folder = dict(titles_of(config["nav"])), (ROOT / page.file.src_path).parent

    def titled(link: re.Match[str]) -> str:
        target = (folder / link[3]).resolve()
        file = target.relative_to(ROOT).as_posix() if target.is_relative_to(ROOT) else ""
        return f"[{titles[file]}]{link[2]}" if file in titles else link[0]

    return NAMED.sub(titled, FENCE.sub(r"\1", markdown))


def on_files(files: Files, config: Any) -> Files:
    """The pages of the navigation, what they link to, our style and script, beside the theme's own
    files."""
    own = [*config["extra_css"], *config["extra_javascript"]]
    found = dict.fromkeys([*(page for page, _ in titles_of(config["nav"])), *own])
    waiting = list(found)
    while waiting:
        page = waiting.pop()
        if page.endswith(".md"):
            new = [it for it in linked(page) if it not in found]
            found.update(dict.fromkeys(new))
            waiting += new
    theme = [it for it in files if not Path(it.abs_src_path).is_relative_to(ROOT)]
    is_folder = config["use_directory_urls"]
    ours = [File(it, str(ROOT), config["site_dir"], is_folder) for it in found]
    return Files(theme + ours)


def boosts(config: Any) -> dict[str, float]:
    """How much the search boosts each page of the navigation, by its address on the site."""
    words = str(ROOT), config["site_dir"], config["use_directory_urls"]
    tabs = [tab for part in config["nav"] for tab in part.items()]
    return {
        File(page, *words).url: BOOSTS.get(page, BOOSTS_OF_TABS[tab])
        for tab, below in tabs
        for page, _ in titles_of(below)
    }


def on_post_build(config: Any) -> None:
    """Writes the boost of each page into the index of the search, and has its worker use them."""
    site, of_pages = Path(config["site_dir"]), boosts(config)
    index = site / "search/search_index.json"
    told = json.loads(index.read_text())
    for entry in told["docs"]:
        entry["boost"] = of_pages.get(entry["location"].partition("#")[0], BESIDE_NAVIGATION)
    index.write_text(json.dumps(told, separators=(",", ":")))
    (worker,) = (site / "assets/javascripts/workers").glob("search.*.js")
    worker.write_text(f"{worker.read_text()}\n{(ROOT / 'tools/site/search.js').read_text()}")
