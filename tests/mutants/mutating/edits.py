"""Mutants as their files say them, and the texts that they turn."""
import re

from mutating.sources import ROOMS_A_CRATE, read, without_comments, without_tests


MUTANT = "mutant: "


def edits_of(folder):
    """The mutants of a folder's file mutants.edits: their texts, by name."""
    texts = {}
    for line in read(f"{folder}/mutants.edits").splitlines():
        if line.startswith(MUTANT):
            name = line.removeprefix(MUTANT)
            if name in texts:
                raise ValueError(f"{folder}/mutants.edits has two mutants {name}")
            texts[name] = ""
        elif line:
            texts[name] += f"{line}\n"
    return texts


def law_of(constant, texts):
    """The function of src/laws.rt whose contract names a constant, if one does."""
    laws = re.findall(
        r"\bfn (\w+)(.*?)(?=\bfn |\Z)", without_comments(texts.get("src/laws.rt", "")), re.S
    )
    return next((law for law, text in laws if re.search(rf"\b{constant}\b", text)), None)


FUNCTION = re.compile(
    r'([ \t]*)(?:pub(?:\([\w :]+\))? )?(?:const )?(?:unsafe )?(?:extern "C" )?fn (\w+)'
)
OWNER = re.compile(r"(?m)^(?:pub(?:\([\w :]+\))? )?(?:unsafe )?((?:impl|trait)\b[^{;]*)\{$")


def module_of(file):
    return [
        it
        for it in file.removeprefix("src/").removesuffix(".rt").split("/")
        if it not in ("lib", "main")
    ]


def homes(texts):
    """The modules in which types of a name stand."""
    found = {}
    for file, text in texts.items():
        for name in re.findall(r"(?m)^(?:pub(?:\([\w :]+\))? )?(?:struct|enum|union) (\w+)", text):
            found.setdefault(name, []).append(module_of(file))
    return found


def path_of(file, text, at, at_home):
    """The path below its crate by which rt knows the function whose signature begins on the line of
    a place, or None."""
    found = FUNCTION.match(text, text.rfind("\n", 0, at) + 1)
    owner = OWNER.findall(text, 0, at)
    if not found or found[1] and not owner:
        return None
    if not found[1]:
        return "::".join([*module_of(file), found[2]])
    plain, whole = owner[-1], ""
    while plain != whole:
        plain, whole = re.sub(r"<[^<>]*>", "", plain), plain
    names = re.match(r"(?:impl|trait)\s+(?:\w+::)*(\w+)(?: for (?:\w+::)*(\w+))?", plain)
    if not names:
        return None
    # a method is named by its type, wherever it stands, and one of a trait by both; what a type is
    # made from is named too
    if names[2] and names[1] not in ("Drop", "Model"):
        source = re.findall(r"\bFrom<(\w+)", owner[-1]) if names[1] == "From" else []
        return "::".join([*module_of(file), "".join([names[2], names[1], *source[:1]]), found[2]])
    its, here = names[2] or names[1], module_of(file)
    its_homes = at_home.get(its, [here])
    return "::".join([*(here if here in its_homes else its_homes[0]), its, found[2]])


def ends_between(text, start, at):
    """Whether the function whose signature begins on the line of one place ends before another, by
    the layout of rt fmt."""
    line = text.rfind("\n", 0, start) + 1
    indent = re.match(r"[ \t]*", text[line:])[0]
    return re.search(rf"(?m)^{indent}\}}$", text[line:at]) is not None


def paths_in(texts):
    """The paths of all functions of these texts that have a proof of their own: none of a trait, or
    in a cycle of calls, whose proof is one for all."""
    found, at_home = set(), homes(texts)
    for file, text in texts.items():
        text = without_tests(file, text)
        for it in re.finditer(r"(?m)^.*\bfn \w+", text):
            above = text[text.rfind("\n\n", 0, it.start()) + 1 : it.start()]
            path = path_of(file, text, it.start(), at_home)
            is_of_trait = text[it.start()].isspace() and OWNER.findall(text, 0, it.start())[-1:][
                0
            ].startswith("trait")
            if path and not is_of_trait and "#[cycle(" not in above:
                found.add(path)
    return found


class Edit:
    """A mutant: its pairs of texts, the names of the functions that they turn and their paths,
    whether no round can hold it, and the law of the constant that it turns."""

    def __init__(self, name, said, texts):
        self.name, self.pairs, self.functions = name, [], set()
        self.is_alone, self.law, self.paths = False, None, set()
        path = old = None
        for line in said.split("\n"):
            if line.startswith("file: "):
                path = line[len("file: ") :].strip()
            elif line.startswith("old: "):
                old = line[len("old: ") :]
            elif line.startswith("new:"):
                self.pairs.append((path, old, line[len("new:") :].removeprefix(" ")))
        self.calls, self.why, made, at_home = set(), self.unfit(), dict(texts), homes(texts)
        for path, old, new in [] if self.why else self.pairs:
            count = made.get(path, "").count(old)
            if count != 1:
                self.why = f"its old text stands {count} times in {path}: {old[:80]}"
                return
            at = made[path].index(old)
            constant = re.match(r"(?:pub )?const (\w+)", old)
            self.law = law_of(constant[1], texts) if constant and len(self.pairs) == 1 else None
            # an old text that holds a signature turns that function
            within = re.search(r"\bfn (\w+)", old)
            fn_at = (
                at + within.start()
                if within
                else max(
                    (it.start() for it in re.finditer(r"\bfn \w", made[path][:at])), default=-1
                )
            )
            named = (
                [self.law]
                if self.law
                else re.findall(r"\bfn (\w+)", made[path][fn_at:])[:1]
                if fn_at >= 0
                else []
            )
            self.functions.update(named)
            if self.law:
                self.paths.add(f"laws::{self.law}")
            else:
                is_within = named and not ends_between(made[path], fn_at, at)
                self.paths.add(path_of(path, made[path], fn_at, at_home) if is_within else None)
            self.is_alone |= (
                texts[path].count(old) != 1
                or not named
                or None in self.paths
                or self.law is not None
            )
            made[path] = made[path].replace(old, new)
            for it in named:
                body = re.search(rf"\bfn {it}\b.*?(?=\bfn \w|\Z)", made[path], re.S)
                self.calls.update(re.findall(r"\b(\w+)\(", body[0]) if body else [])

    def unfit(self):
        if not self.pairs or any(None in it for it in self.pairs):
            return "it has no 'file:', 'old:' and 'new:'"
        beyond = [path for path, _, _ in self.pairs if not path.startswith("src/")]
        return f"it turns {beyond[0]}, which is no code" if beyond else ""

    def fits_beside(self, others):
        """Whether it turns no function that another one turns, calls, or has called. (What a check
        says names a method by its type, not by its file, so a name counts wherever it stands.)"""
        return not any(
            self.functions & (it.functions | it.calls) or self.calls & it.functions for it in others
        )


def rounds_of(edits):
    """The edits in rounds, of which none is so long that most rooms wait for it."""
    most = max(8, len(edits) // (2 * ROOMS_A_CRATE))
    rounds = []
    for edit in edits:
        fitting = next(
            (members for members in rounds if len(members) < most and edit.fits_beside(members)),
            None,
        )
        if fitting is None:
            rounds.append([edit])
        else:
            fitting.append(edit)
    return rounds


def turned(texts, members):
    """The texts with the bodies of the members. Places are those of the untouched text, so that no
    body makes another's old text stand twice."""
    made = {}
    for path, text in texts.items():
        pairs = [(old, new) for edit in members for it, old, new in edit.pairs if it == path]
        spans = sorted((text.index(old), old, new) for old, new in pairs if text.count(old) == 1)
        for at, old, new in reversed(spans):
            text = text[:at] + new + text[at + len(old) :]
        for old, new in pairs:
            if texts[path].count(old) != 1:
                text = text.replace(old, new, 1)
        made[path] = text
    return made
