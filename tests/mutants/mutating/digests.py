"""What the refusal of a mutant depends on, as one digest.

The prover checks the function that a mutant turns from its own text, the answers written for it,
and what all that names: contracts of functions (never their bodies), types with what they are seen
as, constants, definitions, lemmas, of its own crate and of the crates below; what these name in
turn, and so on. Of a lemma it is what that states: its proof is the gate's to check. A search uses
no lemma that isn't named, by an answer or an attribute. A name counts wherever it stands, that of a
definition or a lemma where the file names its module too, so the digest may name more than the
prover reads, and not less. Functions whose calls lead back to
themselves have one proof, so the bodies of all are part of it. Of a type that has a model, a crate
above sees what it is seen as, and neither its fields nor how these make it. Comments and tests are
no part of it. The layout that is read is that of rt fmt.
"""
import hashlib, os, re, subprocess, textwrap
from functools import cache

from mutating.sources import PARTS, files_of, read, without_comments, without_tests

WORD = re.compile(r"[\w'](?:[\w'-]*[\w'])?")
# What a path begins with, where that is a crate or a module: a function may have the same name.
PATH_ROOT = re.compile(r"\bRattle\.\w+(?=\.)|(?<![\w:.])[a-z]\w*(?=::)")
MARGIN_ITEM = re.compile(
    r"(?:pub(?:\([\w :]+\))? )?(?:unsafe )?(?:extern \"C\" )?"
    r"(const fn|fn|struct|enum|union|type|const|static|trait|impl|mod|use|ghost use)\b"
)
# Traits whose functions are called without their name, by an operator, a loop, `?`, or where a
# value ends.
UNNAMED = re.compile(
    r"(?:\w+::)*(Model|Drop|From|Into|TryFrom|Iterator|IntoIterator|FromIterator|Extend"
    r"|Deref|DerefMut|Index|IndexMut|PartialEq|Eq|PartialOrd|Ord|Hash|Clone|Copy|Default"
    r"|Debug|Display|Write|Read|Error|Termination|Not|Neg|\w+Assign|Add|Sub|Mul|Div|Rem"
    r"|BitAnd|BitOr|BitXor|Shl|Shr)\b"
)
FUNCTION = re.compile(r"(?:pub(?:\([\w :]+\))? )?(?:const )?(?:unsafe )?(?:extern \"C\" )?fn (\w+)")
CYCLE = re.compile(r"#\[cycle\((\w+)\)\]")
MODELLED = re.compile(r"(?m)^impl\b.*\bModel for (\w+)")
# What can stand before the name of a definition. The body of one without any, or with `pub` alone,
# is not seen elsewhere.
MARK = r"(?:abbrev|axiom|data|infix[lr]? \d+|opaque|private|pub|record|ruleset|unfoldable)"
IS_SEEN = re.compile(
    r"(?:\w+ )*(?:abbrev|axiom|data|infix[lr]?|mutual|record|ruleset|unfoldable)\b"
)
DEFINED = re.compile(rf"(?:{MARK} )*([^\s:({{]+)")
MUTUAL = re.compile(r"(?:\w+ )*mutual\n")


def words_in(text):
    """The words of a text that may be names of parts."""
    return frozenset(WORD.findall(PATH_ROOT.sub("", text)))


class Part:
    """A piece of a text: the names by which others name it (none: all of its crate depend on it),
    what it says to them, and whether a crate above can depend on it. One that is said elsewhere
    too, by its type, is reached by no name."""

    def __init__(self, names, text, is_public, body="", is_said_elsewhere=False):
        self.names, self.text, self.is_public, self.body = frozenset(names), text, is_public, body
        self.is_said_elsewhere = is_said_elsewhere
        self.words, self.imports = words_in(text), []
        # the file of a definition, by whose module others bring it in, and what its own file names
        self.module, self.modules = "", frozenset()
        # whose it is, and whether it is seen there alone
        self.crate, self.is_private = "", False

    def sees(self, other):
        """Whether this may use the other by a name of it."""
        is_open = not other.is_private or other.crate == self.crate
        return is_open and (not other.module or other.module in self.modules)


def blocks_of(lines, indent):
    """The items of so deep an indentation: each with its attributes and all lines up to its end."""
    block = []
    for line in lines:
        if not line.strip():
            continue
        at = len(line) - len(line.lstrip())
        block.append(line)
        is_attribute = line.lstrip().startswith("#[") and at == indent
        is_end = at == indent and (line.endswith((";", "}")) or line.lstrip().startswith("#!["))
        if is_end and not is_attribute:
            yield "\n".join(block)
            block = []
    if block:
        yield "\n".join(block)


def first_line(block, indent):
    """The line on which an item begins, behind its attributes."""
    lines = (it for it in block.split("\n") if len(it) - len(it.lstrip()) == indent)
    return next((it for it in lines if not it.lstrip().startswith(("#", ")", "]"))), "")


def parted(function, indent):
    """What a function says to its callers, and its body."""
    lines, pad = function.split("\n"), " " * indent
    first = next(at for at, line in enumerate(lines) if FUNCTION.match(line.strip()))
    for at in range(first, len(lines)):
        if (
            lines[at] == pad + "{"
            or lines[at].startswith(pad)
            and lines[at][indent : indent + 1] != " "
            and lines[at].endswith(" {")
        ):
            return "\n".join(lines[:at] + [lines[at].removesuffix("{").rstrip()]), "\n".join(
                lines[at + 1 :]
            )
    return function, ""


def seen_above(block, head, modelled):
    """What a crate above sees of an item: of a type with a value of its own, and no field that is
    public, the value."""
    model = MODELLED.match(head)
    if model and model[1] in modelled:
        inner = block.split("\n")[block.split("\n").index(head) + 1 : -1]
        seen = [it for it in blocks_of(inner, 4) if it.lstrip().startswith("ghost Value")]
        return "\n".join([head, *seen, "}"])
    named = re.match(r"(?:pub )?struct (\w+)", head)
    if named and named[1] in modelled:
        return block[: block.index(head)] + head.removesuffix(";").removesuffix("{").rstrip() + ";"
    return block


def parts_of_source(text, modelled=None):
    """The parts of a file of src/, and its imports; for a crate above, where the types that have a
    model are given."""
    imports, parts = [], []
    for block in blocks_of(without_comments(text).split("\n"), 0):
        head = first_line(block, 0)
        if modelled is not None:
            block = seen_above(block, head, modelled)
            head = first_line(block, 0)
        kind = MARGIN_ITEM.match(head)
        kind = kind[1] if kind else ""
        if kind in ("use", "ghost use"):
            imports.append(block)
            parts += renamed_by(block)
        elif kind == "fn":
            says, body = parted(block, 0)
            parts.append(Part({FUNCTION.match(head)[1]}, says, head.startswith("pub "), body))
        elif kind in ("impl", "trait") and block.endswith("}"):
            parts += parts_of_block(head, block, kind)
        elif kind in ("struct", "enum", "union", "type", "const", "static", "const fn"):
            name = re.search(rf"\b{kind} (?:mut )?(\w+)", head)[1]
            # what is private in a crate below is used through what names its type
            has_variants = kind == "enum" and (modelled is None or head.startswith("pub "))
            variants = re.findall(r"(?m)^    (\w+)[ ,({]", block) if has_variants else []
            # (what is private stands behind what is public, as a constant's value does)
            parts.append(Part({name, *variants}, block, True))
            parts[-1].is_private = not head.startswith("pub ")
        elif kind != "mod" or block != head or block.endswith("}"):
            parts.append(Part((), block, True))
    return parts, imports


def ghosts_in(items):
    """The ghost members among the items of a trait or an impl."""
    found = (re.match(r"\s*(?:pub )?ghost (\w+)", it) for it in items)
    return {it[1] for it in found if it and it[1] != "use"}


def parts_of_block(head, block, kind):
    """The parts of an impl or a trait: its functions by their names where they are called so, and
    the rest by the types."""
    lines = block.split("\n")
    inner = lines[lines.index(head) + 1 : -1]
    # an attribute of the block is one of each function in it
    head_of_all = "\n".join(lines[: lines.index(head) + 1])
    of_trait = kind == "trait" or re.match(r"(?:unsafe )?impl\b.* for ", head)
    named = re.search(
        r"trait (\w+)"
        if kind == "trait"
        else r"\bfor (\w+)"
        if of_trait
        else r"impl(?:<[^>]*>)? (\w+)",
        head,
    )
    owner = named[1] if named else ""
    parts, rest = [], []
    for item in blocks_of(inner, 4):
        at = first_line(item, 4).strip()
        found = FUNCTION.match(at)
        if not found:
            rest.append(item)
            continue
        says, body = parted(item, 4)
        # the value of a constant depends on the body of a const fn
        is_const = re.match(r"(?:pub(?:\([\w :]+\))? )?const ", at) is not None
        seen, is_public = item if is_const else says, is_const or of_trait or at.startswith("pub ")
        parts.append(Part({found[1]}, f"{head_of_all}\n{seen}", is_public, body))
    if of_trait:
        trait = re.match(r"(?:unsafe )?impl(?:<[^>]*>)? (.*?) for ", head)
        if not trait or UNNAMED.match(trait[1]):
            # whoever has a value of the type has it from what names the type
            for part in parts:
                part.is_said_elsewhere = trait is not None
            names = {owner} if trait else {owner, *ghosts_in(rest)}
            return [
                Part(names, "\n".join([head_of_all, *rest, *(it.text for it in parts)]), True),
                *parts,
            ]
        # whoever uses a trait names it, a function of it, or a ghost of it
        names = {re.match(r"(?:\w+::)*(\w+)", trait[1])[1], *ghosts_in(rest)}
        return [Part(names, "\n".join([head_of_all, *rest]), True), *parts]
    if rest:
        parts.append(Part({owner}, "\n".join([head_of_all, *rest]), True))
    return parts


def groups_of(text):
    """The definitions of a text, each in its blocks: what it is, and then its equations in their
    order."""
    groups = []
    for block in re.split(r"\n(?=[^\s})\]])", text.strip("\n")):
        is_first = MUTUAL.match(block) or re.match(rf"{MARK} |[^\s:({{]+\s*:\s", f"{block}\n")
        if is_first or not groups:
            groups.append([block])
        else:
            groups[-1].append(block)
    return groups


def names_in(group):
    """The names of what a group defines; none where that is an operator, which is used without its
    name."""
    if MUTUAL.match(group[0]):
        inner = groups_of(textwrap.dedent(group[0].partition("\n")[2]))
        names = [names_in(it) for it in inner if not it[0].startswith("unfolding ")]
        return set().union(*names) if all(names) else set()
    first, *heads = (found and found[1] for found in map(DEFINED.match, group))
    if not first or not WORD.fullmatch(first):
        return set()
    names = {first, *(it for it in heads if it and it != "unfolding")}
    if re.match(r"(?:pub )?data\b", group[0]):
        for found in re.findall(r"(?m)^ +(?:pub )?((?:[\w'-]+ )+):", group[0]):
            names.update(found.split())
    return names


def definitions(text, is_stated=False):
    """The definitions of a file of specs/, or of proofs/, where what is stated alone counts of what
    no other file sees into; and its imports."""
    text = re.sub(r"\n{2,}", "\n", without_comments(text, "--"))
    is_import = re.compile(r"(?:pub )?(?:use|mod)\b")
    blocks = [it for it in re.split(r"\n(?=[^\s})\]])", text) if it.strip()]
    imports = [it for it in blocks if is_import.match(it)]
    parts = [it for block in imports for it in renamed_by(block)]
    defined = [it for it in blocks if not is_import.match(it)]
    for group in groups_of("\n".join(defined)) if defined else []:
        said = group if not is_stated or IS_SEEN.match(group[0]) else group[:1]
        parts.append(Part(names_in(group), "\n".join(said), True))
    return parts, imports


def brought_by(block):
    """The names that an import brings, each with what it stands for."""
    path, brace, names = " ".join(block.strip(" \t\n;").split()).partition("{")
    if "{" in names:
        return [(it, path + brace + names) for it in WORD.findall(names)]
    each = [it.strip() for it in names.rstrip("} ").split(",")] if brace else [""]
    return [
        (re.split(r"::|\.| as ", it or path)[-1].strip(), path + it)
        for it in each
        if it or not brace
    ]


def renamed_by(block):
    """What an import gives another name, for those who use it by that name from elsewhere."""
    return [
        Part({name}, said, True)
        for name, said in brought_by(block)
        if " as " in said and block.startswith("pub ")
    ]


def is_used(name, words, text):
    """Whether a text with these words uses what an import brings under a name."""
    pieces = [it for it in name.split("◌") if it]
    return name == "*" or all(it in words or not it.isidentifier() and it in text for it in pieces)


def with_imports(parts, imports):
    """Adds to each part, and to its body, the imports whose names it uses: who calls a function
    depends on what it says alone."""
    brought = [it for block in imports for it in brought_by(block)]
    for part in parts:
        said = {it for name, it in brought if is_used(name, part.words, part.text)}
        done = {
            it for name, it in brought if is_used(name, set(WORD.findall(part.body)), part.body)
        }
        # another name for it names it too
        part.words |= words_in("\n".join(it for it in said if " as " in it))
        part.text = "\n".join([*sorted(said), part.text])
        if part.body:
            part.body = "\n".join([*sorted(done - said), part.body])
        part.imports = brought
    return parts


@cache
def modelled_in(crate):
    """The types of a crate whose model is a value of its own, and that have no public field."""
    texts = (without_comments(read(file)) for file in files_of(f"crates/{crate}", ("src",)))
    blocks = [it for text in texts for it in blocks_of(text.split("\n"), 0)]
    valued = {found[1] for it in blocks if (found := MODELLED.search(it)) and "ghost Value" in it}
    is_open = re.compile(r"(?m)^    pub \w+:|\(pub ")
    opened = {
        found[1]
        for it in blocks
        if (found := re.search(r"(?m)^(?:pub )?struct (\w+)", it)) and is_open.search(it)
    }
    return frozenset(valued - opened)


@cache
def parts_of(crate, folders, is_above=False):
    """The parts of these folders of a crate, or what a crate above sees of them; of answers, which
    are those of one function, none."""
    found, modelled = [], modelled_in(crate) if is_above else None
    for file in files_of(f"crates/{crate}", folders):
        folder = file.split("/")[2]
        if folder != "proofs" or file.count("/") == 3:
            text = without_tests(file, read(file))
            parts, imports = (
                parts_of_source(text, modelled)
                if folder == "src"
                else definitions(text, folder == "proofs")
            )
            found += with_imports(parts, imports)
            named = frozenset(WORD.findall("\n".join(imports)))
            module = os.path.basename(file).removesuffix(".antt") if folder != "src" else ""
            for part in parts:
                part.module, part.crate = module, crate
                part.modules = named | {module} | set(WORD.findall(part.text + part.body))
    return found


@cache
def cited_by(crate, below):
    """The crates below of which a crate cites lemmas, and those of which these cite some."""
    of_whom = re.compile(rf"\b({'|'.join(below) or '(?!)'})(?:\.|::)proofs\b")
    found, left = set(), [crate]
    while left:
        texts = map(read, files_of(f"crates/{left.pop()}"))
        new = {low for text in texts for low in of_whom.findall(text)} - found - {crate}
        found |= new
        left += sorted(new)
    return sorted(found)


@cache
def answers_of(crate):
    """The answers of a crate by the name of their function."""
    found = {}
    for file in files_of(f"crates/{crate}", ("proofs",)):
        if file.count("/") > 3:
            found.setdefault(os.path.basename(os.path.dirname(file)).lstrip("+"), []).append(
                without_comments(read(file), "--")
            )
    return found


@cache
def kit():
    return subprocess.run(["rt", "version"], capture_output=True, check=True).stdout


def said_to(crate, below):
    """What the crates below say to a crate."""
    said = [it for low in below for it in parts_of(low, ("src", "specs"), True) if it.is_public]
    return said + [it for low in cited_by(crate, below) for it in parts_of(low, ("proofs",))]


class Reach:
    """The parts that a crate's own functions may depend on, by their names."""

    def __init__(self, crate, below):
        self.own = parts_of(crate, PARTS)
        self.always, self.named = [], {}
        for part in [*self.own, *said_to(crate, below)]:
            if part.is_said_elsewhere:
                continue
            if not part.names:
                self.always.append(part)
            for name in part.names:
                self.named.setdefault(name, []).append(part)

    def of(self, users):
        """The texts of the parts that these parts may use, of those that these may use, and so
        on."""
        found, left = set(self.always), [*users, *self.always]
        while left:
            user = left.pop()
            used = (it for word in user.words for it in self.named.get(word, ()) if user.sees(it))
            new = set(used) - found
            found |= new
            left += new
        return {part.text for part in found}


@cache
def reach(crate, below):
    return Reach(crate, below)


@cache
def tactics_of(crate):
    """What the crate says of how each of its functions is proved."""
    root = next(
        it for it in ("src/lib.rt", "src/main.rt") if os.path.isfile(f"crates/{crate}/{it}")
    )
    return re.findall(r"(?m)^#!\[.*\]$", read(f"crates/{crate}/{root}"))


def summed(texts):
    said = hashlib.sha256(kit())
    for text in texts:
        said.update(hashlib.sha256(text.encode()).digest())
    return said.hexdigest()[:32]


def user_of(crate, text, modules=frozenset()):
    """A text that uses others and has no name itself, with the modules that its file names."""
    user = Part((), text, False)
    user.crate, user.modules = crate, modules | user.words
    return user


def digest(crate, below, edit_text, functions):
    """The digest of what a mutant's refusal at a goal of one of these functions depends on."""
    its = reach(crate, tuple(below))
    groups = {it for part in its.own if part.names & functions for it in CYCLE.findall(part.text)}
    turned = [it for it in its.own if it.names & functions or groups & set(CYCLE.findall(it.text))]
    modules = frozenset().union(*(it.modules for it in turned))
    users = [user_of(crate, it, modules) for it in (edit_text, *tactics_of(crate))]
    users += [user_of(crate, f"{it.text}\n{it.body}", it.modules) for it in turned]
    words = set(WORD.findall(edit_text))
    brought = sorted({said for it in turned for name, said in it.imports if name in words})
    users += [user_of(crate, it, modules) for it in brought]
    for folder in sorted({*functions, *groups, *(name for it in turned for name in it.names)}):
        users += [user_of(crate, it) for it in answers_of(crate).get(folder, [])]
    return summed([*(it.text for it in users), *sorted(its.of(users))])


@cache
def whole(crate, below):
    """The digest of all of a crate, and of all that those below it say to it."""
    texts = []
    for file in files_of(f"crates/{crate}"):
        texts += [
            file,
            without_comments(
                without_tests(file, read(file)), "//" if file.endswith(".rt") else "--"
            ),
        ]
    return summed([*texts, *(it.text for it in said_to(crate, below))])


def whole_digest(crate, below, edit_text):
    """The digest of what a mutant's refusal depends on where another function than its own has the
    goal."""
    return summed([edit_text, whole(crate, tuple(below))])
