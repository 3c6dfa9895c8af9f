"""Copies of a crate in which turned functions are checked, and what a check says of them."""
import os, re, shutil, subprocess, sys, threading
from functools import cache

from mutating.edits import turned
from mutating.sources import PARTS, files_of, read

SECONDS_A_CHECK = 3600
# An answer that fails by these words names a step that the edit took away: that says little of the
# contract.
BY_NAME = r"has no field|has no `|is not in scope|that can be named from here|was not admitted"
# An answer that fails by this word is for a goal that the edit made trivial: the goal is tried
# without it.
BY_TRIVIALITY = r"expected type `?Unit"

WEAK = (
    "weak: an answer names a step that it took away, which says little of the contract:"
    " turn a value"
)

printing = threading.Lock()
# rt works on one crate, and all below it, at a time
proving = threading.Lock()


def say(text):
    with printing:
        print(text, flush=True)


def unproved(folder):
    """Proves the crate of a folder over what is kept, so that its room finds it and all below it
    built, and gives why that fails, if it does."""
    how = {
        "stdin": subprocess.DEVNULL,
        "stdout": subprocess.PIPE,
        "stderr": subprocess.STDOUT,
        "errors": "replace",
    }
    ran = subprocess.run(["rt", "check"], cwd=folder, **how)
    return " ".join(ran.stdout.split("\n")[-4:])[-300:] if ran.returncode else None


class Said:
    """What a check said of a crate."""

    def __init__(self, lines):
        self.lines = lines
        # (a text that cannot be read or compiled ends the check before it speaks of any function)
        self.reached_the_prover = any(re.match(r"fn \S+: ", it) for it in lines)

    def goal_open(self, function):
        """The goal of the function that no answer is written for and no search proves."""
        for line in self.lines:
            found = re.match(
                rf"fn (?:\S+::)?{re.escape(function)}: no proof.*`search` did not prove `([^`]*)`",
                line,
            )
            if found:
                return found[1]
        return None

    def answers_refused(self, function):
        """The function's own written answers that are refused: file, goal and why."""
        found = []
        for line in self.lines:
            at = re.match(
                rf"(?:\./)?(proofs/(?:\S+/)?\+?{re.escape(function)}/\w+\.antt):\d+:\d+: error: "
                r"(?:`([^`]*)`: )?(.*)",
                line,
            )
            if at:
                found.append((at[1], at[2] or "", at[3]))
            elif found and line.startswith("  expected type"):
                found[-1] = (*found[-1][:2], found[-1][2] + line)
        return found

    def against(self, paths):
        """What a check says against functions of these paths and their closures, and what it says
        against others."""
        told = ([], [])
        for line in self.lines:
            found = re.match(r"fn \w+::(\S+): (?:not proved|no proof|could not tell)", line)
            if found:
                own = re.sub(r"\bfn::", "", found[1])
                told[not any(own == it or own.startswith(f"{it}::") for it in paths)].append(line)
        return told

    def closure_goal_open(self, paths):
        """The goal of a closure of these functions that no answer is written for and no search
        proves."""
        for line in self.against(paths)[0]:
            found = re.match(r"fn \S+::fn::\S+: no proof.*`search` did not prove `([^`]*)`", line)
            if found:
                return found[1]
        return None

    def any_goal(self):
        return next(
            (
                it
                for it in self.lines
                if re.match(
                    r"fn \S+: (no proof: expected answers|not proved)|note: src/.*is not proved", it
                )
            ),
            None,
        )


def list_of_copy(listed, name, below):
    """The crates.txt of a copy, from that of the repository, in which the crates below, lowest
    first, are built: they name each other only so far that rt finds all, in the order it had.

    rt reads a crate again on each way that leads down to it, several times in each check: from the
    program there are 7,000 ways.
    """
    lines = {re.split(r"[ :#]", it)[0]: it.split("#")[0] for it in listed.splitlines()}
    stands_on, left = {}, list(below)
    for low in (it for it in lines[name].partition(":")[2].split() if it in below):
        if low in left:
            place = left.index(low)
            stands_on[low], left = left[:place], left[place + 1 :]
    made = []
    for low in below:
        head, _, others = lines[low].partition(":")
        of_kit = [it for it in others.split() if it not in below]
        made.append(" ".join([f"{head}:", *stands_on.get(low, []), *of_kit]))
    return "\n".join([*made, lines[name], ""])


def copied(folder, name, below):
    """Copies a crate to where rt check finds the crates below it built, and its own kept proofs."""
    os.makedirs(f"{folder}/.git")
    shutil.copy("HANDLES", folder)
    with open(f"{folder}/crates.txt", "w", encoding="utf-8") as its:
        its.write(list_of_copy(read("crates.txt"), name, below))
    for low in [*below, name]:
        for part in (*PARTS, "out/rlib", *(["out/incremental"] if low == name else [])):
            if os.path.isdir(f"crates/{low}/{part}"):
                shutil.copytree(
                    f"crates/{low}/{part}", f"{folder}/crates/{low}/{part}", copy_function=linked
                )


@cache
def toolchain():
    """The module of the toolchain that knows when a built crate is that of its text."""
    sys.path.append(
        os.path.dirname(
            subprocess.run(["rt", "doc"], capture_output=True, text=True, check=True).stdout.strip()
        )
        + "/bin"
    )
    import rtlib

    return rtlib


def stamp_all(folder, below):
    """Marks the libraries of a copy as those of its text, which have just been built: `rt ci`
    leaves no mark, and one of `rt check` is by another crates.txt, so rt would build them anew.

    The copy is whole in itself: no other copy takes a library from it, since rt compares what each
    was built over.
    """
    for low in below:
        built = f"{folder}/crates/{low}/out/rlib"
        if os.path.isdir(f"{built}/{low}.rlib"):
            # (a mark that was there is a second name of another file)
            if os.path.exists(f"{built}/stamp"):
                os.remove(f"{built}/stamp")
            with open(f"{built}/stamp", "x", encoding="utf-8") as mark:
                mark.write(toolchain().Crate(f"{folder}/crates/{low}", folder, {}).stamp())


def linked(source, target):
    """Copies a file. One that nothing writes gets a second name where the disk allows it, which
    takes no room: rt makes a built crate anew elsewhere."""
    if "/out/rlib/" in source:
        try:
            os.link(source, target)
            return
        except OSError:
            # another disk, or too many names
            pass
    shutil.copy2(source, target)


HOLE = """use Rattle.{crate}.proofs.{module}.Statement.{{statement}}

pub {name}_spec : {{M : Type 1}} → statement M
{name}_spec = ?
"""


class Room:
    """A copy of a copy that stays as it was made, in which one check at a time tries turned bodies.

    With holes every function of these paths but the turned ones has a hole for its proof, and is
    taken at its contract's word: it was proved elsewhere, and the prover judges a turned body by
    the contracts of what it calls.
    """

    def __init__(self, folder, whole, name, said_to, holes=()):
        shutil.copytree(whole, folder, copy_function=linked)
        self.holes, self.filled = holes, {}
        self.folder, self.whole, self.name, self.said_to, self.count = (
            folder,
            whole,
            name,
            said_to,
            0,
        )
        self.crate = f"{folder}/crates/{name}"
        self.texts = {
            os.path.relpath(it, self.crate): read(it) for it in files_of(self.crate, ("src",))
        }
        self.work = f"{self.crate}/out/incremental"

    def begin_anew(self):
        shutil.rmtree(self.work)
        shutil.copytree(f"{self.whole}/crates/{self.name}/out/incremental", self.work)

    def hole(self, turned_paths):
        """Leaves out the proofs of all functions but these."""
        for path in self.holes:
            at = f"{self.crate}/proofs/{path.replace('::', '/')}"
            if os.path.isdir("/+".join(os.path.split(at))):
                continue  # It calls itself, so its proof lies there, and a file here is refused.
            if path in turned_paths and path in self.filled:
                os.remove(f"{at}/Proof.antt")
                for file, text in self.filled.pop(path).items():
                    with open(file, "w", encoding="utf-8") as its:
                        its.write(text)
            elif path not in turned_paths and path not in self.filled:
                files = [f"{at}/{it}.antt" for it in ("Proof", "Invariants", "Answers")]
                self.filled[path] = {it: read(it) for it in files if os.path.isfile(it)}
                for it in self.filled[path]:
                    os.remove(it)
                os.makedirs(at, exist_ok=True)
                with open(f"{at}/Proof.antt", "w", encoding="utf-8") as its:
                    its.write(
                        HOLE.format(
                            crate=self.name,
                            module=path.replace("::", "."),
                            name=path.rpartition("::")[2],
                        )
                    )

    def check(self, members, is_whole=False, is_turned=True):
        """Checks the functions that the members turn with their bodies, or the whole crate, and
        gives None where all of that is proved."""
        for path, text in turned(self.texts, members if is_turned else []).items():
            with open(f"{self.crate}/{path}", "w", encoding="utf-8") as file:
                file.write(text)
        paths = {it for edit in members for it in edit.paths}
        if self.holes:
            self.hole(paths)
        words = ["rt", "check", "--jobs", "1", "--allow-holes"]
        if not is_whole or any(edit.law for edit in members):
            words += [it for path in sorted(paths) for it in ("--only", f"{self.name}::{path}")]
        how = {
            "cwd": self.crate,
            "stdin": subprocess.DEVNULL,
            "stdout": subprocess.PIPE,
            "stderr": subprocess.STDOUT,
        }
        ran = subprocess.run(words, errors="replace", timeout=SECONDS_A_CHECK, **how)
        self.count += 1
        if self.said_to:
            with open(
                f"{self.said_to}/{self.name}-{os.path.basename(self.folder)}-{self.count}", "w"
            ) as file:
                file.write(f"turned: {' '.join(it.name for it in members)}\n{ran.stdout}")
        if not ran.returncode:
            return None
        return Said([it for it in ran.stdout.split("\n") if not it.startswith("so far: ")])

    def says_all(self, said, members):
        """Whether a check speaks of functions, and with holes of none but the turned ones that it
        isn't proved."""
        if said is None or not said.reached_the_prover:
            return False
        strays = (
            said.against({it for edit in members for it in edit.paths})[1] if self.holes else []
        )
        for line in strays[:1]:
            say(
                f"{self.name}: beside what was turned, and so tried again over its proofs:"
                f" {line[:200]}"
            )
        return not strays

    def without_answers(self, answers):
        """Takes these written answers away, and gives what puts them back."""
        whole = {}
        for file, goal, _ in answers:
            path = f"{self.crate}/{file}"
            whole.setdefault(path, read(path))
            blocks = re.split(r"(?m)^(?=(?:pub )?[\w-]+ :(?: |$))", read(path))
            kept = [it for it in blocks if not re.match(rf"(?:pub )?{re.escape(goal)} :", it)]
            with open(path, "w", encoding="utf-8") as text:
                text.write("".join(kept))
        return whole

    def put_back(self, whole):
        for path, text in whole.items():
            with open(path, "w", encoding="utf-8") as file:
                file.write(text)


def refusal(said, edit):
    """Where a check refuses a turned function by a goal of its own (else None), and whether by the
    names of a proof's steps alone."""
    weak = None
    for function in sorted(edit.functions):
        goal = said.goal_open(function)
        if goal:
            return goal, False
        for _, goal, why in said.answers_refused(function):
            if not re.search(f"{BY_NAME}|{BY_TRIVIALITY}", why):
                return goal or "a lemma of its proof", False
            weak = weak or (goal or "a lemma of its proof", True)
    return weak


def try_alone(room, edit, said=None):
    """Tries one edit over the kept proofs, and gives whether it is refused, and a line that says
    how."""
    if said is None:
        room.begin_anew()
        said = room.check([edit], is_whole=True)
    if said is None:
        return False, "NOT REFUSED: the crate is proved with it"
    if not said.reached_the_prover:
        return False, f"BAD EDIT: it doesn't reach the prover: {' '.join(said.lines[:3])[:200]}"
    found = refusal(said, edit)
    if found and not found[1]:
        return True, f"refused at {found[0]}"
    if found:
        answers = [
            it for function in edit.functions for it in said.answers_refused(function) if it[1]
        ]
        whole = room.without_answers(answers)
        again = room.check([edit], is_whole=True)
        room.put_back(whole)
        if again is None:
            return (
                False,
                f"NOT REFUSED: its goal {found[0]} is proved without the answer that was written"
                " for it",
            )
        goals = [again.goal_open(it) for it in sorted(edit.functions) if again.goal_open(it)]
        return True, f"refused at {goals[0] if goals else found[0]} ({WEAK})"
    other = said.any_goal()
    return (
        (True, f"refused alone: {other[:200]}")
        if other
        else (False, f"NOT REFUSED by a goal: {' '.join(said.lines[:3])[:200]}")
    )


def try_over_holes(room, edit):
    """Tries one edit where the other functions have holes for proofs, and gives what try_alone
    does, or None where that says too little."""
    said = room.check([edit]) if None not in edit.paths else None
    if not room.says_all(said, [edit]):
        return None
    found = refusal(said, edit)
    if not found:
        goal = said.closure_goal_open(edit.paths)
        return (True, f"refused at {goal}, of a closure") if goal else None
    if not found[1]:
        return True, f"refused at {found[0]}"
    answers = [it for function in edit.functions for it in said.answers_refused(function) if it[1]]
    whole = room.without_answers(answers)
    again = room.check([edit])
    room.put_back(whole)
    goals = (
        [again.goal_open(it) for it in sorted(edit.functions) if again.goal_open(it)]
        if room.says_all(again, [edit])
        else []
    )
    return (True, f"refused at {goals[0]} ({WEAK})") if goals else None


def settle(room, members, tell):
    """Tries the members in one check, by halves where their text isn't read, and tells of each that
    it settles. Gives the others."""
    said = room.check(members)
    if said is not None and not said.reached_the_prover and len(members) > 1:
        half = len(members) // 2
        return settle(room, members[:half], tell) + settle(room, members[half:], tell)
    left = []
    for edit in members:
        found = refusal(said, edit) if room.says_all(said, members) else None
        if found and not found[1]:
            tell(edit, True, f"refused at {found[0]}")
        else:
            left.append(edit)
    return left


def try_unturned(room, members, tell):
    """Checks the functions that the members turn as they are, and tells whether all but holes is
    proved: else a turned one could be refused for another reason."""
    said = room.check(members, is_turned=False)
    told = (
        [] if said is None else said.against(())[1] if said.reached_the_prover else said.lines[:3]
    )
    for edit in members:
        tell(
            edit,
            not told,
            f"unturned: NOT PROVED: {told[0][:200]}" if told else "unturned: proved, but for holes",
        )
    return []


def make_whole(folder, name, below, is_after_gate):
    """Makes the copy of which a crate's rooms are copies, with the crate proved in it but after the
    gate, and gives why that fails, if it does."""
    # a check of another crate writes below those that this copy reads
    with proving:
        why = None if is_after_gate else unproved(f"crates/{name}")
        if not why:
            copied(folder, name, below)
            stamp_all(folder, below)
    return why
