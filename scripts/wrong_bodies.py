#!/usr/bin/env python3
"""Shows that the prover refuses each crate's wrong bodies, crates/NAME/wrong-bodies/*.edit and must-fail/*.edit.

An edit is a line 'file: src/lib.rt' and then pairs of lines 'old: TEXT' and 'new: TEXT', each old text standing there once; 'old
line: TEXT' stands for a whole line, and after a line 'behind: TEXT' the first one behind that text is meant. One check of a copy of
the crate judges a round of edits (docs/ARCHITECTURE.md). An edit is refused exactly if the check names an open goal of its wrong
body, or an error in the proof files, which is no lack of a name; what waits for a callee goes to the next round. What is let through
or never judged fails, as where an edit takes away a name that the answers cite, and so does an edit that changes no one function.
Edits in wrong-bodies/planted change no meaning, and show that this script can fail: each must come out as let through, and waits_*
wait first for a broken method. Where all of a crate's came out, that is kept on this machine, by a sum of all that was read, and they
aren't tried again.

Usage: wrong_bodies.py [--crate NAME] [--only WORD]
"""

import argparse
import collections
import concurrent.futures
import dataclasses
import os
import pathlib
import re
import shutil
import sys
import tempfile

import items
import kit

KEPT = pathlib.Path(os.environ.get("XDG_CACHE_HOME") or pathlib.Path.home() / ".cache") / "warg-wrong-bodies"
WAITS = re.compile(r"which (is|are) not proved")
# What a check says of a function whose own proof has no open goal; the second and the third, of one beside holes.
PROVED = ("proved", "no holes", "depends on a hole in")
# What stands for the proof of a function that a round doesn't judge; and a lemma in a file, what it says and its proof.
PROOF = "use {0}.Statement.{{statement}}\n\npub {1}_spec : {{M : Type 1}} → statement M\n{1}_spec = absurd let_through\n"
LEMMA = re.compile(r"""^(?P<said>(?P<room>\ *)(?:pub\ )?(?P<name>[^\s:(){}=]+)(?:\ \{[^}]*\})?\ :.*\n(?:(?P=room)(?:\ +\S|[)}\]]).*\n)*)
(?:(?P=room)unfolding\ .*\n(?:(?P=room)\ +\S.*\n)*)?(?:(?P=room)(?P=name)\ .*\n(?:(?P=room)(?:\ +\S|[)}\]]).*\n|\n+(?=(?P=room)\ +\S))*)+""", re.M | re.X)
CYCLE = re.compile(r"#\[cycle\((\w+)\)\]\s*(?:#\[[^\n]*\]\s*|//[^\n]*\n\s*)*(?:pub(?:\(\w+\))? )?\Z")
WRAPPED = re.compile(r"^(?:\./)?proofs/\S+: error: .*(?:\n  .*)+", re.M)
LACKS_A_GOAL = re.compile(r"^(?:\./)?proofs/(\S+)/\w+\.antt:\d+:\d+: error: `[^`]+`: `goal\.([^`]+)`: module", re.M)
OPEN = re.compile(r"^note: src/.*\(`([^`]+)`\)", re.M)
LACKS_A_NAME = re.compile(r"has no field|is not in scope|has no `|was not admitted|is no name")


@dataclasses.dataclass(eq=False)
class Edit:
    """A wrong body: its pairs of texts by file, whether it is planted, the name of the function that it changes, its own name and
    those of what has one proof with it, and what its rounds told."""

    path: pathlib.Path
    pairs: list
    is_planted: bool
    changed: str = ""
    functions: list = ()
    told: list = dataclasses.field(default_factory=list)

    def fault(self):
        """Returns what is wrong with what its rounds told, or nothing."""
        wanted = ["waits"] * self.path.stem.startswith("waits_") + ["proved" if self.is_planted else "refused"]
        return "" if self.told[-len(wanted) :] == wanted else f"it should end as {wanted}, and was told {self.told}"


def read(path):
    """Returns the edit in a file."""
    file, behind, old, around, pairs = "", "", None, "", []
    for line in path.read_text().splitlines():
        key, _, text = line.partition(":")
        text = text.removeprefix(" ")
        if key == "file":
            file, behind = text.strip(), ""
        elif key == "behind":
            behind = text
        elif key in ("old", "old line"):
            old, around = text, "\n" if key == "old line" else ""
        elif key == "new" and file and old:
            pairs.append((file, behind, around + old + around, around + text + around))
            old = None
    return Edit(path, pairs, path.parent.name == "planted")


def place(text, behind, old):
    """Returns where an old text stands in a file's, the first time behind the other one, or -1 where one isn't there just once."""
    return text.find(old, text.find(behind) if behind else 0) if text.count(behind or old) == 1 else -1


def applied(edit, texts):
    """Returns its file's text with the edit, or none unless each of its old texts stands there, as the pairs before leave them."""
    text = texts.get(edit.pairs[0][0], "") if edit.pairs else ""
    for _, behind, old, new in edit.pairs:
        at = place(text, behind, old)
        if at < 0:
            return ""
        text = text[:at] + new + text[at + len(old) :]
    return text


def copy(room, folder, to):
    """Copies a function's proof for one of another name beside it."""
    if (room / folder).is_dir():
        shutil.copytree(room / folder, room / to)
        for file in (room / to).rglob("*.antt"):
            file.write_text(file.read_text().replace(f"{'.'.join(folder.parts)}.", f"{'.'.join(to.parts)}."))


class Check:
    """What the prover says of a copy of a crate with some edits."""

    def __init__(self, said):
        self.said = said = WRAPPED.sub(lambda it: re.sub(r"\n +", " ", it[0]), said)
        self.lines = dict(re.findall(r"^fn (\S+): (.*)$", said, re.M))
        found = re.findall(r"^(?:\./)?proofs/(\S*?)/?\w+\.antt:\d+:\d+: error: (.*)$", said, re.M)
        self.faults = {folder.replace("+", "") for folder, fault in found if not LACKS_A_NAME.search(fault)}
        # Open goals stand above the line of their function.
        parts = re.split(r"^fn (\S+): .*$", said, flags=re.M)
        self.open = {name: OPEN.findall(above) for above, name in zip(parts[::2], parts[1::2])}

    def is_broken(self, name):
        """Whether a function has an open goal of a kind that its answers don't lack, or an error in its proof that is no lack of a name."""
        own, said = "/".join(name.split("::")[1:]), self.lines.get(name, "proved")
        lacked = {goal.partition("-")[0] for folder, goal in LACKS_A_GOAL.findall(self.said) if folder.replace("+", "") == own}
        is_open = any(goal.partition("-")[0] not in lacked for goal in self.open.get(name, ()))
        return (is_open or "did not prove" in said or own in self.faults) and not said.startswith(PROVED)

    def verdict(self, edit):
        """Returns refused, proved or waits, as it says of one of its edits; else nothing."""
        names = [it for it in edit.functions if it in self.lines]
        said = self.lines[names[0]] if names else ""
        if any(map(self.is_broken, names)):
            return "refused"
        return "proved" if said.startswith(PROVED) else "waits" if WAITS.search(said) else ""

    def answer(self, edit):
        """Returns what it says of one of its edits: refused, proved, or a word why it says nothing yet."""
        if not self.lines:
            return "unread: " + next((it for it in self.said.splitlines() if "error" in it), "")[:200]
        return self.verdict(edit) or f"unjudged: {self.lines.get(edit.functions[0], '')[:200]}"


class Crate:
    """A crate whose wrong bodies are tried."""

    def __init__(self, name, only):
        self.name, self.folder = name, kit.ROOT / "crates" / name
        self.seconds, self.checks = 0.0, 0
        self.texts = {str(it.relative_to(self.folder)): it.read_text() for it in sorted(self.folder.glob("src/**/*.rt"))}
        parts = {it: pathlib.Path(it).with_suffix("").parts[1:] for it in self.texts}
        self.modules = {it: tuple(part for part in parts[it] if part not in ("lib", "main")) for it in self.texts}
        self.functions, self.cycles, self.free = {}, collections.defaultdict(list), set()
        for file, text in self.texts.items():
            found = items.functions(text, (name, *self.modules[file])[-1])
            self.functions[file] = [(it, self.name_of(file, it)) for it in found if it.body < it.end]
            for it, named in self.functions[file]:
                for cycle in CYCLE.findall(text[: it.start]):
                    self.cycles[cycle].append(named)
                if not it.is_of_impl and not self.is_left(it, named):
                    self.free.add(named)
        found = [read(it) for it in sorted([*self.folder.glob("wrong-bodies/**/*.edit"), *self.folder.glob("must-fail/*.edit")])]
        self.found = [it for it in found if only in it.path.stem]
        for edit in (it for it in self.found if applied(it, self.texts)):
            edit.changed = own = self.function_of(edit)
            around = (it for cycle in self.cycles.values() if own in cycle for it in cycle if it != own)
            edit.functions = [f"{own.rpartition('::')[0]}::{edit.path.stem}"] if own in self.free else [own, *around]
        self.edits = [it for it in self.found if it.changed]
        scripts = map(pathlib.Path, (__file__, items.__file__, kit.__file__))
        self.kept = KEPT / (kit.sum_of(name, [*scripts, *(it.path for it in self.found)]) + only)

    def name_of(self, file, function):
        """Returns the name by which a check knows a function of a file: a type's own stand where the type does."""
        module, owner = self.modules[file], function.owner
        if owner == (self.name, *module)[-1]:
            return "::".join((self.name, *module, function.name))
        declared = re.compile(rf"^\s*(?:pub(?:\(\w+\))? )?(?:struct|enum) {owner}\b", re.M)
        homes = [self.modules[it] for it, text in self.texts.items() if declared.search(text)]
        home = max(homes, key=lambda it: len(os.path.commonprefix([it, module])), default=module)
        return "::".join((self.name, *home, owner, function.name))

    def function_of(self, edit):
        """Returns the name of the one function that holds all of the edit's old texts outside its clauses, or none."""
        found = set()
        for file, behind, old, _ in edit.pairs:
            at = place(self.texts[file], behind, old)
            end = at + len(old)
            around = [name for it, name in self.functions[file]
                      if it.start <= at and end <= it.end and (end <= it.clauses or it.body <= at)]
            found.add(around[-1] if around else "")
        return found.pop() if len(found) == 1 else ""

    def proofs_of(self, function):
        """Returns the folder of a function's proof."""
        return pathlib.Path("proofs", *function.split("::")[1:])

    def is_left(self, function, name):
        """Whether a round leaves a function as it is that it doesn't judge: one of a trait, or in a cycle of calls."""
        proof = self.folder / self.proofs_of(name)
        return function.is_of_trait or name in sum(self.cycles.values(), []) or proof.with_name(f"+{function.name}").exists()

    def text_of(self, file, edits):
        """Returns a file's text in a round: each wrong body, and nothing in place of the bodies that the round doesn't judge."""
        text = self.texts[file]
        for it, name in reversed(self.functions[file]):
            start = max(text.rfind(between, 0, it.start) for between in ("\n\n", "{\n")) + 2
            is_left = self.is_left(it, name) or it.name == "drop"
            bodies = {it.name: text[start : it.end] if is_left else text[start : it.body] + "{ unreachable!() }"}
            for edit in (edit for edit in edits if edit.changed == name):
                own, changed = edit.functions[0].split("::")[-1], applied(edit, self.texts)
                wrong = changed[start : it.end + len(changed) - len(self.texts[file])]
                bodies[own] = wrong.replace(f"fn {it.name}", f"fn {own}", 1)
            text = text[:start] + "\n\n".join(bodies.values()) + text[it.end :]
        return text

    def lay_out(self, room, edits):
        """Writes a copy of the crate for a round: the texts, a proof beside each wrong body, and the hole for all other proofs."""
        for part in filter(lambda it: (self.folder / it).is_dir(), kit.PARTS):
            shutil.copytree(self.folder / part, room / part)
        for file in self.texts:
            (room / file).write_text(self.text_of(file, edits))
        for edit in (it for it in edits if it.functions[0] != it.changed):
            copy(room, self.proofs_of(edit.changed), self.proofs_of(edit.functions[0]))
        self.leave_out(room / "proofs", {it for edit in edits for it in edit.functions})

    def leave_out(self, proofs, judged):
        """Puts the hole in place of what lemmas prove, and of the proofs of functions that a round doesn't judge."""
        hole = f"use Rattle.{self.name}.proofs.LetThrough.{{let_through}}\n"
        for file in [it for it in proofs.rglob("*.antt") if it.stem not in ("Answers", "Invariants", "Proof", "Lib")]:
            file.write_text(hole + LEMMA.sub(r"\g<said>\g<room>\g<name> = absurd let_through\n", file.read_text()))
        proofs.mkdir(exist_ok=True)
        proofs.joinpath("LetThrough.antt").write_text("pub let_through : ⊥\nlet_through = ?\n")
        with proofs.joinpath("Lib.antt").open("a") as declared:
            declared.write("pub mod LetThrough\n")
        for it, name in sum(self.functions.values(), []):
            if name not in judged and not self.is_left(it, name):
                folder = proofs.parent / self.proofs_of(name)
                shutil.rmtree(folder, ignore_errors=True)
                folder.mkdir(parents=True)
                module = ".".join(("Rattle", self.name, *self.proofs_of(name).parts))
                folder.joinpath("Proof.antt").write_text(hole + PROOF.format(module, it.name))

    def check(self, edits):
        """Returns what the prover says of the wrong bodies of a round, in a copy of the crate."""
        with tempfile.TemporaryDirectory(prefix="wrong-bodies-") as room:
            self.lay_out(pathlib.Path(room), edits)
            scope = [word for it in edits for word in ("--only", it.functions[0])]
            _, said, seconds = kit.call([kit.RATTLE, "check", *kit.words(self.name), *scope, "--allow-holes"], room)
            self.seconds, self.checks = self.seconds + seconds, self.checks + 1
            return Check(said)

    def try_all(self):
        """Tries the edits in rounds: one, and up to two more for those that wait. Returns the crate's faults."""
        if self.kept.is_file():
            print(f"{self.name}: {self.kept.read_text()}, as was seen before", flush=True)
            self.refused = int(self.kept.read_text().split()[0])
            return []
        while left := [it for it in self.edits if it.told in ([], ["waits"], ["waits", "waits"])]:
            # One a proof: those beside their functions go all into one round.
            edits = {frozenset(it.functions): it for it in reversed(left)}.values()
            checked = self.check(edits)
            for edit in edits:
                edit.told.append(checked.answer(edit))
        lost = (it for it in self.found if it not in self.edits)
        faults = [f"{it.path.stem}: an old text doesn't stand in its file as it has to, or isn't of one function" for it in lost]
        faults += [f"{it.path.stem}: {it.fault()}" for it in self.edits if it.fault()]
        wrong = [it for it in self.edits if not it.is_planted]
        self.refused = sum(it.told[-1] == "refused" for it in self.edits)
        told = f"{self.refused} of {len(wrong)} wrong bodies refused, {len(self.edits) - len(wrong)} planted"
        print(f"{self.name}: {told}, {self.checks} checks, {self.seconds / 60:.1f} min",
              *(f"FAILED {self.name}: {it}" for it in faults), sep="\n", flush=True)
        if not faults:
            KEPT.mkdir(parents=True, exist_ok=True)
            self.kept.write_text(told)
        return faults


def main():
    asked = argparse.ArgumentParser()
    asked.add_argument("--crate", action="append", default=[], choices=[*kit.crates()])
    asked.add_argument("--only", default="")
    asked = asked.parse_args()
    crates = [Crate(it, asked.only) for it in kit.crates() if it in (asked.crate or kit.crates())]
    crates = sorted((it for it in crates if it.found), key=lambda it: -len(it.edits))
    with concurrent.futures.ThreadPoolExecutor(len(os.sched_getaffinity(0))) as pool:
        failed = sum(map(len, pool.map(Crate.try_all, crates)))
    print(f"wrong bodies: {sum(it.refused for it in crates)} refused, {failed} failed")
    sys.exit(bool(failed) or not crates)


if __name__ == "__main__":
    main()
