"""The functions of a source file: where each one's clauses and body stand, and the end of the name by which a check knows it."""

import dataclasses
import re

TOKEN = re.compile(r"//[^\n]*|/\*.*?\*/|b?r?\"(?:\\.|[^\"\\])*\"|b?'(?:\\[^']*|[^'\\\n])'", re.S)
CLAUSE = re.compile(r"(?:requires|ensures)\*?(?:\s+[\w-]+)?\s*\Z|ghost\s+\w+\s*:\s*\Z")
BLOCK = re.compile(r"^[ \t]*(?:pub(?:\(\w+\))? )?(?:unsafe )?(impl|trait)\b([^{}]*?)\{", re.M)


@dataclasses.dataclass(frozen=True)
class Function:
    """A function of a file: its name, its module or its type and trait, whether it is a trait's own, or an impl's of one, and where it
    begins, its clauses begin, its body begins and it ends. One that a trait declares has no body."""

    name: str
    owner: str
    is_of_trait: bool
    is_of_impl: bool
    start: int
    clauses: int
    body: int
    end: int


def blanked(text):
    """Returns the text with its comments and literals blanked, each character at its place."""
    return TOKEN.sub(lambda it: re.sub(r"[^\n]", " ", it[0]), text)


def closing(text, at):
    """Returns the place behind the brace that closes the one at a place."""
    depth = 0
    for it in re.compile("[{}]").finditer(text, at):
        depth += 1 if it[0] == "{" else -1
        if not depth:
            return it.end()
    return len(text)


def parted(text, by):
    """Returns the parts of a text at the commas, or the like, that stand in no bracket."""
    parts, depth = [""], 0
    for at, mark in enumerate(text):
        depth += (mark in "<([") - (mark in ")]" or mark == ">" and text[at - 1] != "-")
        if mark == by and not depth:
            parts.append("")
        else:
            parts[-1] += mark
    return [it.strip() for it in parts if it.strip()]


def word_of(kind, parameters):
    """Returns a type's name as a check spells it in one word, without the block's own parameters."""
    kind = re.sub(r"'\w+\s*|\bmut\b|\bdyn\b", "", kind).strip()
    if kind in parameters or not kind:
        return ""
    if kind == "()":
        return "Unit"
    if kind.startswith("("):
        parts = parted(kind[1:-1], ",")
        return f"Tuple{len(parts)}" + "".join(word_of(it, parameters) for it in parts)
    if kind.startswith("&"):
        inner = kind[1:].strip()
        return "RefSlice" + word_of(inner[1:-1], parameters) if inner.startswith("[") else "Ref" + word_of(inner, parameters)
    if kind.startswith("["):
        item, length = parted(kind[1:-1], ";")
        return "Array" + word_of(item, parameters) + (length if length.isdigit() else "")
    head, _, arguments = kind.partition("<")
    own = [it for it in parted(arguments.rpartition(">")[0], ",") if "=" not in it]
    name = head.split("::")[-1].strip()
    return name[:1].upper() + name[1:] + "".join(word_of(it, parameters) for it in own)


def owner_of(kind, header):
    """Returns the word for an impl's type and trait, or for a trait."""
    header = re.split(r"\bwhere\b", " ".join(header.split()))[0].strip()
    if kind == "trait":
        return re.match(r"\w+", header)[0]
    first, *rest = parted(header, " ")
    given = parted(first[1:-1], ",") if first.startswith("<") else []
    parameters = [re.sub(r"^const ", "", it).split(":")[0].split("=")[0].strip() for it in given]
    trait, _, of = " ".join(rest if given else [first, *rest]).rpartition(" for ")
    return word_of(of, parameters) + (word_of(trait, parameters) if trait not in ("", "Drop") else "")


def body_of(text, at):
    """Returns where the clauses begin, the body begins and the function ends whose name ends at a place."""
    since, clauses = at, 0
    for it in re.compile(r"[;{]").finditer(text, at):
        at = it.start()
        between = text[since:at]
        if at < since or between.count("(") + between.count("[") > between.count(")") + between.count("]"):
            continue
        clause = CLAUSE.search(between) if it[0] == "{" else None
        if not clause:
            end = closing(text, at) if it[0] == "{" else at
            return clauses or end, at, end
        clauses, since = clauses or since + clause.start(), closing(text, at)
    return clauses or at, at, at


def functions(text, module):
    """Returns the functions of a file's text, in its order; a free one is known by its module."""
    text = blanked(text)
    blocks = []
    for it in BLOCK.finditer(text):
        is_of_impl = " for " in re.split(r"\bwhere\b", " ".join(it[2].split()))[0]
        blocks.append((it.end() - 1, closing(text, it.end() - 1), owner_of(it[1], it[2]), it[1] == "trait", is_of_impl))
    found = []
    for it in re.finditer(r"\bfn\s+(\w+)", text):
        around = [block[2:] for block in blocks if block[0] < it.start() < block[1]] or [(module, False, False)]
        found.append(Function(it[1], *around[-1], it.start(), *body_of(text, it.end())))
    return found
