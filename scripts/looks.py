#!/usr/bin/env python3
"""Shows that no crate names another one's proofs/ but its ForCallers.antt, which speaks of public definitions alone."""

import re
import sys

import kit

# A module of proofs, as a lemma file or a clause names it, or as an attribute of the code does.
NAMED = re.compile(r"\bRattle\.(\w+)\.proofs\b(?!\.ForCallers\b)|\b(\w+)::proofs::(?!ForCallers\b)")
# What a file of published lemmas can't have: a definition that no public clause names, or a statement that stands elsewhere.
HIDDEN = re.compile(r"\bspecs\.Private\b|^\s*(pub\s+use|(pub\s+)?mod)\b")
# A line that each crate but the named one has to be refused for, so that this script is seen to be able to fail.
PLANTED = "use Rattle.warg_crypto.proofs.FramedLemmas.{framed}"


def faults_of(crate, text, is_published, own):
    """Yields each line that names another crate's proofs or publishes what is hidden."""
    for line in text.splitlines():
        named = {it[1] or it[2] for it in NAMED.finditer(line)} & own - {crate}
        yield from (f"{crate} names the proofs of {it}: {line.strip()}" for it in named)
        if is_published and HIDDEN.search(line):
            yield f"{crate} publishes what no public definition says: {line.strip()}"


def faults():
    """Yields all that is refused."""
    own = {*kit.crates()}
    for crate in own - {"warg_crypto"}:
        yield from [] if [*faults_of(crate, PLANTED, False, own)] else [f"a planted name isn't refused in {crate}"]
    for crate in sorted(own):
        folder = kit.ROOT / "crates" / crate
        for path in sorted(it for part in kit.PARTS for it in (folder / part).rglob("*") if it.suffix in (".rt", ".antt")):
            yield from faults_of(crate, path.read_text(), path.relative_to(folder).parts == ("proofs", "ForCallers.antt"), own)


if __name__ == "__main__":
    sys.exit("\n".join(faults()) or 0)
