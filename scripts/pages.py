#!/usr/bin/env python3
"""Shows that the pages say what the sources have: writes the tables that are made of them, or with --check names each page
that isn't as it would write it, and each fault in what the pages say of the code. With --definitions it prints the definitions that the
contracts rest on, in reading order, out of the comments of specs/.

It writes the tables of calls and laws into each CALLING.md, the sizes into docs/ARCHITECTURE.md, into docs/USING.md the lines of
crates.txt that each use takes, and explorer/index.html as the text of warg_explorer. It checks that

- the README's program, the laws in docs/HEADLINE.md and the code in each CALLING.md stand in the crates as they are shown;
- each definition that a public clause may name has a comment;
- docs/PROVED.md and docs/HEADLINE.md name nothing that isn't there, and no clause that the call beside it hasn't;
- each link within the repository leads to a file, and a page that is named is a link;
- the programs and the library for C have the version of CHANGELOG.md, and ffi/warg.h the numbers of the definitions;
- README.md has at most 90 lines, and docs/HEADLINE.md 40.
"""

import itertools
import re
import sys

import items
import kit

ROOT, CRATES, DOCS = kit.ROOT, kit.ROOT / "crates", kit.ROOT / "docs"
PAGE = """//! The page's text. Made by `scripts/pages.py` from `explorer/index.html`.

/// A page of HTML that shows a log's folder in a browser, and checks what it shows. It stands in the folder.
pub const PAGE: &str = r##"{}"##;
"""
DEFINITIONS = """# The definitions, in reading order

Whoever believes these definitions believes what the contracts say. Under `Private` stand those that only clauses of private
functions name, and the views and invariants of types whose fields are private. `H` is any function from byte lists to lists of
32 bytes; only the definitions of `Sha256`, of the program's text and of the verdicts for C fix it.
"""
ITEM = re.compile(r"^(?:unfoldable |abbrev )*pub (?:unfoldable |abbrev |record |inductive |data )*([^\s:({]+)", re.M)
# Names of the standard library and of the kit.
OF_OTHERS = {"Debug", "D", "H", "L", "Ok", "Err", "usize", "digest", "MAX", "n", "sha2"}
# Where the programs say their version.
PROGRAMS = ("warg_check_cli/src/texts.rt", "warg_verdict/src/usage.rt", "warg_tlog/src/usage.rt")
# A page that goes into an archive, where this repository isn't.
TAKEN_HOME = "docs/ARCHIVE.md"
# Faults of a log's image, which no bundle has, and what the header calls other numbers.
OF_IMAGES = {"NOT_A_LOG", "NOT_A_STACK"}
IN_HEADER = {"OK_TRUE": "TRUE", "OK_FALSE": "FALSE", "MEMORY": "OUT_OF_MEMORY"}


def modules(crate):
    """Returns the files of a crate's specs/ by their modules, in reading order, the private ones last."""
    folder, names = CRATES / crate / "specs", []
    for file, prefix in (("Lib.antt", ""), ("Private.antt", "Private.")):
        text = (folder / file).read_text() if (folder / file).exists() else ""
        names += [prefix + it for it in re.findall(r"^pub mod (\w+)", text, re.M) if it != "Private"]
    return {it: folder / f"{it.replace('.', '/')}.antt" for it in names}


def definitions(crate):
    """Yields the module, the name and the comment of each definition of a crate."""
    for module, path in modules(crate).items():
        for block in re.split(r"\n\n+", path.read_text()):
            comment = " ".join(it[2:].strip() for it in block.split("\n") if it.startswith("--"))
            yield from ((module, name, comment) for name in ITEM.findall(block))


def definitions_page():
    """Yields the text of all definitions."""
    yield DEFINITIONS
    for crate in (it for it in kit.crates() if [*definitions(it)]):
        yield f"\n## `{crate}/specs`\n"
        for module, path in modules(crate).items():
            rows = [f"- `{name}`: {comment}\n" for of, name, comment in definitions(crate) if of == module]
            about = re.match(r"(?:--.*\n)*", path.read_text())[0]
            yield f"\n**`{module}`** {' '.join(about.replace('--', '').split())}\n\n{''.join(rows)}" if rows else ""


def exported(root):
    """Returns the names that a library's root file exports."""
    text = items.blanked(root.read_text())
    used = re.split("[{,};]", "".join(re.findall(r"^pub use ([^;]+;)", text, re.M)))
    names = {it.rpartition("::")[2].split(" as ")[0].strip() for it in used}
    return names | set(re.findall(r"^pub (?:struct|enum|trait) (\w+)", text, re.M))


def renamed(root):
    """Returns the names under which a library's root file exports others, by their module and own name."""
    used = re.findall(r"^pub use (\w+)::(\{[^}]*\}|[^;]*);", root.read_text(), re.M)
    found = ((module, it) for module, names in used for it in re.findall(r"(\w+) as (\w+)", names))
    return {(module, own): other for module, (own, other) in found}


def sentence(text, at):
    """Returns the first sentence of the doc comment above a place."""
    lines = itertools.takewhile(lambda it: it.startswith(("//", "#[")), map(str.strip, reversed(text[:at].splitlines())))
    first = " ".join(reversed([it[3:].strip() for it in lines if it.startswith("///")])).split("  ")[0]
    ended = re.match(r"(.*?[.:])(?: |$)(?=[A-Z`]|$)", first)
    return re.sub(r"\[(`[^`]*`)\](\([^)]*\))?", r"\1", (ended[1] if ended else first).rstrip(".:"))


def signature_of(owner, text):
    """Returns a call's signature on one line."""
    line = re.sub(r",? *([>)])", r"\1", re.sub(r"([(<]) ", r"\1", " ".join(text.split()))).rstrip("; }")
    return f"{owner}::{line.removeprefix('fn ')}".removeprefix("::")


def variants(crates):
    """Returns the cases of each error type, as its enum lists them."""
    found = {}
    for path in sorted(it for name in crates for it in (CRATES / name / "src").rglob("*.rt")):
        bare = items.blanked(path.read_text())
        for it in re.finditer(r"^pub enum (\w+)[^{]*\{", bare, re.M):
            inside = bare[it.end() : items.closing(bare, it.end() - 1) - 1]
            found[it[1]] = items.parted(re.sub(r"#\[[^\n]*\]| \{[^}]*\}", "", inside), ",")
    return found


def errors(signature, known):
    """Returns a call's errors, by its result's type: the cases of an enum, or the type."""
    result = re.search(r"-> Result<(.*)>$", signature)
    name = items.parted(result[1], ",")[-1] if result else ""
    return ", ".join(f"`{it}`" for it in known.get(name, [name])) if result else ""


def needs(clauses):
    """Returns what the `requires` of a call ask, each without its name."""
    text = " ".join(re.sub(r"//[^\n]*", "", clauses).split())
    return "; ".join(f"`{it}`" for it in re.findall(r"requires\*?(?: \w+)? \{ (.*?) \}\s*(?=$|requires|ensures)", text))


def calls(folder):
    """Yields the owner, signature, first sentence and conditions of each public call of a library, file by file, the laws last."""
    names, aliases = exported(folder / "src/lib.rt"), renamed(folder / "src/lib.rt")
    for path in sorted((folder / "src").rglob("*.rt"), key=lambda it: (it.stem == "laws", it)):
        text, is_law = path.read_text(), path.stem == "laws"
        for call in sorted(items.functions(text, path.stem), key=lambda it: it.body < it.end):
            line = text.rfind("\n", 0, call.start) + 1
            owner = call.owner if call.owner != path.stem or call.owner in names else ""
            shown = is_law or (owner in names if owner else call.name in names or path.name == "lib.rt")
            if shown and (re.match(r"\s*pub (?!\()", text[line:]) or call.is_of_trait and owner in names):
                signature = signature_of(aliases.get((path.parent.name, owner), owner), text[call.start : min(call.clauses, call.body)])
                yield "laws" if is_law else owner, signature, sentence(text, line), needs(text[call.clauses : call.body])


def with_table(text, heads, rows):
    """Returns a page's text with these rows in the table with these heads, which comes last where the page has none."""
    lines = ["| " + " | ".join(it.replace("|", "\\|") for it in row) + " |" for row in rows]
    head = f"| {' | '.join(heads)} |\n"
    made = head + "\n".join(["|" + "---|" * len(heads), *lines, ""]) if lines else ""
    found = re.search(re.escape(head) + r"(?:\|.*\n)*", text)
    return text.replace(found[0], made) if found else f"{text}\n{made}" if made else text


def handed_on(folder):
    """Yields the path of each name that a library hands on, and the library that it is of."""
    for path in sorted((folder / "src").glob("*.rt")):
        for library, listed in re.findall(r"^pub use (warg_\w+)(?:::\w+)*::\{?([\w,\s]+)\}?;", path.read_text(), re.M):
            yield from ((f"`{path.stem}::{name}`", f"[`{library}`](../{library}/src/lib.rt)") for name in re.findall(r"\w+", listed))


def calling(folder):
    """Returns a library's page with the tables that are made from its sources."""
    known, made = variants([*kit.below(folder.name, kit.crates()), folder.name]), [*calls(folder)]
    of_calls = [(f"`{it}`", says, errors(it, known), asks) for owner, it, says, asks in made if owner != "laws"]
    of_laws = [(f"`laws::{it.removesuffix('()')}`", says) for owner, it, says, _ in made if owner == "laws"]
    text = with_table((folder / "CALLING.md").read_text(), ["call", "what it returns or says", "cases of its error", "needs"], of_calls)
    text = with_table(text, ["law", "what it says"], of_laws)
    return text if made else with_table(text, ["path", "is of"], handed_on(folder))


def sizes(text):
    """Returns a page with the table of sizes."""
    rows = []
    for name in (it for it in kit.crates() if it.startswith("warg_") and not it.endswith("_tests")):
        sources = sorted((CRATES / name).glob("src/**/*.rt"))
        counted = sum(function.body < function.end for it in sources for function in items.functions(it.read_text(), it.stem))
        wrong = sum(len([*(CRATES / name).glob(f"{it}/*.edit")]) for it in ("wrong-bodies", "must-fail"))
        rows.append((f"`{name}`", str(len(sources)), str(counted), str(wrong)))
    return with_table(text, ["crate", "files", "functions", "wrong bodies"], rows)


def listed_below(mine):
    """Returns the lines of crates.txt for what a crate of another repository, in its own line, stands on."""
    listed = kit.crates()
    there = {it: f"upstream/crates/{it}" for it in listed}
    below = {under for it in listed if there[it] in mine.split() for under in [*kit.below(it, listed), it]}
    lines = [f"{there[it]}: {' '.join(there.get(need, need) for need in listed[it])}" for it in listed if it in below]
    return "```text\n" + "\n".join([*lines, mine]) + "\n```"


def made_pages():
    """Yields each file of which a part is made from others, and its text with that part."""
    yield DOCS / "ARCHITECTURE.md", sizes((DOCS / "ARCHITECTURE.md").read_text())
    using = (DOCS / "USING.md").read_text()
    yield DOCS / "USING.md", re.sub(r"```text\n(?:upstream.*\n)*(mine: .*)\n```", lambda it: listed_below(it[1]), using)
    yield CRATES / "warg_explorer/src/page.rt", PAGE.format((ROOT / "explorer/index.html").read_text())
    yield from ((CRATES / it / "CALLING.md", calling(CRATES / it)) for it in kit.crates() if (CRATES / it / "CALLING.md").exists())


def code_blocks(page):
    """Returns the Rust code in a page."""
    return re.findall(r"```rust\n(.*?)```", page.read_text(), re.S)


def code_faults():
    """Yields code that is shown and stands nowhere, pages that are too long, and a page that no text of a program can have."""
    readme, headline = ROOT / "README.md", DOCS / "HEADLINE.md"
    uses = "\n".join(path.read_text() for path in sorted((CRATES / "warg_uses/src").glob("*.rt")))
    shown = [(it, code_blocks(it), uses) for it in sorted(CRATES.glob("*/CALLING.md"))]
    shown += [(readme, [(CRATES / "example_first/src/main.rt").read_text()], "\n".join(code_blocks(readme)))]
    shown += [(headline, code_blocks(headline), (CRATES / "warg_claims/src/laws.rt").read_text())]
    for page, blocks, code in shown:
        yield from (f"{page}: shown otherwise than it stands: {it.splitlines()[0]}" for it in blocks if it not in code)
    for page, most in ((readme, 90), (headline, 40)):
        yield from [f"{page} has more than {most} lines"] * (page.read_text().count("\n") > most)
    if '"##' in (ROOT / "explorer/index.html").read_text():
        yield 'explorer/index.html: no text of a program can have "##'


def definition_faults():
    """Yields the definitions without a comment that a public clause may name."""
    for crate in kit.crates():
        rows = (it for it in definitions(crate) if not it[0].startswith("Private"))
        yield from (f"{crate}/specs/{module}: {name} has no comment" for module, name, comment in rows if not comment)


def link_faults():
    """Yields the links that lead nowhere, and the pages that are named without a link."""
    for page in sorted(it for it in ROOT.rglob("*.md") if "out" not in it.relative_to(ROOT).parts):
        name, text = str(page.relative_to(ROOT)), re.sub(r"```.*?```", "", page.read_text(), flags=re.S)
        for target in re.findall(r"\]\(([^)#\s]+)", text):
            if ":" not in target and not (page.parent / target).exists():
                yield f"{name}: the link {target} leads nowhere"
        for named in re.findall(r"(?<!\[)`((?:[\w.-]+/)*[\w.-]+\.md)`", text):
            if name != TAKEN_HOME and (ROOT / named).exists() and ROOT / named != page:
                yield f"{name}: {named} is no link"


def version_faults():
    """Yields the places that have another version than CHANGELOG.md."""
    version = kit.version()
    number = "".join(f"{int(it):02x}" for it in re.findall(r"\d+", version))
    places = {f"crates/{it}": version for it in PROGRAMS}
    places |= {"ffi/warg.h": f"0x{number}", "crates/warg_ffi/src/lib.rt": f"0x{number[:4]}_{number[4:]}"}
    for place, wanted in places.items():
        if not re.search(rf"\b{re.escape(wanted)}\b", (ROOT / place).read_text()):
            yield f"{place}: the version isn't that of CHANGELOG.md, {wanted}"


def header_faults():
    """Yields the numbers of ffi/warg.h that the definitions of the calls' contracts haven't, and the other way round."""
    text = (CRATES / "warg_ffi/specs/Numbers.antt").read_text()
    defined = {("ROOT_LENGTH", -int(re.search(r"else minus (\d+)", text)[1]))}
    row = r"^\w+_number \(?(?:Err )?(?:\w+\.)?(Ok true|Ok false|\w+)\)? = (pos|minus) (\d+)$"
    for case, sign, number in re.findall(row, text, re.M):
        name = re.sub(r"(?<=[a-z])(?=[A-Z])|(?<=[A-Z])(?=[A-Z][a-z])| ", "_", case).upper()
        defined.add((IN_HEADER.get(name, name), int(number) if sign == "pos" else -int(number)))
    header = {(name, int(number)) for name, number in re.findall(r"WARG_(\w+) = (-?\d+)", (ROOT / "ffi/warg.h").read_text())}
    for name, number in sorted(it for it in header ^ defined if it[0] not in OF_IMAGES):
        yield f"ffi/warg.h and warg_ffi's definitions differ: {name} = {number} stands in one alone"


def known_words():
    """Returns every name that a document may speak of: modules, crates, definitions, types, calls, fields, clause labels."""
    words = {path.stem for path in CRATES.rglob("*.rt")} | {path.name for path in CRATES.iterdir()}
    words |= {name for crate in kit.crates() for module, name, _ in definitions(crate) for name in (module, name)}
    named = r"\b(?:fn|struct|enum|trait|type|mod|const|macro_rules!|ghost|(?:ensures|requires)\*?) (\w+)|^\s+(?:pub )?(\w+)(?:,|\(|:| \{)"
    for path in CRATES.glob("*/src/**/*.rt"):
        words |= {it for found in re.findall(named, path.read_text(), re.M) for it in found}
    return words.union(*(re.findall(r"^\s+(?:pub )?(\w+) :", it.read_text(), re.M) for it in CRATES.glob("*/specs/**/*.antt")))


def labels():
    """Returns the labels of the clauses of the calls of each name, in every library."""
    found = {}
    for text in (it.read_text() for it in CRATES.glob("warg_*/src/**/*.rt")):
        for call in items.functions(text, ""):
            found.setdefault(call.name, set()).update(re.findall(r"\b(?:ensures|requires)\*? (\w+)", text[call.start : call.body]))
    return found


def proved_faults():
    """Yields the names in the pages on what is proved that nothing has, and the clauses that a table's call hasn't."""
    known, has = known_words() | OF_OTHERS, labels()
    for page in ("PROVED.md", "HEADLINE.md"):
        text = (DOCS / page).read_text()
        for name in sorted(set(re.findall(r"`(?:\w+::)*([A-Za-z]\w*)`", text)) - known):
            yield f"docs/{page}: nothing is called {name}"
        for calls, cited in re.findall(r"^\| (`[^|]*`[^|]*) \|[^|]*\| ([^|]*) \|$", text, re.M):
            own = set().union(*(has.get(call, ()) for call in re.findall(r"`(?:\w+::)*(\w+)`", calls)))
            yield from (f"docs/{page}: {calls} has no clause {it}" for it in re.findall(r"`(\w+)`", cited) if it not in own)


def main():
    if "--definitions" in sys.argv:
        sys.exit(print("".join(definitions_page()), end=""))
    if "--check" not in sys.argv:
        for page, made in made_pages():
            page.write_text(made)
        return
    stale = (page.relative_to(ROOT) for page, made in made_pages() if page.read_text() != made)
    faults = [f"{page}: not as its sources have it: run scripts/pages.py" for page in stale]
    for part in (code_faults, definition_faults, link_faults, version_faults, header_faults, proved_faults):
        faults += part()
    sys.exit("\n".join(faults) or 0)


if __name__ == "__main__":
    main()
