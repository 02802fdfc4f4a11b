#!/usr/bin/env python3
"""Shows that the programs end as they should for their users, also where an append of warg_tlog is disturbed, or the power is cut:
that each run in scripts/programs/*.txt prints and ends as it says there.

A part of a file begins with `## TITLE`, in a new folder. Its runs are lines `$ COMMAND` for bash, and below each what it prints: lines
of its output; lines of its errors, behind `! `; and its status in brackets, if that isn't 0. `...` stands for any part of a line. Where
a part has a table, it is run for each row, with the row's words in the places of {NAME}, and for each of a word's choices A / B / C.
A part that needs strace, or leave to mount or to be another user, is left out where it can't be had.

Usage: check_programs.py WARG_CHECK WARG_VERDICT WARG_TLOG NAME.., with the built programs, and the names of files of runs.
"""

import itertools
import os
import pathlib
import re
import shutil
import subprocess
import sys
import tempfile

import kit
import trees

FOLDER = kit.ROOT / "scripts/programs"
# Whether what a part needs, as its title says, can be had here.
TRACED = "strace -qq -o trace -e trace=mkdir -e inject=mkdir:error=EIO mkdir none; [ $? = 1 ]"
MOUNTED = "mkdir m && truncate -s 9m i && mkfs.ext4 -q i && mount -o loop i m && umount m && mount -t tmpfs tmpfs m && umount m"
NEEDS = {"(as root)": "[ $(id -u) = 0 ]", "(by protoc)": "command -v protoc", "(by strace)": TRACED, "(by mount)": MOUNTED}
# What each part begins with.
GIVEN = """for i in {0..599}; do printf '%04x\\n' $i; done > entries; unhex $BUNDLE > proof.bundle
warg_tlog init log example.com/log; warg_tlog append log < entries; cp -r log whole"""


def digests():
    """Returns what the commands name of logs and maps, in digits, by Python's hashlib."""
    entries = {"A": b"left-pad 1.0.0", "B": b"left-pad 1.1.0", "ONE": b"one", "TWO": b"two"}
    leaves = {f"{name}_LEAF": trees.sha256(b"\0", it) for name, it in entries.items()}
    found = {**entries, **leaves, "BOTH": trees.root([leaves["A_LEAF"], leaves["B_LEAF"]]), "NO_KEY": trees.EMPTY[256], "ZEROS": bytes(32)}
    found |= {f"K_{it.upper()}": trees.sparse({trees.sha256(b"k"): trees.sha256(b"\0", it.encode())}, 0) for it in "vw"}
    found["PRESENT"] = bytes.fromhex("0a240a220a20") + trees.EMPTY[255]
    found["BUNDLE"] = (kit.ROOT / "crates/warg_verdict/data/proof.bundle").read_bytes()
    named = {name: it.hex() for name, it in found.items()}
    return named | {"UPDATE": f"--key text:k --old-root {named['K_V']} --new-root {named['K_W']} --old-value text:v"}


def rows(lines):
    """Returns what stands for each name of a part's table, row by row and choice by choice."""
    names, *others = [[it.strip() for it in line[1:-1].split("|")] for line in lines] or [[], []]
    choices = (itertools.product(*(re.split("(?:^| )/ ", cell) for cell in row)) for row in others)
    return [dict(zip(names, row)) for it in choices for row in it]


def parts(name, named):
    """Yields the title of each part of a file, with a row's words in their places, and its commands with what they print."""
    for part in re.split("^## ", (FOLDER / f"{name}.txt").read_text(), flags=re.M)[1:]:
        title, *lines = part.splitlines()
        for row in rows([it for it in lines if it.startswith("|")]):
            text = "\n".join(it for it in lines if not it.startswith("|"))
            text = re.sub(r"\{([A-Z]+)\}", lambda it: row.get(it[1], it[0]), text)
            runs = [it.partition("\n") for it in re.split(r"^\$ ", text, flags=re.M)[1:]]
            yield title, [(command, re.sub(r"\$([A-Z_]+)", lambda it: named[it[1]], wanted)) for command, _, wanted in runs]


def is_as(wanted, status, out, err):
    """Whether a run printed and ended as it says."""
    lines = [it for it in wanted.splitlines() if it]
    statuses = lines.pop()[1:-1].split() if lines and re.fullmatch(r"\[[\d ]+\]", lines[-1]) else ["0"]
    said = (out + re.sub("^", "! ", err.rstrip("\n"), flags=re.M) * bool(err)).rstrip("\n")
    pattern = "\n".join(re.escape(it).replace(re.escape("..."), ".*") for it in lines)
    return str(status) in statuses and bool(re.fullmatch(pattern, said))


def of_runs(name, room, settings):
    """Yields each run of a file, and whether it came out."""
    def bash(command, folder):
        words = ["bash", "-c", f'. "$TREE/scripts/programs/calls.sh"\n{command}']
        done = subprocess.run(words, input=b"", capture_output=True, timeout=1200, cwd=folder, env=settings)
        return done.returncode, done.stdout.decode(errors="replace"), done.stderr.decode(errors="replace")

    for title, runs in parts(name, settings):
        folder = pathlib.Path(tempfile.mkdtemp(dir=room))
        folder.chmod(0o755)
        if any(it in title and bash(needed, folder)[0] for it, needed in NEEDS.items()):
            print(f"not tried: {title}")
            continue
        shutil.rmtree(folder)
        shutil.copytree(room / "given", folder)
        for command, wanted in runs:
            status, out, err = bash(command, folder)
            print(*(it for it in out.splitlines(True) if it.startswith("seen: ")), sep="", end="", flush=True)
            yield f"{name}, {title}: {command}: {out}{err}[{status}]", is_as(wanted, status, out, err)
        shutil.rmtree(folder, ignore_errors=True)


def prepared(room, files):
    """Puts the programs and what each part begins with into a folder. Returns the settings of the commands."""
    for name in ("bin", "given"):
        (room / name).mkdir()
    for name, file in zip(("warg_check", "warg_verdict", "warg_tlog"), files):
        shutil.copyfile(file, room / "bin" / name)
        (room / "bin" / name).chmod(0o755)
    settings = {"PATH": f"{room}/bin:{os.environ['PATH']}", "TREE": str(kit.ROOT), "AS": "", "VERSION": kit.version(), **digests()}
    settings["NOBODY"] = "" if os.geteuid() else "setpriv --reuid 65534 --regid 65534 --clear-groups"
    words = ["bash", "-ec", f'. "$TREE/scripts/programs/calls.sh"\n{GIVEN}']
    subprocess.run(words, cwd=room / "given", env=settings, check=True, stdout=subprocess.DEVNULL)
    return settings


def main():
    files, names = sys.argv[1:4], sys.argv[4:]
    with tempfile.TemporaryDirectory() as room:
        # (another user runs them, too)
        os.chmod(room, 0o755)
        settings = prepared(pathlib.Path(room), files)
        tried = [it for name in names for it in of_runs(name, pathlib.Path(room), settings)]
    failed = [name for name, came in tried if not came]
    print(*(f"not as it should be: {it}\n" for it in failed), sep="", end="")
    print(f"{len(tried) - len(failed)} of {len(tried)} runs of the programs end as they should")
    sys.exit(bool(failed))


if __name__ == "__main__":
    main()
