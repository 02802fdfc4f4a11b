#!/usr/bin/env python3
"""Shows that the named crates are proved, with those that they stand on: lowest first, as many at a time as the machine has room for.

It keeps nothing of a proof, builds programs by LLVM, and builds a library with its statements, which the crates above read faster
than its proofs. What is unchanged since such a run, with all below it, isn't proved again. With --over-gate it proves the named
crates alone, over the libraries that rt ci has left. What the prover notes of a crate that came out is shown with --notes alone.

Usage: prove_all.py [--cpu CPU] [--notes] [--over-gate] NAME..
"""

import argparse
import concurrent.futures
import os
import pathlib
import re
import threading

import kit

# A proof that rests on nothing but the logic and what this run has proved: no handle, no C function of ours, no bug.
VERDICT = re.compile(
    r"logic=proved functions=\d+( axioms=\d+ target=\S+ cpu=\S+)? sum=\w+ native=nat,char,string logic-built=trusted"
    r" libraries-built=trusted statements=trusted")
# The bytes that a proof takes at most.
ROOM = 1 << 32
TOOLCHAIN = ["--toolchain", f"{kit.KIT}/toolchain"]


class Crate:
    """A crate that is proved and built over the libraries in a folder of their crates."""

    def __init__(self, name, libraries, cpu):
        self.name, self.folder, self.libraries = name, kit.ROOT / "crates" / name, libraries
        self.seconds, self.said = 0.0, []
        self.is_program, self.is_static = kit.is_program(name), kit.is_static(name)
        # A library that other crates stand on is the same for each processor.
        self.cpu = ["--cpu", cpu] if cpu and (self.is_program or self.is_static) else []
        self.product = f"out/proved/{name if self.is_program else f'lib{name}.a' if self.is_static else f'{name}.rlib'}"
        # Where a run writes what it has proved, and that.
        self.stamp, self.told = self.folder / "out/proved/sum", " ".join([kit.sum_of(name), *self.cpu])

    def is_proved(self):
        """Whether a run has proved the crate as it is, and left what it built."""
        return self.stamp.is_file() and self.stamp.read_text() == self.told and (self.folder / self.product).exists()

    def done(self, words):
        """Runs a command in the crate's folder, which has to come out. Returns what it prints."""
        status, said, seconds = kit.call(words, self.folder)
        self.seconds += seconds
        self.said.append(said)
        if status:
            raise RuntimeError(f"status {status} of {pathlib.Path(words[0]).name} {words[1]}")
        return said

    def build(self, *more):
        """Proves the crate and builds it. The verdict has to rest on no more than it may."""
        words = [kit.RATTLE, "build", *kit.words(self.name, self.libraries), "--jobs", "1", "--links", f"{self.name}="]
        said = self.done([*words, "--empty-contracts", *self.cpu, *more])
        if kit.EMPTY.search(said):
            raise RuntimeError("a contract that no call can meet")
        verdicts = re.findall("^logic=.*", said, re.M)
        if len(verdicts) != 1 or not VERDICT.fullmatch(verdicts[0]):
            raise RuntimeError(f"a verdict that may rest on more: {verdicts}")

    def prove(self):
        """Proves the crate, and builds what it has."""
        (self.folder / "out/proved").mkdir(parents=True, exist_ok=True)
        self.stamp.unlink(missing_ok=True)
        if self.is_program:
            self.build("--backend", "llvm", *TOOLCHAIN, "-o", f"{self.product}.o")
            words = ["--target", "x86_64-unknown-linux-gnu", *TOOLCHAIN, "-o", self.product, f"{self.product}.o"]
            self.done([kit.KIT / "bin/rattle-link", *words, kit.KIT / "c/libos_c.a", kit.KIT / "c/liblibc_c.a"])
        else:
            self.build(*(TOOLCHAIN if self.is_static else ["--statements"]), "-o", self.product)
        self.stamp.write_text(self.told)


def prove_all(crates, jobs, notes):
    """Proves the crates, each after those that it stands on. Returns whether all came out."""
    room, printing, runs, ended = threading.Semaphore(jobs), threading.Lock(), {}, []

    def prove(crate):
        lacks = [it for it in kit.below(crate.name, kit.crates()) if it in runs and not runs[it].result()]
        why = f"not tried, as {lacks[0]} did not come out" if lacks else ""
        with room:
            try:
                if not lacks:
                    crate.prove()
            except RuntimeError as failed:
                why = str(failed)
        with printing:
            ended.append(crate)
            print(f"{len(ended)} of {len(crates)}, {crate.name}, {why or f'{crate.seconds / 60:.1f} min'}", flush=True)
            print("".join(crate.said if notes else crate.said[-1:] if why else []), end="", flush=True)
        return not why

    with concurrent.futures.ThreadPoolExecutor(max(1, len(crates))) as pool:
        for crate in crates:
            runs[crate.name] = pool.submit(prove, crate)
    return all(it.result() for it in runs.values())


def main():
    asked = argparse.ArgumentParser()
    asked.add_argument("--cpu", help="the processor that programs are built for")
    asked.add_argument("--notes", action="store_true", help="show what the prover notes")
    asked.add_argument("--over-gate", action="store_true", help="take the libraries that rt ci has left")
    asked.add_argument("names", nargs="+", metavar="NAME", help="a crate")
    asked = asked.parse_args()
    listed = kit.crates()
    wanted = {below for it in asked.names for below in [*([] if asked.over_gate else kit.below(it, listed)), it]}
    every = [Crate(it, "out/rlib" if asked.over_gate else "out/proved", asked.cpu) for it in listed if it in wanted]
    crates = [it for it in every if not it.is_proved()]
    memory = os.sysconf("SC_PHYS_PAGES") * os.sysconf("SC_PAGE_SIZE")
    jobs = max(1, min(len(os.sched_getaffinity(0)), memory // ROOM))
    what = f"{len(crates)} of {len(every)} crates are to be proved, {jobs} at a time" if crates else f"all {len(every)} crates are proved"
    print(f"{', '.join(asked.names)}: {what}", flush=True)
    raise SystemExit(not prove_all(crates, jobs, asked.notes))


if __name__ == "__main__":
    main()
