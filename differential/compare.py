#!/usr/bin/env python3
"""Compares the built programs with the model over cases that are made from a seed: see differential/README.md."""

import argparse
import os
import pathlib
import random
import shutil
import subprocess
import sys
import tempfile

REPOSITORY = pathlib.Path(__file__).resolve().parent.parent
# No compiled files are to be left in the repository.
sys.dont_write_bytecode = True
sys.path.insert(0, str(REPOSITORY))

from differential.cases import captures, configurations, maps, sets, sflow, windows
from differential.model.places import FOLDER, FULL
from differential.model.run import run

THEMES = {
    "configurations": configurations.make, "words": configurations.make_words, "maps": maps.make,
    "captures": captures.make, "windows": windows.make, "sets": sets.make_sets, "rates": sets.make_rates,
    "sflow": sflow.make}
# How long a run may take.
SECONDS = 60


def lay_out(folder, entries):
    """Makes the entries of a case in a folder."""
    for name, entry in entries.items():
        path = folder / os.fsdecode(name.encode("latin-1"))
        if entry == FOLDER:
            path.mkdir()
        elif entry == FULL:
            path.symlink_to("/dev/full")
        else:
            path.write_bytes(entry)


def gather(folder):
    """The entries of a folder, as the model has them."""
    entries = {}
    for path in folder.rglob("*"):
        name = os.fsencode(path.relative_to(folder)).decode("latin-1")
        entries[name] = FULL if path.is_symlink() else FOLDER if path.is_dir() else path.read_bytes()
    return entries


def differences(case, program, folder):
    """Runs a case in an empty folder: what differs from the model, in words."""
    status, line, entries = run(case.tool, case.words, case.entries)
    lay_out(folder, case.entries)
    words = [str(program)] + [word.encode("latin-1") for word in case.words]
    try:
        done = subprocess.run(words, cwd=folder, stdin=subprocess.DEVNULL, capture_output=True, timeout=SECONDS,
                              check=False)
    except subprocess.TimeoutExpired:
        return ["no answer within %d seconds" % SECONDS]
    found = gather(folder)
    told = []
    for what, expected, actual in (
            ("status", status, done.returncode), ("line", line.encode("latin-1"), done.stdout),
            ("standard error", b"", done.stderr), ("files", sorted(entries), sorted(found))):
        if expected != actual:
            told.append("%s: the model has %r, the program %r" % (what, expected, actual))
    told += ["the octets of " + name for name in sorted(entries) if name in found and entries[name] != found[name]]
    return told


def compare_one(theme, seed, programs):
    """Makes and runs the case of a theme and a seed. Where it differs its folder is kept, and told."""
    case = THEMES[theme](random.Random("%s %d" % (theme, seed)))
    folder = pathlib.Path(tempfile.mkdtemp(prefix="differential-"))
    told = differences(case, programs[case.tool], folder)
    if not told:
        shutil.rmtree(folder)
        return False
    print("theme %s, seed %d: %s %s in %s" % (theme, seed, case.tool, " ".join(map(repr, case.words)), folder))
    for difference in told:
        print("  " + difference)
    return True


def main():
    """Reads the words, runs the cases, and answers 1 where one differs."""
    parser = argparse.ArgumentParser(description=__doc__)
    parser.add_argument("--cases", type=int, default=500, help="cases of each theme")
    parser.add_argument("--seed", type=int, default=1, help="seed of the first case; the next ones follow")
    parser.add_argument("--theme", choices=THEMES, help="this theme alone")
    parser.add_argument("--repo", type=pathlib.Path, default=REPOSITORY, help="repository with the built programs")
    parser.add_argument("--programs", type=pathlib.Path,
                        help="folder with nfacctd and sfacctd, in place of the repository's")
    words = parser.parse_args()
    programs = {tool: (words.programs / tool if words.programs
                       else words.repo / "crates" / tool / "out" / tool).resolve()
                for tool in ("nfacctd", "sfacctd")}
    for program in programs.values():
        if not program.is_file():
            parser.error("%s isn't built" % program)
    themes = [words.theme] if words.theme else list(THEMES)
    seeds = range(words.seed, words.seed + words.cases)
    count = sum(compare_one(theme, seed, programs) for theme in themes for seed in seeds)
    print("%d cases, %d differences" % (len(themes) * len(seeds), count))
    return 1 if count else 0


if __name__ == "__main__":
    sys.exit(main())
