#!/usr/bin/env python3
"""Runs the built programs on stored cases, each in an empty folder, and compares all that they leave: see cases/README.md."""

import argparse
import pathlib
import subprocess
import sys
import tempfile

REPOSITORY = pathlib.Path(__file__).resolve().parent.parent
# How long a run may take.
SECONDS = 60
# So much of what differs is shown.
SHOWN = 300


def octets_of(path):
    """The octets that a file of a case stands for."""
    if path.suffix != ".hex":
        return path.read_bytes()
    lines = path.read_text(encoding="utf-8").splitlines()
    return bytes.fromhex("".join(line.partition("#")[0] for line in lines))


def files_of(folder):
    """The files that a folder of a case stands for, by their names."""
    paths = sorted(folder.iterdir()) if folder.is_dir() else []
    return {path.stem if path.suffix == ".hex" else path.name: octets_of(path) for path in paths}


def differences(case, programs):
    """Runs a case: what differs from what is stored, in words."""
    tool, *words = (case / "command").read_text(encoding="utf-8").split()
    status, _, line = (case / "answer").read_bytes().partition(b"\n")
    before = files_of(case / "before")
    with tempfile.TemporaryDirectory(prefix="case-") as name:
        folder = pathlib.Path(name)
        for file, octets in before.items():
            (folder / file).write_bytes(octets)
        try:
            done = subprocess.run([str(programs[tool])] + words, cwd=folder, stdin=subprocess.DEVNULL,
                                  capture_output=True, timeout=SECONDS, check=False)
        except subprocess.TimeoutExpired:
            return ["no answer within %d seconds" % SECONDS]
        found = {path.name: path.read_bytes() for path in folder.iterdir()}
    wanted = dict(before, **files_of(case / "after"))
    pairs = [("status", int(status), done.returncode), ("standard output", line, done.stdout),
             ("standard error", b"", done.stderr)]
    pairs += [(file, wanted.get(file), found.get(file)) for file in sorted(set(wanted) | set(found))]
    return ["%s: wanted %.*r, found %.*r" % (what, SHOWN, stored, SHOWN, told)
            for what, stored, told in pairs if stored != told]


def main():
    """Runs the cases of the folders that are named, and answers 1 where one failed."""
    parser = argparse.ArgumentParser(description=__doc__)
    parser.add_argument("folders", nargs="+", type=pathlib.Path, help="folders of cases")
    parser.add_argument("--programs", type=pathlib.Path, help="folder with nfacctd and sfacctd, in place of the repository's")
    words = parser.parse_args()
    programs = {tool: (words.programs / tool if words.programs else REPOSITORY / "crates" / tool / "out" / tool).resolve()
                for tool in ("nfacctd", "sfacctd")}
    for program in programs.values():
        if not program.is_file():
            parser.error("%s isn't built" % program)
    cases = [path.parent for folder in words.folders for path in sorted(folder.glob("*/command"))]
    failed = 0
    for case in cases:
        told = differences(case, programs)
        failed += bool(told)
        for difference in told:
            print("%s: %s" % (case, difference))
    print("%d passed, %d failed" % (len(cases) - failed, failed))
    return 1 if failed or not cases else 0


if __name__ == "__main__":
    sys.exit(main())
