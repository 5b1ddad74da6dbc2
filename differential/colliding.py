#!/usr/bin/env python3
"""Measures what sources cost that a stranger chose so that a hash without secret keys gives them one place, beside others."""

import argparse
import pathlib
import resource
import subprocess
import sys
import tempfile

REPOSITORY = pathlib.Path(__file__).resolve().parent.parent
# No compiled files are to be left in the repository.
sys.dont_write_bytecode = True
sys.path.insert(0, str(REPOSITORY))

from differential.cases.common import capture, event, long, short

EXPORTER = (4, 0xC0000201)
# Template 256: a source of IPv6, packets and octets in 8 octets each.
TEMPLATE = short(2, 20, 256, 3, 27, 16, 2, 8, 1, 8)
# With these in its last 8 octets a key has the hash 0 where each 16 octets are multiplied and folded without secret keys.
CHOSEN = 0x157C4A7FB979379E
# So many records are in a datagram.
TOGETHER = 40
CONFIGURATION = """plugins: memory[p]
aggregate: src_host
print_output: csv
acct_memory_file: p.csv
acct_flow_capture: flows.cap
"""


def source(place, chosen):
    """The address of a source: all of one kind end in the same 64 bits, or in different ones."""
    mixed = place * 0x9E3779B97F4A7C15 % 2**64
    return (mixed << 64 | (CHOSEN if chosen else mixed >> 7)).to_bytes(16, "big")


def datagram(places, chosen):
    """The template, and a record of each source."""
    records = b"".join(source(place, chosen) + long(0, 1, 0, 100) for place in places)
    data = short(256, 4 + len(records)) + records
    return short(10, 16 + len(TEMPLATE) + len(data)) + bytes(8) + long(1) + TEMPLATE + data


def flows(keys, rounds, chosen):
    """A capture that has each key so often."""
    datagrams = [datagram(range(start, min(start + TOGETHER, keys)), chosen) for start in range(0, keys, TOGETHER)]
    return capture(event(1000, EXPORTER, octets) for octets in datagrams * rounds)


def seconds_of(program, octets):
    """The processor seconds of a run over a capture."""
    with tempfile.TemporaryDirectory(prefix="colliding-") as folder:
        (pathlib.Path(folder) / "flows.cap").write_bytes(octets)
        (pathlib.Path(folder) / "c.conf").write_text(CONFIGURATION, encoding="ascii")
        before = resource.getrusage(resource.RUSAGE_CHILDREN)
        subprocess.run([str(program), "-f", "c.conf"], cwd=folder, check=True, stdout=subprocess.DEVNULL)
        after = resource.getrusage(resource.RUSAGE_CHILDREN)
    return after.ru_utime + after.ru_stime - before.ru_utime - before.ru_stime


def main():
    """Runs both captures in turn, and answers 1 where the chosen sources cost more than they may."""
    parser = argparse.ArgumentParser(description=__doc__)
    parser.add_argument("--keys", type=int, default=16000, help="different sources")
    parser.add_argument("--rounds", type=int, default=10, help="records of each source")
    parser.add_argument("--most", type=float, default=2, help="how often the cost of others they may cost")
    parser.add_argument("--program", type=pathlib.Path, default=REPOSITORY / "crates/nfacctd/out/nfacctd")
    words = parser.parse_args()
    captures = {chosen: flows(words.keys, words.rounds, chosen) for chosen in (False, True)}
    best = {False: float("inf"), True: float("inf")}
    for _ in range(3):
        for chosen, octets in captures.items():
            best[chosen] = min(best[chosen], seconds_of(words.program.resolve(), octets))
    ratio = best[True] / best[False]
    for name, chosen in (("others", False), ("chosen", True)):
        print("%s: %.3f s, %.2f us a record" % (name, best[chosen], best[chosen] / words.keys / words.rounds * 1e6))
    print("ratio: %.2f" % ratio)
    return 1 if ratio > words.most else 0


if __name__ == "__main__":
    sys.exit(main())
