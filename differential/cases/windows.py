"""Windows and caches: up to eight plugins over moments about the ends of windows, forwards, backwards and far."""

from ..model.columns import NAMES
from .common import CAPTURE, CONFIGURATION, EXPORTERS, WORDS, Case, capture, event, short, text, version_5

BASES = [0, 0, 10**6, 1765000000000, 2**63, 2**64 - 200001]
EDGES = [999, 1000, 1999, 2000, 59999, 60000, 60001, 119999, 120000, 3599999, 3600000, 86399999, 86400000]


def make(random):
    """A case of several plugins."""
    lines, names = ["print_output_file_append: true", "acct_flow_capture: " + CAPTURE], []
    for number in range(random.choice([1, 2, 3, 8])):
        kind, name = random.choice(["print", "print", "memory"]), "n%d" % number
        names.append("%s[%s]" % (kind, name))
        lines.append("%s[%s]: o%d" % ("print_output_file" if kind == "print" else "acct_memory_file", name, number))
        lines.append("print_output[%s]: %s" % (name, random.choice(["csv", "json", "formatted"])))
        if random.random() < 0.85:
            some = random.sample(NAMES, random.choice([1, 1, 2, 3, len(NAMES)]))
            columns = random.choice(["acct_window, flows", "proto", ", ".join(some)])
            lines.append("aggregate[%s]: %s" % (name, columns))
        if random.random() < 0.8:
            lines.append("print_refresh_time[%s]: %d" % (name, random.choice([1, 2, 3, 10, 60, 3600, 86400])))
        if random.random() < 0.8:
            lines.append("acct_cache_entries[%s]: %d" % (name, random.choice([1, 2, 3, 4, 5, 8, 16])))
    lines.append("plugins: " + ", ".join(names))
    for key, values in (("print_refresh_time", [1, 7, 30]), ("acct_cache_entries", [1, 2, 6])):
        if random.random() < 0.3:
            lines.append("%s: %d" % (key, random.choice(values)))
    if random.random() < 0.3:
        lines.append("nfacctd_renormalize: true")
    random.shuffle(lines)
    entries = {CONFIGURATION: text(lines), CAPTURE: capture(events(random)), "o0": b"old\n", "o1": b"older\n"}
    return Case("nfacctd", WORDS, entries)


def events(random):
    """Events whose stamps go one of several ways."""
    way, base, offset = random.randrange(4), random.choice(BASES), 0
    for _ in range(random.choice([1, 2, 5, 20, 60])):
        steps = [random.randrange(200000), offset + random.choice([0, 0, 1, 999, 1000, 1001, 59999, 60000]),
                 random.choice(EDGES), max(0, offset + random.randrange(-3000, 4000))]
        offset = steps[way]
        datagram = short(5) if random.random() < 0.08 else version_5(random)
        yield event(min(base + offset, 2**64 - 1), random.choice(EXPORTERS), datagram)
