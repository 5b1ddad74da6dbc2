"""What themes share: cases, captures and datagrams of version 5."""

import struct
from typing import Dict, List, NamedTuple

EXPORTERS = [(4, 0xC0000201), (4, 0xC0000202), (4, 0), (6, 0xC0000201), (6, 0xFFFF << 32 | 0xC0000201),
             (6, 0x20010DB8 << 96 | 9)]
# Where no other name is asked for, all themes use these.
CONFIGURATION, CAPTURE, PRE_TAG_MAP, SAMPLING_MAP = "c.conf", "flows.cap", "pre.map", "sampling.map"
WORDS = ["-f", CONFIGURATION]


class Case(NamedTuple):
    """One run: the tool, its words, and the entries of its folder as the model has them."""

    tool: str
    words: List[str]
    entries: Dict[str, object]


def short(*values):
    """Numbers of 16 bits."""
    return b"".join(struct.pack(">H", value % 2**16) for value in values)


def long(*values):
    """Numbers of 32 bits."""
    return b"".join(struct.pack(">I", value % 2**32) for value in values)


def event(stamp, exporter, octets, kind=None, length=None):
    """One event of a capture, perhaps with another kind or length than its own."""
    family, value = exporter
    address = value.to_bytes(4 if family == 4 else 16, "big")
    head = bytes([family if kind is None else kind]) + struct.pack(">Q", stamp) + address
    return head + short(9000) + long(len(octets) if length is None else length) + octets


def capture(events):
    """A capture of events."""
    return b"PMACAP01" + b"".join(events)


def text(lines):
    """The octets of lines."""
    return "".join(line + "\n" for line in lines).encode("latin-1")


def octets(random, count):
    """Any octets."""
    return bytes(random.getrandbits(8) for _ in range(count))


def version_5_record(random):
    """A record of version 5: mostly few values, so that keys meet; sometimes any."""
    if random.random() < 0.2:
        return octets(random, 48)
    few = random.choice
    addresses = long(few([0, 0x0A000001, 0x0A000002, 2**32 - 1]), few([0x0A000001, 0x0A000105]), 0)
    interfaces = short(few([0, 1, 2, 65535]), few([0, 1, 2]))
    counts = long(few([0, 1, 10, 2**32 - 1]), few([0, 40, 840, 2**32 - 1]))
    ports = bytes(8) + short(few([80, 1024]), few([53, 80]))
    protocol = bytes([0, 0, few([1, 6, 17]), few([0, 4])])
    systems = short(few([0, 1, 64512]), few([0, 1, 65535]))
    masks = bytes([few([0, 8, 31, 32, 33]), few([0, 24, 255]), 0, 0])
    return addresses + interfaces + counts + ports + protocol + systems + masks


def version_5(random, records=None, count=None):
    """A datagram of version 5, perhaps with another count than its own."""
    records = records or random.choice([1, 1, 1, 2, 3, 7, 30])
    sampling = random.choice([0, 0, 0x4000, 0x4064, 0x3FFF, 0xC005, 7])
    engine = bytes([random.choice([0, 1]), random.choice([0, 1, 255])])
    head = short(5, records if count is None else count) + bytes(16) + engine + short(sampling)
    return head + b"".join(version_5_record(random) for _ in range(records))


def configuration(tool, random, aggregate, *more):
    """A configuration of one csv and one json plugin over the same columns, and further lines."""
    lines = ["plugins: print[p], memory[q]", "print_output[p]: csv", "print_output[q]: json",
             "aggregate: " + ", ".join(aggregate), "print_output_file: p.csv", "acct_memory_file: q.json",
             "print_output_file_append: true", "acct_flow_capture: " + CAPTURE]
    if random.random() < 0.8:
        lines.append(tool + "_renormalize: true")
    return text(lines + list(more))
