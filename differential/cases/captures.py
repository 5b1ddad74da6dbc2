"""Captures with faults: other kinds, lengths and magic, cuts, and datagrams that no version takes."""

from .common import (CAPTURE, CONFIGURATION, EXPORTERS, WORDS, Case, capture, configuration, event, octets, short,
                     version_5)


def datagram(random):
    """A datagram of version 5, whole or not, or of another version."""
    whole = version_5(random)
    return random.choice([
        whole, whole, whole, whole + octets(random, random.randrange(60)), whole[:random.randrange(len(whole))],
        version_5(random, count=random.choice([0, 1, 2, 3, 30, 31, 256, 65535])), bytes(random.choice([0, 1, 65535])),
        short(random.choice([0, 4, 6, 7, 8, 11, 256])) + bytes(random.randrange(30)),
        short(random.choice([5, 9, 10]), 0) + bytes(random.choice([11, 12, 15, 16, 19, 20]))])


def make(random):
    """A case whose capture is whole, cut, or has a wrong octet."""
    faulty = random.random() < 0.5
    events = []
    for _ in range(random.choice([0, 1, 2, 3, 6, 10])):
        stamp = random.choice([random.randrange(200000), random.getrandbits(64), 60000, 59999, 2**64 - 1])
        kind = random.choice([None] * 30 + [0, 5, 7, 0x14, 0x74, 0x66]) if faulty else None
        length = random.choice([None] * 12 + [0, 71, 73, 65535, 65536, 2**32 - 1]) if faulty else None
        events.append(event(stamp, random.choice(EXPORTERS), datagram(random), kind, length))
    whole = capture(events)
    place = random.randrange(len(whole))
    if faulty:
        whole = random.choice([
            whole, whole[:place], whole[:place] + octets(random, 1) + whole[place + random.randrange(2):],
            whole[:place], whole[:place], whole[:place % 9], whole + octets(random, random.randrange(1, 30))])
    columns = ["src_host", "proto", "acct_window", "peer_src_ip", "src_net", "flows"]
    return Case("nfacctd", WORDS, {CONFIGURATION: configuration("nfacctd", random, columns), CAPTURE: whole,
                                   "p.csv": b"old\n", "q.json": b"old"})
