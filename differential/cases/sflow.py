"""sFlow version 5: samples and records of every form, sampled headers cut and strange, and lengths that are wrong."""

from ..model.columns import NAMES
from ..model.maps import PRE_TAG
from .common import (CAPTURE, CONFIGURATION, EXPORTERS, PRE_TAG_MAP, WORDS, Case, capture, configuration, event, long,
                     octets, short)
from .maps import map_text

EDGES = [0, 1, 2, 3, 4, 5, 255, 256, 4095, 4096, 65535, 65536, 2**30 - 1, 2**30, 2**30 + 5, 2**31, 3 * 2**30, 2**32 - 1]


class Maker:
    """Makes datagrams; something is wrong at each of many places with one chance."""

    def __init__(self, random, faults):
        self.random = random
        self.faults = faults

    def fails(self):
        """Whether something is to be wrong here."""
        return self.random.random() < self.faults

    def number(self):
        """A number of 32 bits."""
        return self.random.choice(EDGES + [self.random.getrandbits(32)])

    def ip_packet(self, family):
        """An IPv4 or IPv6 packet, with a fragment, words of options, or a version that is wrong at times."""
        random = self.random
        protocol = random.choice([6, 17, 132, 6, 17, 1, 58, 0, 44, 255])
        ports = short(random.choice([0, 80, 65535]), random.choice([0, 443])) + bytes(random.choice([0, 4]))
        length = random.choice([0, 20, 60, 1500, 65495, 65496, 65535])
        if family == 6:
            first = random.choice([6] * 20 + [4, 5]) << 28 | random.getrandbits(28)
            return long(first) + short(length) + bytes([protocol, 64]) + octets(random, 32) + ports
        words = random.choice(8 * [5] + [6, 15, 4, 0])
        fragment = random.choice([0, 0, 0, 0x4000, 0x2000, 1, 0x1FFF, 0x2100])
        version = random.choice([4] * 20 + [6, 5])
        head = bytes([version << 4 | words, random.getrandbits(8)]) + short(length, 7, fragment)
        addresses = long(random.choice([0, 0x0A000001, 2**32 - 1]), random.choice([0x0A000105, random.getrandbits(32)]))
        return head + bytes([64, protocol, 0, 0]) + addresses + octets(random, max(0, 4 * (words - 5))) + ports

    def sampled_header(self):
        """The record of a sampled header."""
        random = self.random
        family, protocol = random.choice([4, 6]), random.choice([1, 1, 1, 0])
        header = self.ip_packet(family)
        if protocol == 1:
            tags = b""
            for _ in range(random.choice([0, 0, 0, 1, 1, 2, 2, 3])):
                tags += short(random.choice(4 * [0x8100, 0x88A8] + [0x9100]), random.choice([0, 1, 4095, 4096, 0xFFFF]))
            ethertype = 0x0800 if family == 4 else 0x86DD
            if random.random() < 0.1:
                ethertype = random.choice([0x0800, 0x86DD, 0x0806, 0])
            header = octets(random, 12) + tags + short(ethertype) + header
        else:
            protocol = random.choice([11 if family == 4 else 12] * 6 + [11, 12, 2, 0])
        if random.random() < 0.2:
            header = header[:random.randrange(len(header) + 1)]
        length = len(header) + (random.choice([-1, 1, 4, -4]) if self.fails() else 0)
        return long(protocol, self.number(), 0, length) + header + bytes(random.choice([0, 0, 0, 5]))

    def record(self):
        """A record of a sample."""
        random = self.random
        form = random.choice([1, 1, 1, 1, 1, 3, 4, 1001, 1002, 4097])
        address_type = random.choice([3, 4, 256]) if self.fails() else random.choice([0, 1, 2])
        made = {
            3: lambda: long(*[self.number() for _ in range(8)]),
            4: lambda: long(self.number(), 6) + octets(random, 32) + long(*[self.number() for _ in range(4)]),
            1001: lambda: long(*[self.number() for _ in range(4)]),
            1002: lambda: long(address_type) + octets(random, {1: 4, 2: 16}.get(address_type, 0))
            + long(*[random.choice([0, 8, 24, 32, 33, 64, 128, 129]) for _ in range(2)]),
            1: self.sampled_header}.get(form, lambda: octets(random, random.randrange(9)))()
        return self.block(form, made)

    def block(self, form, made):
        """A sample or record with its length, cut or longer at times, and its padding."""
        random = self.random
        if self.fails():
            made = made[:random.randrange(len(made) + 1)] + bytes(random.choice([0, 0, 4]))
        length = len(made)
        if self.fails():
            length = max(0, length + random.choice([-4, -1, 1, 3, 4, 2**32 - 1 - length]))
        return long(form, length) + made + bytes(-len(made) % 4)

    def sample(self):
        """A flow sample, expanded or not, or a sample of another form."""
        random = self.random
        form = random.choice([1, 1, 1, 1, 3, 3, 3, 2, 4, 4097])
        count = random.choice([0, 1, 1, 2, 2, 3])
        records = b"".join(self.record() for _ in range(count))
        count = max(0, count + (random.choice([-1, 1]) if self.fails() else 0))
        if form == 1:
            return self.block(1, long(1, 2, self.number(), 0, 0, self.number(), self.number(), count) + records)
        if form == 3:
            formats = [random.choice([0, 0, 0, 1, 2, 2**30]) for _ in range(2)]
            numbers = long(1, 0, 2, self.number(), 0, 0, formats[0], self.number(), formats[1], self.number(), count)
            return self.block(3, numbers + records)
        return self.block(form, octets(random, random.randrange(20)))

    def datagram(self):
        """A datagram of some samples."""
        random = self.random
        count = random.choice([0, 1, 1, 2, 3, 5])
        samples = b"".join(self.sample() for _ in range(count))
        count += random.choice([-1, 1]) if count and self.fails() else 0
        address_type = random.choice([1, 2])
        address = octets(random, 4 if address_type == 1 else 16)
        version, address_type = (random.choice([4, 6, 0x50001]), 1) if self.fails() else (5, address_type)
        head = long(version, 3 if self.fails() else address_type) + address + long(random.choice([0, 1, 7]), 1, 2,
                count)
        whole = head + samples
        whole = whole[:random.randrange(len(whole) + 1)] if self.fails() else whole
        if self.fails() and len(whole) > 4:
            place = random.randrange(len(whole) // 4) * 4
            whole = whole[:place] + long(self.number()) + whole[place + 4:]
        return whole + bytes(random.choice([0, 0, 0, 3]))


def make(random):
    """A case of sfacctd over all columns."""
    maker = Maker(random, random.choice([0, 0.01, 0.05]))
    events = [event(random.choice([0, 60000]), random.choice(EXPORTERS), maker.datagram())
              for _ in range(random.choice([1, 3, 8, 20]))]
    columns = NAMES if random.random() < 0.7 else random.sample(NAMES, random.choice([1, 2, 5]))
    entries = {CONFIGURATION: configuration("sfacctd", random, columns, "pre_tag_map: " + PRE_TAG_MAP),
               CAPTURE: capture(events), PRE_TAG_MAP: map_text(random, PRE_TAG, 0)}
    return Case("sfacctd", WORDS, entries)
